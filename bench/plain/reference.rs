//! Worked figures of the reference beam: 300 × 500, f 210, span 5,000, dead and live load.

use crate::articles::check;
use crate::cage::{Bars, Cage, Ties};
use crate::card::{Beam, read};
use crate::search::{Decision, Way, design};
use crate::stock::{Kind, Stock};

const NUMBERS: [u16; 5] = [0x068B, 300, 500, 210, 5000];
const DEAD: [i32; 6] = [-4000, 5000, 3000, 0, -4000, -5000];
const LIVE: [i32; 6] = [-3000, 4000, 2000, 0, -3000, -4000];

fn card() -> Vec<u8> {
    let mut card: Vec<u8> = NUMBERS.iter().flat_map(|n| n.to_be_bytes()).collect();
    card.extend(DEAD.iter().chain(&LIVE).flat_map(|n| n.to_be_bytes()));
    card
}

fn beam() -> Beam {
    read(&card()).unwrap()
}

/// So many bars of mark 5 at the bottom and at the top, and ties of mark 3.
fn cage(bottom: i64, top: i64, spacing: i64) -> Cage {
    let bars = |number| Bars { mark: 5, number };
    Cage { bottom: bars(bottom), top: bars(top), ties: Ties { mark: 3, spacing } }
}

fn fault(card: &[u8]) -> (u8, usize) {
    let fault = read(card).err().unwrap();
    (fault.number, fault.place)
}

#[test]
fn actions() {
    let actions = beam().actions;
    assert_eq!((actions.bottom, actions.top), (68_000, 96_000));
    assert_eq!((actions.shear, actions.gravity), (124_000, 124_000));
}

#[test]
fn answers() {
    let beam = beam();
    assert_eq!(check(&beam, &cage(3, 4, 200)), 0);
    assert_eq!(cage(3, 4, 200).steel(&beam), 9_604_780);
    assert_eq!(check(&beam, &cage(3, 3, 200)), 7);
    assert_eq!(check(&beam, &cage(2, 4, 200)), 6);
    assert_eq!(check(&beam, &cage(3, 4, 225)), 13);
    assert_eq!(check(&beam, &cage(3, 4, 125)), 13);
    assert_eq!(check(&beam, &cage(3, 4, 150)), 0);
}

#[test]
fn bottom_moment_at_its_limit() {
    let mut beam = beam();
    beam.actions.bottom = 94_573;
    assert_eq!(check(&beam, &cage(3, 4, 200)), 0);
    beam.actions.bottom = 94_574;
    assert_eq!(check(&beam, &cage(3, 4, 200)), 6);
}

#[test]
fn in_the_frame() {
    let mut beam = beam();
    beam.frame = true;
    assert_eq!(check(&beam, &cage(3, 4, 150)), 26);
    assert_eq!(check(&beam, &cage(3, 4, 100)), 0);
    assert_eq!(cage(3, 4, 100).steel(&beam), 12_041_500);
}

#[test]
fn impossible_from_mark_11_and_ties_3() {
    let mut stock = Stock::default();
    stock.set(Kind::Main, 11, true);
    stock.set(Kind::Tie, 3, true);
    assert!(matches!(design(&beam(), &stock, Way::EveryCage), Decision::Impossible(4)));
    assert!(matches!(design(&beam(), &stock, Way::LighterAlone), Decision::Impossible(4)));
}

/// The line of the reference beam, as docs/TESTING.md has its questions.
#[test]
fn questions_from_all_marks() {
    let digits: String = card().iter().map(|byte| format!("{byte:02x}")).collect();
    let printed = crate::questions::answer(&format!("3456789AB 345 {digits}\n")).unwrap();
    let lines: Vec<&str> = printed.lines().collect();
    assert_eq!(lines[0], "6#3 9#3 #3@200 7964780: 1816 questions, least 12035");
    assert_eq!(lines[1], "1 chosen from all marks: median 0.151, worst 0.151");
    assert_eq!(lines[3], "0 impossible: median 0.000, worst 0.000");
}

#[test]
fn faults() {
    let good = card();
    assert_eq!(good.len(), 58);
    assert_eq!(fault(&good[..57]), (4, 57));
    assert_eq!(fault(&[&good[..], &[0]].concat()), (7, 58));
    let mut narrow = card();
    narrow[2..4].copy_from_slice(&249_u16.to_be_bytes());
    assert_eq!(fault(&narrow), (8, 2));
    let mut strong = card();
    strong[10..14].copy_from_slice(&100_001_i32.to_be_bytes());
    assert_eq!(fault(&strong), (8, 10));
}
