//! The lightest cage from stock, by brute force.

use crate::articles::check;
use crate::cage::Cage;
use crate::card::Beam;
use crate::stock::Stock;

/// Which cages the articles are asked of.
#[derive(Clone, Copy)]
pub enum Way {
    EveryCage,
    LighterAlone, // those that are lighter than the best so far
}

#[derive(Clone, Copy)]
pub enum Decision {
    Chosen(Cage, i64),
    Impossible(u8),
}

/// Whether the articles are asked of a cage.
fn is_asked(way: Way, found: Decision, beam: &Beam, cage: &Cage) -> bool {
    match (way, found) {
        (Way::LighterAlone, Decision::Chosen(_, least)) => cage.steel(beam) < least,
        _ => true,
    }
}

/// What is found when one cage more is asked about.
fn ask(found: Decision, beam: &Beam, cage: Cage) -> Decision {
    let answer = check(beam, &cage);
    match found {
        Decision::Impossible(_) if answer == 0 => Decision::Chosen(cage, cage.steel(beam)),
        Decision::Impossible(greatest) => Decision::Impossible(greatest.max(answer)),
        Decision::Chosen(_, least) if answer == 0 && cage.steel(beam) < least => Decision::Chosen(cage, cage.steel(beam)),
        Decision::Chosen(..) => found,
    }
}

/// The decision of a beam. Cages come in the order of their numbers, so of equal steel the first stays.
pub fn design(beam: &Beam, stock: &Stock, way: Way) -> Decision {
    let (bars, ties) = (stock.bars(), stock.ties());
    let mut found = Decision::Impossible(0);
    for bottom in &bars {
        for top in &bars {
            for ties in &ties {
                let cage = Cage { bottom: *bottom, top: *top, ties: *ties };
                if is_asked(way, found, beam, &cage) {
                    found = ask(found, beam, cage);
                }
            }
        }
    }
    found
}
