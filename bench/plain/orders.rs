//! The stream of orders, and what is printed of each.

use crate::bill::write_bill;
use crate::search::{Decision, Way};
use crate::sheet::{Refusal, Sheet};
use std::fmt::Write;

/// The first order of a stream: how many bytes it has and the number that is printed of it; none where it is unknown or cut.
fn first(stream: &[u8]) -> Option<(usize, u8)> {
    let (size, number) = match *stream {
        [b'S', _, mark, _, ..] => (4, mark),
        [b'E' | b'K', place, length, ..] => (3 + length as usize, place),
        [b'X' | b'D', place, ..] => (2, place),
        _ => return None,
    };
    (size <= stream.len()).then_some((size, number))
}

fn words_of(decision: Decision) -> String {
    match decision {
        Decision::Chosen(..) => "CAGE".to_string(),
        Decision::Impossible(number) => format!("NONE {number}"),
    }
}

/// Carries out an order, and gives its words.
fn carry_out(sheet: &mut Sheet, order: &[u8]) -> Result<String, Refusal> {
    match *order {
        [b'S', kind, mark, value] => sheet.set(kind, mark, value != 0)?,
        [b'E', place, _, ref card @ ..] => sheet.enter(place, card)?,
        [b'K', place, _, ref card @ ..] => sheet.correct(place, card)?,
        [b'X', place] => sheet.strike(place)?,
        [b'D', place] => return Ok(words_of(sheet.design(place)?)),
        _ => unreachable!("an order has the bytes of its letter"),
    }
    Ok("OK".to_string())
}

/// All that is printed of a stream.
pub fn answer(stream: &[u8], way: Way) -> String {
    let mut sheet = Sheet::new(way);
    let mut out = String::new();
    let mut rest = stream;
    while !rest.is_empty() {
        let Some((size, number)) = first(rest) else {
            out.push_str("STOP\n");
            break;
        };
        let words = carry_out(&mut sheet, &rest[..size])
            .unwrap_or_else(|refusal| format!("REFUSED {} {}", refusal.number, refusal.place));
        writeln!(out, "{} {number} {words}", rest[0] as char).expect("a string takes every line");
        rest = &rest[size..];
    }
    write_bill(&mut out, &sheet).expect("a string takes every line");
    out
}
