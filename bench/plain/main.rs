//! The program `cages` once more, in plain Rust and by brute force: reads a stream of orders from standard input and prints
//! a line for each, then the bill. It follows docs/RULES.md and docs/FORMATS.md, to be measured and compared with.
//!
//! With the argument `lighter` it asks the articles of those cages alone that are lighter than the best so far; else of all.
//! With the argument `questions` it is the program `questions` once more: it reads a line for each beam, and prints how many
//! questions a search puts to the pile, beside the least.

mod actions; // the actions of the four load cases
mod articles; // the general book and the frame layer over it
mod bill; // the bending bill
mod cage; // bars, ties, cages and their steel
mod card; // a beam card
mod orders; // the stream of orders
mod questions; // how many questions a search puts to the pile
#[cfg(test)]
mod reference; // worked figures of the reference beam
mod search; // the lightest cage from stock
mod sheet; // the 64 places
mod stock; // the marks that are in

use search::Way;
use std::error::Error;
use std::io::{Read, Write, stdin, stdout};

/// What is printed of the input, by the argument.
fn answer(argument: Option<&str>, input: Vec<u8>) -> Result<String, Box<dyn Error>> {
    match argument {
        None => Ok(orders::answer(&input, Way::EveryCage)),
        Some("lighter") => Ok(orders::answer(&input, Way::LighterAlone)),
        Some("questions") => Ok(questions::answer(&String::from_utf8(input)?)?),
        Some(other) => Err(format!("no such argument: {other}").into()),
    }
}

fn main() -> Result<(), Box<dyn Error>> {
    let mut input = Vec::new();
    stdin().read_to_end(&mut input)?;
    let printed = answer(std::env::args().nth(1).as_deref(), input)?;
    stdout().write_all(printed.as_bytes())?;
    Ok(())
}
