//! Bars of a face, ties, cages, and their steel.

use crate::card::Beam;
use std::fmt::{Display, Formatter, Result};

const DIAMETERS: [i64; 9] = [95, 127, 159, 191, 222, 254, 287, 323, 358];
const AREAS: [i64; 9] = [71, 129, 199, 284, 387, 510, 645, 819, 1006];

/// The bars of a face.
#[derive(Clone, Copy, PartialEq)]
pub struct Bars {
    pub mark: u8,
    pub number: i64,
}

impl Bars {
    /// In tenths of a mm.
    pub fn diameter(&self) -> i64 {
        DIAMETERS[self.mark as usize - 3]
    }

    /// Of all of them, in mm².
    pub fn area(&self) -> i64 {
        self.number * AREAS[self.mark as usize - 3]
    }
}

impl Display for Bars {
    fn fmt(&self, out: &mut Formatter) -> Result {
        write!(out, "{}#{}", self.number, self.mark)
    }
}

#[derive(Clone, Copy)]
pub struct Ties {
    pub mark: u8,
    pub spacing: i64,
}

impl Ties {
    /// In tenths of a mm.
    pub fn diameter(&self) -> i64 {
        DIAMETERS[self.mark as usize - 3]
    }

    /// Of one bar, in mm².
    pub fn area(&self) -> i64 {
        AREAS[self.mark as usize - 3]
    }
}

impl Display for Ties {
    fn fmt(&self, out: &mut Formatter) -> Result {
        write!(out, "#{}@{}", self.mark, self.spacing)
    }
}

#[derive(Clone, Copy)]
pub struct Cage {
    pub bottom: Bars,
    pub top: Bars,
    pub ties: Ties,
}

/// x ÷ y, rounded up; y is above 0, and x not below it.
pub fn up(x: i64, y: i64) -> i64 {
    (x + y - 1) / y
}

impl Cage {
    /// The steel of the cage in a beam, in mm³.
    pub fn steel(&self, beam: &Beam) -> i64 {
        let hook = up(6 * self.ties.diameter(), 10).max(75);
        let length = 2 * (beam.width - 2 * beam.cover) + 2 * (beam.height - 2 * beam.cover) + 2 * hook;
        let count = up(beam.span - 100, self.ties.spacing) + 1;
        beam.span * (self.bottom.area() + self.top.area()) + count * length * self.ties.area()
    }
}
