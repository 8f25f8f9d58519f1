//! Which marks are in.

use crate::cage::{Bars, Ties};

#[derive(Clone, Copy, PartialEq)]
pub enum Kind {
    Main,
    Tie,
}

impl Kind {
    /// The kind of this number, where the mark is known in it.
    pub fn of(number: u8, mark: u8) -> Option<Kind> {
        match (number, mark) {
            (0, 3..=11) => Some(Kind::Main),
            (1, 3..=5) => Some(Kind::Tie),
            _ => None,
        }
    }
}

#[derive(Default)]
pub struct Stock {
    main: [bool; 12],
    tie: [bool; 12],
}

impl Stock {
    /// Sets a mark in or out, and says whether it was otherwise before.
    pub fn set(&mut self, kind: Kind, mark: u8, is_in: bool) -> bool {
        let marks = match kind {
            Kind::Main => &mut self.main,
            Kind::Tie => &mut self.tie,
        };
        std::mem::replace(&mut marks[mark as usize], is_in) != is_in
    }

    /// Whether a main mark and a tie mark are in.
    pub fn offers_cages(&self) -> bool {
        self.main.contains(&true) && self.tie.contains(&true)
    }

    /// All bars of a face from stock, in the order of their numbers.
    pub fn bars(&self) -> Vec<Bars> {
        let marks = (3..12).filter(|mark| self.main[*mark as usize]);
        marks.flat_map(|mark| (2..=12).map(move |number| Bars { mark, number })).collect()
    }

    /// All ties from stock, in the order of their numbers.
    pub fn ties(&self) -> Vec<Ties> {
        let marks = (3..6).filter(|mark| self.tie[*mark as usize]);
        marks.flat_map(|mark| (50..=600).step_by(25).map(move |spacing| Ties { mark, spacing })).collect()
    }
}
