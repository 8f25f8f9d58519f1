//! The 64 places with the stock.

use crate::card::{self, Beam, Fault};
use crate::search::{Decision, Way, design};
use crate::stock::{Kind, Stock};

struct Entry {
    beam: Beam,
    decision: Option<Decision>,
}

pub struct Sheet {
    places: [Option<Entry>; 64],
    stock: Stock,
    way: Way,
}

/// A refusal's number and byte place.
pub type Refusal = Fault;

fn refusal(number: u8) -> Refusal {
    Refusal { number, place: 0 }
}

impl Sheet {
    pub fn new(way: Way) -> Sheet {
        Sheet { places: [const { None }; 64], stock: Stock::default(), way }
    }

    fn place(&mut self, place: u8) -> Result<&mut Option<Entry>, Refusal> {
        self.places.get_mut(place as usize).ok_or(refusal(1))
    }

    pub fn enter(&mut self, place: u8, card: &[u8]) -> Result<(), Refusal> {
        let entry = self.place(place)?;
        if entry.is_some() {
            return Err(refusal(2));
        }
        *entry = Some(Entry { beam: card::read(card)?, decision: None });
        Ok(())
    }

    pub fn correct(&mut self, place: u8, card: &[u8]) -> Result<(), Refusal> {
        let entry = self.place(place)?.as_mut().ok_or(refusal(3))?;
        *entry = Entry { beam: card::read(card)?, decision: None };
        Ok(())
    }

    pub fn strike(&mut self, place: u8) -> Result<(), Refusal> {
        self.place(place)?.take().ok_or(refusal(3))?;
        Ok(())
    }

    /// Sets a mark in or out, and opens what that concerns.
    pub fn set(&mut self, kind: u8, mark: u8, is_in: bool) -> Result<(), Refusal> {
        let kind = Kind::of(kind, mark).ok_or(refusal(9))?;
        if self.stock.set(kind, mark, is_in) {
            for entry in self.places.iter_mut().flatten() {
                entry.decision = entry.decision.filter(|decision| !is_in && stands_without(decision, kind, mark));
            }
        }
        Ok(())
    }

    pub fn design(&mut self, place: u8) -> Result<Decision, Refusal> {
        let entry = self.places.get_mut(place as usize).ok_or(refusal(1))?;
        let entry = entry.as_mut().ok_or(refusal(3))?;
        if !self.stock.offers_cages() {
            return Err(refusal(10));
        }
        let decision = design(&entry.beam, &self.stock, self.way);
        entry.decision = Some(decision);
        Ok(decision)
    }

    /// The decisions with their places.
    pub fn decisions(&self) -> impl Iterator<Item = (usize, Decision)> {
        let decision = |entry: &Option<Entry>| entry.as_ref().and_then(|entry| entry.decision);
        self.places.iter().enumerate().filter_map(move |(place, entry)| Some((place, decision(entry)?)))
    }
}

/// Whether a decision still stands when a mark goes out.
fn stands_without(decision: &Decision, kind: Kind, mark: u8) -> bool {
    match (decision, kind) {
        (Decision::Impossible(_), _) => false,
        (Decision::Chosen(cage, _), Kind::Main) => cage.bottom.mark != mark && cage.top.mark != mark,
        (Decision::Chosen(cage, _), Kind::Tie) => cage.ties.mark != mark,
    }
}
