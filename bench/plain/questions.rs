//! The questions that a search puts to the pile, beside the least that it must ask, for some beams. The lightest cage and the
//! least are found by judging every cage; the questions are counted on a copy of the way that the search goes.

use crate::articles::check;
use crate::cage::Cage;
use crate::card::{Beam, read};
use crate::stock::{Kind, Stock};
use std::fmt::Write;

/// A cage from stock, judged: its place in the order of all of them, its steel, and the articles' answer.
struct Judged {
    place: usize,
    cage: Cage,
    steel: i64,
    answer: u8,
}

impl Judged {
    /// What the least cage has the least of.
    fn key(&self) -> (i64, usize) {
        (self.steel, self.place)
    }

    fn differs_in_spacing_alone(&self, other: &Judged) -> bool {
        let (one, other) = (&self.cage, &other.cage);
        one.bottom == other.bottom && one.top == other.top && one.ties.mark == other.ties.mark
    }
}

/// Every cage from stock, in the order of its numbers.
fn judge_all(beam: &Beam, stock: &Stock) -> Vec<Judged> {
    let (bars, ties) = (stock.bars(), stock.ties());
    let mut all = Vec::with_capacity(bars.len() * bars.len() * ties.len());
    for bottom in &bars {
        for top in &bars {
            for ties in &ties {
                let cage = Cage { bottom: *bottom, top: *top, ties: *ties };
                all.push(Judged { place: all.len(), cage, steel: cage.steel(beam), answer: check(beam, &cage) });
            }
        }
    }
    all
}

/// What a search has asked so far, and the best that it has found: its steel and its place.
struct Search {
    asked: usize,
    best: (i64, usize),
}

impl Search {
    /// Goes over cages that differ in their spacing alone, of which the widest comes first: one question about the ties of a
    /// mark, unless all of these cages are heavier than the best so far; and where the articles 1 to 9 hold, which look at no
    /// spacing, one about each cage that would be better than the best.
    fn weigh(&mut self, spaced: &[Judged]) {
        let widest = &spaced[spaced.len() - 1];
        if self.best.0 < widest.steel {
            return;
        }
        self.asked += 1;
        if (1..=9).contains(&widest.answer) {
            return;
        }
        for one in spaced.iter().rev() {
            if one.key() < self.best {
                self.asked += 1;
                self.best = if one.answer == 0 { one.key() } else { self.best };
            }
        }
    }
}

/// The questions of a search that goes over the cages of equal faces first, and then over all, by their numbers but for the
/// spacings.
fn count_asked(all: &[Judged]) -> usize {
    let spaced = || all.chunk_by(Judged::differs_in_spacing_alone);
    let twins = spaced().filter(|spaced| spaced[0].cage.bottom == spaced[0].cage.top);
    let mut search = Search { asked: 0, best: (i64::MAX, 0) };
    twins.chain(spaced()).for_each(|spaced| search.weigh(spaced));
    search.asked
}

/// The least questions: of a chosen cage, every cage up to it by steel and order; of an impossible beam, every cage.
fn count_least(all: &[Judged], chosen: Option<&Judged>) -> usize {
    chosen.map_or(all.len(), |chosen| all.iter().filter(|one| one.key() <= chosen.key()).count())
}

/// The stock of two words of marks, each a hexadecimal digit.
fn read_stock(mains: &str, ties: &str) -> Stock {
    let mut stock = Stock::default();
    for (kind, marks) in [(Kind::Main, mains), (Kind::Tie, ties)] {
        for mark in marks.chars() {
            stock.set(kind, mark.to_digit(16).expect("a mark is a hexadecimal digit") as u8, true);
        }
    }
    stock
}

fn read_beam(card: &str) -> Beam {
    let byte = |digits: &[u8]| {
        let digits = str::from_utf8(digits).expect("a card is hexadecimal");
        u8::from_str_radix(digits, 16).expect("a card is hexadecimal")
    };
    let bytes: Vec<u8> = card.as_bytes().chunks(2).map(byte).collect();
    read(&bytes).expect("a card has no fault")
}

/// The questions over the least, in thousandths rounded up, by what became of the beams.
#[derive(Default)]
struct Tallies {
    from_all_marks: Vec<usize>,
    from_few_marks: Vec<usize>,
    impossible: Vec<usize>,
}

impl Tallies {
    /// Counts the questions of a beam, and writes its line.
    fn add(&mut self, out: &mut String, line: &str) -> std::fmt::Result {
        let words: Vec<&str> = line.split(' ').collect();
        let [mains, ties, card] = words[..] else { panic!("a line has main marks, tie marks and a card") };
        let all = judge_all(&read_beam(card), &read_stock(mains, ties));
        let chosen = all.iter().filter(|one| one.answer == 0).min_by_key(|one| one.key());
        match chosen {
            Some(Judged { cage, steel, .. }) => write!(out, "{} {} {} {steel}", cage.bottom, cage.top, cage.ties)?,
            None => write!(out, "none {}", all.iter().map(|one| one.answer).max().expect("there are cages"))?,
        }
        let (asked, least) = (count_asked(&all), count_least(&all, chosen));
        let tally = match chosen {
            None => &mut self.impossible,
            Some(_) if mains.len() == 9 && ties.len() == 3 => &mut self.from_all_marks,
            Some(_) => &mut self.from_few_marks,
        };
        tally.push((asked * 1000).div_ceil(least));
        writeln!(out, ": {asked} questions, least {least}")
    }
}

/// Writes how many there are, with the median and the greatest; of none both are 0.
fn write_spread(out: &mut String, what: &str, mut thousandths: Vec<usize>) -> std::fmt::Result {
    thousandths.sort();
    let count = thousandths.len();
    let median = thousandths.get(count / 2).copied().unwrap_or(0);
    let worst = thousandths.last().copied().unwrap_or(0);
    let (whole, part) = (median / 1000, median % 1000);
    writeln!(out, "{count} {what}: median {whole}.{part:03}, worst {}.{:03}", worst / 1000, worst % 1000)
}

/// All that is printed of the lines of some beams.
pub fn answer(lines: &str) -> Result<String, std::fmt::Error> {
    let (mut out, mut tallies) = (String::new(), Tallies::default());
    for line in lines.lines() {
        tallies.add(&mut out, line)?;
    }
    write_spread(&mut out, "chosen from all marks", tallies.from_all_marks)?;
    write_spread(&mut out, "chosen from few marks", tallies.from_few_marks)?;
    write_spread(&mut out, "impossible", tallies.impossible)?;
    Ok(out)
}
