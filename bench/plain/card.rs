//! A beam card: from bytes to a beam, or to the first fault.

use crate::actions::{Actions, Load};

pub struct Beam {
    pub width: i64,
    pub height: i64,
    pub cover: i64,
    pub concrete: i64,
    pub steel: i64,
    pub aggregate: i64,
    pub frame: bool,
    pub span: i64,
    pub factor: i64,
    pub actions: Actions,
    pub grade: Grade,
}

/// What the grades of concrete and steel give: r, β in hundredths, and ρ in ten-thousandths.
pub struct Grade {
    pub root: i64,
    pub block: i64,
    pub ratio: i64,
}

impl Grade {
    fn of(concrete: i64, steel: i64) -> Grade {
        let (root, block, ratio_2800, ratio_4200) = match concrete {
            180 => (13416, 85, 29, 19),
            210 => (14491, 85, 31, 21),
            240 => (15491, 85, 33, 22),
            280 => (16733, 85, 36, 24),
            350 => (18708, 80, 40, 27),
            _ => (20493, 75, 44, 29),
        };
        let ratio = if steel == 2800 { ratio_2800 } else { ratio_4200 };
        Grade { root, block, ratio }
    }
}

/// Why a card is refused, and at which byte.
#[derive(Debug, Clone, Copy)]
pub struct Fault {
    pub number: u8,
    pub place: usize,
}

const REQUIRED: u16 = 1 << 0 | 1 << 1 | 1 << 3 | 1 << 7 | 1 << 9;

/// The bytes of each field, in the order of the bits.
const SIZES: [usize; 13] = [2, 2, 1, 2, 2, 1, 1, 2, 1, 24, 24, 24, 24];

/// The map, where map and length are right.
fn read_map(card: &[u8]) -> Result<u16, Fault> {
    let &[high, low, ..] = card else {
        return Err(Fault { number: 4, place: card.len() });
    };
    let map = u16::from_be_bytes([high, low]);
    if map >> 13 != 0 {
        return Err(Fault { number: 5, place: 0 });
    }
    if map & REQUIRED != REQUIRED {
        return Err(Fault { number: 6, place: 0 });
    }
    let fields = (0..13).filter(|bit| map >> bit & 1 == 1);
    let length = 2 + fields.map(|bit| SIZES[bit]).sum::<usize>();
    if card.len() < length {
        return Err(Fault { number: 4, place: card.len() });
    }
    if card.len() > length {
        return Err(Fault { number: 7, place: length });
    }
    Ok(map)
}

/// Takes the fields off a card whose map and length are right.
struct Fields<'a> {
    card: &'a [u8],
    map: u16,
    at: usize,
}

impl Fields<'_> {
    /// The field of this bit, or its default.
    fn number(&mut self, bit: usize, default: i64, allowed: impl Fn(i64) -> bool) -> Result<i64, Fault> {
        if self.map >> bit & 1 == 0 {
            return Ok(default);
        }
        let place = self.at;
        self.at += SIZES[bit];
        let number = self.card[place..self.at].iter().fold(0, |n, byte| n << 8 | *byte as i64);
        if allowed(number) { Ok(number) } else { Err(Fault { number: 8, place }) }
    }

    /// The load of this bit, or none.
    fn load(&mut self, bit: usize) -> Result<Load, Fault> {
        let mut load = [0; 6];
        if self.map >> bit & 1 == 0 {
            return Ok(load);
        }
        for number in &mut load {
            let bytes = self.card[self.at..self.at + 4].try_into().expect("four bytes");
            *number = i32::from_be_bytes(bytes) as i64;
            if number.abs() > 100_000 {
                return Err(Fault { number: 8, place: self.at });
            }
            self.at += 4;
        }
        Ok(load)
    }
}

/// The beam of a card, or the card's first fault.
pub fn read(card: &[u8]) -> Result<Beam, Fault> {
    let map = read_map(card)?;
    let mut fields = Fields { card, map, at: 2 };
    let width = fields.number(0, 0, |n| (250..=800).contains(&n))?;
    let height = fields.number(1, 0, |n| (250..=900).contains(&n))?;
    let cover = fields.number(2, 40, |n| (20..=75).contains(&n))?;
    let concrete = fields.number(3, 0, |n| [180, 210, 240, 280, 350, 420].contains(&n))?;
    let steel = fields.number(4, 4200, |n| [2800, 4200].contains(&n))?;
    let aggregate = fields.number(5, 20, |n| (10..=40).contains(&n))?;
    let frame = fields.number(6, 0, |n| n < 2)? == 1;
    let span = fields.number(7, 0, |n| (1000..=12000).contains(&n))?;
    let factor = fields.number(8, 75, |n| [60, 75].contains(&n))?;
    let loads = [fields.load(9)?, fields.load(10)?, fields.load(11)?, fields.load(12)?];
    Ok(Beam {
        width,
        height,
        cover,
        concrete,
        steel,
        aggregate,
        frame,
        span,
        factor,
        actions: Actions::of(&loads),
        grade: Grade::of(concrete, steel),
    })
}
