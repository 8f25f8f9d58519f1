//! The articles: the general book, and the frame layer over it.

use crate::cage::{Bars, Cage, Ties, up};
use crate::card::Beam;

/// The numbers of a face.
struct Face {
    fits: bool,
    area: i64,
    depth: i64, // d, in tenths of a mm
    force: i64, // q
    takes: i64, // the depth that the face takes up, in tenths of a mm
}

impl Face {
    fn of(beam: &Beam, bars: &Bars, ties: &Ties) -> Face {
        let diameter = bars.diameter();
        let gap = (10 * diameter).max(2500).max(133 * beam.aggregate);
        let room = 100 * beam.width - 200 * beam.cover - 20 * ties.diameter();
        let fit = |i: i64| 10 * i * diameter + (i - 1) * gap <= room;
        let rows = if fit(bars.number) { 1 } else { 2 };
        let mut depth = 10 * beam.height - 10 * beam.cover - ties.diameter() - up(diameter, 2);
        if rows == 2 {
            depth -= up((diameter + 250) * (bars.number / 2), bars.number);
        }
        Face {
            fits: rows == 1 || fit(up(bars.number, 2)),
            area: bars.area(),
            depth,
            force: bars.area() * (beam.steel / 100),
            takes: 10 * beam.cover + ties.diameter() + diameter * rows + 250 * (rows - 1),
        }
    }

    /// Net strain below 0.005.
    fn is_brittle(&self, beam: &Beam) -> bool {
        16_000_000 * self.force > 51 * beam.grade.block * beam.concrete * beam.width * self.depth
    }

    /// Bending strength below this moment.
    fn is_weak(&self, beam: &Beam, moment: i64) -> bool {
        let strip = beam.concrete * beam.width;
        170_000 * moment * strip + 90_000 * self.force * self.force > 153 * self.force * strip * self.depth
    }

    /// Less than the least steel.
    fn is_thin(&self, beam: &Beam) -> bool {
        100_000 * self.area < beam.grade.ratio * beam.width * self.depth
    }

    /// The greatest steel or more.
    fn is_crowded(&self, beam: &Beam) -> bool {
        400 * self.area >= beam.width * self.depth
    }

    /// The probable moment, in kg·mm.
    fn probable_moment(&self, beam: &Beam) -> i64 {
        let strip = beam.concrete * beam.width;
        let bracket = 17 * strip * self.depth - 12_500 * self.force;
        up(5 * self.force * bracket.max(0), 680 * strip)
    }
}

/// The numbers of a cage in shear.
struct Shear {
    depth: i64,    // z, in tenths of a mm
    concrete: i64, // vc
    most: i64,     // vm
    ties: i64,     // vs
}

impl Shear {
    fn of(beam: &Beam, bottom: &Face, top: &Face, ties: &Ties) -> Shear {
        let depth = bottom.depth.min(top.depth);
        let plane = beam.grade.root * beam.width * depth;
        Shear {
            depth,
            concrete: 53 * plane / 100_000_000,
            most: 265 * plane / 100_000_000,
            ties: ties.area() * (beam.steel / 100) * depth / (5 * ties.spacing),
        }
    }
}

/// The general book's articles of the bars, 1 to 9.
fn check_bars(beam: &Beam, bottom: &Face, top: &Face) -> u8 {
    let actions = &beam.actions;
    if !bottom.fits {
        1
    } else if !top.fits {
        2
    } else if bottom.takes + top.takes + 250 > 10 * beam.height {
        3
    } else if bottom.is_brittle(beam) {
        4
    } else if top.is_brittle(beam) {
        5
    } else if bottom.is_weak(beam, actions.bottom) {
        6
    } else if top.is_weak(beam, actions.top) {
        7
    } else if actions.bottom > 0 && bottom.is_thin(beam) {
        8
    } else if actions.top > 0 && top.is_thin(beam) {
        9
    } else {
        0
    }
}

/// The general book's articles of shear and ties, 10 to 13.
fn check_shear(beam: &Beam, ties: &Ties, shear: &Shear) -> u8 {
    let (v, p) = (beam.actions.shear, beam.factor);
    let is_heavy = shear.ties >= 2 * shear.concrete;
    if 10 * v > p * shear.most {
        10
    } else if 10 * v > p * (shear.concrete + shear.ties) {
        11
    } else if 20 * v > p * shear.concrete && 400 * ties.area() * (beam.steel / 100) < 7 * beam.width * ties.spacing {
        12
    } else if 20 * ties.spacing > shear.depth || is_heavy && (40 * ties.spacing > shear.depth || ties.spacing > 300) {
        13
    } else {
        0
    }
}

/// The frame layer's own articles, 21 to 28.
fn check_frame(beam: &Beam, ties: &Ties, bottom: &Face, top: &Face, shear: &Shear) -> u8 {
    let (g, p) = (beam.actions.gravity, beam.factor);
    let j = up(10 * (bottom.probable_moment(beam) + top.probable_moment(beam)), beam.span);
    let concrete = if 2 * j > g + j { 0 } else { shear.concrete };
    if bottom.is_thin(beam) {
        21
    } else if top.is_thin(beam) {
        22
    } else if bottom.is_crowded(beam) {
        23
    } else if top.is_crowded(beam) {
        24
    } else if 2 * bottom.area < top.area {
        25
    } else if 40 * ties.spacing > shear.depth || ties.spacing > 120 {
        26
    } else if 10 * (g + j) > p * shear.most {
        27
    } else if 10 * (g + j) > p * (concrete + shear.ties) {
        28
    } else {
        0
    }
}

/// The number of the first article that refuses a cage for a beam, or 0.
#[inline(always)] // in each loop over all cages: with two callers it would stay a call, and a design take twice as long
pub fn check(beam: &Beam, cage: &Cage) -> u8 {
    let bottom = Face::of(beam, &cage.bottom, &cage.ties);
    let top = Face::of(beam, &cage.top, &cage.ties);
    let answer = check_bars(beam, &bottom, &top);
    if answer != 0 {
        return answer;
    }
    let shear = Shear::of(beam, &bottom, &top, &cage.ties);
    let answer = check_shear(beam, &cage.ties, &shear);
    if answer != 0 || !beam.frame {
        return answer;
    }
    check_frame(beam, &cage.ties, &bottom, &top, &shear)
}
