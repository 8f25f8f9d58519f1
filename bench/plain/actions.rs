//! What acts on a beam.

/// Moment and shear at the left face, at midspan and at the right face.
pub type Load = [i64; 6];

/// The factors of dead, live, wind and earthquake load, in tenths.
const ROWS: [[i64; 4]; 10] = [
    [14, 0, 0, 0],
    [12, 16, 0, 0],
    [12, 10, 16, 0],
    [12, 10, -16, 0],
    [12, 10, 0, 10],
    [12, 10, 0, -10],
    [9, 0, 16, 0],
    [9, 0, -16, 0],
    [9, 0, 0, 10],
    [9, 0, 0, -10],
];

/// The greatest moments and shears, in tenths.
#[derive(Clone, Copy, Default)]
pub struct Actions {
    pub bottom: i64,
    pub top: i64,
    pub shear: i64,
    pub gravity: i64,
}

impl Actions {
    /// The actions of dead, live, wind and earthquake load.
    pub fn of(loads: &[Load; 4]) -> Actions {
        let mut actions = Actions::default();
        for (place, row) in ROWS.iter().enumerate() {
            actions.add(&combine(loads, row), place < 2);
        }
        actions
    }

    /// Takes one row's load in, which is of gravity alone or not.
    fn add(&mut self, row: &Load, is_gravity: bool) {
        for station in row.chunks(2) {
            let (moment, shear) = (station[0], station[1].abs());
            self.bottom = self.bottom.max(moment);
            self.top = self.top.max(-moment);
            self.shear = self.shear.max(shear);
            self.gravity = if is_gravity { self.gravity.max(shear) } else { self.gravity };
        }
    }
}

/// The sum of the loads with the factors of a row.
fn combine(loads: &[Load; 4], row: &[i64; 4]) -> Load {
    std::array::from_fn(|number| loads.iter().zip(row).map(|(load, factor)| factor * load[number]).sum())
}
