//! Faults that the reader leaves to the run: the refusals 4 to 8, made in a
//! plan that has none.

use crate::plan::{Cell, Plan, GONE};
use crate::random::Random;
use crate::tables::key_at;
use crate::width::{Width, FLAG};

/// Which of several records or elements.
#[derive(Clone, Copy)]
pub enum Place {
    First,
    Middle,
    Last,
}

pub const PLACES: [Place; 3] = [Place::First, Place::Middle, Place::Last];

impl Place {
    /// A position from `low` to `high`.
    pub fn position(self, low: usize, high: usize, random: &mut Random) -> usize {
        match self {
            Place::First => low,
            Place::Last => high,
            Place::Middle if high - low > 1 => random.between(low + 1, high - 1),
            Place::Middle => random.between(low, high),
        }
    }
}

/// How many ways there are for an operation to be wrong.
fn ways(width: Width) -> usize {
    match width {
        Width::Narrow => 7,
        Width::Wide => 10,
    }
}

/// A plan to which faults are added so that none undoes another.
pub struct Spoiled {
    pub plan: Plan,
    /// Cells that an earlier fault needs as they are.
    kept: Vec<u16>,
}

impl Spoiled {
    pub fn new(plan: Plan) -> Spoiled {
        Spoiled {
            plan,
            kept: Vec::new(),
        }
    }

    /// Adds the fault of this refusal, in one of its ways; false if the plan
    /// has no room for it.
    pub fn add(&mut self, number: &str, way: usize, place: Place, random: &mut Random) -> bool {
        match number {
            "4" => self.cell_wrong(way, place, random).is_some(),
            "5" => self.operation(way, place, random),
            "6" => self.entry(way, place, random),
            "7" => self.key_twice(place, random).is_some(),
            _ => self.key_behind_hole(place, random).is_some(),
        }
    }

    /// A cell that no earlier fault needs, if there is one; at the place asked
    /// for if it can be.
    fn cell(&mut self, place: Place, random: &mut Random) -> Option<u16> {
        let last = self.plan.c() - 1;
        if self.kept.len() > last {
            return None;
        }
        let mut at = place.position(0, last, random) as u16;
        while self.kept.contains(&at) {
            at = random.between(0, last) as u16;
        }
        self.kept.push(at);
        Some(at)
    }

    /// A tombstone with a total; in a wide file one with a flag too or alone,
    /// or any key with the ceiling and no flag.
    fn cell_wrong(&mut self, way: usize, place: Place, random: &mut Random) -> Option<()> {
        let at = self.cell(place, random)?;
        let held = match (self.plan.width, way % 3) {
            (Width::Narrow, _) | (Width::Wide, 0) => Cell {
                key: GONE,
                total: random.pick(&[1, 2, 65_535, 300]),
            },
            (Width::Wide, 1) => Cell {
                key: GONE,
                total: random.pick(&[FLAG, FLAG, FLAG + 1, 2 * FLAG - 1]),
            },
            (Width::Wide, _) => Cell {
                key: key_at(usize::from(at), self.plan.k, random),
                total: FLAG - 1,
            },
        };
        self.plan.cells.insert(at, held);
        Some(())
    }

    fn operation(&mut self, way: usize, place: Place, random: &mut Random) -> bool {
        let at = place.position(0, self.plan.operations.len() - 1, random);
        let operation = &mut self.plan.operations[at];
        let amount = random.pick(&[1, 255, 256, 65_535]);
        match way % ways(self.plan.width) {
            0 => operation.kind = 0,
            1 => operation.kind = 6,
            2 => operation.kind = 255,
            3 => operation.key = 0,
            4 => operation.key = 65_535,
            5 => (operation.kind, operation.amount) = (1, amount),
            6 => (operation.kind, operation.amount) = (5, amount),
            7 => (operation.kind, operation.amount) = (1, FLAG),
            8 => (operation.kind, operation.amount) = (5, FLAG),
            _ => (operation.kind, operation.amount) = (random.pick(&[2, 3, 4]), FLAG - 1),
        }
        true
    }

    fn entry(&mut self, way: usize, place: Place, random: &mut Random) -> bool {
        let rows = self.plan.operations.len();
        let at = place.position(0, self.plan.schedule.len() - 1, random);
        self.plan.schedule[at] = match way % 3 {
            0 => rows as u8,
            1 => 255,
            _ => random.between(rows, 255) as u8,
        };
        true
    }

    fn key_twice(&mut self, place: Place, random: &mut Random) -> Option<()> {
        let kept = &self.kept;
        let live = |(&at, cell): (&u16, &Cell)| {
            (cell.key != GONE && !kept.contains(&at)).then_some((at, cell.key))
        };
        let live: Vec<(u16, u16)> = self.plan.cells.iter().filter_map(live).collect();
        if live.is_empty() {
            return None;
        }
        let (at, key) = random.pick(&live);
        self.kept.push(at);
        let again = self.cell(place, random)?;
        let total = self.plan.width.any_total(random);
        self.plan.cells.insert(again, Cell { key, total });
        Some(())
    }

    /// A new key in a cell that a search from its home does not reach, because
    /// its home or a cell after it is empty.
    fn key_behind_hole(&mut self, place: Place, random: &mut Random) -> Option<()> {
        let c = self.plan.c();
        let at = self.cell(place, random)?;
        let free = |hole: &u16| !self.plan.cells.contains_key(hole) && !self.kept.contains(hole);
        // From the cell backwards: half of the time the nearest one is taken,
        // which no other then hides.
        let backwards = (1..c).map(|back| ((usize::from(at) + c - back) % c) as u16);
        let holes: Vec<u16> = backwards.filter(free).collect();
        let which = match random.percent(50) {
            true => 0,
            false => random.below(holes.len().max(1)),
        };
        let hole = *holes.get(which)?;
        self.kept.push(hole);
        // The home is up to three cells before the hole, but behind the cell.
        let most = random.below(4);
        let free = |back: &usize| (usize::from(hole) + c - back) % c != usize::from(at);
        let back = (1..=most).take_while(free).count();
        let home = (usize::from(hole) + c - back) % c;
        let key = key_at(home, self.plan.k, random);
        let total = self.plan.width.any_total(random);
        let new = !self.plan.holds(key);
        self.plan.cells.insert(at, Cell { key, total });
        new.then_some(())
    }
}
