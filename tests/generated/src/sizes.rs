//! Files around and above the greatest size, sound but for it or damaged.

use crate::plan::{split_exactly, Plan, MOST_BYTES, MOST_ENTRIES};
use crate::random::Random;
use crate::recipes::{plan, Recipe, PLAIN};
use crate::schedules::schedule;
use crate::width::Width;

/// A run file of exactly this many bytes that is sound but for its size. Above
/// 65,535 it needs many cells, since the schedule alone has not as many bytes.
fn exactly(width: Width, bytes: usize, random: &mut Random) -> Vec<u8> {
    let recipe = match bytes > MOST_BYTES + 40 {
        true => Recipe {
            sizes: &[12],
            used: (50, 100),
            ..PLAIN
        },
        false => Recipe {
            sizes: &[0, 3, 5, 12],
            used: (40, 100),
            ..PLAIN
        },
    };
    let plan = plan(width, &recipe, random);
    padded(plan, bytes, random)
}

/// The file of a plan whose schedule is made as long as gives this many bytes.
pub fn padded(mut plan: Plan, bytes: usize, random: &mut Random) -> Vec<u8> {
    let rest = bytes - length_without_schedule(&plan);
    // Three bytes for each record and one for each entry.
    let fewest = rest
        .saturating_sub(MOST_ENTRIES)
        .div_ceil(3)
        .max(rest / 258 + 1);
    let records = random.between(fewest, rest / 4);
    let entries = rest - 3 * records;
    plan.schedule = schedule(plan.operations.len(), entries, random);
    let counts = split_exactly(entries, records, random);
    plan.records(&counts).file()
}

pub fn length_without_schedule(plan: &Plan) -> usize {
    let cells = plan.width.cell_bytes() * plan.cells.len();
    3 + cells + plan.width.operation_bytes() * plan.operations.len()
}

pub fn sized(width: Width, number: usize, random: &mut Random) -> Vec<u8> {
    let mut file = exactly(width, MOST_BYTES, random);
    match number % 12 {
        0 | 1 => file,
        2 | 3 => exactly(width, MOST_BYTES + 1, random),
        4 => {
            let bytes = random.between(MOST_BYTES + 2, MOST_BYTES + 16_000);
            exactly(width, bytes, random)
        }
        // A single byte of a mark, as the last that is allowed and past it.
        5 => {
            let mut file = exactly(width, MOST_BYTES - 1, random);
            file.push(b'S');
            file
        }
        6 => {
            file.push(b'S');
            file
        }
        // Damaged somewhere, at the greatest size and above it.
        7 | 8 => {
            let at = random.below(file.len());
            file[at] ^= 1 << random.below(8);
            file.resize(MOST_BYTES + (number % 12 - 7), b'S');
            file
        }
        9 => vec![random.byte(); MOST_BYTES + random.below(2)],
        10 => {
            file.resize(200_000, random.byte());
            file
        }
        _ => {
            let length = random.pick(&[65_537, 131_072, 131_075, 200_000, 262_144]);
            file.iter().copied().cycle().take(length).collect()
        }
    }
}
