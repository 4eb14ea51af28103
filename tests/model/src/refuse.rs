//! Where a run is turned away: refusals 1 to 8.

use crate::step::Operation;
use crate::word::{is_live, is_size, Homes, Word};

/// The most operations ("rows") and the most schedule entries of one run.
pub(crate) const MOST_OPERATIONS: usize = 64;
pub(crate) const MOST_ENTRIES: usize = 16_384;

/// The number and place of the first condition met, in the order of the
/// specification's table. `answers` and `log` are the lengths of those slices.
pub fn refusal<W: Word>(
    cells: &[W],
    operations: &[u64],
    schedule: &[u8],
    answers: usize,
    log: usize,
) -> Option<(u32, usize)> {
    let count = operations.len();
    if !is_size(cells.len()) {
        return Some((1, 0));
    }
    if count > MOST_OPERATIONS || schedule.len() > MOST_ENTRIES {
        return Some((2, 0));
    }
    if answers < count || log < count {
        return Some((3, 0));
    }
    let at = |number| move |place| (number, place);
    malformed_cell(cells)
        .map(at(4))
        .or_else(|| malformed_operation::<W>(operations).map(at(5)))
        .or_else(|| unknown_entry(schedule, count).map(at(6)))
        .or_else(|| repeated_key(cells).map(at(7)))
        .or_else(|| unreachable_cell(cells).map(at(8)))
}

/// The first cell with key 0 or 65,535 and a total, with what is no total, or
/// with a bit beside its fields.
fn malformed_cell<W: Word>(cells: &[W]) -> Option<usize> {
    cells.iter().position(|&word| {
        let (key, total) = (word.key(), word.total());
        let stray = word != W::pack(key, total);
        stray || !W::is_total(total) || (!is_live(key) && total != W::ZERO)
    })
}

fn malformed_operation<W: Word>(operations: &[u64]) -> Option<usize> {
    operations
        .iter()
        .position(|&word| Operation::<W>::decode(word).is_none())
}

fn unknown_entry(schedule: &[u8], count: usize) -> Option<usize> {
    schedule
        .iter()
        .position(|&entry| usize::from(entry) >= count)
}

/// The lowest cell whose live key stands in a lower cell too.
fn repeated_key<W: Word>(cells: &[W]) -> Option<usize> {
    // One bit for every key there is: constant time for each cell.
    let mut seen = [0_u64; 1_024];
    cells.iter().position(|&word| {
        let key = word.key();
        let (part, bit) = (&mut seen[usize::from(key / 64)], 1 << (key % 64));
        let repeated = is_live(key) && *part & bit != 0;
        *part |= bit;
        repeated
    })
}

/// The lowest live cell that a search from its key's home would not reach,
/// because an empty cell comes first.
fn unreachable_cell<W: Word>(cells: &[W]) -> Option<usize> {
    let c = cells.len();
    let homes = Homes::of(c);
    // How far back the nearest empty cell lies, going round the end: before
    // cell 0 comes the last cell. A table without one hides no cell.
    let mut gap = c - cells.iter().rposition(|&word| word == W::EMPTY)?;
    for (place, &word) in cells.iter().enumerate() {
        if word == W::EMPTY {
            gap = 0;
        } else if is_live(word.key()) {
            let distance = place.wrapping_sub(homes.home(word.key())) & (c - 1);
            if gap <= distance {
                return Some(place);
            }
        }
        gap += 1;
    }
    None
}
