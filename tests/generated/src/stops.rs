//! A run seen between its entries, by the second model: what a text does not
//! show.

use model::{Outcome, Word};

use crate::classify::Start;

/// What stands after so many entries of the schedule: the second model's stops.
pub type Stops<W> = Vec<(Outcome, Vec<W>, Vec<W>, Vec<u8>)>;

/// A text does not show what a row held when it lost a swap: it is seen in the
/// second model's stops, which are taken where there are not too many of them.
pub fn stops<W: Word>(start: &Start<W>) -> Stops<W> {
    if start.schedule.len() * start.cells.len() > 4_096 {
        return Vec::new();
    }
    let count = start.operations.len();
    model::stops(
        &mut start.cells.clone(),
        &start.operations,
        &start.schedule,
        &mut vec![W::from(0); count],
        &mut vec![0; count],
    )
}

/// The total that a row held of its key at each swap that it lost; nothing for
/// an empty cell.
pub fn lost_totals<W: Word>(
    stops: &Stops<W>,
    schedule: &[u8],
    row: usize,
    key: u16,
) -> Vec<Option<u64>> {
    let mut totals = Vec::new();
    let mut held = None;
    for (stop, &entry) in stops.windows(2).zip(schedule) {
        let [(before, ..), (after, cells, answers, _)] = stop else {
            break;
        };
        if usize::from(entry) != row {
            continue;
        }
        if after.lost > before.lost {
            totals.push(held);
        }
        if answers[row].code() != 0 {
            break;
        }
        // A read alters no cell: the word that the row holds is in its cell.
        held = total_of(cells, key);
    }
    totals
}

/// The total of a key in these cells, if one has it.
pub fn total_of<W: Word>(cells: &[W], key: u16) -> Option<u64> {
    let word = cells.iter().find(|word| word.key() == key);
    word.map(|word| word.total().into())
}
