//! A table half full in which 64 operations meet at a few cells.

use crate::runfile::{key_at, RunFile, Width, ADD, FIND, INSERT, REMOVE, TOMBSTONE, UPDATE};

/// How the text of the file begins. Of the 16,384 entries all but the last 20
/// are steps of unfinished operations: 579 lose a swap, 64 finish, and the rest
/// pass a cell or hold a word.
pub const BEGINS: &str = "rows 64 done 64 lost 579 idle 20\n";

/// Cells 0 to 2,175 are filled, every seventeenth by a tombstone, which leaves
/// 2,048 live ones; the others are empty.
const FILLED: usize = 2_176;

/// The most entries that a schedule may have.
const ENTRIES: usize = 16_384;

/// How many cells an operation passes before it comes to where it meets the
/// others: as many as let all operations finish within the schedule.
const PASSED: usize = 222;

/// The cell of the contended room that the table has. It is near the empty cells,
/// so that whoever finds its room removed comes to those in time.
const CONTENDED: usize = 2_000;

/// Two rooms have 32 operations each: two of every kind in this list, in its
/// order. One room is in the table; the other is not, and its operations meet at
/// the first empty cell. The removes come late, so that the adds before them
/// contend for a live cell and those behind them for an empty one.
const KINDS: [u8; 16] = [
    ADD, ADD, ADD, UPDATE, ADD, ADD, ADD, FIND, ADD, ADD, UPDATE, ADD, INSERT, REMOVE, ADD, ADD,
];

pub fn file(k: u8) -> RunFile {
    let mut file = RunFile::empty(k);
    let rooms = [CONTENDED, FILLED].map(|cell| key_at(cell - PASSED, k, 2));
    for cell in 0..FILLED {
        let key = match cell % 17 {
            16 => TOMBSTONE,
            _ if cell == CONTENDED => rooms[0],
            _ => key_at(cell, k, 1),
        };
        let total = if key == TOMBSTONE { 0 } else { cell as u16 };
        file.cells.push((cell as u16, key, total));
    }
    for (row, kind) in KINDS.into_iter().flat_map(|kind| [kind; 4]).enumerate() {
        let amount = match kind {
            FIND | REMOVE => 0,
            _ => 1_000,
        };
        file.operations.push((kind, rooms[row % 2], amount));
    }
    take_turns(&mut file);
    file
}

/// Fills the schedule with rounds in which every unfinished operation has one
/// entry, and what is then left with idle ones. The second model is asked who is
/// unfinished.
fn take_turns(file: &mut RunFile) {
    loop {
        let unfinished = unfinished(file);
        file.schedule.extend(&unfinished);
        if unfinished.is_empty() || file.schedule.len() >= ENTRIES {
            break;
        }
    }
    file.schedule.resize(ENTRIES, 0);
}

fn unfinished(file: &RunFile) -> Vec<u8> {
    let (mut cells, mut operations, mut schedule) = ([0_u32; 4_096], [0; 64], [0; 16_384]);
    let (mut answers, mut log) = ([0; 64], [0; 64]);
    model::load(
        &file.bytes(Width::Narrow),
        &mut cells,
        &mut operations,
        &mut schedule,
    );
    let schedule = &schedule[..file.schedule.len()];
    let outcome = model::run(&mut cells, &operations, schedule, &mut answers, &mut log);
    let finished = &log[..outcome.done];
    (0..64).filter(|row| !finished.contains(row)).collect()
}
