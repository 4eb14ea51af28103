//! Full tables, and runs on them whose entries all do the same.

use crate::runfile::{key_at, RunFile, ADD, FIND};

/// A full table: every cell has a key whose home it is.
pub fn full(k: u8) -> RunFile {
    let mut file = RunFile::empty(k);
    for cell in 0..1_usize << k {
        let key = key_at(cell, k, 1);
        file.cells.push((cell as u16, key, cell as u16));
    }
    file
}

/// A full table, and as many finds of rooms that it has, evenly over its cells:
/// each is found at its one entry, in a table of any size.
pub fn all_found(k: u8, operations: usize) -> RunFile {
    let mut file = full(k);
    let c = 1 << k;
    for row in 0..operations {
        let (_, key, _) = file.cells[row * c / operations];
        file.operations.push((FIND, key, 0));
    }
    file.schedule = (0..operations as u8).collect();
    file
}

/// A full table, and operations that pass a cell at each of their entries: they
/// add to rooms that the table does not have. Their homes lie evenly over the
/// table, and they take turns. Each operation must get fewer entries than there
/// are cells, or it would finish.
pub fn all_passing(k: u8, operations: usize, entries: usize) -> RunFile {
    let mut file = full(k);
    let c = 1 << k;
    assert!(entries < operations * c, "an operation would finish");
    for row in 0..operations {
        // The table has the first key of each home, so the second is in no cell.
        let key = key_at(row * c / operations, k, 2);
        file.operations.push((ADD, key, row as u16));
    }
    file.schedule = (0..entries).map(|i| (i % operations) as u8).collect();
    file
}
