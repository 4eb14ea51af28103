//! A run as a plain struct, and its records in a run file.

use std::collections::BTreeMap;

use crate::random::Random;
use crate::width::Width;

pub const MOST_OPERATIONS: usize = 64;
pub const MOST_ENTRIES: usize = 16_384;
pub const MOST_BYTES: usize = 65_535;

/// The key of a tombstone ("gone"), whose total is 0.
pub const GONE: u16 = 65_535;

#[derive(Clone, Copy)]
pub struct Cell {
    pub key: u16,
    /// With a flag, `FLAG` more than its number.
    pub total: u64,
}

/// One operation ("row").
#[derive(Clone, Copy)]
pub struct Operation {
    pub kind: u8,
    pub key: u16,
    /// As a cell's total.
    pub amount: u64,
}

#[derive(Clone)]
pub struct Plan {
    pub width: Width,
    /// The table has 2^k cells.
    pub k: u8,
    /// The cells that are not empty, by number.
    pub cells: BTreeMap<u16, Cell>,
    pub operations: Vec<Operation>,
    pub schedule: Vec<u8>,
}

impl Plan {
    pub fn c(&self) -> usize {
        1 << self.k
    }

    pub fn holds(&self, key: u16) -> bool {
        self.cells.values().any(|cell| cell.key == key)
    }

    /// The records, with the schedule cut into SC records of these counts.
    pub fn records(&self, counts: &[usize]) -> Records {
        let width = self.width;
        let mut list = vec![table(width, self.k)];
        list.extend(self.cells.iter().map(|(&at, &held)| cell(width, at, held)));
        list.extend(self.operations.iter().map(|&held| operation(width, held)));
        let mut rest = &self.schedule[..];
        for &count in counts {
            let (now, later) = rest.split_at(count);
            list.push(entries(now));
            rest = later;
        }
        Records {
            list,
            operations: 1 + self.cells.len(),
            entries: 1 + self.cells.len() + self.operations.len(),
        }
    }

    /// The whole file, with the schedule cut at random.
    pub fn file(&self, random: &mut Random) -> Vec<u8> {
        let counts = split(self.width, self.schedule.len(), random);
        self.records(&counts).file()
    }
}

/// The records of a file. The TB or TW is at position 0, the first CL at 1.
#[derive(Clone)]
pub struct Records {
    pub list: Vec<Vec<u8>>,
    /// The position of the first OP record, or where it would be.
    pub operations: usize,
    /// The position of the first SC record, or where it would be.
    pub entries: usize,
}

impl Records {
    pub fn file(&self) -> Vec<u8> {
        self.list.concat()
    }
}

pub fn table(width: Width, k: u8) -> Vec<u8> {
    [&width.mark()[..], &[k]].concat()
}

pub fn cell(width: Width, at: u16, cell: Cell) -> Vec<u8> {
    let mut record = b"CL".to_vec();
    record.extend([at, cell.key].iter().flat_map(|field| field.to_be_bytes()));
    record.extend(width.spelled(cell.total));
    record
}

pub fn operation(width: Width, operation: Operation) -> Vec<u8> {
    let mut record = vec![b'O', b'P', operation.kind];
    record.extend(operation.key.to_be_bytes());
    record.extend(width.spelled(operation.amount));
    record
}

pub fn entries(rows: &[u8]) -> Vec<u8> {
    let mut record = vec![b'S', b'C', rows.len() as u8];
    record.extend(rows);
    record
}

/// Cuts a number of entries into counts of 1 to 255: all ones, all as long as
/// can be, short, or of any length.
pub fn split(width: Width, entries: usize, random: &mut Random) -> Vec<usize> {
    // A schedule of the greatest length in single entries is over the size of
    // a file, and beside all cells of a wide table so are entries by the four.
    let shortest = match (entries > 4_096, width) {
        (false, _) => 1,
        (true, Width::Narrow) => 4,
        (true, Width::Wide) => 16,
    };
    let (low, high) = match random.below(5) {
        0 => (shortest, shortest),
        1 => (255, 255),
        2 | 3 => (shortest, shortest.max(9)),
        _ => (1, 255),
    };
    let mut counts = Vec::new();
    let mut rest = entries;
    while rest > 0 {
        let count = random.between(low, high).min(rest);
        counts.push(count);
        rest -= count;
    }
    counts
}

/// Cuts a number of entries into exactly this many counts of 1 to 255.
pub fn split_exactly(entries: usize, records: usize, random: &mut Random) -> Vec<usize> {
    let mut counts = vec![1; records];
    for _ in records..entries {
        let mut at = random.below(records);
        while counts[at] == 255 {
            at = (at + 1) % records;
        }
        counts[at] += 1;
    }
    counts
}
