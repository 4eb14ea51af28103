//! A writer of run files, and keys that have a given home.

/// 40,503 × 30,599 is 1 modulo 65,536, so that a home gives its keys directly.
const INVERSE: usize = 30_599;

/// The key of a cell whose room was removed.
pub const TOMBSTONE: u16 = 65_535;

pub const FIND: u8 = 1;
pub const INSERT: u8 = 2;
pub const UPDATE: u8 = 3;
pub const ADD: u8 = 4;
pub const REMOVE: u8 = 5;

/// One of the keys that have this home in 2^k cells. There are 65,536 / 2^k of
/// them; `which` picks one.
pub fn key_at(home: usize, k: u8, which: usize) -> u16 {
    let key = ((home * (65_536 >> k) + which) * INVERSE) as u16;
    assert!(key != 0 && key != TOMBSTONE, "not a live key");
    key
}

/// The width of a file's totals and amounts.
#[derive(Clone, Copy, PartialEq)]
pub enum Width {
    Narrow,
    Wide,
}

impl Width {
    fn mark(self) -> &'static [u8] {
        match self {
            Width::Narrow => b"TB",
            Width::Wide => b"TW",
        }
    }

    /// Writes a total or an amount. A wide one has a flag where the narrow one
    /// is pinned.
    fn total(self, out: &mut Vec<u8>, total: u16) {
        match self {
            Width::Narrow => out.extend_from_slice(&total.to_be_bytes()),
            Width::Wide => {
                out.push(u8::from(total == u16::MAX));
                out.extend_from_slice(&u32::from(total).to_be_bytes());
            }
        }
    }
}

/// What a run file says, in either width.
#[derive(Clone)]
pub struct RunFile {
    /// The table has 2^k cells.
    pub k: u8,
    /// The number, key and total of each cell that is not empty, in ascending order.
    pub cells: Vec<(u16, u16, u16)>,
    /// The kind, key and amount of each operation.
    pub operations: Vec<(u8, u16, u16)>,
    pub schedule: Vec<u8>,
    /// How many entries a schedule record has, at most 255.
    pub entries_per_record: usize,
}

impl RunFile {
    /// A table with no cell filled, no operations and no schedule.
    pub fn empty(k: u8) -> RunFile {
        RunFile {
            k,
            cells: Vec::new(),
            operations: Vec::new(),
            schedule: Vec::new(),
            entries_per_record: 255,
        }
    }

    pub fn bytes(&self, width: Width) -> Vec<u8> {
        let mut out = width.mark().to_vec();
        out.push(self.k);
        for &(number, key, total) in &self.cells {
            out.extend_from_slice(b"CL");
            out.extend_from_slice(&number.to_be_bytes());
            out.extend_from_slice(&key.to_be_bytes());
            width.total(&mut out, total);
        }
        for &(kind, key, amount) in &self.operations {
            out.extend_from_slice(b"OP");
            out.push(kind);
            out.extend_from_slice(&key.to_be_bytes());
            width.total(&mut out, amount);
        }
        for entries in self.schedule.chunks(self.entries_per_record) {
            out.extend_from_slice(b"SC");
            out.push(entries.len() as u8);
            out.extend_from_slice(entries);
        }
        out
    }
}
