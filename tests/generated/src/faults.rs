//! Faults that the reader finds: each is one faulty record, put among records
//! that have no fault.

use crate::plan::{cell, entries, operation, table, Cell, Operation, Records, MOST_OPERATIONS};
use crate::random::Random;
use crate::spoil::Place;
use crate::width::{Width, FLAG};

/// A faulty record, and the positions where it is the fault that is meant.
pub struct Fault {
    pub lowest: usize,
    pub highest: usize,
    pub record: Vec<u8>,
    pub then: Then,
}

/// What becomes of the record that stood at the position.
#[derive(Clone, Copy, PartialEq)]
pub enum Then {
    Follows,
    IsReplaced,
    /// The file ends with the faulty record.
    Ends,
}

pub fn fault((lowest, highest): (usize, usize), record: Vec<u8>, then: Then) -> Fault {
    Fault {
        lowest,
        highest,
        record,
        then,
    }
}

impl Fault {
    pub fn put(&self, at: usize, list: &mut Vec<Vec<u8>>) {
        match self.then {
            Then::Follows => list.insert(at, self.record.clone()),
            Then::IsReplaced => list[at] = self.record.clone(),
            Then::Ends => {
                list.truncate(at);
                list.push(self.record.clone());
            }
        }
    }
}

/// What the faults of a file are made of.
pub struct Parts<'a> {
    pub width: Width,
    pub k: u8,
    pub records: &'a Records,
    pub operation: Operation,
}

impl Parts<'_> {
    pub fn end(&self) -> usize {
        self.records.list.len()
    }

    /// A record of a cell, of the sound operation with its own amount or
    /// another, and of the table, each in the file's width.
    pub fn cell(&self, at: u16, held: Cell) -> Vec<u8> {
        cell(self.width, at, held)
    }

    pub fn operation(&self) -> Vec<u8> {
        operation(self.width, self.operation)
    }

    pub fn operation_of(&self, amount: u64) -> Vec<u8> {
        let row = Operation {
            amount,
            ..self.operation
        };
        operation(self.width, row)
    }

    pub fn table(&self, k: u8) -> Vec<u8> {
        table(self.width, k)
    }

    /// Behind the TB or any CL.
    pub fn among_cells(&self) -> (usize, usize) {
        (1, self.records.operations)
    }

    /// Before any OP or behind the last.
    pub fn among_operations(&self) -> (usize, usize) {
        (self.records.operations, self.records.entries)
    }

    /// Behind the last OP or any SC.
    pub fn among_entries(&self) -> (usize, usize) {
        (self.records.entries, self.end())
    }

    /// Where an OP is out of order: behind an SC.
    pub fn behind_entries(&self) -> (usize, usize) {
        (self.records.entries + 1, self.end())
    }

    /// Where a CL is out of order: behind an OP.
    pub fn behind_operations(&self) -> (usize, usize) {
        (self.records.operations + 1, self.end())
    }

    /// The cell number in the CL at a position.
    fn number(&self, at: usize) -> u16 {
        let record = &self.records.list[at];
        u16::from_be_bytes([record[2], record[3]])
    }

    /// Every way in which a record can be what this row of the refusal table
    /// is for. Rows are named by number, the two of 10 as `10m` and `10b`. The
    /// place is for faults that depend on the record before.
    pub fn faults(&self, row: &str, place: Place, random: &mut Random) -> Vec<Fault> {
        match row {
            "10m" => self.marks_cut(random),
            "9" => self.marks_wrong(random),
            "10b" => self.bodies_cut(random),
            "11" => self.bodies_wrong(place, random),
            _ => self.too_many(random),
        }
    }

    fn marks_cut(&self, random: &mut Random) -> Vec<Fault> {
        let byte = vec![random.pick(b"TCOSB\0\xFF")];
        vec![
            fault((0, 0), Vec::new(), Then::Ends),
            fault((0, 1), byte.clone(), Then::Ends),
            fault(self.among_cells(), byte.clone(), Then::Ends),
            fault(self.among_entries(), byte, Then::Ends),
        ]
    }

    fn marks_wrong(&self, random: &mut Random) -> Vec<Fault> {
        let other = self.width.other_mark();
        let unknown = random.pick(&[other, b"BT", b"tb", b"CO", b"LC", b"OC", b"SP", b"\0\0"]);
        let mut record = unknown.to_vec();
        record.extend((0..random.below(7)).map(|_| random.byte()));
        let held = self.cell(0, Cell { key: 1, total: 2 });
        let row = self.operation();
        let then = Then::Follows;
        let mut faults = vec![
            fault((0, self.end()), record, then),
            fault(self.among_cells(), self.table(self.k), then),
            fault(self.among_entries(), self.table(self.k), then),
            fault(self.behind_operations(), held.clone(), then),
            fault(self.behind_entries(), row.clone(), then),
            fault((0, 0), held, then),
            fault((0, 0), row, then),
            fault((0, 0), entries(&[0]), then),
        ];
        // Whole, and not first, where it would make another width of the file.
        if self.width == Width::Wide {
            let narrow = table(Width::Narrow, self.k);
            faults.push(fault((1, self.end()), narrow, then));
        }
        faults
    }

    fn bodies_cut(&self, random: &mut Random) -> Vec<Fault> {
        let cut = |record: Vec<u8>, random: &mut Random| {
            let length = random.between(2, record.len() - 1);
            record[..length].to_vec()
        };
        let held = cut(self.cell(0, Cell { key: 1, total: 2 }), random);
        let row = cut(self.operation(), random);
        let count = random.between(1, 255);
        let mut rows = entries(&vec![0; count]);
        rows.truncate(3 + random.below(count));
        let then = Then::Ends;
        vec![
            fault((0, 0), self.width.mark().to_vec(), then),
            fault(self.among_cells(), held, then),
            fault((1, self.records.entries), row, then),
            fault(self.among_cells(), b"SC".to_vec(), then),
            fault(self.among_entries(), b"SC".to_vec(), then),
            fault(self.among_cells(), rows.clone(), then),
            fault(self.among_entries(), rows, then),
        ]
    }

    fn bodies_wrong(&self, place: Place, random: &mut Random) -> Vec<Fault> {
        let c = 1 << self.k;
        let beyond = random.pick(&[c, c + 1, 65_535, 4_096.max(c)]);
        let sound = Cell { key: 9, total: 2 };
        let keyless = Cell { key: 0, total: 2 };
        let then = Then::Follows;
        let size = |k| fault((0, 0), self.table(k), Then::IsReplaced);
        let mut faults = vec![
            size(13),
            size(16),
            size(63),
            size(64),
            size(255),
            fault(self.among_cells(), self.cell(beyond, sound), then),
            fault((1, 1), self.cell(0, keyless), then),
            fault(self.among_entries(), entries(&[]), then),
        ];
        // Behind a CL, if there is one.
        if self.records.operations > 1 {
            let at = place.position(2, self.records.operations, random);
            let before = self.number(at - 1);
            let lower = random.between(0, usize::from(before.max(1)) - 1) as u16;
            let behind = |number, held| fault((at, at), self.cell(number, held), then);
            faults.extend([
                behind(before, sound),
                behind(lower, sound),
                behind((before + 1).min(c - 1), keyless),
            ]);
        }
        if self.width == Width::Wide {
            faults.extend(self.flags_wrong(place, random));
        }
        faults
    }

    /// Flag bytes other than 0 and 1, in a first and a later CL and in an OP.
    fn flags_wrong(&self, place: Place, random: &mut Random) -> Vec<Fault> {
        let mut faults = Vec::new();
        for byte in [2, 255, random.between(3, 254) as u64] {
            let total = byte * FLAG + random.pick(&[0, 7, FLAG - 1]);
            let held = Cell { key: 9, total };
            faults.extend([
                fault((1, 1), self.cell(0, held), Then::Follows),
                fault(
                    self.among_operations(),
                    self.operation_of(total),
                    Then::Follows,
                ),
            ]);
            if self.records.operations > 1 {
                let at = place.position(2, self.records.operations, random);
                let next = (self.number(at - 1) + 1).min((1 << self.k) - 1);
                faults.push(fault((at, at), self.cell(next, held), Then::Follows));
            }
        }
        faults
    }

    /// One operation, or one entry, above what is allowed: for records that
    /// have as many as are. Half of the time another follows.
    fn too_many(&self, random: &mut Random) -> Vec<Fault> {
        let mut record = self.one_more(random);
        let at = self.behind_last(&record);
        if random.percent(50) {
            let again = record.clone();
            record.extend(again);
        }
        vec![fault((at, at), record, Then::Follows)]
    }

    pub fn one_more(&self, random: &mut Random) -> Vec<u8> {
        if self.records.entries - self.records.operations == MOST_OPERATIONS {
            self.operation()
        } else {
            entries(&vec![0; random.between(1, 255)])
        }
    }

    /// The position behind the last record of the same mark, for OP and SC.
    pub fn behind_last(&self, record: &[u8]) -> usize {
        match record.starts_with(b"OP") {
            true => self.records.entries,
            false => self.end(),
        }
    }
}
