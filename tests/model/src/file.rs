//! The reader of run files. It checks the whole file first and writes
//! afterwards, so that a refusal alters nothing.

use crate::refuse::{MOST_ENTRIES, MOST_OPERATIONS};
use crate::word::Word;

const MOST_CELLS: usize = 4_096;
pub(crate) const MOST_BYTES: usize = 65_535;

/// The lengths of the records, mark included. A cell's and an operation's end
/// with a total or an amount, whose bytes the width says; a record of entries
/// has as many bytes more as its count says.
pub(crate) const TABLE_BYTES: usize = 3;
pub(crate) const CELL_BYTES: usize = 6;
pub(crate) const OPERATION_BYTES: usize = 5;
const ENTRIES_BYTES: usize = 3;

/// What the reader returns: the number and place of a refusal, or 0 and 0 and
/// how many elements of each slice it wrote.
#[derive(Debug, Clone, Copy, PartialEq, Eq)]
pub struct Loaded {
    pub number: u32,
    pub place: usize,
    pub cells: usize,
    /// Operations ("rows").
    pub operations: usize,
    pub entries: usize,
}

/// The sort of a record, in the order the file has them.
#[derive(Clone, Copy, PartialEq, PartialOrd)]
enum Sort {
    Table,
    Cell,
    Operation,
    Entries,
}

/// What the records read so far have said.
pub(crate) struct Shape {
    /// The sort of the record before; nothing at the start of the file.
    before: Option<Sort>,
    c: usize,
    named: usize,
    /// The lowest number the next named cell may have.
    lowest: usize,
    operations: usize,
    entries: usize,
}

/// Reads a run file into the lent slices, or refuses and alters nothing.
pub fn load<W: Word>(
    file: &[u8],
    cells: &mut [W],
    operations: &mut [u64],
    schedule: &mut [u8],
) -> Loaded {
    let short = cells.len() < MOST_CELLS
        || operations.len() < MOST_OPERATIONS
        || schedule.len() < MOST_ENTRIES;
    if short {
        return refused(3, 0);
    }
    match check::<W>(file) {
        Ok(shape) => {
            fill(file, &shape, cells, operations, schedule);
            Loaded {
                number: 0,
                place: 0,
                cells: shape.c,
                operations: shape.operations,
                entries: shape.entries,
            }
        }
        Err((number, place)) => refused(number, place),
    }
}

fn refused(number: u32, place: usize) -> Loaded {
    Loaded {
        number,
        place,
        cells: 0,
        operations: 0,
        entries: 0,
    }
}

/// Takes the records in file order up to the end, or to the first faulty one.
/// Gives the number and place of a refusal, all but that of a lent slice.
pub(crate) fn check<W: Word>(file: &[u8]) -> Result<Shape, (u32, usize)> {
    if file.len() > MOST_BYTES {
        return Err((12, 0));
    }
    let mut shape = Shape {
        before: None,
        c: 0,
        named: 0,
        lowest: 0,
        operations: 0,
        entries: 0,
    };
    let mut at = 0;
    // The first record is looked for even in an empty file.
    loop {
        at += shape
            .record::<W>(&file[at..])
            .map_err(|number| (number, at))?;
        if at == file.len() {
            return Ok(shape);
        }
    }
}

impl Shape {
    /// Checks the record that `rest` opens with and gives its length, or the
    /// number of the refusal.
    fn record<W: Word>(&mut self, rest: &[u8]) -> Result<usize, u32> {
        let sort = match rest.get(..2).ok_or(10_u32)? {
            mark if mark == W::MARK => Sort::Table,
            b"CL" => Sort::Cell,
            b"OP" => Sort::Operation,
            b"SC" => Sort::Entries,
            _ => return Err(9),
        };
        if !self.in_order(sort) {
            return Err(9);
        }
        let length = match sort {
            Sort::Table => TABLE_BYTES,
            Sort::Cell => CELL_BYTES + W::TOTAL_BYTES,
            Sort::Operation => OPERATION_BYTES + W::TOTAL_BYTES,
            Sort::Entries => ENTRIES_BYTES + usize::from(*rest.get(2).ok_or(10_u32)?),
        };
        self.body::<W>(sort, rest.get(2..length).ok_or(10_u32)?)?;
        self.before = Some(sort);
        Ok(length)
    }

    /// One table record comes first; the others may repeat but not go back.
    fn in_order(&self, sort: Sort) -> bool {
        match self.before {
            None => sort == Sort::Table,
            Some(before) => sort != Sort::Table && before <= sort,
        }
    }

    fn body<W: Word>(&mut self, sort: Sort, body: &[u8]) -> Result<(), u32> {
        match sort {
            Sort::Table => match body[0] {
                k @ 0..=12 => self.c = 1 << k,
                _ => return Err(11),
            },
            Sort::Cell => {
                let number = usize::from(pair(body, 0));
                let named = number >= self.lowest && number < self.c && pair(body, 2) != 0;
                if !named || !W::is_total_bytes(&body[4..]) {
                    return Err(11);
                }
                self.lowest = number + 1;
                self.named += 1;
            }
            Sort::Operation => {
                if !W::is_total_bytes(&body[3..]) {
                    return Err(11);
                }
                if self.operations == MOST_OPERATIONS {
                    return Err(2);
                }
                self.operations += 1;
            }
            Sort::Entries => {
                let count = body.len() - 1;
                if count == 0 {
                    return Err(11);
                }
                if self.entries + count > MOST_ENTRIES {
                    return Err(2);
                }
                self.entries += count;
            }
        }
        Ok(())
    }
}

/// A number of two bytes, high byte first.
fn pair(bytes: &[u8], at: usize) -> u16 {
    u16::from_be_bytes([bytes[at], bytes[at + 1]])
}

/// The records of each sort behind the first, together as they stand in the
/// file.
pub(crate) struct Sections<'a> {
    pub(crate) cells: &'a [u8],
    pub(crate) operations: &'a [u8],
    pub(crate) entries: &'a [u8],
}

impl Shape {
    /// Takes apart the file that had this shape.
    pub(crate) fn sections<'a, W: Word>(&self, file: &'a [u8]) -> Sections<'a> {
        let rest = &file[TABLE_BYTES..];
        let (cells, rest) = rest.split_at(self.named * (CELL_BYTES + W::TOTAL_BYTES));
        let (operations, entries) =
            rest.split_at(self.operations * (OPERATION_BYTES + W::TOTAL_BYTES));
        Sections {
            cells,
            operations,
            entries,
        }
    }
}

/// Writes what a file that passed the check says.
fn fill<W: Word>(
    file: &[u8],
    shape: &Shape,
    cells: &mut [W],
    operations: &mut [u64],
    schedule: &mut [u8],
) {
    let cell_bytes = CELL_BYTES + W::TOTAL_BYTES;
    let operation_bytes = OPERATION_BYTES + W::TOTAL_BYTES;
    let sections = shape.sections::<W>(file);
    cells[..shape.c].fill(W::EMPTY);
    for record in sections.cells.chunks_exact(cell_bytes) {
        let total = W::total_of_bytes(&record[CELL_BYTES..]);
        cells[usize::from(pair(record, 2))] = W::pack(pair(record, 4), total);
    }
    for (operation, record) in operations
        .iter_mut()
        .zip(sections.operations.chunks_exact(operation_bytes))
    {
        let amount: u64 = W::total_of_bytes(&record[OPERATION_BYTES..]).into();
        let kind_and_key = u64::from(record[2]) << 16 | u64::from(pair(record, 3));
        *operation = kind_and_key << W::TOTAL_BITS | amount;
    }
    let mut rest = sections.entries;
    let mut written = 0;
    while !rest.is_empty() {
        let count = usize::from(rest[2]);
        let (record, after) = rest.split_at(ENTRIES_BYTES + count);
        schedule[written..written + count].copy_from_slice(&record[ENTRIES_BYTES..]);
        written += count;
        rest = after;
    }
}
