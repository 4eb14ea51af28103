//! Run files of one width rewritten in the other. The whole file is judged
//! first, so that a refusal alters nothing.

use crate::file::{check, CELL_BYTES, MOST_BYTES, OPERATION_BYTES, TABLE_BYTES};
use crate::word::Word;

/// What a call that writes bytes returns: the number and place of a refusal, or
/// 0 and 0 and how many bytes it wrote.
#[derive(Debug, Clone, Copy, PartialEq, Eq)]
pub struct Written {
    pub number: u32,
    pub place: usize,
    pub length: usize,
}

/// Writes the wide file that says what a narrow one does ("converting up").
pub fn widen(file: &[u8], out: &mut [u8]) -> Written {
    convert::<u32, u64>(file, out)
}

/// Writes the narrow file that says what a wide one does ("converting down").
pub fn narrow(file: &[u8], out: &mut [u8]) -> Written {
    convert::<u64, u32>(file, out)
}

fn convert<A: Word, B: Word>(file: &[u8], out: &mut [u8]) -> Written {
    match rewrite::<A, B>(file, out) {
        Ok(length) => Written {
            number: 0,
            place: 0,
            length,
        },
        Err((number, place)) => Written {
            number,
            place,
            length: 0,
        },
    }
}

/// Gives the length of the result, or the number and place of a refusal.
fn rewrite<A: Word, B: Word>(file: &[u8], out: &mut [u8]) -> Result<usize, (u32, usize)> {
    let sections = check::<A>(file)?.sections::<A>(file);
    let (cells, operations) = (sections.cells, sections.operations);
    if let Some(offset) = first_unfit::<A, B>(cells, CELL_BYTES) {
        return Err((13, TABLE_BYTES + offset));
    }
    if let Some(offset) = first_unfit::<A, B>(operations, OPERATION_BYTES) {
        return Err((13, TABLE_BYTES + cells.len() + offset));
    }
    let cell_bytes = rewritten_bytes::<A, B>(cells, CELL_BYTES);
    let operation_bytes = rewritten_bytes::<A, B>(operations, OPERATION_BYTES);
    let length = TABLE_BYTES + cell_bytes + operation_bytes + sections.entries.len();
    if length > MOST_BYTES {
        return Err((22, 0));
    }
    let out = out.get_mut(..length).ok_or((3, 0))?;
    let (table, rest) = out.split_at_mut(TABLE_BYTES);
    let (new_cells, rest) = rest.split_at_mut(cell_bytes);
    let (new_operations, new_entries) = rest.split_at_mut(operation_bytes);
    table[..2].copy_from_slice(B::MARK);
    table[2] = file[2];
    rewrite_records::<A, B>(cells, CELL_BYTES, new_cells);
    rewrite_records::<A, B>(operations, OPERATION_BYTES, new_operations);
    // A record of entries is the same in both widths.
    new_entries.copy_from_slice(sections.entries);
    Ok(length)
}

/// The total of the other width that says the same, if there is one.
fn converted<A: Word, B: Word>(bytes: &[u8]) -> Option<B::Total> {
    let total = A::total_of_bytes(bytes);
    B::total_saying(A::number(total), A::is_saturated(total))
}

// What follows is on records of one sort, each of which ends with a total or an
// amount behind `head` other bytes.

/// The offset of the first record whose total the other width does not have.
fn first_unfit<A: Word, B: Word>(records: &[u8], head: usize) -> Option<usize> {
    let length = head + A::TOTAL_BYTES;
    let mut records = records.chunks_exact(length);
    let unfit = records.position(|record| converted::<A, B>(&record[head..]).is_none())?;
    Some(unfit * length)
}

fn rewritten_bytes<A: Word, B: Word>(records: &[u8], head: usize) -> usize {
    records.len() / (head + A::TOTAL_BYTES) * (head + B::TOTAL_BYTES)
}

/// Writes records whose totals the other width has.
fn rewrite_records<A: Word, B: Word>(records: &[u8], head: usize, out: &mut [u8]) {
    let records = records.chunks_exact(head + A::TOTAL_BYTES);
    for (record, new) in records.zip(out.chunks_exact_mut(head + B::TOTAL_BYTES)) {
        let total = converted::<A, B>(&record[head..]).expect("all totals fit");
        new[..head].copy_from_slice(&record[..head]);
        B::write_total(total, &mut new[head..]);
    }
}
