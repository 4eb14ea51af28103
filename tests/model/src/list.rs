//! The text of a run or of a refusal.

use crate::run::Outcome;
use crate::step::{key_of, kind_number};
use crate::word::Word;

/// The names of the kinds of operation, from kind 1.
const KINDS: [&str; 5] = ["find", "insert", "update", "add", "remove"];

/// The names of the answers, from code 0.
const ANSWERS: [&str; 10] = [
    "unfinished",
    "found",
    "inserted",
    "present",
    "changed",
    "removed",
    "absent",
    "full",
    "capped",
    "held",
];

/// Appends the text of a run, from its outcome and the slices as the run left
/// them, or the one line of a refusal.
pub fn list<W: Word>(
    outcome: &Outcome,
    cells: &[W],
    operations: &[u64],
    answers: &[W],
    log: &[u8],
    out: &mut Vec<u8>,
) {
    if outcome.number != 0 {
        field(out, "refused", outcome.number as usize);
        field(out, " at", outcome.place);
        out.push(b'\n');
        return;
    }
    field(out, "rows", operations.len());
    field(out, " done", outcome.done);
    field(out, " lost", outcome.lost);
    field(out, " idle", outcome.idle);
    out.push(b'\n');
    for (number, (&operation, &answer)) in operations.iter().zip(answers).enumerate() {
        list_operation(number, operation, answer, out);
    }
    out.extend_from_slice(b"log");
    for &number in &log[..outcome.done] {
        field(out, "", usize::from(number));
    }
    out.push(b'\n');
    for (number, &word) in cells.iter().enumerate() {
        if word != W::EMPTY {
            list_cell(number, word, out);
        }
    }
}

fn list_operation<W: Word>(number: usize, operation: u64, answer: W, out: &mut Vec<u8>) {
    field(out, "row", number);
    word(out, KINDS[kind_number::<W>(operation) as usize - 1]);
    field(out, "", usize::from(key_of::<W>(operation)));
    total::<W>(out, W::amount(operation));
    word(out, ANSWERS[answer.code() as usize]);
    total::<W>(out, answer.total());
    out.push(b'\n');
}

fn list_cell<W: Word>(number: usize, cell: W, out: &mut Vec<u8>) {
    field(out, "cell", number);
    if cell == W::TOMBSTONE {
        word(out, "gone");
    } else {
        field(out, "", usize::from(cell.key()));
        total::<W>(out, cell.total());
    }
    out.push(b'\n');
}

/// A space and a word.
fn word(out: &mut Vec<u8>, text: &str) {
    out.push(b' ');
    out.extend_from_slice(text.as_bytes());
}

/// A space and a total or an amount. Only where a flag says that it is
/// saturated is its number worth telling too.
fn total<W: Word>(out: &mut Vec<u8>, total: W::Total) {
    let number = W::number(total) as usize;
    match (W::is_saturated(total), W::FLAGGED) {
        (false, _) => field(out, "", number),
        (true, false) => word(out, "pinned"),
        (true, true) => field(out, " atleast", number),
    }
}

/// A name, a space and a number in decimal digits.
fn field(out: &mut Vec<u8>, name: &str, number: usize) {
    // The digits come lowest first; a number of 64 bits has at most twenty.
    let mut digits = [0; 20];
    let mut first = digits.len();
    let mut rest = number;
    loop {
        first -= 1;
        digits[first] = b'0' + (rest % 10) as u8;
        rest /= 10;
        if rest == 0 {
            break;
        }
    }
    out.extend_from_slice(name.as_bytes());
    out.push(b' ');
    out.extend_from_slice(&digits[first..]);
}
