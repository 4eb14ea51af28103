//! From the bytes of a run file to the text that roomrun writes.

use crate::file::load;
use crate::list::list;
use crate::run::{run, Outcome};
use crate::word::Word;

/// Appends what the program roomrun writes for the bytes it reads. A file that
/// opens with the wide mark is a wide one, any other is read as a narrow one.
pub fn report(file: &[u8], out: &mut Vec<u8>) {
    if file.starts_with(u64::MARK) {
        report_in::<u64>(file, out);
    } else {
        report_in::<u32>(file, out);
    }
}

fn report_in<W: Word>(file: &[u8], out: &mut Vec<u8>) {
    let mut cells = [W::EMPTY; 4_096];
    let mut operations = [0; 64];
    let mut schedule = [0; 16_384];
    let loaded = load(file, &mut cells, &mut operations, &mut schedule);
    if loaded.number != 0 {
        let refused = Outcome::refused(loaded.number, loaded.place);
        return list::<W>(&refused, &[], &[], &[], &[], out);
    }
    // The slices are as long as the most that can be read; the run is lent
    // only what was.
    let cells = &mut cells[..loaded.cells];
    let operations = &operations[..loaded.operations];
    let schedule = &schedule[..loaded.entries];
    let mut answers = [W::EMPTY; 64];
    let mut log = [0; 64];
    let outcome = run(cells, operations, schedule, &mut answers, &mut log);
    list(&outcome, cells, operations, &answers, &log, out);
}
