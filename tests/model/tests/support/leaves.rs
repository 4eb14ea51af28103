//! What an accepted call must leave.

use super::calls::{Call, OLD_ANSWER, OLD_LOG};
use model::{Outcome, Word};

/// Runs the call and compares all of it: the counts done, lost and idle, the
/// answers, the log and the cells, and that nothing else was written.
pub fn assert_leaves<W: Word>(
    mut call: Call<W>,
    [done, lost, idle]: [usize; 3],
    answers: &[W],
    log: &[u8],
    cells: &[W],
) {
    let mut expected = call.clone();
    expected.cells = cells.to_vec();
    expected.answers.fill(W::from(OLD_ANSWER));
    expected.answers[..answers.len()].copy_from_slice(answers);
    expected.log.fill(OLD_LOG);
    expected.log[..log.len()].copy_from_slice(log);
    let outcome = Outcome {
        number: 0,
        place: 0,
        done,
        lost,
        idle,
    };
    assert_eq!(call.run(), outcome);
    assert_eq!(call, expected);
}
