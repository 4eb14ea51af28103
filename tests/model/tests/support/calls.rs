//! A call of `run` with all that is lent to it.

use model::{run, Outcome, Word};

/// What the lent answers and log hold before the call, so that what a run
/// writes and what it leaves alone can both be seen.
pub const OLD_ANSWER: u32 = 0xDEAD_BEEF;
pub const OLD_LOG: u8 = 0xEE;

#[derive(Clone, Debug, PartialEq)]
pub struct Call<W> {
    pub cells: Vec<W>,
    pub operations: Vec<u64>,
    pub schedule: Vec<u8>,
    pub answers: Vec<W>,
    pub log: Vec<u8>,
}

impl<W: Word> Call<W> {
    /// Answers and log are lent longer than the operations need.
    pub fn new(cells: Vec<W>, operations: &[u64], schedule: &[u8]) -> Call<W> {
        Call {
            cells,
            operations: operations.to_vec(),
            schedule: schedule.to_vec(),
            answers: vec![W::from(OLD_ANSWER); operations.len() + 3],
            log: vec![OLD_LOG; operations.len() + 3],
        }
    }

    pub fn run(&mut self) -> Outcome {
        run(
            &mut self.cells,
            &self.operations,
            &self.schedule,
            &mut self.answers,
            &mut self.log,
        )
    }
}
