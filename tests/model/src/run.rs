//! A whole run: the refusals, then the schedule, one step for each entry.

use crate::refuse::{refusal, MOST_OPERATIONS};
use crate::step::{answer, Operation, Progress, Turn};
use crate::word::{Homes, Word};

/// What a run returns. A refused run has its number and place and counts of 0;
/// an accepted one has number 0 and place 0.
#[derive(Debug, Clone, Copy, PartialEq, Eq)]
pub struct Outcome {
    pub number: u32,
    pub place: usize,
    /// Operations finished.
    pub done: usize,
    /// Swaps that found another word than the one they expected.
    pub lost: usize,
    /// Entries that named a finished operation.
    pub idle: usize,
}

impl Outcome {
    pub(crate) fn refused(number: u32, place: usize) -> Outcome {
        Outcome {
            number,
            place,
            done: 0,
            lost: 0,
            idle: 0,
        }
    }
}

/// A run under way, apart from what is lent to it.
pub(crate) struct State<W: Word> {
    progress: [Option<Progress<W>>; MOST_OPERATIONS],
    /// The set of finished operations, one bit each.
    finished: u64,
    lost: usize,
    idle: usize,
}

impl<W: Word> State<W> {
    /// The state before the first entry of an accepted call; every answer says
    /// unfinished.
    pub(crate) fn start(c: usize, operations: &[u64], answers: &mut [W]) -> State<W> {
        let homes = Homes::of(c);
        let mut progress = [None; MOST_OPERATIONS];
        for (slot, &word) in progress.iter_mut().zip(operations) {
            *slot = Operation::decode(word).map(|operation| Progress::start(operation, homes));
        }
        answers[..operations.len()].fill(answer::unfinished());
        State {
            progress,
            finished: 0,
            lost: 0,
            idle: 0,
        }
    }

    /// Takes one schedule entry. The linearization order ("log") gains an
    /// operation at the step that finishes it.
    pub(crate) fn entry(&mut self, entry: u8, cells: &mut [W], answers: &mut [W], log: &mut [u8]) {
        let row = usize::from(entry);
        let bit = 1 << row;
        if self.finished & bit != 0 {
            self.idle += 1;
            return;
        }
        let progress = self.progress[row]
            .as_mut()
            .expect("refusals 5 and 6 leave only entries that name an operation");
        match progress.step(cells) {
            Turn::Passed | Turn::Held => {}
            Turn::Lost => self.lost += 1,
            Turn::Finished(answer) => {
                answers[row] = answer;
                log[self.done()] = entry;
                self.finished |= bit;
            }
        }
    }

    fn done(&self) -> usize {
        self.finished.count_ones() as usize
    }

    pub(crate) fn outcome(&self) -> Outcome {
        Outcome {
            number: 0,
            place: 0,
            done: self.done(),
            lost: self.lost,
            idle: self.idle,
        }
    }
}

/// Runs the schedule on the cells, or refuses and alters nothing. One answer
/// for each operation ("row") and one log byte for each finished operation are
/// written; what is lent beyond them keeps its contents.
pub fn run<W: Word>(
    cells: &mut [W],
    operations: &[u64],
    schedule: &[u8],
    answers: &mut [W],
    log: &mut [u8],
) -> Outcome {
    if let Some((number, place)) = refusal(cells, operations, schedule, answers.len(), log.len()) {
        return Outcome::refused(number, place);
    }
    let mut state = State::start(cells.len(), operations, answers);
    for &entry in schedule {
        state.entry(entry, cells, answers, log);
    }
    state.outcome()
}

/// A run stopped after every entry, and before the first: what it would return
/// there, and the cells, the answers and the log that stand in the slices. A
/// refused run has no stops.
pub fn stops<W: Word>(
    cells: &mut [W],
    operations: &[u64],
    schedule: &[u8],
    answers: &mut [W],
    log: &mut [u8],
) -> Vec<(Outcome, Vec<W>, Vec<W>, Vec<u8>)> {
    let mut stops = Vec::new();
    if refusal(cells, operations, schedule, answers.len(), log.len()).is_none() {
        let mut state = State::start(cells.len(), operations, answers);
        for k in 0..=schedule.len() {
            stops.push((
                state.outcome(),
                cells.to_vec(),
                answers.to_vec(),
                log.to_vec(),
            ));
            if let Some(&entry) = schedule.get(k) {
                state.entry(entry, cells, answers, log);
            }
        }
    }
    stops
}
