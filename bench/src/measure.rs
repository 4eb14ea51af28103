//! Nanoseconds and instructions of a call.

use std::time::{Duration, Instant};

use crate::cases::Case;
use crate::counts::Counts;
use crate::work::{Counted, Stage, Work};

/// All cases are timed this often, one after the other: a slow spell of the
/// machine then meets a case in some passes and not in all.
const PASSES: usize = 8;

/// A pass times a call in this many rounds. The best round of all is the time of
/// the call: whatever else the machine does can only add to it.
const ROUNDS: usize = 5;

/// A round repeats the call until about this much time has gone by.
const ROUND: Duration = Duration::from_millis(3);

/// A figure for the proved side and for the Rust side.
#[derive(Clone, Copy)]
pub struct Pair {
    pub proved: f64,
    pub rust: f64,
}

impl Pair {
    /// More than any time.
    const NONE: Pair = Pair {
        proved: f64::INFINITY,
        rust: f64::INFINITY,
    };

    pub fn ratio(self) -> f64 {
        self.proved / self.rust
    }
}

/// The figures of one stage of a case.
#[derive(Clone, Copy)]
pub struct Figures {
    pub nanoseconds: Pair,
    /// Nothing where callgrind was not there to count.
    pub instructions: Option<Pair>,
}

/// Makes each call of a case once, in the order in which the counts are read.
pub fn call_once(case: &Case) {
    let mut work = Work::new(case);
    for stage in case.stages() {
        (stage.proved)(&mut work);
        (stage.rust)(&mut work);
    }
}

/// The figures of the stages of each case. The counts are those of `call_once`
/// on the same cases.
pub fn figures(cases: &[&Case], counts: Option<Counts>) -> Vec<[Figures; 2]> {
    let times = nanoseconds(cases);
    let counted = counts.map(|counts| instructions(cases, counts));
    let of_case = |number: usize| {
        [0, 1].map(|stage| Figures {
            nanoseconds: times[number][stage],
            instructions: counted.as_ref().map(|counted| counted[number][stage]),
        })
    };
    (0..cases.len()).map(of_case).collect()
}

/// The instructions of the stages of each case, from the counts of `call_once`
/// on the same cases.
pub fn instructions(cases: &[&Case], mut counts: Counts) -> Vec<[Pair; 2]> {
    let mut of_stage = |stage: &Stage| Pair {
        proved: counts.following(stage.proved_name) as f64,
        rust: counts.following(stage.rust_name) as f64,
    };
    let of_case = |case: &&Case| case.stages().each_ref().map(&mut of_stage);
    let counted = cases.iter().map(of_case).collect();
    assert!(counts.is_empty(), "more calls were counted than made here");
    counted
}

fn nanoseconds(cases: &[&Case]) -> Vec<[Pair; 2]> {
    let mut best = vec![[Pair::NONE; 2]; cases.len()];
    for _ in 0..PASSES {
        for (case, best) in cases.iter().zip(&mut best) {
            let mut work = Work::new(case);
            for (stage, best) in case.stages().iter().zip(best) {
                pass(stage, &mut work, best);
            }
        }
    }
    best
}

/// The sides take turns, so that a change of the machine's speed meets both.
fn pass(stage: &Stage, work: &mut Work, best: &mut Pair) {
    let proved_repeats = repeats(stage.proved, work);
    let rust_repeats = repeats(stage.rust, work);
    for _ in 0..ROUNDS {
        let proved = round(stage.proved, work, proved_repeats);
        let rust = round(stage.rust, work, rust_repeats);
        best.proved = best.proved.min(proved);
        best.rust = best.rust.min(rust);
    }
}

/// How many calls fill a round.
fn repeats(call: Counted, work: &mut Work) -> usize {
    let begin = Instant::now();
    let mut made = 0;
    while begin.elapsed() < ROUND {
        call(work);
        made += 1;
    }
    made
}

/// The nanoseconds of one call, over a round.
fn round(call: Counted, work: &mut Work, repeats: usize) -> f64 {
    let begin = Instant::now();
    for _ in 0..repeats {
        call(work);
    }
    begin.elapsed().as_nanos() as f64 / repeats as f64
}
