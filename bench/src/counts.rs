//! The instruction counts that callgrind wrote, one for each counted call.

use std::collections::VecDeque;

/// The called function's name and the count of each call, in the order of the calls.
pub struct Counts(VecDeque<(String, u64)>);

impl Counts {
    /// Reads a file of callgrind: at each return from a counted function it has
    /// a part with a line that names the function and a line with the total.
    pub fn read(text: &str) -> Counts {
        let mut counts = VecDeque::new();
        let mut name = None;
        for line in text.lines() {
            if let Some(trigger) = line.strip_prefix("desc: Trigger: ") {
                // The last part is written at the program's end and counts nothing.
                name = trigger.strip_prefix("--dump-after=");
            } else if let Some(total) = line.strip_prefix("totals: ") {
                let total = total.parse().expect("a total is a number");
                counts.extend(name.take().map(|name| (name.to_string(), total)));
            }
        }
        Counts(counts)
    }

    /// The count of the following call, which must be one of this function.
    pub fn following(&mut self, function: &str) -> u64 {
        match self.0.pop_front() {
            Some((name, count)) if name == function && count > 0 => count,
            other => panic!("a count of {function} was expected and not {other:?}"),
        }
    }

    /// Whether all counts have been taken.
    pub fn is_empty(&self) -> bool {
        self.0.is_empty()
    }
}
