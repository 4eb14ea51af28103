//! What is measured: one call of one side, on slices that were allocated before.
//!
//! Each measured call has a function of its own, named `counted_..`, by which
//! callgrind knows what to count: bench/run says that name to it.

use std::hint::black_box;

use calls::Proved;
use model::{Loaded, Outcome, Word, Written};

use crate::cases::Case;

/// No text is longer, of either width: the proved report is never refused with
/// it. A line of a wide cell has at most 35 bytes and one of an operation 66, so
/// that 4,096 and 64 of them, the log and the counts have at most 146,688.
const LONGEST_TEXT: usize = 147_456;

/// A file and all that is lent to the calls. Both sides get the same slices.
pub struct Work<'a> {
    pub file: &'a [u8],
    /// What is narrowed; nothing where the file is run.
    pub wide: &'a [u8],
    pub slices: Slices,
    /// The slice that the proved report and the converters write into.
    pub out: Vec<u8>,
    /// What the Rust report appends to; it has room for the longest text.
    pub text: Vec<u8>,
}

/// What is lent to a reader and a run, of the width that the file has.
#[derive(PartialEq)]
pub enum Slices {
    Narrow(Lent<u32>),
    Wide(Lent<u64>),
}

#[derive(PartialEq)]
pub struct Lent<W> {
    cells: Vec<W>,
    operations: Vec<u64>,
    schedule: Vec<u8>,
    answers: Vec<W>,
    log: Vec<u8>,
}

/// What `load` returned and, where it accepted the file, what `run` did.
pub type Ran = (Loaded, Option<Outcome>);

type Load<W> = fn(&[u8], &mut [W], &mut [u64], &mut [u8]) -> Loaded;
type Run<W> = fn(&mut [W], &[u64], &[u8], &mut [W], &mut [u8]) -> Outcome;

impl<W: Proved> Lent<W> {
    /// The slices hold what no file of the bench leaves in them, so that what is
    /// not written shows.
    fn new() -> Lent<W> {
        let word = W::from(0x5555_5555_u32);
        Lent {
            cells: vec![word; 4_096],
            operations: vec![0x5555_5555_5555_5555; 64],
            schedule: vec![0x55; 16_384],
            answers: vec![word; 64],
            log: vec![0x55; 64],
        }
    }

    /// The run is lent exactly what was read.
    #[inline(always)]
    fn load_and_run(&mut self, file: &[u8], load: Load<W>, run: Run<W>) -> Ran {
        let loaded = load(
            file,
            &mut self.cells,
            &mut self.operations,
            &mut self.schedule,
        );
        let outcome = (loaded.number == 0).then(|| {
            run(
                &mut self.cells[..loaded.cells],
                &self.operations[..loaded.operations],
                &self.schedule[..loaded.entries],
                &mut self.answers,
                &mut self.log,
            )
        });
        (loaded, outcome)
    }

    #[inline(always)]
    fn proved(&mut self, file: &[u8]) -> Ran {
        self.load_and_run(file, calls::load, calls::run)
    }

    #[inline(always)]
    fn rust(&mut self, file: &[u8]) -> Ran {
        self.load_and_run(file, model::load, model::run)
    }
}

impl<'a> Work<'a> {
    pub fn new(case: &'a Case) -> Work<'a> {
        let file = &case.file;
        let slices = match file.starts_with(u64::MARK) {
            true => Slices::Wide(Lent::new()),
            false => Slices::Narrow(Lent::new()),
        };
        Work {
            file,
            wide: case.wide.as_deref().unwrap_or_default(),
            slices,
            out: vec![0x55; LONGEST_TEXT],
            text: Vec::with_capacity(LONGEST_TEXT),
        }
    }

    pub fn proved_load_and_run(&mut self) -> Ran {
        match &mut self.slices {
            Slices::Narrow(lent) => lent.proved(self.file),
            Slices::Wide(lent) => lent.proved(self.file),
        }
    }

    pub fn rust_load_and_run(&mut self) -> Ran {
        match &mut self.slices {
            Slices::Narrow(lent) => lent.rust(self.file),
            Slices::Wide(lent) => lent.rust(self.file),
        }
    }

    pub fn proved_report(&mut self) -> &[u8] {
        let written = calls::report(self.file, &mut self.out);
        &self.out[..written.length]
    }

    pub fn rust_report(&mut self) -> &[u8] {
        self.text.clear();
        model::report(self.file, &mut self.text);
        &self.text
    }

    pub fn proved_widen(&mut self) -> Written {
        calls::convert::<u32>(self.file, &mut self.out)
    }

    pub fn rust_widen(&mut self) -> Written {
        model::widen(self.file, &mut self.out)
    }

    pub fn proved_narrow(&mut self) -> Written {
        calls::convert::<u64>(self.wide, &mut self.out)
    }

    pub fn rust_narrow(&mut self) -> Written {
        model::narrow(self.wide, &mut self.out)
    }
}

/// One of the functions below.
pub type Counted = extern "C" fn(&mut Work);

/// A stage of the work, with its function for each side.
pub struct Stage {
    pub name: &'static str,
    pub proved: Counted,
    pub rust: Counted,
    /// The names of the two, by which their counts are told apart.
    pub proved_name: &'static str,
    pub rust_name: &'static str,
}

/// The stages of a file that is run.
pub static RUNS: [Stage; 2] = [
    Stage {
        name: "load and run",
        proved: counted_proved_run,
        rust: counted_rust_run,
        proved_name: "counted_proved_run",
        rust_name: "counted_rust_run",
    },
    Stage {
        name: "report",
        proved: counted_proved_report,
        rust: counted_rust_report,
        proved_name: "counted_proved_report",
        rust_name: "counted_rust_report",
    },
];

/// The stages of two files that are converted, one each way.
pub static CONVERSIONS: [Stage; 2] = [
    Stage {
        name: "widen",
        proved: counted_proved_widen,
        rust: counted_rust_widen,
        proved_name: "counted_proved_widen",
        rust_name: "counted_rust_widen",
    },
    Stage {
        name: "narrow",
        proved: counted_proved_narrow,
        rust: counted_rust_narrow,
        proved_name: "counted_proved_narrow",
        rust_name: "counted_rust_narrow",
    },
];

#[no_mangle]
#[inline(never)]
pub extern "C" fn counted_proved_run(work: &mut Work) {
    black_box(work.proved_load_and_run());
}

#[no_mangle]
#[inline(never)]
pub extern "C" fn counted_rust_run(work: &mut Work) {
    black_box(work.rust_load_and_run());
}

#[no_mangle]
#[inline(never)]
pub extern "C" fn counted_proved_report(work: &mut Work) {
    black_box(work.proved_report());
}

#[no_mangle]
#[inline(never)]
pub extern "C" fn counted_rust_report(work: &mut Work) {
    black_box(work.rust_report());
}

#[no_mangle]
#[inline(never)]
pub extern "C" fn counted_proved_widen(work: &mut Work) {
    black_box(work.proved_widen());
}

#[no_mangle]
#[inline(never)]
pub extern "C" fn counted_rust_widen(work: &mut Work) {
    black_box(work.rust_widen());
}

#[no_mangle]
#[inline(never)]
pub extern "C" fn counted_proved_narrow(work: &mut Work) {
    black_box(work.proved_narrow());
}

#[no_mangle]
#[inline(never)]
pub extern "C" fn counted_rust_narrow(work: &mut Work) {
    black_box(work.rust_narrow());
}
