//! The proved functions as a caller in another language has them: through the C
//! boundary, a slice as a pointer and a length. What is returned is handed on as
//! the second model's own types, so that the two can be compared.

pub mod width;

use model::{Loaded, Outcome, Word, Written};

/// What a run returns, as C has it.
#[repr(C)]
pub struct RawOutcome {
    number: u32,
    place: usize,
    done: usize,
    lost: usize,
    idle: usize,
}

/// What a reader returns, as C has it.
#[repr(C)]
pub struct RawLoaded {
    number: u32,
    place: usize,
    cells: usize,
    operations: usize,
    entries: usize,
}

/// What a call that writes bytes returns, as C has it.
#[repr(C)]
pub struct RawWritten {
    number: u32,
    place: usize,
    length: usize,
}

impl RawWritten {
    fn written(self) -> Written {
        Written {
            number: self.number,
            place: self.place,
            length: self.length,
        }
    }
}

/// The run of a width: cells, operations, schedule, answers, log.
pub type RawRun<W> = unsafe extern "C" fn(
    *mut W,
    usize,
    *const u64,
    usize,
    *const u8,
    usize,
    *mut W,
    usize,
    *mut u8,
    usize,
) -> RawOutcome;

/// The reader of a width: file, cells, operations, schedule.
pub type RawLoad<W> = unsafe extern "C" fn(
    *const u8,
    usize,
    *mut W,
    usize,
    *mut u64,
    usize,
    *mut u8,
    usize,
) -> RawLoaded;

/// A call that writes bytes: file, output slice.
pub type RawWrite = unsafe extern "C" fn(*const u8, usize, *mut u8, usize) -> RawWritten;

/// A word for whose width there are a proved run, a proved reader and a proved
/// converter, which takes a file of this width and writes it in the other.
pub trait Proved: Word {
    const RUN: RawRun<Self>;
    const LOAD: RawLoad<Self>;
    const CONVERT: RawWrite;
}

/// Declares the three functions of a width.
macro_rules! proved {
    ($word:ty, $run:ident, $load:ident, $convert:ident) => {
        extern "C" {
            fn $run(
                cells: *mut $word,
                cells_len: usize,
                operations: *const u64,
                operations_len: usize,
                schedule: *const u8,
                schedule_len: usize,
                answers: *mut $word,
                answers_len: usize,
                log: *mut u8,
                log_len: usize,
            ) -> RawOutcome;

            fn $load(
                file: *const u8,
                file_len: usize,
                cells: *mut $word,
                cells_len: usize,
                operations: *mut u64,
                operations_len: usize,
                schedule: *mut u8,
                schedule_len: usize,
            ) -> RawLoaded;

            fn $convert(
                file: *const u8,
                file_len: usize,
                out: *mut u8,
                out_len: usize,
            ) -> RawWritten;
        }

        impl Proved for $word {
            const RUN: RawRun<$word> = $run;
            const LOAD: RawLoad<$word> = $load;
            const CONVERT: RawWrite = $convert;
        }
    };
}

proved!(u32, room_run, room_load, room_widen);
proved!(u64, room_run_wide, room_load_wide, room_narrow);

extern "C" {
    fn room_report(file: *const u8, file_len: usize, out: *mut u8, out_len: usize) -> RawWritten;
}

pub fn run<W: Proved>(
    cells: &mut [W],
    operations: &[u64],
    schedule: &[u8],
    answers: &mut [W],
    log: &mut [u8],
) -> Outcome {
    // Each pointer and length is that of one slice, lent for the call alone.
    let raw = unsafe {
        (W::RUN)(
            cells.as_mut_ptr(),
            cells.len(),
            operations.as_ptr(),
            operations.len(),
            schedule.as_ptr(),
            schedule.len(),
            answers.as_mut_ptr(),
            answers.len(),
            log.as_mut_ptr(),
            log.len(),
        )
    };
    Outcome {
        number: raw.number,
        place: raw.place,
        done: raw.done,
        lost: raw.lost,
        idle: raw.idle,
    }
}

pub fn load<W: Proved>(
    file: &[u8],
    cells: &mut [W],
    operations: &mut [u64],
    schedule: &mut [u8],
) -> Loaded {
    let raw = unsafe {
        (W::LOAD)(
            file.as_ptr(),
            file.len(),
            cells.as_mut_ptr(),
            cells.len(),
            operations.as_mut_ptr(),
            operations.len(),
            schedule.as_mut_ptr(),
            schedule.len(),
        )
    };
    Loaded {
        number: raw.number,
        place: raw.place,
        cells: raw.cells,
        operations: raw.operations,
        entries: raw.entries,
    }
}

/// The report takes a file of either width.
pub fn report(file: &[u8], out: &mut [u8]) -> Written {
    write(room_report, file, out)
}

/// The converter that takes files of this width.
pub fn convert<W: Proved>(file: &[u8], out: &mut [u8]) -> Written {
    write(W::CONVERT, file, out)
}

fn write(call: RawWrite, file: &[u8], out: &mut [u8]) -> Written {
    let raw = unsafe { call(file.as_ptr(), file.len(), out.as_mut_ptr(), out.len()) };
    raw.written()
}
