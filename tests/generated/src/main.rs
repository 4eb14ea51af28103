//! Puts generated run files through the programs and through the second model,
//! and compares what they write: `generated ROOMRUN [SEED [COUNT]]`. The
//! converters roomwiden and roomnarrow are beside ROOMRUN. There are COUNT narrow
//! files, half as many wide ones, and some more that are made for the converters.
//!
//! What must have occurred at least once, and did not, has failed; a count far
//! below the usual one leaves such gaps.

use std::path::Path;
use std::process::ExitCode;
use std::sync::atomic::{AtomicUsize, Ordering};
use std::time::Instant;

use generated::compare::{Programs, Tally, Worker};
use generated::files::Stream;
use generated::width::Width;

const WORKERS: usize = 2;
const SEED: u64 = 1;
const COUNT: usize = 20_000;

fn main() -> ExitCode {
    let arguments: Vec<String> = std::env::args().skip(1).collect();
    let number = |at: usize, default: u64| match arguments.get(at) {
        Some(text) => text.parse().ok(),
        None => Some(default),
    };
    let (Some(program), Some(seed), Some(count), None) = (
        arguments.first(),
        number(1, SEED),
        number(2, COUNT as u64),
        arguments.get(3),
    ) else {
        eprintln!("usage: generated ROOMRUN [SEED [COUNT]]");
        return ExitCode::from(2);
    };
    let programs = Programs::beside(Path::new(program));
    for program in programs.all() {
        if !program.is_file() {
            eprintln!("generated: {} is not there", program.display());
            return ExitCode::from(2);
        }
    }
    let begun = Instant::now();
    let mut tally = compared(&programs, seed, count as usize);
    let (items, never) = tally.coverage.print();
    tally.passed += items - never.len();
    tally.failed += never.len();
    for item in never {
        println!("FAILED never occurred: {item}");
    }
    println!(
        "generated: {} files (seed {seed}; {} wide; {} accepted, {} refused; {} converted, {} of them and back; \
         {} differ), {} checks of demands ({} at every prefix), {items} items of coverage, {} s",
        tally.files,
        tally.wide,
        tally.accepted,
        tally.refused,
        tally.converted,
        tally.back,
        tally.differ,
        tally.checks,
        tally.prefixes,
        begun.elapsed().as_secs()
    );
    println!("{} passed, {} failed", tally.passed, tally.failed);
    ExitCode::from(u8::from(tally.failed > 0))
}

/// Compares all files, each worker taking the next that no other has.
fn compared(programs: &Programs, seed: u64, count: usize) -> Tally {
    let next = AtomicUsize::new(0);
    let streams = [
        (Stream::Every, Width::Narrow, count),
        (Stream::Every, Width::Wide, count / 2),
        (Stream::Conversions, Width::Narrow, count / 50),
        (Stream::Conversions, Width::Wide, count / 5),
    ];
    let work = |number: usize| {
        let name = format!("generated-{}-{number}.run", std::process::id());
        let mut worker = Worker {
            programs,
            seed,
            input: std::env::temp_dir().join(name),
            tally: Tally::default(),
        };
        // One after the other, those of a stream from index 0 on.
        'files: loop {
            let mut index = next.fetch_add(1, Ordering::Relaxed);
            for (stream, width, files) in streams {
                if index < files {
                    worker.check(stream, width, index);
                    continue 'files;
                }
                index -= files;
            }
            break;
        }
        let _ = std::fs::remove_file(&worker.input);
        worker.tally
    };
    let mut tally = Tally::default();
    std::thread::scope(|scope| {
        let work = &work;
        let workers: Vec<_> = (0..WORKERS)
            .map(|number| scope.spawn(move || work(number)))
            .collect();
        for worker in workers {
            tally.merge(worker.join().expect("a worker ends by itself"));
        }
    });
    tally
}
