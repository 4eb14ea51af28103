//! Times the compiled proved model and the second model on the same run files,
//! in one process. bench/run is the command that does all of it.

mod cases;
mod check;
mod contention;
mod conversions;
mod counts;
mod growth;
mod measure;
mod print;
mod runfile;
mod tables;
mod work;

use std::process::exit;

use cases::Case;
use counts::Counts;
use growth::Series;
use measure::{call_once, figures, instructions, Figures, Pair};
use runfile::Width;

const USAGE: &str = "usage: bench calls|tables|instructions all|files|growth [COUNTS]
calls          makes every call once, for callgrind to count
tables         times every call and prints the tables, with the counts in the file COUNTS of callgrind
instructions   prints the counts alone, a line for each figure, as bench/instructions.txt has them";

fn main() {
    let words: Vec<String> = std::env::args().skip(1).collect();
    let words: Vec<&str> = words.iter().map(String::as_str).collect();
    let (task, part, counts) = match words[..] {
        [task, part] => (task, part, None),
        [task, part, counts] => (task, part, Some(counts)),
        _ => fail(USAGE),
    };
    let (files, series) = match part {
        "all" => (files(), series()),
        "files" => (files(), Vec::new()),
        "growth" => (Vec::new(), series()),
        _ => fail(USAGE),
    };
    let cases = files.iter().flat_map(|(_, cases)| cases);
    let points = series.iter().flat_map(|series| &series.points);
    let all: Vec<&Case> = cases.chain(points.map(|point| &point.case)).collect();
    for case in &all {
        check::check(case).unwrap_or_else(|message| fail(&message));
    }
    match task {
        "calls" => all.into_iter().for_each(call_once),
        "tables" => print(&files, &series, &figures(&all, counts.map(read))),
        "instructions" => {
            let counts = read(counts.unwrap_or_else(|| fail(USAGE)));
            lines(&files, &series, &instructions(&all, counts));
        }
        _ => fail(USAGE),
    }
}

/// The files of a width or those that are converted, and what they are called
/// together. The same is measured of each.
type Files = (&'static str, Vec<Case>);

fn files() -> Vec<Files> {
    vec![
        ("files", cases::cases(Width::Narrow)),
        ("wide files", cases::cases(Width::Wide)),
        ("converted files", conversions::cases()),
    ]
}

fn series() -> Vec<Series> {
    let mut series = growth::series();
    series.extend(conversions::series());
    series
}

fn fail(message: &str) -> ! {
    eprintln!("{message}");
    exit(1)
}

fn read(path: &str) -> Counts {
    match std::fs::read_to_string(path) {
        Ok(text) => Counts::read(&text),
        Err(error) => fail(&format!("{path}: {error}")),
    }
}

/// The figures are those of the files of each width, and then those of the
/// series in turn.
fn print(files: &[Files], series: &[Series], figures: &[[Figures; 2]]) {
    let mut rest = figures;
    let mut following = |count| {
        let (these, after) = rest.split_at(count);
        rest = after;
        these
    };
    let of_files: Vec<_> = files
        .iter()
        .map(|(name, cases)| (*name, cases.as_slice(), following(cases.len())))
        .collect();
    for &(name, cases, _) in &of_files {
        print::files(name, cases);
    }
    for &(name, cases, figures) in &of_files {
        print::figures_of_files(name, cases, figures);
    }
    if let [(_, narrow, of_narrow), (_, wide, of_wide), _] = of_files[..] {
        print::wide_by_narrow((narrow, of_narrow), (wide, of_wide));
    }
    for series in series {
        print::series(series, following(series.points.len()));
    }
}

/// The same order as in `print`. A line is the figure, the series or which
/// files, the file or its size, and the instructions of both sides.
fn lines(files: &[Files], series: &[Series], instructions: &[[Pair; 2]]) {
    let mut rest = instructions.iter();
    for (name, cases) in files {
        for case in cases {
            print::lines(name, case, rest.next());
        }
    }
    for series in series {
        for point in &series.points {
            print::lines(series.name, &point.case, rest.next());
        }
    }
}
