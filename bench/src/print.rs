//! The tables, as plain text of at most 110 columns.

use crate::cases::Case;
use crate::check::outcome;
use crate::growth::Series;
use crate::measure::{Figures, Pair};
use crate::work::RUNS;

/// What the files are, so that the figures below can be judged.
pub fn files(name: &str, cases: &[Case]) {
    let title = capital(name);
    let comes = match cases.iter().any(|case| case.wide.is_some()) {
        true => "what comes of both conversions",
        false => "first line of the text",
    };
    println!("\n{title:<36}{:>8}   {comes}", "bytes");
    for case in cases {
        let bytes = grouped(case.file.len() as f64);
        println!("{:<36}{bytes:>8}   {}", case.name, outcome(case));
    }
}

/// The figures of one stage of each file.
pub fn figures_of_files(name: &str, cases: &[Case], figures: &[[Figures; 2]]) {
    for (number, stage) in cases[0].stages().iter().enumerate() {
        println!("\n{}: {}", capital(name), stage.name);
        println!("{:<36}{}", "", head(figures));
        for (case, figures) in cases.iter().zip(figures) {
            println!("{:<36}{}", case.name, columns(figures[number]));
        }
    }
}

/// Files of a width with their figures.
type Measured<'a> = (&'a [Case], &'a [[Figures; 2]]);

/// What the wide file costs the proved side, divided by what the narrow file of
/// the same name costs it.
pub fn wide_by_narrow(narrow: Measured, wide: Measured) {
    println!("\nThe proved side, wide divided by narrow, where both are the same job");
    let [run, report] = RUNS.each_ref().map(|stage| stage.name);
    println!("{:<36}{run:>20}{report:>20}", "");
    println!(
        "{:<36}{:>10}{:>10}{:>10}{:>10}",
        "", "ns", "instr.", "ns", "instr."
    );
    for (case, figures) in wide.0.iter().zip(wide.1) {
        let twin = narrow.0.iter().position(|twin| twin.name == case.name);
        let Some(twin) = twin.map(|number| &narrow.1[number]) else {
            continue;
        };
        print!("{:<36}", case.name);
        for (wide, narrow) in figures.iter().zip(twin) {
            let times = wide.nanoseconds.proved / narrow.nanoseconds.proved;
            print!("{times:>10.2}");
            match (wide.instructions, narrow.instructions) {
                (Some(wide), Some(narrow)) => print!("{:>10.2}", wide.proved / narrow.proved),
                _ => print!("{:>10}", "-"),
            }
        }
        println!();
    }
}

/// A name as a title begins.
fn capital(name: &str) -> String {
    name[..1].to_uppercase() + &name[1..]
}

/// The figures of each stage of each point, with the instructions that every
/// further cell, operation or entry costs from one point to the following.
pub fn series(series: &Series, figures: &[[Figures; 2]]) {
    println!("\nGrowth. {}", series.name);
    let stages = series.points[0].case.stages();
    for (number, stage) in stages.iter().enumerate() {
        let (above, head_of_slope) = match has_instructions(figures) {
            true => (format!("instructions per further {}", series.unit), SLOPE),
            false => (String::new(), ""),
        };
        let title = format!("{:<20}{above:>82}", stage.name);
        println!("{}", title.trim_end());
        println!("{:>10}{}{head_of_slope}", series.units, head(figures));
        let mut before = None;
        for (point, figures) in series.points.iter().zip(figures) {
            let figures = figures[number];
            let now = figures.instructions.map(|pair| (point.size, pair));
            let size = grouped(point.size as f64);
            println!("{size:>10}{}{}", columns(figures), slope(before, now));
            before = now;
        }
    }
}

/// A line for each stage of a case: the stage, what the case belongs to, its
/// name, and the instructions of both sides.
pub fn lines(group: &str, case: &Case, instructions: Option<&[Pair; 2]>) {
    let instructions = instructions.expect("every case has its counts");
    for (stage, pair) in case.stages().iter().zip(instructions) {
        let (name, proved, rust) = (&case.name, pair.proved, pair.rust);
        println!("{}\t{group}\t{name}\t{proved}\t{rust}", stage.name);
    }
}

/// The instructions for each of what came to a size and its counts.
fn slope(before: Option<(usize, Pair)>, now: Option<(usize, Pair)>) -> String {
    let (Some((less, from)), Some((more, to))) = (before, now) else {
        return String::new();
    };
    let added = (more - less) as f64;
    let proved = (to.proved - from.proved) / added;
    let rust = (to.rust - from.rust) / added;
    format!("{proved:>12.1}{rust:>12.1}")
}

const TIMES: &str = "   proved ns     Rust ns   ratio";
const TIMES_AND_COUNTS: &str =
    "   proved ns     Rust ns   ratio  proved instr.  Rust instr.   ratio";
const SLOPE: &str = "      proved        Rust";

/// What stands above the columns.
fn head(figures: &[[Figures; 2]]) -> &'static str {
    match has_instructions(figures) {
        true => TIMES_AND_COUNTS,
        false => TIMES,
    }
}

fn has_instructions(figures: &[[Figures; 2]]) -> bool {
    let mut all = figures.iter().flatten();
    all.any(|figures| figures.instructions.is_some())
}

fn columns(figures: Figures) -> String {
    let times = three(figures.nanoseconds, 12, 12);
    match figures.instructions {
        Some(instructions) => times + &three(instructions, 15, 13),
        None => times,
    }
}

/// The proved figure, the Rust figure and the ratio of the first to the second.
fn three(pair: Pair, first: usize, second: usize) -> String {
    let (proved, rust) = (grouped(pair.proved), grouped(pair.rust));
    format!("{proved:>first$}{rust:>second$}{:>8.2}", pair.ratio())
}

/// A whole number with a comma before every three digits.
fn grouped(number: f64) -> String {
    let digits = format!("{number:.0}");
    let mut out = String::new();
    for (place, digit) in digits.chars().enumerate() {
        if place > 0 && (digits.len() - place) % 3 == 0 {
            out.push(',');
        }
        out.push(digit);
    }
    out
}
