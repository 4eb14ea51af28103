//! One file put through the programs and through the model.

use std::fs::{self, File};
use std::io;
use std::panic::{catch_unwind, AssertUnwindSafe};
use std::path::{Path, PathBuf};
use std::process::{Command, Stdio};

use model::Word;

use crate::classify::start;
use crate::converted::{self, Converted};
use crate::coverage::Coverage;
use crate::files::{case_of, conversion_case, Case, Stream};
use crate::observe;
use crate::width::{Width, WIDTHS};

/// How many failures a worker shows and keeps; the rest is only counted.
const SHOWN: usize = 20;

/// Of how many files one is handed to the converter of the other width, and one
/// is converted back: to start a program costs more than all else. Neither number
/// has a divisor in common with how many files make a round of the families.
const OTHER: usize = 7;
const BACK: usize = 5;

/// Where the files that failed are kept, in the current folder.
const KEPT: &str = "target/generated";

#[derive(Default)]
pub struct Tally {
    pub files: usize,
    pub wide: usize,
    pub accepted: usize,
    pub refused: usize,
    /// Texts and results that differ from the model's.
    pub differ: usize,
    /// Files that a converter took, and those of them that came back.
    pub converted: usize,
    pub back: usize,
    pub checks: usize,
    pub prefixes: usize,
    pub passed: usize,
    pub failed: usize,
    pub coverage: Coverage,
}

impl Tally {
    pub fn merge(&mut self, other: Tally) {
        self.files += other.files;
        self.wide += other.wide;
        self.accepted += other.accepted;
        self.refused += other.refused;
        self.differ += other.differ;
        self.converted += other.converted;
        self.back += other.back;
        self.checks += other.checks;
        self.prefixes += other.prefixes;
        self.passed += other.passed;
        self.failed += other.failed;
        self.coverage.merge(other.coverage);
    }
}

/// Where the programs are.
pub struct Programs {
    pub run: PathBuf,
    pub widen: PathBuf,
    pub narrow: PathBuf,
}

impl Programs {
    /// The converters stand beside roomrun.
    pub fn beside(run: &Path) -> Programs {
        Programs {
            run: run.into(),
            widen: run.with_file_name("roomwiden"),
            narrow: run.with_file_name("roomnarrow"),
        }
    }

    pub fn all(&self) -> [&Path; 3] {
        [&self.run, &self.widen, &self.narrow]
    }

    /// The one that takes files of this width and writes the other.
    fn converter(&self, width: Width) -> &Path {
        match width {
            Width::Narrow => &self.widen,
            Width::Wide => &self.narrow,
        }
    }
}

pub struct Worker<'a> {
    pub programs: &'a Programs,
    pub seed: u64,
    /// Holds the program's input: with a pipe, a program that answers before
    /// it has read all could wait for ever, and this one with it.
    pub input: PathBuf,
    pub tally: Tally,
}

impl Worker<'_> {
    /// What a program writes for the bytes of the input.
    fn output(&self, program: &Path) -> io::Result<Vec<u8>> {
        let program = Command::new(program)
            .stdin(File::open(&self.input)?)
            .stderr(Stdio::inherit())
            .output()?;
        match program.status.success() {
            true => Ok(program.stdout),
            false => Err(io::Error::other(program.status.to_string())),
        }
    }

    pub fn check(&mut self, stream: Stream, width: Width, index: usize) {
        let case = match stream {
            Stream::Every => case_of(width, self.seed, index),
            Stream::Conversions => conversion_case(width, self.seed, index),
        };
        self.tally.files += 1;
        self.tally.wide += usize::from(width == Width::Wide);
        // A slip of the model fails one file and not the rest.
        let checked = catch_unwind(AssertUnwindSafe(|| {
            // The file stays there for all three programs.
            fs::write(&self.input, &case.file).expect("the input can be written");
            self.compare(index, &case);
            self.convert(index, &case);
        }));
        if checked.is_err() {
            self.count(Err("  panicked".into()), index, &case);
        }
    }

    fn compare(&mut self, index: usize, case: &Case) {
        let mut expected = Vec::new();
        model::report(&case.file, &mut expected);
        let text = self.output(&self.programs.run);
        let result = match &text {
            Ok(text) if *text == expected => Ok(()),
            Ok(text) => Err(difference(text, &expected)),
            Err(what) => Err(format!("  the program failed: {what}")),
        };
        self.tally.differ += usize::from(result.is_err());
        self.count(result, index, case);
        let text = text.unwrap_or_default();
        if expected.starts_with(b"rows ") {
            self.tally.accepted += 1;
            match Width::of(&case.file) {
                Width::Narrow => self.accepted::<u32>(&text, index, case),
                Width::Wide => self.accepted::<u64>(&text, index, case),
            }
        } else {
            self.tally.refused += 1;
            observe::refused(case, &text, &mut self.tally.coverage);
        }
        if let Some((name, beginning)) = &case.fixed {
            if text.starts_with(beginning.as_bytes()) {
                self.tally.coverage.note(case.width, "fixed", name, ' ');
            }
        }
    }

    /// Puts the file through the converter of its own width and, now and then,
    /// through the other. Where its own takes it, the other must now and then
    /// give the file back.
    fn convert(&mut self, index: usize, case: &Case) {
        let own = Width::of(&case.file);
        for width in WIDTHS {
            if width != own && !index.is_multiple_of(OTHER) {
                continue;
            }
            let program = self.programs.converter(width);
            let converted = Converted::of(width, &case.file);
            let output = self.output(program);
            let result = match &output {
                Ok(bytes) if *bytes == converted.output => Ok(()),
                Ok(bytes) => Err(converted.difference(program, bytes)),
                Err(what) => Err(format!("  {}: {what}", program.display())),
            };
            self.tally.differ += usize::from(result.is_err());
            self.count(result, index, case);
            let output = output.unwrap_or_default();
            let coverage = &mut self.tally.coverage;
            if width != own {
                converted::by_the_other(case, &output, coverage);
            } else if converted.accepted {
                self.tally.converted += 1;
                converted::accepted(case, coverage);
                if index.is_multiple_of(BACK) {
                    self.convert_back(&output, index, case);
                }
            } else {
                converted::refused(case, &output, coverage);
            }
        }
    }

    fn convert_back(&mut self, output: &[u8], index: usize, case: &Case) {
        let own = Width::of(&case.file);
        let other = match own {
            Width::Narrow => Width::Wide,
            Width::Wide => Width::Narrow,
        };
        let back = fs::write(&self.input, output)
            .and_then(|()| self.output(self.programs.converter(other)));
        let result = match back {
            Ok(back) if back == case.file => Ok(()),
            Ok(_) => Err("  converted there and back it is another file".into()),
            Err(what) => Err(format!("  converted back: {what}")),
        };
        if result.is_ok() {
            self.tally.back += 1;
            let coverage = &mut self.tally.coverage;
            coverage.note(own, "converted", "and back", ' ');
        }
        self.count(result, index, case);
        // The other converter has the file to itself again.
        fs::write(&self.input, &case.file).expect("the input can be written");
    }

    /// What the text of an accepted file shows is noted, and the model's own run
    /// of it is held against the demands.
    fn accepted<W: Word>(&mut self, text: &[u8], index: usize, case: &Case) {
        let start = start::<W>(&case.file);
        observe::accepted(case, &start, text, &mut self.tally.coverage);
        let (cells, operations, schedule) = (&start.cells, &start.operations, &start.schedule);
        let totals = model::demands::totals(cells, operations, schedule);
        if totals == Ok(true) {
            let coverage = &mut self.tally.coverage;
            coverage.note(case.width, "accepted with", "totals rule", ' ');
        }
        let totals = totals
            .map(|_| ())
            .map_err(|what| format!("  totals: {what}"));
        let short = schedule.len() * cells.len() <= 4_096;
        let order = match short {
            true => model::demands::linearizable_at_every_prefix(cells, operations, schedule),
            false => model::demands::linearizable(cells, operations, schedule),
        };
        let order = order.map_err(|what| format!("  order: {what}"));
        self.tally.prefixes += usize::from(short);
        for result in [totals, order] {
            self.tally.checks += 1;
            self.count(result, index, case);
        }
    }

    fn count(&mut self, result: Result<(), String>, index: usize, case: &Case) {
        let Err(what) = result else {
            self.tally.passed += 1;
            return;
        };
        self.tally.failed += 1;
        if self.tally.failed <= SHOWN {
            // Files of each stream and width are numbered by themselves.
            let numbered = format!("{}{}", case.stream.name(), case.width.name());
            let name = numbered.replace(' ', "-");
            let kept = format!("{KEPT}/FAILED-{name}{}-{index}.run", self.seed);
            let written = fs::create_dir_all(KEPT).and_then(|()| fs::write(&kept, &case.file));
            let kept = written.map_or_else(|error| error.to_string(), |()| kept);
            println!(
                "FAILED {numbered}seed {} index {index} ({}): {kept}\n{what}",
                self.seed, case.family
            );
        }
    }
}

/// The first line in which two texts differ.
fn difference(text: &[u8], expected: &[u8]) -> String {
    let line = |text: &[u8], number: usize| match text.split(|&byte| byte == b'\n').nth(number) {
        Some(line) => format!("{:?}", String::from_utf8_lossy(line)),
        None => "nothing".into(),
    };
    let mut number = 0;
    while line(text, number) == line(expected, number) && line(text, number) != "nothing" {
        number += 1;
    }
    format!(
        "  line {number}: the program {}, the model {}",
        line(text, number),
        line(expected, number)
    )
}
