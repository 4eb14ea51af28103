//! That a case is what it claims to be, and that both sides do the same on it.

use model::Written;

use crate::cases::Case;
use crate::work::Work;

/// Says what is wrong with a case, if anything is. It makes every call once, so
/// that nothing which only a first call does is measured later.
pub fn check(case: &Case) -> Result<(), String> {
    match &case.wide {
        None => check_run(case),
        Some(wide) => check_conversions(case, wide),
    }
}

fn check_run(case: &Case) -> Result<(), String> {
    let mut proved = Work::new(case);
    let mut rust = Work::new(case);
    let same_return = proved.proved_load_and_run() == rust.rust_load_and_run();
    let same_slices = proved.slices == rust.slices;
    let text = rust.rust_report();
    if !same_return || !same_slices || proved.proved_report() != text {
        return Err(format!("{}: the two sides differ", case.name));
    }
    if !text.starts_with(case.begins.as_bytes()) {
        let first = first_line(text);
        return Err(format!("{}: the text begins '{first}'", case.name));
    }
    Ok(())
}

type Convert<'a> = fn(&mut Work<'a>) -> Written;

/// Either file must become the other, unless it is refused.
fn check_conversions(case: &Case, wide: &[u8]) -> Result<(), String> {
    let mut proved = Work::new(case);
    let mut rust = Work::new(case);
    let ways: [(Convert, Convert, &[u8]); 2] = [
        (Work::proved_widen, Work::rust_widen, wide),
        (Work::proved_narrow, Work::rust_narrow, &case.file),
    ];
    for (by_proved, by_rust, result) in ways {
        let written = by_proved(&mut proved);
        if written != by_rust(&mut rust) || proved.out != rust.out {
            return Err(format!("{}: the two sides differ", case.name));
        }
        if written.number == 0 && proved.out[..written.length] != *result {
            return Err(format!(
                "{}: one file is not what the other becomes",
                case.name
            ));
        }
    }
    let outcome = outcome(case);
    if outcome != case.begins {
        return Err(format!("{}: {outcome}", case.name));
    }
    Ok(())
}

/// The first line of the text of a file, or what comes of both conversions.
pub fn outcome(case: &Case) -> String {
    let mut work = Work::new(case);
    match case.wide {
        None => first_line(work.rust_report()),
        Some(_) => {
            let (widened, narrowed) = (work.rust_widen(), work.rust_narrow());
            format!("widened {}, narrowed {}", came(widened), came(narrowed))
        }
    }
}

fn came(written: Written) -> String {
    match written.number {
        0 => format!("to {} bytes", written.length),
        number => format!("refused {number} at {}", written.place),
    }
}

fn first_line(text: &[u8]) -> String {
    let text = String::from_utf8_lossy(text);
    text.lines().next().unwrap_or_default().to_string()
}
