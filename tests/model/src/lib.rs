//! A second model of the shared room table, written from its specification and
//! not from the proved code. It answers what a run, a run file or a listing must
//! give, so that another program can be compared with it. It is written once for
//! both widths of words, which `Word` tells apart.
//!
//! The names are the usual ones of the field; where the specification has a
//! word of its own, the comment at the definition gives it.

mod convert;
pub mod demands;
mod file;
mod list;
mod refuse;
mod report;
mod run;
mod step;
mod word;

pub use convert::{narrow, widen, Written};
pub use file::{load, Loaded};
pub use list::list;
pub use refuse::refusal;
pub use report::report;
pub use run::{run, stops, Outcome};
pub use word::{home, sum, Word};
