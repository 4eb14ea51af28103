//! Run files of every sort from a seed, and their comparison: what a program writes for each with what
//! the second model says.

mod ceiling;
mod classify;
pub mod compare;
mod conversions;
mod converted;
mod coverage;
mod damage;
mod doubles;
mod faults;
pub mod files;
mod fixed;
mod observe;
mod pairs;
mod plan;
pub mod random;
mod recipes;
mod schedules;
mod sizes;
mod spoil;
mod stops;
mod tables;
mod updates;
pub mod width;
