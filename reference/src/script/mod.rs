//! Scripts for the machine: written and performed line by line, so that what comes next can depend on what has been answered.
//!
//! `writer` writes lines, `plan` knows the calls of a session that keeps to the rules, `damage` how a call can go wrong, `driver` makes
//! sessions of both, `rare` makes calls that damage makes too seldom, `noise` calls with any numbers; `tally` counts answers, and `reach`
//! knows which each call can get; `cases`, `dealings`, `determinants`, `lines`, `records`, `small` and `windows` have the parts of the stored
//! script.

pub mod cases;
pub mod damage;
pub mod dealings;
pub mod determinants;
pub mod driver;
pub mod lines;
pub mod noise;
pub mod plan;
pub mod random;
pub mod rare;
pub mod reach;
pub mod records;
pub mod small;
pub mod tally;
pub mod windows;
pub mod writer;
