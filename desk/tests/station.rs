//! Station files: what is read, each kind of fault, the engine's refusals, random files, the trees of formulas, and
//! the examples.

#[path = "station/examples.rs"]
mod examples;
#[path = "station/faults.rs"]
mod faults;
#[path = "station/random.rs"]
mod random;
#[path = "station/reading.rs"]
mod reading;
#[path = "station/refusals.rs"]
mod refusals;
#[path = "station/trees.rs"]
mod trees;
#[path = "station/writer.rs"]
mod writer;

use desk::case::Case;
use desk::station::{read, Station};

/// The station of a file that is in order.
fn station(file: &str) -> Station {
    read(file.as_bytes()).unwrap_or_else(|fault| panic!("{}", fault.shown("good.station", file.as_bytes())))
}

/// What is said of a file that is refused, by the reading or by the engine.
fn refused(file: &str) -> String {
    Case::of(file.as_bytes()).expect_err(file).shown("x.station", file.as_bytes())
}
