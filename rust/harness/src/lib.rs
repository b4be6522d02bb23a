//! What the comparisons of the proved library with the published Rust share.

pub mod boundary;
pub mod bus;
pub mod cases;
pub mod chip;
pub mod damage;
pub mod drive_points;
pub mod driver;
pub mod generate;
pub mod images;
pub mod lists;
pub mod merges;
pub mod oracle;
pub mod pages;
pub mod patterns;
pub mod random;
pub mod ranges;
pub mod raw;
pub mod records;
pub mod registers;
pub mod settings;
pub mod triggers;
pub mod trim;
pub mod uploads;
pub mod whole;

use std::fs;
use std::path::Path;
use yambelugo::{Call, Gain, Timebase};

/// Every gain, by code.
pub const GAINS: [Gain; 4] = [Gain::Full, Gain::Half, Gain::Quarter, Gain::Eighth];

/// Every timebase, by code.
pub const TIMEBASES: [Timebase; 4] =
    [Timebase::Ms5_44, Timebase::Ms21_76, Timebase::Ms43_52, Timebase::Ms87_04];

/// Prints how many cases were compared; fails unless it is the number that there are.
pub fn compared(what: &str, cases: usize, wanted: usize) {
    println!("{what}: {cases} cases compared");
    assert_eq!(cases, wanted, "{what}: number of cases");
}

/// The list of these calls.
pub fn encoded(calls: &[Call]) -> Vec<u8> {
    let records: Vec<_> = calls.iter().map(|call| call.encode()).collect();
    records.into_flattened()
}

/// The text of a file of the repository.
pub fn text(path: &str) -> String {
    let root = Path::new(env!("CARGO_MANIFEST_DIR")).join("../..");
    fs::read_to_string(root.join(path)).unwrap_or_else(|error| panic!("{path}: {error}"))
}
