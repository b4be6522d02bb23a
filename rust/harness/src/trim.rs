//! TRIM4's resistance code by the text of the published `match`, read here line by line.
//!
//! The published code looks its rows up by a wrapped product and so reaches 7 of them; document 01
//! looks them up by whole ohms.

use crate::text;
use std::ops::RangeInclusive;
use std::sync::OnceLock;

/// The whole ohms of a row, and its code for each column.
pub type Row = (RangeInclusive<u16>, [u8; 10]);

/// The rows in the written order; the last one has no upper end.
pub fn rows() -> &'static [Row] {
    static ROWS: OnceLock<Vec<Row>> = OnceLock::new();
    ROWS.get_or_init(|| {
        let text = text("rust/oracle/src/lib.rs");
        let (_, rest) = text.split_once("let res_trim: u8 = match").unwrap();
        let (_, body) = rest.split_once('{').unwrap();
        let (body, _) = body.split_once("};").unwrap();
        let mut rows: Vec<Row> = Vec::new();
        for line in body.lines().map(str::trim).filter(|line| !line.is_empty()) {
            let (ohms, codes) = line.split_once(" => [").unwrap();
            let (codes, _) = codes.split_once("][l_idx],").unwrap();
            let codes: Vec<u8> = codes.split(", ").map(|code| code.parse().unwrap()).collect();
            let ohms = match ohms.split_once("..=") {
                Some((first, last)) => first.parse().unwrap()..=last.parse().unwrap(),
                None => {
                    assert_eq!(ohms, "_");
                    rows.last().unwrap().0.end() + 1..=u16::MAX
                }
            };
            rows.push((ohms, codes.try_into().unwrap()));
        }
        rows
    })
}

/// "mOhm / 1000, and column min(9, max(0, L − 13) / 25)".
pub fn resistance_code(impedance: u16, inductance: u16) -> u8 {
    let column = usize::from(inductance.max(13) - 13) / 25;
    let (_, codes) = rows().iter().find(|(ohms, _)| ohms.contains(&(impedance / 1000))).unwrap();
    codes[column.min(9)]
}
