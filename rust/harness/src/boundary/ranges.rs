//! Calls of the functions that lead from a register's value back to settings: numbers only.

use super::choices::Choices;
use super::functions::Function::{self, *};
use super::functions::NOTHING;
use super::hands::Hands;
use crate::raw::ffi;
use std::ops::RangeInclusive;

/// Period words at the ends of the bands and next to them: some of one frequency, of two, and of none.
const WORDS: [u16; 20] = [
    0, 1, 731, 732, 733, 837, 2499, 2500, 2501, 4411, 14999, 15000, 15001, 29999, 30000, 30001,
    31250, 32767, 32768, 65535,
];

pub fn call(function: Function, choices: &mut Choices, hands: &mut Hands) {
    match function {
        da728x_voltage_settings => voltage(choices, hands),
        da728x_current_settings => current(choices, hands),
        da728x_frequency_settings => frequency(choices, hands),
        _ => unreachable!("{} is of no value", function.name()),
    }
}

fn voltage(choices: &mut Choices, hands: &mut Hands) {
    let byte = choices.random().near(&[0, 1, 2, 106, 127, 128, 253, 254, 255]);
    let told = hands
        .call(da728x_voltage_settings, choices, [], |[]| ffi::da728x_voltage_settings(byte).into());
    assert_ne!(told, 0, "byte {byte}");
    judge(da728x_voltage_settings, told, 0..=5990, 24, hands);
}

fn current(choices: &mut Choices, hands: &mut Hands) {
    let imax = choices.random().near(&[0, 1, 15, 18, 30, 31, 32, 33, 63, 64, 128, 255]);
    let told = hands
        .call(da728x_current_settings, choices, [], |[]| ffi::da728x_current_settings(imax).into());
    assert_eq!(told == 0, imax > 31, "IMAX {imax}");
    judge(da728x_current_settings, told, 29..=252, 8, hands);
}

fn frequency(choices: &mut Choices, hands: &mut Hands) {
    let word = match choices.below(3) {
        0 => choices.below(65536) as u16,
        1 => 700 + choices.below(2000) as u16,
        _ => choices.pick(&WORDS),
    };
    let mode = choices.random().near(&[0, 0, 1, 2, 3, 255]);
    let told = hands.call(da728x_frequency_settings, choices, [], |[]| {
        ffi::da728x_frequency_settings(word, mode).into()
    });
    let (words, band) = if mode == 0 { (2500..=15000, 50..=300) } else { (732..=30000, 25..=1024) };
    assert!(told == 0 || words.contains(&word), "word {word}, driving mode {mode}");
    let last = ffi::da728x_frequency_settings(word, 2);
    assert!(mode == 0 || told == last.into(), "word {word}, driving mode {mode}");
    judge(da728x_frequency_settings, told, band, 2, hands);
}

/// Where a range is told, its ends are in order and in the band of what is accepted, and it has at most so many settings.
fn judge(function: Function, told: u64, band: RangeInclusive<u64>, most: usize, hands: &mut Hands) {
    let (least, greatest) = (told & 0xFFFF, told >> 16);
    if told != 0 {
        let range = least..=greatest;
        let whole = band.contains(&least) && band.contains(&greatest);
        assert!(whole && (1..=most).contains(&range.count()), "{} {told:X}", function.name());
    }
    hands.tally.count(function, if told == 0 { NOTHING } else { 0 });
}
