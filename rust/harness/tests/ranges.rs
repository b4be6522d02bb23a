//! From a register's value back to settings (document 02, CR 12): the wrapper and the C functions on every value, against what the published
//! `configure` writes for every setting (`harness::ranges`), and against the question in the paper's words, put here to all settings by
//! document 01's quotients. And back again: what `configure` and `set_frequency` write comes from their own settings.

use harness::bus::{Exchange, Script};
use harness::compared;
use harness::driver::{Operation, Pair, Value};
use harness::random::Random;
use harness::ranges::{PLACES, Place, Sources, Written};
use harness::raw::ffi::*;
use harness::registers::GROUPS;
use harness::settings::{DRIVINGS, OPERATIONS, Settings, VARIANTS};
use std::collections::BTreeMap;
use std::ops::RangeInclusive;
use yambelugo::{DrivingMode, OperationMode, Variant};
use yambelugo::{current_settings, frequency_settings, voltage_settings};

const TRACK: DrivingMode = DrivingMode::FREQUENCY_TRACK;
const WIDE: DrivingMode = DrivingMode::WIDEBAND;
const CUSTOM: DrivingMode = DrivingMode::CUSTOM_WAVEFORM;

/// The least and the greatest setting, or none.
type Range = Option<RangeInclusive<u16>>;

/// How many values have settings, by how many settings there are.
#[derive(Default)]
struct Answered(BTreeMap<usize, usize>);

impl Answered {
    /// Holds an answer of the wrapper, and the C function's word, to what is wanted: no range's word is 0, and it splits into its ends.
    fn assert(&mut self, told: Range, word: u32, wanted: Range, what: &str) {
        assert_eq!(told, wanted, "{what}");
        let Some(range) = wanted else {
            return assert_eq!(word, 0, "{what}: the word of none");
        };
        assert_ne!(word, 0, "{what}: the word of a range");
        let ends = [word % 65536, word / 65536].map(|end| end as u16);
        assert_eq!(ends, [*range.start(), *range.end()], "{what}: {word:08X}");
        assert!(range.start() <= range.end(), "{what}");
        *self.0.entry(range.len()).or_default() += 1;
    }

    /// There have to be so many values with settings, and so many of each number of settings.
    fn assert_met(self, values: usize, widths: &[(usize, usize)]) {
        assert_eq!(self.0.values().sum::<usize>(), values, "values with settings");
        assert_eq!(Vec::from_iter(self.0), widths, "numbers of settings");
    }
}

/// What the published Rust is asked: every setting was run, and those behind the values are the accepted ones of document 01, each once.
#[test]
fn every_setting_is_behind_some_value() {
    let sources = Sources::published();
    compared("settings run on the published Rust", sources.tried, (2 + 1 + 3) * 65536);
    compared("settings accepted", sources.accepted, 2 * 5991 + 224 + 251 + 2 * 1000);
    let settings_of = |ranges: Vec<Range>, band: RangeInclusive<u16>| {
        let mut settings: Vec<u16> = ranges.into_iter().flatten().flatten().collect();
        settings.sort();
        assert_eq!(settings, Vec::from_iter(band));
        settings.len()
    };
    let mut settings = settings_of((0..=255).map(|it| sources.current(it)).collect(), 29..=252);
    for place in PLACES {
        let ranges = (0..=255).map(|byte| sources.voltage(place, byte));
        settings += settings_of(ranges.collect(), 0..=5990);
    }
    for (mode, band) in [(TRACK, 50..=300), (WIDE, 25..=1024), (CUSTOM, 25..=1024)] {
        let ranges = (0..=65535).map(|word| sources.frequency(word, mode));
        settings += settings_of(ranges.collect(), band);
    }
    assert_eq!(settings, sources.accepted);
}

/// Every voltage byte, against the published Rust's ACTUATOR1 and its ACTUATOR2.
#[test]
fn every_voltage_byte() {
    let (sources, mut cases) = (Sources::published(), 0);
    for place in PLACES {
        let mut answered = Answered::default();
        for byte in 0..=255 {
            let what = format!("{place:?} {byte}");
            let word = da728x_voltage_settings(byte);
            answered.assert(voltage_settings(byte), word, sources.voltage(place, byte), &what);
            cases += 1;
        }
        answered.assert_met(256, &[(23, 153), (24, 103)]);
    }
    compared("voltage bytes", cases, 2 * 256);
}

/// Every value of IMAX, also those that five bits do not have, against the published Rust's ACTUATOR3.
#[test]
fn every_imax() {
    let (sources, mut answered, mut cases) = (Sources::published(), Answered::default(), 0);
    for imax in 0..=255 {
        let what = format!("IMAX {imax}");
        let word = da728x_current_settings(imax);
        answered.assert(current_settings(imax), word, sources.current(imax), &what);
        cases += 1;
    }
    answered.assert_met(32, &[(1, 1), (7, 25), (8, 6)]);
    compared("values of IMAX", cases, 256);
}

/// Every period word under each driving mode, against the published Rust's FRQ_LRA_PER_H and FRQ_LRA_PER_L.
#[test]
fn every_period_word() {
    let (sources, mut cases) = (Sources::published(), 0);
    let of_one_or_two = &[(1, 952), (2, 24)][..];
    let counts =
        [(TRACK, 251, &[(1, 251)][..]), (WIDE, 976, of_one_or_two), (CUSTOM, 976, of_one_or_two)];
    for (mode, values, widths) in counts {
        let mut answered = Answered::default();
        for word in 0..=65535 {
            let what = format!("{mode:?} {word}");
            let told = da728x_frequency_settings(word, mode as u8);
            let wanted = sources.frequency(word, mode);
            answered.assert(frequency_settings(word, mode), told, wanted, &what);
            cases += 1;
        }
        answered.assert_met(values, widths);
    }
    compared("period words", cases, 3 * 65536);
}

/// Every period word under every code of a driving mode, which C alone can say: codes above 2 count as 2. Against the published Rust in
/// the mode that is meant.
#[test]
fn every_code_of_a_driving_mode() {
    let (sources, mut cases) = (Sources::published(), 0);
    for word in 0..=65535 {
        let wanted = DRIVINGS.map(|mode| {
            let ends = |it: RangeInclusive<u16>| [*it.start(), *it.end()];
            sources.frequency(word, mode).map_or([0, 0], ends)
        });
        for code in 0..=255 {
            let told = da728x_frequency_settings(word, code);
            let ends = [told as u16, (told >> 16) as u16];
            assert_eq!(ends, wanted[usize::from(code.min(2))], "word {word}, code {code}");
            cases += 1;
        }
    }
    compared("period words under any code", cases, 65536 * 256);
}

/// Document 02's examples, those of the header and of the wrapper, and both sides of every limit. Plain numbers, computed apart.
#[test]
fn examples() {
    let voltages =
        [(0, 0..=23), (1, 24..=46), (106, 2481..=2503), (254, 5944..=5966), (255, 5967..=5990)];
    for (byte, range) in voltages.clone() {
        assert_eq!(voltage_settings(byte), Some(range), "voltage byte {byte}");
    }
    let currents = [
        (0, Some(29..=35)),
        (18, Some(159..=165)),
        (30, Some(245..=251)),
        (31, Some(252..=252)),
        (32, None),
        (255, None),
    ];
    for (imax, range) in currents.clone() {
        assert_eq!(current_settings(imax), range, "IMAX {imax}");
    }
    let frequencies = [
        (0, None, None),
        (731, None, None),
        (732, None, Some(1024..=1024)),
        (733, None, Some(1022..=1023)),
        (837, None, Some(895..=896)),
        (2491, None, Some(301..=301)),
        (2500, Some(300..=300), Some(300..=300)),
        (2501, None, None),
        (2508, Some(299..=299), Some(299..=299)),
        (4411, Some(170..=170), Some(170..=170)),
        (15000, Some(50..=50), Some(50..=50)),
        (15306, None, Some(49..=49)),
        (30000, None, Some(25..=25)),
        (30001, None, None),
        (31250, None, None), // 24 Hz, which is accepted in no mode
        (32767, None, None),
    ];
    for (word, tracked, else_) in frequencies.clone() {
        assert_eq!(frequency_settings(word, TRACK), tracked, "word {word}, tracking");
        for mode in [WIDE, CUSTOM] {
            assert_eq!(frequency_settings(word, mode), else_, "word {word}, {mode:?}");
        }
    }
    let cases = voltages.len() + currents.len() + 3 * frequencies.len();
    compared("examples", cases, 5 + 6 + 3 * 16);

    // No two registers of seven and eight bits have these.
    let mut none = 0;
    for (word, mode) in (32768..=65535).flat_map(|word| DRIVINGS.map(|mode| (word, mode))) {
        assert_eq!(frequency_settings(word, mode), None, "word {word}, {mode:?}");
        none += 1;
    }
    compared("words above the two registers'", none, 3 * 32768);
}

/// A setting that is accepted, and the value that it gives.
type Conversion = (u16, u64);

/// Document 02's promise of an answer, read as it stands: "the least and greatest accepted setting, or none. Every setting between them, and
/// no other accepted one, converts to that value, and none is answered only if no accepted setting does". So the ends are accepted settings
/// that give it too.
fn promised(told: Range, value: u64, accepted: &[Conversion], what: &str) {
    let gives = |it: u16| accepted.contains(&(it, value));
    let between = told.clone().into_iter().flatten();
    assert_eq!(told.is_some(), between.clone().next().is_some(), "{what}: an empty range");
    between.for_each(|it| assert!(gives(it), "{what}: {it} is told"));
    let held = |it: &u16| told.as_ref().is_some_and(|told| told.contains(it));
    let mut giving = accepted.iter().filter(|(_, to)| *to == value).map(|(it, _)| it);
    assert!(giving.all(held), "{what}: {told:?} is told");
}

/// The settings from 0 to 65535 that are accepted, converted.
fn conversions(accepts: fn(u64) -> bool, converts: fn(u64) -> u64) -> Vec<Conversion> {
    let accepted = (0..=65535_u16).filter(|it| accepts((*it).into()));
    accepted.map(|it| (it, converts(it.into()))).collect()
}

/// Every value again, without the published Rust: document 01's limits and quotients over all settings, in plain integers.
#[test]
fn every_answer_keeps_the_promise() {
    let mut cases = 0;
    let voltages = conversions(|mv| mv <= 5990, |mv| 1000 * mv / 23400);
    assert_eq!(voltages.len(), 5991);
    for byte in 0..=255 {
        promised(voltage_settings(byte), byte.into(), &voltages, &format!("byte {byte}"));
        cases += 1;
    }
    let currents = conversions(|ma| (29..=252).contains(&ma), |ma| (1000 * ma - 28600) / 7200);
    assert_eq!(currents.len(), 224);
    for imax in 0..=255 {
        promised(current_settings(imax), imax.into(), &currents, &format!("IMAX {imax}"));
        cases += 1;
    }
    let period = |hz| 100_000_000_000 / (133_332 * hz);
    let tracked = conversions(|hz| (50..=300).contains(&hz), period);
    let others = conversions(|hz| (25..=1024).contains(&hz), period);
    assert_eq!([tracked.len(), others.len()], [251, 1000]);
    for (mode, accepted) in [(TRACK, &tracked), (WIDE, &others), (CUSTOM, &others)] {
        for word in 0..=65535 {
            let told = frequency_settings(word, mode);
            promised(told, word.into(), accepted, &format!("{mode:?} {word}"));
            cases += 1;
        }
    }
    compared("answers held to the paper", cases, 256 + 256 + 3 * 65536);
}

/// The four ranges that a bench finds behind the registers. Of the driving mode it knows FREQ_TRACK_EN only; the two modes that do not
/// track have the same ranges.
fn behind(written: &Written) -> [RangeInclusive<u16>; 4] {
    [
        voltage_settings(written.nominal),
        voltage_settings(written.absolute),
        current_settings(written.imax),
        frequency_settings(written.word, if written.tracks { TRACK } else { WIDE }),
    ]
    .map(|range| range.unwrap_or_else(|| panic!("no settings behind {written:?}")))
}

/// The four settings in question.
fn four(settings: &mut Settings) -> [&mut u16; 4] {
    let it = &mut settings.actuator;
    [&mut it.nominal_max_mV, &mut it.absolute_max_mV, &mut it.max_current_mA, &mut it.frequency_Hz]
}

/// Compares `configure` with the published Rust, which accepts the settings; what the registers are left with, and the exchanges.
fn configured(pair: &mut Pair, settings: Settings, script: &Script) -> (Written, Vec<Exchange>) {
    let outcome = pair.compare(&Operation::Configure(settings), script);
    assert_eq!(outcome.answer, Ok(Value::Nothing), "{settings:?}");
    (Written::of(&outcome.log), outcome.log)
}

/// Random accepted settings through `configure`, on the library and on the published Rust: each lies in the range behind the bytes written,
/// and FREQ_TRACK_EN tells whether the mode tracks. Settings drawn from the four ranges, each apart from the others, are accepted together
/// and make the same exchanges; one that lies next to its range is refused, or gives another value of its register.
#[test]
fn what_is_written_comes_from_its_settings() {
    let mut random = Random::new(0x4C12);
    let (mut cases, mut moved, mut next) = (0, [0; 4], [0; 2]);
    while cases < 40_000 {
        let mut settings = Settings::accepted(&mut random);
        if random.chance(50) {
            // Words of two frequencies are rare, and so is the one current behind IMAX 31.
            let tracks = settings.device.driving_mode == TRACK;
            let (low, high) = if tracks { (290, 300) } else { (890, 1024) };
            settings.actuator.frequency_Hz = random.within(low, high) as u16;
            settings.actuator.max_current_mA = random.within(240, 252) as u16;
        }
        let mut pair = Pair::new(0x4A, random.pick(&VARIANTS));
        let script = Script::reading(&[random.byte(), random.byte()]);
        let (written, log) = configured(&mut pair, settings, &script);
        assert_eq!(written.tracks, settings.device.driving_mode == TRACK, "{settings:?}");
        let ranges = behind(&written);
        for (setting, range) in four(&mut settings).into_iter().zip(&ranges) {
            assert!(range.contains(setting), "{setting} of {written:?} is not in {range:?}");
        }
        for _ in 0..3 {
            let mut other = settings;
            for ((setting, range), moved) in
                four(&mut other).into_iter().zip(&ranges).zip(&mut moved)
            {
                let (low, high) = (*range.start(), *range.end());
                let any = random.within(low.into(), high.into()) as u16;
                let drawn = random.pick(&[low, high, any]);
                *moved += usize::from(drawn != *setting);
                *setting = drawn;
            }
            assert_eq!(configured(&mut pair, other, &script), (written, log.clone()), "{other:?}");
        }
        let (at, mut beyond) = (random.below(4), settings);
        let range = &ranges[at];
        *four(&mut beyond)[at] = match random.chance(50) {
            true => range.start().wrapping_sub(1),
            false => range.end() + 1,
        };
        let outcome = pair.compare(&Operation::Configure(beyond), &script);
        if outcome.answer.is_ok() {
            let value =
                |it: &Written| [it.nominal.into(), it.absolute.into(), it.imax.into(), it.word][at];
            assert_ne!(value(&Written::of(&outcome.log)), value(&written), "{beyond:?}");
        } else {
            assert_eq!(outcome.answer, Err(([21, 21, 22, 23][at], None)), "{beyond:?}");
        }
        next[usize::from(outcome.answer.is_ok())] += 1;
        cases += 1;
    }
    compared("settings and the ranges behind them", cases, 40_000);
    assert_eq!(moved, [114_866, 115_093, 99_444, 8_149], "settings drawn that are others");
    compared("settings next to a range, refused", next[0], 436);
    compared("settings next to a range, with another value", next[1], 39_564);
}

/// Each accepted frequency in each mode through `set_frequency`, on the library and on the published Rust: what it writes is what
/// `configure` writes, and the answer for that word holds it.
#[test]
fn set_frequency_writes_a_word_of_its_frequency() {
    let mut cases = 0;
    for (mode, band) in [(TRACK, 50..=300), (WIDE, 25..=1024), (CUSTOM, 25..=1024)] {
        let mut settings = Settings::plain(OperationMode::RTWM_MODE, mode);
        let mut pair = Pair::configured(0x4A, Variant::DA7282, &settings);
        for frequency in band {
            let script = Script::reading(&[0xFF]);
            let outcome = pair.compare(&Operation::SetFrequency(frequency), &script);
            assert_eq!(outcome.answer, Ok(Value::Nothing), "{frequency} Hz, {mode:?}");
            let [high, low] = &outcome.log[..] else { panic!("{:?}", outcome.log) };
            assert_eq!([high.bytes[0], low.bytes[0]], [0x0A, 0x0B]);
            let word = 128 * u16::from(high.bytes[1]) + u16::from(low.bytes[1]);
            let told = frequency_settings(word, mode).expect("a frequency behind the word");
            assert!(told.contains(&frequency), "{frequency} Hz, {mode:?}: {told:?}");
            settings.actuator.frequency_Hz = frequency;
            assert_eq!(configured(&mut pair, settings, &script).0.word, word, "{frequency} Hz");
            cases += 1;
        }
    }
    compared("frequencies set", cases, 251 + 1000 + 1000);
}

/// FREQ_TRACK_EN as `configure` writes it against the driving mode, in every operation mode; and the bits that the header takes for a field
/// against the published register types.
#[test]
fn fields_that_are_asked_for() {
    let mut cases = 0;
    for (operation, driving) in OPERATIONS.iter().flat_map(|it| DRIVINGS.map(|to| (*it, to))) {
        let mut pair = Pair::new(0x4A, Variant::DA7280);
        let settings = Settings::plain(operation, driving);
        let (written, _) = configured(&mut pair, settings, &Script::reading(&[0xFF, 0xFF]));
        assert_eq!(written.tracks, driving == TRACK, "{operation:?}, {driving:?}");
        cases += 1;
    }
    compared("modes", cases, 5 * 3);

    let field = |register: &str, name: &str| {
        let mut types = GROUPS.iter().flat_map(|(_, types)| *types);
        let (_, fields) = types.find(|(it, _)| *it == register).unwrap();
        fields.iter().find(|(it, ..)| *it == name).unwrap().1
    };
    let [imax, low, high] = [
        field("ACTUATOR3", "IMAX"),
        field("FRQ_LRA_PER_L", "LRA_PER_L"),
        field("FRQ_LRA_PER_H", "LRA_PER_H"),
    ];
    let tracks = field("TOP_CFG1", "FREQ_TRACK_EN");
    let mut cases = 0;
    for byte in 0..=255 {
        assert_eq!((imax(byte), low(byte), high(byte)), (byte & 31, byte & 127, byte));
        assert_eq!(tracks(byte), byte / 8 % 2);
        cases += 4;
    }
    compared("fields", cases, 4 * 256);
}

/// ACTUATOR1 has the nominal voltage and ACTUATOR2 the absolute one: plain bytes against what `configure` writes, on the library and on the
/// published Rust.
#[test]
fn places() {
    let mut settings = Settings::plain(OperationMode::INACTIVE, WIDE);
    (settings.actuator.nominal_max_mV, settings.actuator.absolute_max_mV) = (0, 5990);
    let mut pair = Pair::new(0x4A, Variant::DA7281);
    let (written, log) = configured(&mut pair, settings, &Script::reading(&[0]));
    assert_eq!([written.voltage(Place::Nominal), written.voltage(Place::Absolute)], [0, 255]);
    for wanted in [[0x0C, 0], [0x0D, 255]] {
        let write = Exchange::new(0x4A, &wanted, 0);
        assert_eq!(log.iter().filter(|it| **it == write).count(), 1, "{wanted:02X?}");
    }
}
