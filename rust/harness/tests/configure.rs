//! `configure` against the published Rust: the answer, every exchange in order, the count, and what is stored, as far as a later
//! operation shows it and as the record's bytes say it. The low two bits of TRIM4 follow document 01, by the text of the
//! published `match`, and bit 2 of the GPI registers document 02 (`triggers`). The number is held to documents 01 and 02 as well (`Settings::told`), which the published refusal has to
//! match; for settings that document 01 adds a check for it is the judge alone (`Settings::outside`).

use harness::bus::{Exchange, Script};
use harness::compared;
use harness::driver::{Operation, Pair, Tally};
use harness::random::Random;
use harness::settings::{DRIVINGS, MODES, OPERATIONS, POLARITIES, Settings, TYPES, VARIANTS};
use harness::trim::rows;
use std::collections::BTreeSet;
use yambelugo::{DrivingMode, OperationMode, TriggerConfig, TriggerMode, Variant};

const TRACK: DrivingMode = DrivingMode::FREQUENCY_TRACK;
const CUSTOM: DrivingMode = DrivingMode::CUSTOM_WAVEFORM;
const DRO: OperationMode = OperationMode::DRO_MODE;
const ETWM: OperationMode = OperationMode::ETWM_MODE;

/// Compares the operations that show what is stored.
fn probe(pair: &mut Pair, random: &mut Random) {
    let script = Script::reading(&[random.byte()]);
    let frequency = random.pick(&[24, 25, 40, 49, 50, 300, 301, 1024, 1025]);
    pair.compare(&Operation::Enable, &script);
    pair.compare(&Operation::SetFrequency(frequency), &script);
    pair.compare(&Operation::SetOverrideValue(random.pick(&[-128, -1, 0, 1, 127])), &script);
    pair.compare(&Operation::SetCustomDriveWaveform([1, 2, 3]), &script);
}

/// Random settings near every limit on drivers with and without settings: in one of three cases with a failure at each
/// exchange in turn until none fails, else with one anywhere or with none; what is stored after each.
#[test]
fn random_settings() {
    let mut random = Random::new(0xC0F1);
    let (mut tally, mut failed) = (Tally::default(), 0);
    let cases = 300_000;
    for case in 0..cases {
        let (address, variant) = (random.byte(), random.pick(&VARIANTS));
        let mut pair = match case % 2 {
            0 => Pair::new(address, variant),
            _ => Pair::configured(address, variant, &Settings::accepted(&mut random)),
        };
        let operation = Operation::Configure(Settings::any(&mut random));
        let reads = vec![random.byte(), random.byte()];
        if case % 3 == 0 {
            for at in 0.. {
                let fails = Some((at, random.byte()));
                let outcome = pair.compare(&operation, &Script { reads: reads.clone(), fails });
                probe(&mut pair, &mut random);
                if outcome.made <= at {
                    tally.count(&outcome);
                    break;
                }
                failed += 1;
            }
        } else {
            let fails = random.chance(40).then(|| (random.below(27), random.byte()));
            let outcome = pair.compare(&operation, &Script { reads, fails });
            tally.count(&outcome);
            probe(&mut pair, &mut random);
        }
    }
    compared("random settings", cases, 300_000);
    compared("settings with a failure at each exchange in turn", failed, 1_004_800);
    let wanted = [
        (0, 134_639),
        (11, 3_886),
        (12, 17_454),
        (13, 18_741),
        (14, 18_314),
        (17, 29_937),
        (21, 26_419),
        (22, 32_768),
        (23, 17_842),
    ];
    assert_eq!(tally.told(), wanted);
}

/// Compares settings on a driver; the answer's number.
fn number(pair: &mut Pair, settings: Settings) -> u8 {
    let outcome = pair.compare(&Operation::Configure(settings), &Script::reading(&[0x0F, 0xF0]));
    outcome.answer.map_or_else(|(number, _)| number, |_| 0)
}

/// Every accepted voltage at either place, and all up to 6100: refused above 5990.
#[test]
fn every_voltage() {
    let mut pair = Pair::new(0x4A, Variant::DA7280);
    let mut cases = 0;
    for voltage in (0..=6100).chain([32768, 65535]) {
        let mut settings = Settings::plain(DRO, TRACK);
        let wanted = if voltage > 5990 { 21 } else { 0 };
        settings.actuator.nominal_max_mV = voltage;
        assert_eq!(number(&mut pair, settings), wanted, "{voltage} mV");
        settings.actuator.nominal_max_mV = 5990;
        settings.actuator.absolute_max_mV = voltage;
        assert_eq!(number(&mut pair, settings), wanted, "{voltage} mV");
        cases += 2;
    }
    compared("voltages", cases, 2 * 6103);
}

/// Every current up to 300, also those refused: below 29 and above 252.
#[test]
fn every_current() {
    let mut pair = Pair::new(0x4A, Variant::DA7280);
    let mut cases = 0;
    for current in (0..=300).chain([32768, 65535]) {
        for impedance in [4000, 8000, 26789, 49999] {
            let mut settings = Settings::plain(DRO, TRACK);
            settings.actuator.max_current_mA = current;
            settings.actuator.impedance_mOhm = impedance;
            let wanted = if (29..=252).contains(&current) { 0 } else { 22 };
            assert_eq!(number(&mut pair, settings), wanted, "{current} mA");
            cases += 1;
        }
    }
    compared("currents", cases, 4 * 303);
}

/// Every impedance, also refused ones, with every IMAX.
#[test]
fn every_impedance() {
    let mut pair = Pair::new(0x4A, Variant::DA7280);
    let mut cases = 0;
    for imax in 0..32 {
        for impedance in (3990..=50010).chain([0, 65535]) {
            let mut settings = Settings::plain(DRO, TRACK);
            settings.actuator.max_current_mA = 29 + imax * 36 / 5;
            settings.actuator.impedance_mOhm = impedance;
            let wanted = if (4000..=49999).contains(&impedance) { 0 } else { 22 };
            assert_eq!(number(&mut pair, settings), wanted, "{impedance} mOhm");
            cases += 1;
        }
    }
    compared("impedances", cases, 32 * 46023);
}

/// Every inductance to 300 µH and steps of 251 beyond, for all whole ohms and their last milliohm: all rows and columns.
#[test]
fn every_inductance() {
    assert_eq!(rows().len(), 18);
    let ends: Vec<u16> = rows().iter().map(|(ohms, _)| *ohms.end()).collect();
    let begins: Vec<u16> = rows().iter().map(|(ohms, _)| *ohms.start()).collect();
    assert!(begins[0] == 0 && ends[17] == u16::MAX && begins[17] == 46);
    assert!(begins[1..].iter().zip(&ends).all(|(begin, end)| *begin == end + 1));

    let mut pair = Pair::new(0x4A, Variant::DA7280);
    let mut cases = 0;
    for inductance in (0..=300).chain((301..=65535).step_by(251)).chain([65535]) {
        for ohms in 4..=49 {
            for impedance in [1000 * ohms, 1000 * ohms + 999] {
                let mut settings = Settings::plain(DRO, TRACK);
                settings.actuator.inductance_uH = inductance;
                settings.actuator.impedance_mOhm = impedance;
                assert_eq!(number(&mut pair, settings), 0);
                cases += 1;
            }
        }
    }
    compared("inductances", cases, (301 + 260 + 1) * 46 * 2);
}

/// Every frequency to 1100 Hz in each mode: 50 to 300 when tracking, else 25 to 1024.
#[test]
fn every_frequency() {
    let mut pair = Pair::new(0x4A, Variant::DA7280);
    let mut cases = 0;
    for driving in DRIVINGS {
        for frequency in (0..=1100).chain([32768, 65535]) {
            let mut settings = Settings::plain(DRO, driving);
            settings.actuator.frequency_Hz = frequency;
            let band = if driving == TRACK { 50..=300 } else { 25..=1024 };
            let wanted = if band.contains(&frequency) { 0 } else { 23 };
            assert_eq!(number(&mut pair, settings), wanted, "{frequency} Hz, {driving:?}");
            cases += 1;
        }
    }
    compared("frequencies", cases, 3 * 1103);
}

/// Every PID word at either place.
#[test]
fn every_pid_word() {
    let mut pair = Pair::new(0x4A, Variant::DA7280);
    let mut cases = 0;
    for word in 0..=65535 {
        let mut settings = Settings::plain(DRO, TRACK);
        settings.actuator.pid_Kp_Ki = Some((word, word.rotate_left(5)));
        assert_eq!(number(&mut pair, settings), 0);
        cases += 1;
    }
    compared("PID words", cases, 65536);
}

/// Every choice of modes, flags and triggers on every variant, and every actuator type.
#[test]
fn every_choice() {
    let (mut tally, mut cases) = (Tally::default(), 0);
    for variant in VARIANTS {
        let mut pair = Pair::new(0x4A, variant);
        for (operation, driving) in OPERATIONS.iter().flat_map(|it| DRIVINGS.map(|to| (*it, to))) {
            for choice in 0..64_u8 {
                let flag = |bit: u8| choice >> bit & 1 == 1;
                let mut settings = Settings::plain(operation, driving);
                settings.actuator.actuator_type = TYPES[usize::from(flag(0))];
                settings.device.acceleration = flag(1);
                settings.device.rapid_stop = flag(2);
                settings.device.gpi_triggers =
                    [(3, 15), (4, 0), (5, 10)].map(|(bit, id)| flag(bit).then(|| trigger(id)));
                let operation = Operation::Configure(settings);
                let outcome = pair.compare(&operation, &Script::reading(&[0x35, 0xCA]));
                tally.count(&outcome);
                probe(&mut pair, &mut Random::new(choice.into()));
                cases += 1;
            }
        }
    }
    compared("choices", cases, 3 * 15 * 64);
    assert_eq!(tally.told(), [(0, 904), (12, 1440), (13, 36), (14, 500)]);
}

/// Every sequence number, polarity and mode of a trigger at each place, in ETWM mode and in another: refused above 15 in ETWM
/// mode, accepted and unwritten in another. A DA7281 with two triggers gives 14. Each byte is the papers' (`triggers::byte`), and differs
/// from the published one exactly in the mode bit of SingleSequence.
#[test]
fn every_trigger() {
    let mut pair = Pair::new(0x4A, Variant::DA7281);
    let mut cases = 0;
    for (operation_mode, place) in [DRO, ETWM].iter().flat_map(|it| [0, 1, 2].map(|to| (*it, to))) {
        for (polarity, mode) in POLARITIES.iter().flat_map(|it| MODES.map(|to| (*it, to))) {
            for sequence_id in 0..=255 {
                let mut settings = Settings::plain(operation_mode, CUSTOM);
                settings.device.gpi_triggers = [None; 3];
                let trigger = TriggerConfig { sequence_id, polarity, mode };
                settings.device.gpi_triggers[place] = Some(trigger);
                let etwm = operation_mode == ETWM;
                let wanted = if etwm && sequence_id > 15 { 11 } else { 0 };
                let [mut as_ours, mut unlike] = pair.modes();
                assert_eq!(number(&mut pair, settings), wanted, "{trigger:?} at {place}");
                if etwm && wanted == 0 {
                    match mode {
                        TriggerMode::SingleSequence => unlike += 1,
                        TriggerMode::MultiSequence => as_ours += 1,
                    }
                }
                assert_eq!(pair.modes(), [as_ours, unlike], "{trigger:?} at {place}");

                settings.device.gpi_triggers[(place + 1) % 3] = Some(trigger);
                assert_eq!(number(&mut pair, settings), if etwm { 14 } else { 0 }, "two");
                cases += 2;
            }
        }
    }
    compared("triggers", cases, 2 * 2 * 3 * 6 * 256);
    assert_eq!(pair.modes(), [3 * 3 * 16, 3 * 3 * 16]);
}

/// Three triggers at once, of all modes: each register has the byte of its own trigger. The bytes are written out.
#[test]
fn each_trigger_has_its_own_byte() {
    let mut pair = Pair::new(0x4A, Variant::DA7280);
    let mut written = Vec::new();
    for choice in 0..8_usize {
        let mut settings = Settings::plain(ETWM, CUSTOM);
        settings.device.gpi_triggers = [(5, 0), (9, 1), (15, 2)].map(|(sequence_id, place)| {
            let (polarity, mode) = (POLARITIES[place], MODES[choice >> place & 1]);
            Some(TriggerConfig { sequence_id, polarity, mode })
        });
        let outcome = pair.compare(&Operation::Configure(settings), &Script::reading(&[0, 0]));
        written.push([0x29, 0x2A, 0x2B].map(|register| {
            let to = |it: &&Exchange| it.len == 2 && it.bytes[0] == register;
            outcome.log.iter().find(to).expect("a write to this register").bytes[1]
        }));
    }
    let bytes = [
        [0x28, 0x49, 0x7A],
        [0x2C, 0x49, 0x7A],
        [0x28, 0x4D, 0x7A],
        [0x2C, 0x4D, 0x7A],
        [0x28, 0x49, 0x7E],
        [0x2C, 0x49, 0x7E],
        [0x28, 0x4D, 0x7E],
        [0x2C, 0x4D, 0x7E],
    ];
    assert_eq!(written, bytes);
    assert_eq!(pair.modes(), [12, 12]);
}

/// An entry of the settings, right or with a fault: the checks that it fails, by their places in document 01's order from 0, and
/// how it is made.
type Entry = (&'static [usize], fn(&mut Settings));

/// The number of the check at each place: documents 01 and 02.
const NUMBERS: [u8; 13] = [12, 13, 14, 21, 21, 22, 22, 23, 21, 21, 22, 11, 14];

const NOMINAL: [Entry; 3] = [
    (&[], |it| it.actuator.nominal_max_mV = 5990),
    (&[8], |it| it.actuator.nominal_max_mV = 6000),
    (&[3, 8], |it| it.actuator.nominal_max_mV = 6001),
];

const ABSOLUTE: [Entry; 3] = [
    (&[], |it| it.actuator.absolute_max_mV = 5990),
    (&[9], |it| it.actuator.absolute_max_mV = 5991),
    (&[4, 9], |it| it.actuator.absolute_max_mV = 65535),
];

const CURRENT: [Entry; 3] = [
    (&[], |it| it.actuator.max_current_mA = 29),
    (&[10], |it| it.actuator.max_current_mA = 28),
    (&[5], |it| it.actuator.max_current_mA = 253),
];

const IMPEDANCE: [Entry; 3] = [
    (&[], |it| it.actuator.impedance_mOhm = 49999),
    (&[6], |it| it.actuator.impedance_mOhm = 3999),
    (&[6], |it| it.actuator.impedance_mOhm = 50000),
];

/// The frequency, and acceleration and rapid stop, while it tracks.
const TRACKED: [&[Entry]; 2] = [
    &[
        (&[], |it| it.actuator.frequency_Hz = 300),
        (&[7], |it| it.actuator.frequency_Hz = 49),
        (&[7], |it| it.actuator.frequency_Hz = 301),
    ],
    &[
        (&[], |it| flags(it, false, false)),
        (&[], |it| flags(it, true, false)),
        (&[12], |it| flags(it, false, true)),
        (&[12], |it| flags(it, true, true)),
    ],
];

/// And while it does not.
const UNTRACKED: [&[Entry]; 2] = [
    &[
        (&[], |it| it.actuator.frequency_Hz = 1024),
        (&[7], |it| it.actuator.frequency_Hz = 24),
        (&[7], |it| it.actuator.frequency_Hz = 1025),
    ],
    &[
        (&[], |it| flags(it, false, false)),
        (&[0], |it| flags(it, true, false)),
        (&[0, 12], |it| flags(it, false, true)),
        (&[0, 12], |it| flags(it, true, true)),
    ],
];

fn flags(settings: &mut Settings, acceleration: bool, rapid_stop: bool) {
    (settings.device.acceleration, settings.device.rapid_stop) = (acceleration, rapid_stop);
}

/// The checks that triggers with these sequence numbers fail in ETWM mode on a DA7281; on the other variants check 2 is not made.
type Triggers = (&'static [usize], [Option<u8>; 3]);

const TRIGGERS: [Triggers; 7] = [
    (&[1], [None, None, None]),
    (&[], [None, Some(15), None]),
    (&[11], [Some(16), None, None]),
    (&[11], [None, None, Some(255)]),
    (&[2], [Some(0), None, Some(15)]),
    (&[2, 11], [Some(15), Some(16), None]),
    (&[2, 11], [Some(0), Some(15), Some(16)]),
];

/// All combinations of the thirteen faults that can occur together, on every variant and in every mode: the first in document 01's
/// order is told. This is a third rule for the number, beside the published driver and `Settings::told`.
#[test]
fn every_combination_of_faults() {
    let (mut cases, mut met, mut numbers) = (0, BTreeSet::new(), BTreeSet::new());
    for (variant, operation) in VARIANTS.iter().flat_map(|it| OPERATIONS.map(|to| (*it, to))) {
        let mut pair = Pair::new(0x4A, variant);
        for driving in DRIVINGS {
            let [frequency, flagged] = if driving == TRACK { TRACKED } else { UNTRACKED };
            let alternatives = [&NOMINAL, &ABSOLUTE, &CURRENT, &IMPEDANCE, frequency, flagged];
            for (entries, (of_triggers, sequences)) in choices(&alternatives) {
                let mut settings = Settings::plain(operation, driving);
                entries.iter().for_each(|(_, make)| make(&mut settings));
                settings.device.gpi_triggers = sequences.map(|it| it.map(trigger));
                settings.actuator.actuator_type = TYPES[cases % 2];
                let asked = |place: &&usize| {
                    operation == ETWM && (**place != 2 || variant == Variant::DA7281)
                };
                let failed = entries.iter().flat_map(|(places, _)| *places);
                let failed = failed.chain(of_triggers.iter().filter(asked));
                let failed: BTreeSet<usize> = failed.copied().collect();
                let wanted = failed.first().map_or(0, |place| NUMBERS[*place]);
                assert_eq!(number(&mut pair, settings), wanted, "{failed:?}: {settings:?}");
                numbers.insert(wanted);
                met.insert(failed);
                cases += 1;
            }
        }
    }
    compared("settings with faults", cases, 3 * 5 * 3 * 3_usize.pow(5) * 4 * 7);
    // Nominal, absolute, current; impedance; frequency; flags; triggers.
    compared("combinations of faults", met.len(), 3 * 3 * 3 * 2 * 2 * 4 * 5);
    assert_eq!(Vec::from_iter(numbers), [0, 11, 12, 13, 14, 21, 22, 23]);
}

fn trigger(sequence_id: u8) -> TriggerConfig {
    TriggerConfig {
        sequence_id,
        polarity: POLARITIES[usize::from(sequence_id) % 3],
        mode: MODES[usize::from(sequence_id) % 2],
    }
}

/// One of each entry, in all ways, and each choice of triggers with it.
fn choices(alternatives: &[&[Entry]]) -> Vec<(Vec<Entry>, Triggers)> {
    let mut ways = vec![Vec::new()];
    for entries in alternatives {
        let with = |way: Vec<Entry>| entries.iter().map(move |it| [&way[..], &[*it]].concat());
        ways = ways.into_iter().flat_map(with).collect();
    }
    ways.into_iter().flat_map(|way| TRIGGERS.map(|triggers| (way.clone(), triggers))).collect()
}

/// Every byte that TOP_CFG2 and TOP_INT_CFG8 may hold before, with and without acceleration.
#[test]
fn every_byte_read() {
    let mut pair = Pair::new(0x4A, Variant::DA7280);
    let mut cases = 0;
    for byte in 0..=255_u8 {
        for acceleration in [false, true] {
            let mut settings = Settings::plain(DRO, TRACK);
            settings.device.acceleration = acceleration;
            let script = Script::reading(&[byte, byte.rotate_left(3) ^ 0x5A]);
            pair.compare(&Operation::Configure(settings), &script);
            cases += 1;
        }
    }
    compared("bytes read by configure", cases, 512);
}
