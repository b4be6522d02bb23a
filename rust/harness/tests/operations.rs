//! Every operation but `configure` against the published Rust: the answer, every exchange in order, the count, every byte of the
//! read buffer, and the record after the start and after each answer. Images above 100 bytes lie outside the comparison and are told by
//! document 01's number, sequences that are not loaded by document 02's (CR 10); `set_custom_drive_waveform` in its mode does what
//! document 02 says (`harness::drive_points`).

use harness::bus::Script;
use harness::compared;
use harness::driver::{Operation, Pair, Tally, Value, compare_new, revision};
use harness::random::Random;
use harness::records::num_sequences;
use harness::settings::{DRIVINGS, MEMORY_TIMEBASES, OPERATIONS, Settings, VARIANTS, near};
use yambelugo::{DrivingMode, OperationMode, Variant};

/// A bus with random reads, on which an exchange up to `last` may fail.
fn script(random: &mut Random, last: usize) -> Script {
    let reads = (0..random.within(1, 20)).map(|_| random.byte()).collect();
    Script { reads, fails: random.chance(40).then(|| (random.within(0, last), random.byte())) }
}

/// The operations besides `configure`, by number, on random arguments near the limits.
fn operation(kind: usize, random: &mut Random) -> (Operation, usize) {
    let four_bits = [0, 1, 7, 8, 14, 15, 16, 17, 128, 255];
    match kind {
        0 => (Operation::GetChipRev, 1),
        1 => (Operation::GetEvents, 4),
        2 => (Operation::GetStatus, 1),
        3 => {
            let (low, high) = random.pick(&[(50, 300), (25, 1024)]);
            (Operation::SetFrequency(near(random, low, high)), 2)
        }
        4 => (Operation::SetOverrideValue(random.near(&[0, 1, 127, 128, 255]) as i8), 1),
        5 => (Operation::SetTimebase(random.pick(&MEMORY_TIMEBASES)), 2),
        6 => (Operation::Enable, 1),
        7 => (Operation::Disable, 2),
        8 => {
            let points = [random.byte(), random.byte(), random.byte()];
            (Operation::SetCustomDriveWaveform(points), 3)
        }
        9 => (Operation::UnlockWaveformMemory, 1),
        10 => (Operation::LockWaveformMemory, 1),
        11 => {
            let edges = [0, 1, 31, 32, 33, 63, 64, 65, 95, 96, 97, 99, 100, 101, 255, 256, 300];
            let len = if random.chance(50) { random.pick(&edges) } else { random.within(0, 103) };
            let mut image: Vec<u8> = (0..len).map(|_| random.byte()).collect();
            if let Some(byte) = image.get_mut(1) {
                *byte = random.near(&[0, 1, 8, 15, 16, 17, 255]);
            }
            (Operation::UploadWaveformMemory(image, random.chance(50)), 7)
        }
        12 => {
            let edges = [0, 1, 2, 99, 100, 101, 255, 256, 257];
            let mut length = || match random.below(4) {
                0 => random.pick(&edges),
                _ => random.within(0, 20),
            };
            (Operation::ReadWaveformMemory(length(), length()), 20)
        }
        13 => (Operation::SelectSequence(random.near(&four_bits), random.near(&four_bits)), 1),
        14 => (Operation::StartSequence, 2),
        _ => (Operation::PlaySequence(random.near(&four_bits), random.near(&four_bits)), 3),
    }
}

/// Random operations, several on one driver, with settings of every kind and with none, with sequences and without, on random buses.
#[test]
fn random_operations() {
    let mut random = Random::new(0x0BE5);
    let (mut cases, mut tally, mut begun) = ([0; 16], Tally::default(), 0);
    for round in 0..80_000 {
        let (address, variant) = (random.byte(), random.pick(&VARIANTS));
        let settings = (round % 5 > 0).then(|| Settings::accepted(&mut random));
        let sequences = if random.chance(60) { random.near(&[1, 8, 15, 16, 17, 255]) } else { 0 };
        let mut pair = match &settings {
            _ if sequences > 0 => Pair::loaded(address, variant, settings.as_ref(), sequences),
            Some(settings) => Pair::configured(address, variant, settings),
            None => Pair::new(address, variant),
        };
        for turn in 0..5 {
            let kind = (5 * round + turn) % 16;
            let (operation, last) = operation(kind, &mut random);
            let outcome = pair.compare(&operation, &script(&mut random, last));
            tally.count(&outcome);
            cases[kind] += 1;
            begun += usize::from([13, 15].contains(&kind) && outcome.made > 0);
        }
    }
    assert_eq!(cases, [25_000; 16]);
    compared("random operations", cases.iter().sum(), 400_000);
    compared("of these sequences selected or played", begun, 6_986);
    let wanted = [
        (0, 228_296),
        (8, 3_394),
        (11, 36_554),
        (12, 28_261),
        (15, 25_000),
        (17, 66_824),
        (23, 3_820),
        (28, 7_851),
    ];
    assert_eq!(tally.told(), wanted);
}

/// `new` on random buses.
#[test]
fn random_new() {
    let mut random = Random::new(0x4E37);
    let (mut cases, mut tally) = (0, Tally::default());
    for _ in 0..50_000 {
        let (address, variant) = (random.byte(), random.pick(&VARIANTS));
        let mut script = script(&mut random, 2);
        if random.chance(60) {
            script.reads[0] = revision(random.pick(&VARIANTS));
        }
        let outcome = compare_new(address, variant, &script);
        tally.count(&outcome);
        cases += 1;
    }
    compared("random buses of new", cases, 50_000);
    assert_eq!(tally.told(), [(0, 8_703), (16, 34_614), (17, 6_683)]);
}

/// Every byte that CHIP_REV may read, for each variant: 16 but for its own.
#[test]
fn every_chip_rev() {
    let mut cases = 0;
    for variant in VARIANTS {
        for byte in 0..=255 {
            let outcome = compare_new(0x4A, variant, &Script::reading(&[byte]));
            let wanted =
                if byte == revision(variant) { Ok(Value::Nothing) } else { Err((16, None)) };
            assert_eq!(outcome.answer, wanted, "{variant:?} reads {byte:02X}");
            cases += 1;
        }
    }
    compared("chip revisions", cases, 3 * 256);
}

/// Every frequency in each driving mode, and without settings.
#[test]
fn every_frequency() {
    let mut cases = 0;
    let drivings = DRIVINGS.map(Some).into_iter().chain([None]);
    for driving in drivings {
        let settings = driving.map(|it| Settings::plain(OperationMode::PWM_MODE, it));
        let mut pair = match &settings {
            Some(settings) => Pair::configured(0x4A, Variant::DA7280, settings),
            None => Pair::new(0x4A, Variant::DA7280),
        };
        for frequency in 0..=65535 {
            let operation = Operation::SetFrequency(frequency);
            let outcome = pair.compare(&operation, &Script::reading(&[0]));
            let band = match driving {
                Some(DrivingMode::FREQUENCY_TRACK) => 50..=300,
                _ => 25..=1024,
            };
            let wanted = match (driving, band.contains(&frequency)) {
                (None, _) => Err((15, None)),
                (_, true) => Ok(Value::Nothing),
                (_, false) => Err((23, None)),
            };
            assert_eq!(outcome.answer, wanted, "{frequency} Hz, {driving:?}");
            cases += 1;
        }
    }
    compared("frequencies of set_frequency", cases, 4 * 65536);
}

/// Every override value in every mode, with and without acceleration, and without settings.
#[test]
fn every_override_value() {
    let mut cases = 0;
    let mut stored = vec![None];
    for (operation, driving) in OPERATIONS.iter().flat_map(|it| DRIVINGS.map(|to| (*it, to))) {
        let mut settings = Settings::plain(operation, driving);
        stored.push(Some(settings));
        if driving == DrivingMode::FREQUENCY_TRACK {
            settings.device.acceleration = true;
            stored.push(Some(settings));
        }
    }
    for settings in stored {
        let mut pair = match &settings {
            Some(settings) => Pair::configured(0x4A, Variant::DA7282, settings),
            None => Pair::new(0x4A, Variant::DA7282),
        };
        for value in -128..=127 {
            let operation = Operation::SetOverrideValue(value);
            let outcome = pair.compare(&operation, &Script::reading(&[0]));
            let device = settings.map(|it| it.device);
            let wanted = match device {
                None => Err((15, None)),
                Some(it) if it.acceleration && value < 0 => Err((11, None)),
                Some(it) if it.operation_mode != OperationMode::DRO_MODE => Err((12, None)),
                Some(_) => Ok(Value::Nothing),
            };
            assert_eq!(outcome.answer, wanted, "{value} with {device:?}");
            cases += 1;
        }
    }
    compared("override values", cases, 21 * 256);
}

/// Uploads of every length, with and without the lock, with a failure at each exchange in turn until none fails, which loads what byte 1
/// says. Above 100 bytes what was loaded stays.
#[test]
fn every_upload() {
    let mut random = Random::new(0x0100);
    let mut pair = Pair::new(0x4A, Variant::DA7280);
    let (mut cases, mut failed, mut loaded) = (0, 0, 0);
    for len in 0..=101_usize {
        for lock in [false, true] {
            let image: Vec<u8> = (0..len).map(|_| random.byte()).collect();
            let operation = Operation::UploadWaveformMemory(image.clone(), lock);
            for at in 0.. {
                let fails = Some((at, random.byte()));
                let outcome = pair.compare(&operation, &Script { reads: vec![0], fails });
                if outcome.made <= at {
                    loaded = if len > 100 { loaded } else { num_sequences(&image) };
                    assert_eq!(pair.sequences(), loaded, "{len} bytes, lock {lock}");
                    let exchanges = if len > 100 { 0 } else { 1 + len.div_ceil(32) };
                    let wanted = exchanges + usize::from(lock && len <= 100);
                    assert_eq!(outcome.made, wanted, "{len} bytes, lock {lock}");
                    break;
                }
                assert_eq!(pair.sequences(), 0, "{len} bytes, lock {lock}, {at} made");
                failed += 1;
            }
            cases += 1;
        }
    }
    compared("uploads", cases, 2 * 102);
    compared("uploads with a failure", failed, 2 * (101 + 32 * (1 + 2 + 3) + 4 * 4) + 101);
}

/// Reads of every length into buffers of every length, without a failure and with one anywhere: every byte of the buffer.
#[test]
fn every_read() {
    let mut random = Random::new(0x0200);
    let mut pair = Pair::new(0x4A, Variant::DA7280);
    let mut cases = 0;
    for len in 0..=110 {
        for room in 0..=110 {
            let reads: Vec<u8> = (0..100).map(|_| random.byte()).collect();
            let operation = Operation::ReadWaveformMemory(len, room);
            let count = len.min(100).min(room);
            let outcome = pair.compare(&operation, &Script::reading(&reads));
            assert_eq!((outcome.answer, outcome.made), (Ok(Value::Count(count)), count));
            let fails = Some((random.within(0, count), random.byte()));
            pair.compare(&operation, &Script { reads, fails });
            cases += 2;
        }
    }
    // Lengths that do not fit in a byte or a word of four bytes.
    for len in [256, 65536, 1 << 32, (1 << 32) + 1, usize::MAX] {
        for room in [0, 1, 100, 256, 300] {
            let operation = Operation::ReadWaveformMemory(len, room);
            let outcome = pair.compare(&operation, &Script::reading(&[1, 2, 3]));
            assert_eq!(outcome.made, room.min(100));
            cases += 1;
        }
    }
    compared("reads", cases, 2 * 111 * 111 + 25);
}

/// Every byte that a register may hold before it is updated, and every byte that is only read.
#[test]
fn every_byte_read() {
    let settings = Settings::plain(OperationMode::RTWM_MODE, DrivingMode::WIDEBAND);
    let mut pair = Pair::loaded(0x4A, Variant::DA7280, Some(&settings), 16);
    let mut cases = 0;
    for byte in 0..=255_u8 {
        let script = Script::reading(&[byte, byte.wrapping_add(85), byte.wrapping_add(170)]);
        for operation in [
            Operation::Disable,
            Operation::StartSequence,
            Operation::PlaySequence(byte % 16, byte / 16),
            Operation::SetTimebase(MEMORY_TIMEBASES[0]),
            Operation::SetTimebase(MEMORY_TIMEBASES[1]),
            Operation::GetChipRev,
            Operation::GetStatus,
            Operation::GetEvents,
        ] {
            assert!(pair.compare(&operation, &script).answer.is_ok());
            cases += 1;
        }
    }
    compared("bytes read", cases, 8 * 256);
}

/// Every sequence number and loop count, where all sequences are loaded, nine, or none: 11 comes before 28, which is told of a number
/// that is not below the count.
#[test]
fn every_sequence_number_and_loop_count() {
    let (mut cases, mut begun) = (0, 0);
    for loaded in [0, 9, 16] {
        let mut pair = Pair::loaded(0x4A, Variant::DA7280, None, loaded);
        for (id, loops) in (0..=255).flat_map(|id| (0..=255).map(move |loops| (id, loops))) {
            let script = Script::reading(&[id ^ loops]);
            let wanted = match (id, loops) {
                (16.., _) | (_, 16..) => Err((11, None)),
                _ if id >= loaded => Err((28, None)),
                _ => Ok(Value::Nothing),
            };
            for operation in
                [Operation::SelectSequence(id, loops), Operation::PlaySequence(id, loops)]
            {
                assert_eq!(pair.compare(&operation, &script).answer, wanted, "{operation:?}");
                begun += usize::from(wanted.is_ok());
                cases += 1;
            }
        }
    }
    compared("sequence numbers and loop counts", cases, 3 * 2 * 65536);
    compared("of these begun", begun, 2 * 16 * (9 + 16));
}
