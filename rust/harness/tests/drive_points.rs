//! Custom drive points: the two checks against the published Rust, which has no finished body behind them; the exchanges against the list
//! in document 02 (CR 8), written here: SWG_C1, SWG_C2, SWG_C3, one byte each.

use harness::bus::{Exchange, Script, kind};
use harness::cases::{EXCHANGES, case, cases, walk};
use harness::driver::{Operation, Pair, Value, record_bytes};
use harness::lists::MARKER;
use harness::random::Random;
use harness::raw::{self, DONE, SESSION, result_word, word};
use harness::settings::{DRIVINGS, OPERATIONS, Settings, VARIANTS};
use harness::{compared, drive_points};
use yambelugo::{DrivingMode, OperationMode, Variant};

/// A driver with settings for a custom waveform.
fn custom() -> Pair {
    let settings = Settings::plain(OperationMode::DRO_MODE, DrivingMode::CUSTOM_WAVEFORM);
    Pair::configured(0x4B, Variant::DA7280, &settings)
}

/// The first of the three writes.
fn writes([a, b, c]: [u8; 3], made: usize) -> Vec<Exchange> {
    let mut all = [[0x25, a], [0x26, b], [0x27, c]].map(|it| Exchange::new(0x4B, &it, 0)).to_vec();
    all.truncate(made);
    all
}

/// 15 without settings and 12 in another mode, as the published Rust tells them; in CUSTOM_WAVEFORM it comes to its unfinished body, and
/// the points are written.
#[test]
fn the_two_checks_in_every_mode() {
    let operation = Operation::SetCustomDriveWaveform([1, 2, 3]);
    let modes = OPERATIONS.iter().flat_map(|it| DRIVINGS.map(|to| Some((*it, to))));
    let stored: Vec<_> = modes.chain([None]).collect();
    let (mut refused, mut written) = ([0; 2], 0);
    for (variant, modes) in VARIANTS.iter().flat_map(|it| stored.iter().map(move |to| (*it, to))) {
        let mut pair = match modes {
            Some((operation, driving)) => {
                let mut settings = Settings::plain(*operation, *driving);
                settings.device.gpi_triggers[1..].fill(None); // the DA7281 has one
                Pair::configured(0x4B, variant, &settings)
            }
            None => Pair::new(0x4B, variant),
        };
        let outcome = pair.compare(&operation, &Script::reading(&[0]));
        let unfinished = pair.published().unfinished(&operation);
        match modes {
            None => {
                assert_eq!((outcome.answer, outcome.made), (Err((15, None)), 0));
                refused[0] += 1;
            }
            Some((_, DrivingMode::CUSTOM_WAVEFORM)) => {
                assert_eq!(outcome.answer, Ok(Value::Nothing));
                assert_eq!(outcome.log, writes([1, 2, 3], 3));
                written += 1;
            }
            Some(_) => {
                assert_eq!((outcome.answer, outcome.made), (Err((12, None)), 0));
                refused[1] += 1;
            }
        }
        let todo = "not yet implemented: Set custom drive waveform is not yet implemented";
        let custom = matches!(modes, Some((_, DrivingMode::CUSTOM_WAVEFORM)));
        assert_eq!(unfinished.as_deref(), custom.then_some(todo), "{modes:?}");
    }
    assert_eq!(refused, [3, 3 * 5 * 2]);
    compared("modes with custom drive points", written, 3 * 5);
}

/// The same by the C functions, without the wrapper.
#[test]
fn the_three_writes_in_c() {
    let settings = Settings::plain(OperationMode::PWM_MODE, DrivingMode::CUSTOM_WAVEFORM);
    let mut record = record_bytes(0x4B, Variant::DA7281, Some(&settings), 3);
    let mut session = [MARKER; SESSION];
    let operation = Operation::SetCustomDriveWaveform([0x28, 0x5F, 0x80]);
    assert_eq!(raw::start(&operation, &mut record, &mut session), 0);
    for (made, wanted) in [[0x25, 0x28], [0x26, 0x5F], [0x27, 0x80]].into_iter().enumerate() {
        let mut bytes = [MARKER; 3];
        assert_eq!(raw::pending(&session, &mut bytes), 2 + 256 * 0x4B);
        assert_eq!(bytes, [wanted[0], wanted[1], MARKER]);
        let told = raw::answer(&mut record, &mut session, DONE, 0, &mut []);
        assert_eq!(told, word(0, 0, made + 1, made == 2));
    }
    assert_eq!(raw::result(&session), result_word(0, 3, true));
    assert_eq!(record, record_bytes(0x4B, Variant::DA7281, Some(&settings), 3));
}

/// No other operation writes the three registers: one of each, and `configure` with random settings.
#[test]
fn no_other_operation_writes_them() {
    let mut random = Random::new(0x5C1C);
    let settings = (0..5_000).map(|_| case(Operation::Configure(Settings::accepted(&mut random))));
    let (mut exchanges, mut points) = (0, 0);
    for case in cases().into_iter().chain(settings) {
        exchanges += walk(&case, |point| {
            let mut bytes = [MARKER; 33];
            raw::pending(&point.session, &mut bytes);
            if !point.ended() && drive_points::REGISTERS.contains(&bytes[0]) {
                let own = matches!(case.operation, Some(Operation::SetCustomDriveWaveform(_)));
                assert!(own, "{}", case.name);
                points += 1;
            }
        });
    }
    assert!(exchanges >= EXCHANGES + 14 * 5_000, "{exchanges} exchanges");
    compared("exchanges with the registers of drive points", points, 3);
}

/// Every byte at each of the three places, and random points.
#[test]
fn any_bytes_are_points() {
    let (mut pair, mut random) = (custom(), Random::new(0x5C1B));
    let mut cases = 0;
    let mut write = |points| {
        let operation = Operation::SetCustomDriveWaveform(points);
        let outcome = pair.compare(&operation, &Script::reading(&[0]));
        assert_eq!((outcome.answer, outcome.made), (Ok(Value::Nothing), 3), "{points:02X?}");
        assert_eq!(outcome.log, writes(points, 3));
        cases += 1;
    };
    for (place, byte) in (0..3).flat_map(|place| (0..=255).map(move |byte| (place, byte))) {
        let mut points = [0x5A, 0xC3, 0x81];
        points[place] = byte;
        write(points);
    }
    for _ in 0..65_536 {
        write([random.byte(), random.byte(), random.byte()]);
    }
    compared("custom drive points", cases, 3 * 256 + 65_536);
}

/// A failure at each write with every code: 17, the earlier writes stand, none follows, and the points can be set again.
#[test]
fn a_failure_at_each_write() {
    let mut pair = custom();
    let (points, mut failures) = ([0x28, 0x5F, 0x80], 0);
    let operation = Operation::SetCustomDriveWaveform(points);
    for (at, code) in (0..4).flat_map(|at| (0..=255).map(move |code| (at, code))) {
        let script = Script { reads: vec![0], fails: Some((at, code)) };
        let outcome = pair.compare(&operation, &script);
        let wanted = if at < 3 { Err((17, Some(kind(code)))) } else { Ok(Value::Nothing) };
        assert_eq!((outcome.answer, outcome.made), (wanted, 3.min(at + 1)), "{at}, {code}");
        assert_eq!(outcome.log, writes(points, at + 1));
        failures += usize::from(at < 3);
    }
    compared("failed writes of drive points", failures, 3 * 256);
}
