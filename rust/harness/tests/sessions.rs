//! Sessions without the Rust, through the C functions: failures, answers out of turn, slices of another length and forged bytes.
//! Records and results are in tests/records.rs, what uploads make of records in tests/loaded.rs.
//! Every slice is lent with markers around it, and those that are only read have to stay (`harness::raw`).

use harness::cases::{CASES, EXCHANGES, LOADED, Point, accepted, cases, longest, stored, walk};
use harness::compared;
use harness::driver::{Operation, record_bytes};
use harness::lists::MARKER;
use harness::random::Random;
use harness::raw::{self, BYTE, DONE, FAILED, SESSION, result_word, word};
use harness::records::{Answered, CARRIED, COUNT, PURPOSE, Stores};
use harness::records::{canonical, canonical_record};
use harness::settings::{Settings, VARIANTS};
use yambelugo::{DrivingMode, OperationMode, RECORD, Variant};

/// Nothing is pending, and every answer is 19 with this count; session, buffer and records of any length stay.
fn refuses_answers(session: &[u8], made: usize, what: &str) {
    let (mut after, mut bytes, mut buffer) = (session.to_vec(), [MARKER; 40], [MARKER; 100]);
    assert_eq!(raw::pending(session, &mut bytes), 0, "{what}");
    for (kind, len) in [DONE, BYTE, FAILED, 255].into_iter().zip([RECORD, RECORD, RECORD, 0]) {
        let mut record = vec![MARKER; len];
        let told = raw::answer(&mut record, &mut after, kind, 7, &mut buffer);
        assert_eq!(told, word(19, 0, made, true), "{what}");
        assert_eq!(record, vec![MARKER; len], "{what}");
    }
    assert!(after == session && bytes == [MARKER; 40] && buffer == [MARKER; 100], "{what}");
}

/// All 256 codes at every exchange of every operation, by every kind above 1 in turn: 17, the code, the count with the failed
/// exchange, ended; the buffer stays, and the record but for the count of sequences at an upload; nothing is pending, the result has the
/// count of exchanges alone, and every later answer is 19.
#[test]
fn every_failure_code_at_every_exchange() {
    let mut failures = 0;
    for case in cases() {
        walk(&case, |point| {
            if point.ended() {
                return;
            }
            for code in 0..=255_u8 {
                // The record of the start, which has all sequences.
                let mut after = Point { record: case.record.to_vec(), ..point.clone() };
                let kind = FAILED.max(code.wrapping_add(point.made as u8));
                let told = after.answer(kind, code);
                assert_eq!(told, word(17, code, point.made + 1, true), "{}", case.name);
                assert!(after.ended() && after.buffer == point.buffer, "{}", case.name);
                let mut wanted = case.record;
                if let Some(Operation::UploadWaveformMemory(..)) = case.operation {
                    wanted[COUNT] = 0;
                }
                assert_eq!(after.record, wanted, "{}", case.name);
                let result = result_word(0, point.made + 1, false);
                assert_eq!(raw::result(&after.session), result, "{}", case.name);
                let broken = after.clone();
                let told = after.answer(code % 4, code);
                assert_eq!(told, word(19, 0, point.made + 1, true), "{}", case.name);
                assert!(after.session == broken.session && after.buffer == broken.buffer);
                assert_eq!((after.record, raw::result(&after.session)), (broken.record, result));
                failures += 1;
            }
        });
    }
    compared("failures", failures, 256 * EXCHANGES);
}

/// Answers that do not fit, at every point of every operation: done for a read, a byte for a write, any answer after the end, and
/// where memory is read any answer with a buffer of another length, a failure too: 19, and record, session, buffer, count, result and
/// what is pending stay. Elsewhere a buffer of any length is fine.
#[test]
fn answers_out_of_turn() {
    let mut refused = 0;
    for case in cases() {
        walk(&case, |point| {
            let mut refuse = |kind: u8, byte: u8, room: usize| {
                let buffer = vec![byte ^ 0x55; room];
                let record = case.record.to_vec();
                let mut after = Point { record, buffer, ..point.clone() };
                let told = after.answer(kind, byte);
                let what =
                    format!("{}, {} made, kind {kind}, buffer {room}", case.name, point.made);
                assert_eq!(told, word(19, 0, point.made, point.ended()), "{what}");
                assert!(after.session == point.session && after.pending == point.pending, "{what}");
                assert_eq!(after.record, case.record, "{what}");
                assert_eq!(raw::result(&after.session), raw::result(&point.session), "{what}");
                assert!(after.buffer.iter().all(|it| *it == byte ^ 0x55), "{what}");
                refused += 1;
            };
            for byte in [0, 1, 0xBA, 255] {
                if point.ended() {
                    for kind in [DONE, BYTE, FAILED, 3, 128, 255] {
                        refuse(kind, byte, case.room);
                        refuse(kind, byte, case.room + 1);
                    }
                } else {
                    refuse(if point.wanted() { DONE } else { BYTE }, byte, case.room);
                    if case.reads > 0 {
                        for room in
                            [case.room + 1, case.room - 1, 0, case.room + 256, 65536 + case.room]
                        {
                            for kind in [DONE, BYTE, FAILED, 255] {
                                refuse(kind, byte, room);
                            }
                        }
                    }
                }
            }
            if !point.ended() && case.reads == 0 {
                for room in [0, 1, 2, 100, 300] {
                    let mut after = point.clone();
                    after.buffer = vec![MARKER; room];
                    let kind = if point.wanted() { BYTE } else { DONE };
                    let told = after.answer(kind, case.read);
                    assert_eq!(told, word(0, 0, point.made + 1, after.ended()), "{}", case.name);
                    assert!(after.buffer.iter().all(|it| *it == MARKER), "{}", case.name);
                }
            }
        });
    }
    compared("answers out of turn", refused, 20_440);
}

/// 16 ends `new` at every byte that is not the variant's, but is told after 19; the byte is counted, the record stays, and the result
/// has the count alone.
#[test]
fn a_mismatch_is_told_after_an_answer_out_of_turn() {
    let mut mismatches = 0;
    for variant in VARIANTS {
        for byte in (0..=255).filter(|byte| *byte != harness::driver::revision(variant)) {
            let (mut record, mut session) = ([MARKER; RECORD], [MARKER; SESSION]);
            assert_eq!(raw::new(9, variant as u8, &mut session), 0);
            let mut answer = |kind| raw::answer(&mut record, &mut session, kind, byte, &mut []);
            assert_eq!(answer(DONE), word(19, 0, 0, false));
            assert_eq!(answer(BYTE), word(16, 0, 1, true));
            assert_eq!(answer(BYTE), word(19, 0, 1, true));
            assert_eq!(answer(FAILED), word(19, 0, 1, true));
            assert_eq!(record, [MARKER; RECORD]);
            refuses_answers(&session, 1, "a mismatch");
            assert_eq!(raw::result(&session), result_word(0, 1, false));
            mismatches += 1;
        }
    }
    compared("mismatches", mismatches, 3 * 255);
}

/// Each byte of memory goes to its own index of the buffer lent with that answer, whatever the buffers held before.
#[test]
fn memory_goes_to_the_buffer_of_each_answer() {
    let mut bytes = 0;
    for (len, room) in [(1, 1), (3, 7), (7, 3), (100, 100), (300, 120)] {
        let mut session = [MARKER; SESSION];
        let operation = Operation::ReadWaveformMemory(len, room);
        assert_eq!(raw::start(&operation, &mut stored(), &mut session), 0);
        let count = len.min(room).min(100);
        for at in 0..count {
            assert_eq!(raw::result(&session), result_word(0, at, false));
            let mut sent = [MARKER; 40];
            assert_eq!(raw::pending(&session, &mut sent), 1 + 256 * 0x4A + 65536);
            assert_eq!(sent[..2], [0x84 + at as u8, MARKER]);
            let mut buffer = vec![at as u8; room];
            let (mut record, byte) = (stored(), 0xF0 ^ at as u8);
            let told = raw::answer(&mut record, &mut session, BYTE, byte, &mut buffer);
            assert_eq!(told, word(0, 0, at + 1, at + 1 == count));
            assert_eq!(record, stored());
            let mut wanted = vec![at as u8; room];
            wanted[at] = byte;
            assert_eq!(buffer, wanted);
            bytes += 1;
        }
        assert_eq!(raw::result(&session), result_word(count as u32, count, true));
    }
    compared("bytes of memory", bytes, 1 + 3 + 3 + 100 + 100);
}

/// The whole length that was said at the start counts: a buffer of that many bytes less a power of two is another.
#[test]
fn every_bit_of_the_buffer_length_counts() {
    let mut lengths = 0;
    for bit in 0..usize::BITS {
        let said = 5 + (1 << bit);
        let mut session = [MARKER; SESSION];
        let operation = Operation::ReadWaveformMemory(2, said);
        assert_eq!(raw::start(&operation, &mut stored(), &mut session), 0);
        for kind in [DONE, BYTE, FAILED] {
            let (mut record, mut after, mut buffer) = (stored(), session, [MARKER; 5]);
            let told = raw::answer(&mut record, &mut after, kind, 1, &mut buffer);
            assert_eq!(told, word(19, 0, 0, false), "5 bytes for {said}");
            assert!(record == stored() && after == session && buffer == [MARKER; 5]);
            lengths += 1;
        }
    }
    compared("buffer lengths that differ in one bit", lengths, 3 * 64);
}

/// What is pending goes into buffers of every length, as much as fits.
#[test]
fn pending_into_buffers_of_every_length() {
    let mut copies = 0;
    for case in cases() {
        walk(&case, |point| {
            let mut whole = [MARKER; 40];
            assert_eq!(raw::pending(&point.session, &mut whole), point.pending, "{}", case.name);
            assert!(point.sends() <= 33 && (point.sends() == 1) == point.wanted(), "{}", case.name);
            let address = if point.ended() { 0 } else { 0x4A };
            assert_eq!(point.pending >> 8 & 255, address, "{}", case.name);
            for len in 0..40 {
                for marker in [MARKER, !MARKER] {
                    let mut bytes = vec![marker; len];
                    assert_eq!(raw::pending(&point.session, &mut bytes), point.pending);
                    let mut wanted = vec![marker; len];
                    let fits = len.min(point.sends());
                    wanted[..fits].copy_from_slice(&whole[..fits]);
                    assert_eq!(bytes, wanted, "{}", case.name);
                    copies += 1;
                }
            }
        });
    }
    compared("pending exchanges into buffers", copies, 80 * (EXCHANGES + CASES));
}

/// Every start that is refused leaves the session's bytes and the record's: one of zeros is then never begun. One that is accepted leaves
/// none of the session's in force.
#[test]
fn a_refused_start_writes_nothing() {
    let mut refused = longest();
    refused.actuator.frequency_Hz = 0;
    let none = record_bytes(0x4A, Variant::DA7282, None, 0);
    let custom = record_bytes(0x4A, Variant::DA7282, Some(&longest()), 15);
    let one = record_bytes(0x4A, Variant::DA7281, None, 1);
    let rows: [(Operation, [u8; RECORD], u8); 20] = [
        (Operation::Configure(refused), none, 23),
        (Operation::Configure(longest()), one, 14),
        (Operation::SetFrequency(100), none, 15),
        (Operation::SetFrequency(1025), custom, 23),
        (Operation::SetOverrideValue(1), none, 15),
        (Operation::SetOverrideValue(1), custom, 12),
        (Operation::Enable, none, 15),
        (Operation::Disable, none, 15),
        (Operation::SetCustomDriveWaveform([1, 2, 3]), none, 15),
        (Operation::SetCustomDriveWaveform([1, 2, 3]), stored(), 12),
        (Operation::UploadWaveformMemory(vec![0; 101], true), none, 8),
        (Operation::UploadWaveformMemory(vec![0; 356], false), custom, 8),
        (Operation::SelectSequence(16, 0), none, 11),
        (Operation::SelectSequence(15, 16), none, 11),
        (Operation::PlaySequence(0, 16), custom, 11),
        (Operation::PlaySequence(16, 0), [0xFF; RECORD], 11),
        (Operation::SelectSequence(0, 0), none, 28),
        (Operation::SelectSequence(15, 0), custom, 28),
        (Operation::PlaySequence(0, 15), none, 28),
        (Operation::PlaySequence(1, 0), one, 28),
    ];
    for (operation, record, number) in &rows {
        for filling in [0, 0xFF, MARKER] {
            let (mut session, mut lent) = ([filling; SESSION], *record);
            assert_eq!(raw::start(operation, &mut lent, &mut session), *number, "{operation:?}");
            assert_eq!((session, &lent), ([filling; SESSION], record), "{operation:?}");
            if filling == 0 {
                refuses_answers(&session, 0, &format!("{operation:?}"));
                assert_eq!(raw::result(&session), 0, "{operation:?}");
            }
        }
    }
    compared("refused starts", rows.len(), 20);

    for case in cases() {
        let sessions = [0, 0xFF, MARKER].map(|filling| {
            let mut session = [filling; SESSION];
            assert_eq!((case.start)(&mut session), 0, "{}", case.name);
            session
        });
        assert!(sessions[0] == sessions[1] && sessions[1] == sessions[2], "{}", case.name);
    }
}

/// A session of another length: a start answers as for a session and leaves it alone, nothing is pending, every answer is 19 and
/// leaves the record, and the result is 0.
#[test]
fn sessions_of_another_length() {
    let mut lengths = 0;
    let refused = Operation::SelectSequence(16, 16);
    for len in (0..=300).chain([512, 533, 534, 65814]).filter(|len| *len != SESSION) {
        for filling in [0, 1, MARKER] {
            let mut session = vec![filling; len];
            for case in cases() {
                assert_eq!((case.start)(&mut session), 0, "{}", case.name);
            }
            assert_eq!(raw::start(&refused, &mut stored(), &mut session), 11);
            refuses_answers(&session, 0, "another length");
            assert_eq!(raw::result(&session), 0);
            assert!(session.iter().all(|byte| *byte == filling));
            lengths += 1;
        }
    }
    compared("sessions of another length", lengths, 3 * 304);
}

/// A record of another length has no settings, address 0, no sequences, and is a DA7280: 15 where settings are needed, 28 where a sequence
/// is; other operations run as from such a record, and none writes to it.
#[test]
fn records_of_another_length() {
    let none = record_bytes(0, Variant::DA7280, None, 0);
    let mut starts = 0;
    for filled in [stored(), [2; RECORD], [0xFF; RECORD]] {
        for len in (0..=80).filter(|len| *len != RECORD) {
            let record: Vec<u8> = filled.iter().cycle().copied().take(len).collect();
            for operation in accepted() {
                let needed = match operation {
                    Operation::SetFrequency(_)
                    | Operation::SetOverrideValue(_)
                    | Operation::Enable
                    | Operation::Disable
                    | Operation::SetCustomDriveWaveform(_) => 15,
                    Operation::SelectSequence(..) | Operation::PlaySequence(..) => 28,
                    _ => 0,
                };
                let (mut session, mut wanted) = ([MARKER; SESSION], [MARKER; SESSION]);
                let (mut lent, mut same) = (record.clone(), none);
                let number = raw::start(&operation, &mut lent, &mut session);
                assert_eq!(number, needed, "{operation:?}, {len} bytes");
                assert_eq!(raw::start(&operation, &mut same, &mut wanted), number);
                assert_eq!(session, wanted, "{operation:?}, {len} bytes");
                assert!(lent == record && same == none, "{operation:?}, {len} bytes");
                starts += 1;
            }
        }
    }
    compared("records of another length", starts, 3 * 80 * accepted().len());
}

/// Missing bytes of settings count as 0 and further ones are ignored.
#[test]
fn settings_of_another_length() {
    let mut random = Random::new(0x5E77);
    let mut lengths = 0;
    for settings in [longest(), Settings::accepted(&mut random), Settings::accepted(&mut random)] {
        for len in 0..=80 {
            let whole: Vec<u8> = settings.encode().iter().cycle().copied().take(len).collect();
            let mut padded = [0; 34];
            let fits = len.min(34);
            padded[..fits].copy_from_slice(&whole[..fits]);
            let (mut session, mut wanted) = ([MARKER; SESSION], [MARKER; SESSION]);
            let number = raw::configure(&stored(), &whole, &mut session);
            assert_eq!(number, raw::configure(&stored(), &padded, &mut wanted), "{len} bytes");
            // Without the impedance's high byte it is too low.
            assert!(len > 8 || number == 22);
            assert!(len < 34 || number == 0);
            assert_eq!(session, wanted, "{len} bytes");
            lengths += 1;
        }
    }
    compared("settings of another length", lengths, 3 * 81);
}

/// A code past the last counts as the last, and a flag is set unless it is 0: in settings, in records, and as an argument. Settings are
/// stored where a record's byte 2 is above 1; the sequences are counted also where they are not.
#[test]
fn codes_past_the_last() {
    let record = stored();
    let mut cases = 0;
    let mut same = |this: &dyn Fn(&mut [u8]) -> u8, that: &dyn Fn(&mut [u8]) -> u8| {
        let (mut ours, mut wanted) = ([MARKER; SESSION], [MARKER; SESSION]);
        assert_eq!(this(&mut ours), that(&mut wanted));
        assert_eq!(ours, wanted);
        cases += 1;
    };
    // The offset of each choice among the settings, and its last code.
    let choices = [(0, 1), (13, 1), (18, 4), (19, 2), (32, 1), (33, 1)];
    let triggers = [20, 24, 28].map(|at| [(at, 1), (at + 2, 2), (at + 3, 1)]);
    for (at, last) in choices.iter().chain(triggers.as_flattened()) {
        let mut plain = Settings::plain(OperationMode::DRO_MODE, DrivingMode::FREQUENCY_TRACK);
        plain.device.gpi_triggers = longest().device.gpi_triggers;
        for code in *last..=255 {
            let [mut past, mut wanted] = [plain.encode(); 2];
            (past[*at], wanted[*at]) = (code, *last);
            same(&|session| raw::configure(&record, &past, session), &|session| {
                raw::configure(&record, &wanted, session)
            });
            let stored =
                |settings: [u8; 34]| [&[0x4A, 1, code.max(2)][..], &settings, &[9]].concat();
            for operation in [
                Operation::Enable,
                Operation::SetFrequency(30),
                Operation::SetOverrideValue(-1),
                Operation::SetCustomDriveWaveform([0; 3]),
                Operation::GetStatus,
            ] {
                let mut canonical = stored(wanted);
                canonical[2] = 2;
                same(&|session| raw::start(&operation, &mut stored(past), session), &|session| {
                    raw::start(&operation, &mut canonical.clone(), session)
                });
            }
        }
    }
    let none = record_bytes(0x4A, Variant::DA7282, None, LOADED);
    for code in 0..=255 {
        let mut other = record;
        other[2] = code;
        let wanted = if code > 1 { record } else { none };
        for operation in accepted() {
            same(&|session| raw::start(&operation, &mut { other }, session), &|session| {
                raw::start(&operation, &mut { wanted }, session)
            });
        }
        let mut start = |operation| raw::start(&operation, &mut other, &mut [0; SESSION]);
        assert_eq!(start(Operation::Enable), if code > 1 { 0 } else { 15 }, "byte 2 is {code}");
        assert_eq!(start(Operation::SelectSequence(15, 0)), 0, "byte 2 is {code}");
    }
    for code in 2..=255 {
        same(&|session| raw::new(7, code, session), &|session| raw::new(7, 2, session));
        let mut other = record;
        other[1] = code;
        let settings = longest().encode();
        same(&|session| raw::configure(&other, &settings, session), &|session| {
            raw::configure(&record, &settings, session)
        });
        same(&|session| raw::set_timebase(&record, code, session), &|session| {
            raw::set_timebase(&record, 1, session)
        });
        same(&|session| raw::upload(&mut { record }, &[1, 2, 3], code, session), &|session| {
            raw::upload(&mut { record }, &[1, 2, 3], 1, session)
        });
    }
    compared("codes past the last", cases, 6 * (1526 + 3 * 764) + 256 * (CASES - 3) + 4 * 254);
}

/// Any bytes are a record and any are settings: every operation is begun as from the record that they are, in the bytes that the
/// library writes; `configure` stores its settings in it by the last answer, an upload counts its sequences in it from the start on, and
/// no other operation writes to it.
#[test]
fn any_bytes_are_a_record() {
    let mut random = Random::new(0x2ECD);
    let operations = accepted();
    let (mut cases, mut begun) = (0, [0; 3]);
    for _ in 0..100_000 {
        let mut bytes = |settings: Settings| {
            let mut bytes = settings.encode();
            for _ in 0..random.below(6) {
                let at = random.below(34);
                bytes[at] = random.near(&[0, 1, 2, 3, 4, 5, 255]);
            }
            if random.chance(10) {
                bytes = bytes.map(|_| random.byte());
            }
            bytes
        };
        let (stored, settings) = (bytes(longest()), bytes(longest()));
        let head = [random.byte(), random.near(&[0, 1, 2, 3]), random.near(&[0, 1, 2, 3])];
        let loaded = [random.near(&[0, 1, 2, 15, 16, 17])];
        let lent = [&head[..], &stored, &loaded].concat();
        let (mut record, mut same_record) = (lent.clone(), canonical_record(&lent));

        let (mut session, mut same) = ([MARKER; SESSION], [MARKER; SESSION]);
        let (number, room, stores) = match random.below(3) {
            0 => {
                let number = raw::configure(&record, &settings, &mut session);
                let told = raw::configure(&same_record, &canonical(&settings), &mut same);
                assert_eq!(told, number);
                (number, 0, Stores::configured(&record, &settings))
            }
            _ => {
                let operation = &operations[random.within(1, operations.len() - 1)];
                let number = raw::start(operation, &mut record, &mut session);
                let told = raw::start(operation, &mut same_record, &mut same);
                assert_eq!(told, number, "{operation:?}");
                (number, operation.room(), Stores::by(operation, &lent))
            }
        };
        assert_eq!(session, same, "{lent:02X?}");
        if number == 0 {
            assert_eq!(record, stores.begun(&lent), "{lent:02X?}");
            let mut buffer = vec![MARKER; room];
            let mut pending = raw::pending(&session, &mut []);
            while pending != 0 {
                assert_eq!(pending >> 8 & 255, lent[0].into());
                let (kind, byte, before) = ((pending >> 16) as u8, random.byte(), record.clone());
                let told = raw::answer(&mut record, &mut session, kind, byte, &mut buffer);
                let wanted = stores.after(&before, Answered::told(told));
                assert_eq!(record, wanted, "{before:02X?}, {told:X}");
                pending = raw::pending(&session, &mut []);
            }
            begun[match stores {
                Stores::Settings(_) => 1,
                Stores::Sequences(..) => 2,
                _ => 0,
            }] += 1;
        } else {
            assert_eq!(record, lent, "{number}");
        }
        cases += 1;
    }
    compared("bytes of records and settings", cases, 100_000);
    compared("of these begun, that store nothing", begun[0], 27_283);
    compared("that store settings", begun[1], 18_905);
    compared("and that count sequences", begun[2], 29_487);
}

/// The stage of a session that was begun; the offsets of what is looked at below are those of `harness::records` and here alone.
const BEGUN: u8 = 1;

/// Any bytes are a session: random ones, and those of sessions damaged at some bytes. Every call comes back; what is pending has at
/// most 33 bytes and at most one wanted; an answer is told as the header says and counts one exchange or changes nothing; at
/// most one byte of the buffer changes, and only for a byte that was wanted; it ends after at most 125 exchanges. The record changes by
/// the answer that completes the session alone, or where it is for an upload by each that is taken; and the result has the count.
#[test]
fn any_bytes_are_a_session() {
    let mut random = Random::new(0xF0E6);
    let cases = cases();
    let (mut states, mut completed, mut written, mut counted) = (0, 0, 0, [0; 2]);
    for state in 0..60_000 {
        let mut session: Vec<u8> = match state % 4 {
            0 => (0..SESSION).map(|_| random.byte()).collect(),
            1 => {
                let len = random.within(0, 600);
                (0..len).map(|_| random.byte()).collect()
            }
            _ => {
                let mut session = vec![0; SESSION];
                (cases[random.below(cases.len())].start)(&mut session);
                for _ in 0..random.within(1, 6) {
                    let at =
                        if random.chance(60) { random.below(17) } else { random.below(SESSION) };
                    session[at] = random.near(&[0, 1, 2, 25, 26, 99, 100, 101, 124, 125, 126, 255]);
                }
                session
            }
        };
        if state % 4 == 0 {
            // Else most of them have ended, and are for nothing.
            (session[1], session[2]) = (BEGUN, random.below(130) as u8);
            session[PURPOSE] = random.below(8) as u8;
        }
        let mut made = None;
        for _ in 0..130 {
            let mut bytes = vec![MARKER; random.below(40)];
            let pending = raw::pending(&session, &mut bytes);
            let [len, address, wanted, rest] = pending.to_le_bytes();
            assert!(len <= 33 && wanted <= 1 && rest == 0);
            assert!(if len == 0 { pending == 0 } else { address == session[0] });
            assert!(bytes[bytes.len().min(len.into())..].iter().all(|it| *it == MARKER));

            let result = raw::result(&session);
            let is_session = session.len() == SESSION;
            let completes = is_session && session[1] == BEGUN && len == 0;
            let value = match session.get(PURPOSE) {
                Some(3) if completes => session[3].into(),
                Some(4) if completes => u32::from_be_bytes([0, session[5], session[4], session[3]]),
                Some(5) if completes => session[7].min(100).into(),
                _ => 0,
            };
            let count = if is_session && session[1] != 0 { session[2].into() } else { 0 };
            assert_eq!(result, result_word(value, count, completes));
            completed += usize::from(completes);

            let room = u64::from_le_bytes(match session.get(8..16) {
                Some(bytes) => bytes.try_into().unwrap(),
                None => [0; 8],
            });
            let room = if room <= 300 { room as usize } else { random.below(120) };
            let room = if random.chance(90) { room } else { room + 1 };
            let mut buffer = vec![MARKER; room];
            let mut lent = vec![MARKER; random.pick(&[0, 37, 38, 38, 38, 39])];
            if is_session && lent.len() == RECORD && random.chance(80) {
                let variant = random.pick(&[session[CARRIED + 1], session[CARRIED + 1], 0, 1]);
                (lent[0], lent[1]) = (session[CARRIED], variant);
            }
            let (before, mut record) = (session.clone(), lent.clone());
            let fits = if wanted == 1 { BYTE } else { DONE };
            let kind = if random.chance(90) { fits } else { random.byte() };
            let byte = random.byte();
            let told = raw::answer(&mut record, &mut session, kind, byte, &mut buffer);
            let [number, code, count, ended] = told.to_le_bytes();
            assert!(matches!(number, 0 | 16 | 17 | 19) && ended <= 1);
            assert_eq!(code, if number == 17 { byte } else { 0 });
            assert_eq!(ended == 1, raw::pending(&session, &mut []) == 0);
            assert!(made.is_none_or(|made| count == made + u8::from(number != 19)));
            let changed = buffer.iter().filter(|it| **it != MARKER).count();
            assert!(changed == 0 || changed == 1 && number == 0 && wanted == 1);
            if len == 0 {
                assert_eq!(number, 19);
            }
            if number == 19 {
                assert_eq!(session, before);
            } else {
                assert!((kind > 1) == (number == 17) && count <= 125);
                assert!(ended == 1 || number == 0);
            }
            let stores = Stores::forged(&session);
            assert_eq!(record, stores.after(&lent, Answered::told(told)), "{told:X}, {stores:?}");
            match stores {
                Stores::Sequences(..) if record != lent => {
                    counted[usize::from(record[COUNT] != 0)] += 1;
                }
                _ => written += usize::from(record != lent),
            }
            made = Some(count);
            if len == 0 {
                break;
            }
        }
        states += 1;
    }
    compared("forged sessions", states, 60_000);
    compared("of these completed", completed, 17_769);
    compared("of these that wrote a record", written, 143);
    compared("counts of sequences set to 0", counted[0], 11_599);
    compared("and to another number", counted[1], 1_460);
}
