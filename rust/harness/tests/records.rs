//! Records and results of sessions, through the C functions: which answer writes to the record lent with it, what is in force after wrong
//! uses, and what a result holds at every point. What is wanted comes from documents 01 and 02 and the header (`harness::records`,
//! `Operation::answers`), never from the library.

use harness::cases::walk;
use harness::cases::{CASES, EXCHANGES, Point, accepted, case, cases, longest, new, stored};
use harness::compared;
use harness::driver::{Operation, record_bytes, revision};
use harness::lists::MARKER;
use harness::random::Random;
use harness::raw::{self, BYTE, DONE, FAILED, SESSION, result_word, word};
use harness::records::{Answered, COUNT, Stores};
use harness::settings::{MEMORY_TIMEBASES, Settings, VARIANTS};
use yambelugo::{DrivingMode, OperationMode, RECORD, Variant};

/// Records that may be lent with an answer: the one of the start, others of the chip, of other chips, and of other lengths.
fn lendable(own: [u8; RECORD]) -> Vec<Vec<u8>> {
    let mut records = vec![own, record_bytes(own[0], Variant::DA7282, None, 0), [0; RECORD]];
    let chips = [(0, 0x4B), (0, 0), (1, 0), (1, 1), (1, 3), (1, 255), (2, 0), (2, 255)];
    for (at, byte) in chips.into_iter().chain([(COUNT, 0), (COUNT, 253), (COUNT, 255)]) {
        let mut other = own;
        other[at] = byte;
        records.push(other);
    }
    records.extend([[MARKER; RECORD], [0xFF; RECORD]]);
    let other_lengths = [0, 1, RECORD - 1, RECORD + 1, 2 * RECORD].map(|len| {
        let bytes = own.iter().cycle().take(len);
        bytes.copied().collect::<Vec<u8>>()
    });
    records.into_iter().map(|it| it.to_vec()).chain(other_lengths).collect()
}

/// The record changes by the last answer of `new` and of `configure`, and by each answer to an upload that is taken, a failure too,
/// whatever is lent; by no other answer, none out of turn and none after the end. `configure` makes 14 to 25 exchanges.
#[test]
fn a_record_by_each_answer() {
    let (mut answers, mut written, mut counted, mut most) = (0, 0, [0; 2], 0);
    for case in cases() {
        let uploads = matches!(case.stores, Stores::Sequences(..));
        most = most.max(walk(&case, |point| {
            for lent in lendable(case.record) {
                let with = Point { record: lent.clone(), ..point.clone() };
                for kind in [DONE, BYTE, FAILED] {
                    let fits = kind == FAILED || point.wanted() == (kind == BYTE);
                    let byte = case.read.wrapping_add(point.made as u8);
                    let mut after = with.clone();
                    let told = after.answer(kind, byte);
                    let wanted = match Answered::told(told) {
                        Answered::OutOfTurn => {
                            assert!(point.ended() || !fits, "{}, kind {kind}", case.name);
                            lent.clone()
                        }
                        answered => {
                            assert!(!point.ended() && fits, "{}, kind {kind}", case.name);
                            let completed = kind != FAILED && after.ended();
                            assert_eq!(answered == Answered::Completed, completed);
                            case.stores.after(&lent, answered)
                        }
                    };
                    assert_eq!(after.record, wanted, "{}, kind {kind}, {lent:02X?}", case.name);
                    match after.record != lent {
                        true if uploads => counted[usize::from(kind == FAILED)] += 1,
                        changed => written += usize::from(changed),
                    }
                    answers += 1;
                }
            }
        }));
    }
    assert_eq!(most, 100);
    let shortest = Settings::plain(OperationMode::DRO_MODE, DrivingMode::FREQUENCY_TRACK);
    let counts = [longest(), shortest].map(|it| walk(&case(Operation::Configure(it)), |_| {}));
    assert_eq!(counts, [25, 14]);
    let records = lendable(stored()).len();
    compared("records lent with answers", answers, records * 3 * (EXCHANGES + CASES));
    // `new` makes all sixteen of the right length its own, of which one is so before; nine are of the chip that `configure` sets up.
    compared("of these written", written, 3 * 16 + 4 * 9 - 1);
    // Eleven are of the address that the uploads go to, two of these with no sequences. The last answer of 16 of the 20 uploads sets the
    // count to 253, which one has; every other sets it to 0.
    compared("of these counted", counted[0], (72 - 20) * 9 + 4 * 9 + 16 * 10);
    compared("of these counted by a failure", counted[1], 72 * 9);
}

/// The result has the count at every point of every operation, and what it answers once it is completed: `set_timebase` and others that
/// read a byte answer nothing.
#[test]
fn a_result_at_every_point() {
    let (mut points, mut values) = (0, 0);
    for case in cases() {
        walk(&case, |point| {
            let completed = point.ended();
            let value = if completed { case.answers(&point.read) } else { 0 };
            let wanted = result_word(value, point.made, completed);
            assert_eq!(raw::result(&point.session), wanted, "{}", case.name);
            (points, values) = (points + 1, values + usize::from(value != 0));
        });
    }
    compared("results", points, EXCHANGES + CASES);
    compared("of these with a value", values, 3 + 5);
}

/// The three bytes of `get_events`, the first above the others.
#[test]
fn events_in_their_order() {
    let (mut record, mut session) = (stored(), [MARKER; SESSION]);
    assert_eq!(raw::start(&Operation::GetEvents, &mut record, &mut session), 0);
    for (made, (kind, byte)) in
        [(BYTE, 0xE1), (BYTE, 0xD2), (BYTE, 0xC3), (DONE, 0)].into_iter().enumerate()
    {
        assert_eq!(raw::result(&session), result_word(0, made, false));
        raw::answer(&mut record, &mut session, kind, byte, &mut []);
    }
    assert_eq!(raw::result(&session), result_word(0xE1_D2C3, 4, true));
}

/// Operations that read bytes and answer none of them: `new`, `configure` and every update of a register.
#[test]
fn operations_that_answer_nothing() {
    let reading = [
        Operation::SetTimebase(MEMORY_TIMEBASES[1]),
        Operation::Disable,
        Operation::StartSequence,
        Operation::PlaySequence(3, 1),
        Operation::Configure(longest()),
    ];
    let cases = reading.into_iter().map(case).chain(VARIANTS.into_iter().map(new));
    let mut ended = 0;
    for case in cases {
        walk(&case, |point| {
            if point.ended() {
                assert!(!point.read.is_empty(), "{}", case.name);
                let wanted = result_word(0, point.made, true);
                assert_eq!(raw::result(&point.session), wanted, "{}", case.name);
                ended += 1;
            }
        });
    }
    compared("operations that answer nothing", ended, 5 + 3);
}

/// A read of no bytes is completed at once: no exchange, and the count of bytes is 0.
#[test]
fn a_memory_read_of_zero_bytes() {
    for (len, room) in [(0, 5), (5, 0), (0, 0), (0, 100)] {
        let (mut record, mut session) = (stored(), [MARKER; SESSION]);
        let operation = Operation::ReadWaveformMemory(len, room);
        assert_eq!(raw::start(&operation, &mut record, &mut session), 0);
        assert_eq!(raw::result(&session), result_word(0, 0, true));
        assert_eq!(raw::pending(&session, &mut [0; 40]), 0);
        for kind in [DONE, BYTE, FAILED] {
            let (begun, mut buffer) = (session, vec![MARKER; room]);
            let told = raw::answer(&mut record, &mut session, kind, 1, &mut buffer);
            assert_eq!(told, word(19, 0, 0, true));
            assert!(record == stored() && session == begun && buffer == vec![MARKER; room]);
        }
    }
}

/// Runs a session to its end, as the header shows, lending this record; the number of the refusal that stopped it.
fn run(record: &mut [u8], session: &mut [u8], read: u8) -> u8 {
    let mut pending = raw::pending(session, &mut []);
    while pending != 0 {
        let told = raw::answer(record, session, (pending >> 16) as u8, read, &mut []);
        if told & 255 != 0 {
            return (told & 255) as u8;
        }
        pending = raw::pending(session, &mut []);
    }
    0
}

/// Three settings of a DA7280: two that are accepted, and one that is refused with 22.
fn three_settings() -> [Settings; 3] {
    let plain = |mode| Settings::plain(mode, DrivingMode::FREQUENCY_TRACK);
    let (x, y) = (plain(OperationMode::DRO_MODE), plain(OperationMode::RTWM_MODE));
    let mut z = plain(OperationMode::PWM_MODE);
    z.actuator.max_current_mA = 253;
    [x, y, z]
}

/// A driver record without settings and sequences, made by `new`.
fn found(address: u8, variant: Variant) -> [u8; RECORD] {
    let (mut record, mut session) = ([MARKER; RECORD], [0; SESSION]);
    assert_eq!(raw::new(address, variant as u8, &mut session), 0);
    assert_eq!(run(&mut record, &mut session, revision(variant)), 0);
    assert_eq!(record, record_bytes(address, variant, None, 0));
    record
}

/// Configures to the end; the settings are stored, and the count of sequences stays.
fn configured(settings: &Settings, record: &mut [u8; RECORD], session: &mut [u8]) {
    let (address, variant, sequences) =
        (record[0], VARIANTS[usize::from(record[1])], record[COUNT]);
    assert_eq!(raw::configure(record, &settings.encode(), session), 0);
    assert_eq!(run(record, session, 0x5A), 0);
    assert_eq!(*record, record_bytes(address, variant, Some(settings), sequences));
}

/// Every answer is 19 and leaves the record.
fn brings_nothing_back(record: &mut [u8; RECORD], session: &mut [u8]) {
    let before = (*record, session.to_vec());
    for kind in [DONE, BYTE, FAILED, 255] {
        assert_eq!(raw::answer(record, session, kind, 0x5A, &mut []) & 0xFF, 19);
    }
    assert_eq!((*record, session.to_vec()), before);
}

/// X by session A, then Y by session B; Z is refused in A, and nobody looks. X does not come back: Y is in force.
#[test]
fn a_stale_session_brings_back_no_settings() {
    let [x, y, z] = three_settings();
    let (mut a, mut b) = ([0; SESSION], [0; SESSION]);
    let mut record = found(0x4A, Variant::DA7280);
    record[COUNT] = 4;
    configured(&x, &mut record, &mut a);
    configured(&y, &mut record, &mut b);
    assert_eq!(raw::configure(&record, &z.encode(), &mut a), 22);
    assert_eq!(run(&mut record, &mut a, 0x5A), 0);
    brings_nothing_back(&mut record, &mut a);
    assert_eq!(record, record_bytes(0x4A, Variant::DA7280, Some(&y), 4));
    assert_eq!(raw::start(&Operation::Enable, &mut record, &mut a), 0);
    let mut sent = [0; 33];
    raw::pending(&a, &mut sent);
    assert_eq!(sent[..2], [0x22, OperationMode::RTWM_MODE as u8]);
}

/// The same with two chips on one session buffer: the second chip's record stays as it was, with its address and without settings.
#[test]
fn a_stale_session_on_two_chips() {
    let [x, _, z] = three_settings();
    let mut session = [0; SESSION];
    let mut first = found(0x4A, Variant::DA7280);
    let mut second = found(0x4B, Variant::DA7281);
    (first[COUNT], second[COUNT]) = (16, 2);
    configured(&x, &mut first, &mut session);
    assert_eq!(raw::configure(&second, &z.encode(), &mut session), 22);
    assert_eq!(run(&mut second, &mut session, 0x5A), 0);
    brings_nothing_back(&mut second, &mut session);
    brings_nothing_back(&mut first, &mut session);
    assert_eq!(second, record_bytes(0x4B, Variant::DA7281, None, 2));
    assert_eq!(first, record_bytes(0x4A, Variant::DA7280, Some(&x), 16));
    assert_eq!(raw::start(&Operation::Enable, &mut second, &mut session), 15);
}

/// A start that is refused after a completed session of any operation: what is asked then is of the operation before, no answer is
/// taken, and the record stays.
#[test]
fn a_refused_start_after_a_completed_session() {
    let few = record_bytes(0x4A, Variant::DA7282, None, 3);
    let refusals = [
        (Operation::Configure(three_settings()[2]), stored(), 22),
        (Operation::SetFrequency(0), stored(), 23),
        (Operation::SetCustomDriveWaveform([1, 2, 3]), stored(), 12),
        (Operation::UploadWaveformMemory(vec![0; 101], true), stored(), 8),
        (Operation::PlaySequence(16, 0), stored(), 11),
        (Operation::PlaySequence(3, 0), few, 28),
    ];
    let mut refused = 0;
    for case in cases() {
        for (operation, record, number) in &refusals {
            let mut point = Point::begin(&case);
            while !point.ended() {
                point.make(&case);
            }
            let result = raw::result(&point.session);
            let mut lent = *record;
            assert_eq!(raw::start(operation, &mut lent, &mut point.session), *number);
            assert_eq!(raw::result(&point.session), result, "{}", case.name);
            assert_eq!(lent, *record);
            point.record = record.to_vec();
            let before = point.clone();
            for kind in [DONE, BYTE, FAILED] {
                let told = point.answer(kind, case.read);
                assert_eq!(told, word(19, 0, point.made, true), "{}", case.name);
            }
            assert!(point.record == before.record && point.session == before.session);
            refused += 1;
        }
    }
    compared("refused starts after a completed session", refused, CASES * refusals.len());
}

/// A start that is refused while a session is under way: that session goes on, and stores its own settings.
#[test]
fn a_refused_start_under_way() {
    let [x, _, z] = three_settings();
    let mut record = found(0x4A, Variant::DA7280);
    let mut session = [0; SESSION];
    assert_eq!(raw::configure(&record, &x.encode(), &mut session), 0);
    raw::answer(&mut record, &mut session, DONE, 0, &mut []);
    assert_eq!(raw::configure(&record, &z.encode(), &mut session), 22);
    assert_eq!(raw::result(&session), result_word(0, 1, false));
    assert_eq!(run(&mut record, &mut session, 0x5A), 0);
    assert_eq!(record, record_bytes(0x4A, Variant::DA7280, Some(&x), 0));
}

/// Another chip's record lent with the last answer of `configure` stays as it is, and so does the chip's own, which was not lent; a record
/// of the same address and variant gets the settings, and keeps its own count.
#[test]
fn the_wrong_record_at_the_last_answer() {
    let [x, y, _] = three_settings();
    let own = found(0x4A, Variant::DA7280);
    let mut cases = 0;
    for (address, variant) in [
        (0x4B, Variant::DA7280),
        (0x4A, Variant::DA7281),
        (0x4A, Variant::DA7282),
        (0, Variant::DA7280),
    ] {
        for stored in [None, Some(&y)] {
            let wrong = record_bytes(address, variant, stored, 5);
            let (mut lent, mut session) = (wrong, [0; SESSION]);
            assert_eq!(raw::configure(&own, &x.encode(), &mut session), 0);
            assert_eq!(run(&mut lent, &mut session, 0x5A), 0);
            assert_eq!(lent, wrong);
            let mut late = own;
            brings_nothing_back(&mut late, &mut session);
            assert_eq!(raw::result(&session), result_word(0, 14, true));
            cases += 1;
        }
    }
    compared("wrong records at the last answer", cases, 8);

    // On another bus there may be a chip of the same address and variant.
    let (mut twin, mut session) = (record_bytes(0x4A, Variant::DA7280, Some(&y), 5), [0; SESSION]);
    assert_eq!(raw::configure(&own, &x.encode(), &mut session), 0);
    assert_eq!(run(&mut twin, &mut session, 0x5A), 0);
    assert_eq!(twin, record_bytes(0x4A, Variant::DA7280, Some(&x), 5));
}

/// Two chips on one bus, each with a session of its own, answered in turn: each record gets its own settings, each at its own end.
#[test]
fn two_chips_in_turn() {
    let [x, _, _] = three_settings();
    let settings = [x, longest()];
    let chips = [(0x4A, Variant::DA7280), (0x4B, Variant::DA7282)];
    let mut records = chips.map(|(address, variant)| found(address, variant));
    let mut sessions = [[0; SESSION]; 2];
    for (i, settings) in settings.iter().enumerate() {
        assert_eq!(raw::configure(&records[i], &settings.encode(), &mut sessions[i]), 0);
    }
    let mut ended = [0; 2];
    for made in 1..=25 {
        for i in 0..2 {
            let pending = raw::pending(&sessions[i], &mut []);
            if pending != 0 {
                let (kind, record) = ((pending >> 16) as u8, &mut records[i]);
                let told = raw::answer(record, &mut sessions[i], kind, 0x5A, &mut []);
                let (address, variant) = chips[i];
                let stored = (told >> 24 == 1).then_some(&settings[i]);
                assert_eq!(records[i], record_bytes(address, variant, stored, 0));
                ended[i] = made;
            }
        }
    }
    assert_eq!(ended, [14, 25]);
}

/// A session of zeros, one of a byte less or more, and random bytes whose stage says that it was not begun: nothing is pending, no answer
/// is taken, the record stays, nothing is completed, and there is no value. Zeros and other lengths have no count either.
#[test]
fn a_session_that_was_never_begun() {
    let mut random = Random::new(0x57A6E);
    let mut sessions = vec![vec![0; SESSION], vec![0; SESSION - 1], vec![0; SESSION + 1]];
    for case in cases() {
        let mut session = vec![0; SESSION];
        (case.start)(&mut session);
        sessions.extend([session[..SESSION - 1].to_vec(), [&session[..], &[0]].concat()]);
    }
    for _ in 0..1_000 {
        let mut session: Vec<u8> = (0..SESSION).map(|_| random.byte()).collect();
        session[1] = 0;
        sessions.push(session);
    }
    for session in &sessions {
        let (mut after, mut bytes) = (session.clone(), [MARKER; 40]);
        assert_eq!(raw::pending(session, &mut bytes), 0);
        for lent in lendable(stored()) {
            let mut record = lent.clone();
            for kind in [DONE, BYTE, FAILED] {
                let told = raw::answer(&mut record, &mut after, kind, 0x5A, &mut []);
                assert_eq!(told, word(19, 0, 0, true));
            }
            assert_eq!(record, lent);
        }
        assert_eq!((&after, bytes), (session, [MARKER; 40]));
        assert_eq!(raw::result(session), 0, "a value, a count, or completed");
    }
    compared("sessions that were never begun", sessions.len(), 3 + 2 * CASES + 1_000);
}

/// The count in the result of every operation that is broken off, at each of its exchanges, and of one that is started anew: 0 again.
#[test]
fn counts_of_broken_sessions() {
    let mut broken = 0;
    for case in cases() {
        walk(&case, |point| {
            if !point.ended() {
                let mut after = point.clone();
                after.answer(FAILED, 7);
                let wanted = result_word(0, point.made + 1, false);
                assert_eq!(raw::result(&after.session), wanted, "{}", case.name);
                assert_eq!((case.start)(&mut after.session), 0);
                let made = raw::result(&after.session) >> 24 & 255;
                assert_eq!(made, 0, "{}, begun anew", case.name);
                broken += 1;
            }
        });
    }
    compared("sessions broken off", broken, EXCHANGES);
}

/// One record and three session buffers through thousands of operations: completed, left half-way and gone on with later, broken off and
/// refused, in any order. The record has at each time the settings that the last completed `configure` stored, and the count that the last
/// start of an upload, or answer to one, has set.
#[test]
fn a_long_life() {
    let mut random = Random::new(0x11FE);
    let operations = accepted();
    let mut record = found(0x4A, Variant::DA7282);
    let nothing = (Stores::Nothing, 0);
    let (mut sessions, mut begun) = ([[0; SESSION]; 3], [nothing; 3]);
    let (mut refused, mut completed, mut stored) = ([0; 2], 0, 0);
    let (mut loaded, mut emptied) = (0, 0);
    for _ in 0..20_000 {
        let at = random.below(3);
        let operation = match random.below(10) {
            0..4 => Operation::Configure(Settings::any(&mut random)),
            4 | 5 => Operation::UploadWaveformMemory(vec![random.byte(); 40], random.chance(50)),
            _ => operations[random.below(operations.len())].clone(),
        };
        let before = record;
        match raw::start(&operation, &mut record, &mut sessions[at]) {
            0 => {
                let stores = Stores::by(&operation, &before);
                assert_eq!(record[..], stores.begun(&before));
                begun[at] = (stores, operation.room());
            }
            number => {
                assert_eq!(record, before);
                refused[usize::from(number == 28)] += 1;
            }
        }
        for _ in 0..random.pick(&[1, 10, 100, 100]) {
            let (at, byte) = (if random.chance(95) { at } else { random.below(3) }, random.byte());
            let ((stores, room), session) = (begun[at], &mut sessions[at]);
            let pending = raw::pending(session, &mut []);
            let kind = if random.chance(1) { FAILED } else { (pending >> 16) as u8 };
            let (lent, mut buffer) = (record, vec![MARKER; room]);
            let told = raw::answer(&mut record, session, kind, byte, &mut buffer);
            let answered = Answered::told(told);
            assert_eq!(record[..], stores.after(&lent, answered));
            let last = answered == Answered::Completed;
            completed += usize::from(last);
            stored += usize::from(last && matches!(stores, Stores::Settings(_)));
            if matches!(stores, Stores::Sequences(..)) {
                loaded += usize::from(last && record[COUNT] > 0);
                emptied += usize::from(lent[COUNT] > 0 && record[COUNT] == 0);
            }
        }
    }
    compared("refused starts in a long life", refused[0], 3_667);
    compared("of sequences that are not loaded", refused[1], 107);
    compared("completed sessions", completed, 11_311);
    compared("of these that stored settings", stored, 2_567);
    compared("and that loaded sequences", loaded, 5_525);
    compared("counts set to 0 by an answer", emptied, 378);
}
