//! Document 02, CR 10: how many sequences the record counts after every start and every answer, and that no other number is selected or
//! played. The histories and the images of the builders run on the published Rust too, where the number is below the count or 11 is told
//! (every number and loop count on it: `operations`); all else is without it. What is wanted is said here in the words of the request, beside
//! the models of `harness::driver` and `harness::records`.

use harness::bus::Script;
use harness::cases::{LOADED, longest, stored};
use harness::compared;
use harness::driver::{NEVER, Operation, Outcome, Pair, Tally, Value, record_bytes, revision};
use harness::images::{hundred, plain};
use harness::lists::MARKER;
use harness::oracle::Builders;
use harness::patterns;
use harness::random::Random;
use harness::raw::{self, BYTE, DONE, FAILED, SESSION, result_word, word};
use harness::records::COUNT;
use harness::settings::{MEMORY_TIMEBASES, Settings, VARIANTS, near};
use yambelugo::{Call, DA728x, DrivingMode, OperationMode, RECORD, Variant};

/// Counts at and next to what a number may be, and far from it.
const COUNTS: [u8; 7] = [0, 1, 4, 15, 16, 17, 255];

/// How many exchanges an upload makes that locks the memory.
fn exchanges(len: usize) -> usize {
    1 + len.div_ceil(32) + 1
}

/// Bytes that say they have so many sequences: byte 1, if there is one.
fn image(len: usize, named: u8) -> Vec<u8> {
    let mut image: Vec<u8> = (0..len).map(|at| 255 - at as u8).collect();
    if let Some(byte) = image.get_mut(1) {
        *byte = named;
    }
    image
}

// ---- histories

/// A random operation, often an upload, a select or a play, and about how many exchanges it makes.
fn operation(random: &mut Random) -> (Operation, usize) {
    let id = random.near(&[0, 0, 1, 14, 15, 15, 16]);
    let loops = random.near(&[0, 1, 7, 15, 15, 16]);
    match random.below(24) {
        0..7 => {
            let len = match random.below(12) {
                0 => random.within(101, 300),
                1 | 2 => random.below(3),
                _ => random.within(0, 100),
            };
            let mut image: Vec<u8> = (0..len).map(|_| random.byte()).collect();
            if let Some(byte) = image.get_mut(1) {
                *byte = random.near(&[0, 1, 15, 16, 17, 200, 255]);
            }
            (Operation::UploadWaveformMemory(image, random.chance(50)), exchanges(len.min(100)))
        }
        7..11 => (Operation::SelectSequence(id, loops), 1),
        11..15 => (Operation::PlaySequence(id, loops), 3),
        15 => (Operation::StartSequence, 2),
        16 | 17 => (Operation::Configure(Settings::any(random)), 20),
        18 => (Operation::GetStatus, 1),
        19 => (Operation::ReadWaveformMemory(random.below(9), random.below(9)), 4),
        20 => (Operation::SetTimebase(random.pick(&MEMORY_TIMEBASES)), 2),
        21 => match random.below(3) {
            0 => (Operation::SetFrequency(near(random, 50, 300)), 2),
            1 => (Operation::SetOverrideValue(random.byte() as i8), 1),
            _ => (Operation::SetCustomDriveWaveform([1, 2, random.byte()]), 3),
        },
        22 => match random.below(2) {
            0 => (Operation::LockWaveformMemory, 1),
            _ => (Operation::UnlockWaveformMemory, 1),
        },
        _ => match random.below(4) {
            0 => (Operation::GetChipRev, 1),
            1 => (Operation::GetEvents, 4),
            2 => (Operation::Enable, 1),
            _ => (Operation::Disable, 2),
        },
    }
}

/// What the uploads of a history came to.
#[derive(Default)]
struct Uploads {
    completed: usize,
    failed: usize,
    dropped: usize,
    refused: usize,
    /// The last that was accepted: what it says, and whether it was completed.
    last: Option<(u8, bool)>,
}

impl Uploads {
    fn note(&mut self, image: &[u8], outcome: &Outcome) {
        if image.len() > 100 {
            assert_eq!((outcome.answer, outcome.made), (Err((8, None)), 0));
            self.refused += 1;
            return;
        }
        match outcome.answer {
            Ok(_) => self.completed += 1,
            Outcome::DROPPED => self.dropped += 1,
            Err((17, Some(_))) => self.failed += 1,
            other => panic!("{other:?}"),
        }
        self.last = Some((image.get(1).copied().unwrap_or(0), outcome.answer.is_ok()));
    }

    /// "The sequence count of the last wholly uploaded image", and 0 from the start of any upload until its last exchange succeeds.
    fn count(&self) -> u8 {
        match self.last {
            Some((named, true)) => named,
            _ => 0,
        }
    }
}

/// Histories of a new record, of 1 to 12 operations in any order, on a bus that fails at random exchanges, with sessions that are dropped at
/// random exchanges: both sides agree, and the count is at each time that of the last upload. A further `new` would begin another history.
#[test]
fn random_histories() {
    let mut random = Random::new(0x10AD);
    let (mut all, mut tally) = (Uploads::default(), Tally::default());
    let (mut operations, mut dropped, mut begun, mut at_the_count) = (0, 0, 0, [0; 2]);
    for _ in 0..100_000 {
        let mut pair = Pair::new(random.byte(), random.pick(&VARIANTS));
        assert_eq!(pair.sequences(), 0);
        all.last = None;
        for _ in 0..random.within(1, 12) {
            let (operation, last) = operation(&mut random);
            let reads = (0..random.within(1, 4)).map(|_| random.byte()).collect();
            let fails = random.chance(18).then(|| (random.within(0, last), random.byte()));
            let until = if random.chance(12) { random.within(0, last) } else { NEVER };
            let before = all.count();
            let outcome = pair.compare_until(&operation, &Script { reads, fails }, until);
            operations += 1;
            if outcome.answer == Outcome::DROPPED {
                dropped += 1;
            } else {
                tally.count(&outcome);
            }

            let mut counts = vec![before; outcome.records.len()];
            match operation {
                Operation::UploadWaveformMemory(image, _) => {
                    all.note(&image, &outcome);
                    if let Some(last) = counts.split_last_mut() {
                        last.1.fill(0);
                        *last.0 = all.count();
                    }
                }
                Operation::SelectSequence(id, loops) | Operation::PlaySequence(id, loops) => {
                    let number = match (id, loops) {
                        (16.., _) | (_, 16..) => 11,
                        _ if id >= before => 28,
                        _ => 0,
                    };
                    let told = match outcome.answer {
                        Err((told @ (11 | 28), None)) => told,
                        _ => 0,
                    };
                    assert_eq!(told, number, "sequence {id}, loops {loops}, count {before}");
                    begun += usize::from(number == 0);
                    at_the_count[0] += usize::from(number == 28 && id == before && before > 0);
                    at_the_count[1] += usize::from(number == 0 && id + 1 == before);
                }
                _ => {}
            }
            let met: Vec<u8> = outcome.records.iter().map(|it| it[COUNT]).collect();
            assert_eq!((met, pair.sequences()), (counts, all.count()));
        }
    }
    compared("operations in histories", operations, 648_664);
    compared("of these dropped half-way", dropped, 28_972);
    compared("uploads completed", all.completed, 139_963);
    compared("uploads that failed", all.failed, 19_930);
    compared("uploads dropped", all.dropped, 13_385);
    compared("uploads refused", all.refused, 15_729);
    compared("selects and plays begun", begun, 35_942);
    compared("refused at the count", at_the_count[0], 3_170);
    compared("begun right below it", at_the_count[1], 5_220);
    let wanted = [
        (0, 318_837),
        (8, 15_729),
        (11, 89_399),
        (12, 4_715),
        (13, 3_496),
        (14, 3_294),
        (15, 36_035),
        (17, 42_816),
        (21, 4_682),
        (22, 5_959),
        (23, 3_272),
        (28, 91_458),
    ];
    assert_eq!(tally.told(), wanted);
}

/// One snippet and so many sequences.
fn of(sequences: usize) -> Vec<Call> {
    let mut calls = vec![Call::Ramp(1, 1), Call::AddSnippet];
    calls.extend([Call::FrameNew(1), Call::AddFrame, Call::AddSequence].repeat(sequences));
    calls
}

/// What the builders make: an image has the count of its sequences, and these are played and no others.
#[test]
fn images_of_the_builders() {
    let mut random = Random::new(0xB111);
    let (mut images, mut cases, mut begun, mut sizes) = (0, 0, 0, [0; 17]);
    let mut pair = Pair::new(0x4A, Variant::DA7281);
    while images < 2_000 {
        let calls = match images % 3 {
            2 => of(1 + images / 3 % 16),
            kind => patterns::KINDS[kind].1(&mut random),
        };
        let Ok(memory) = Builders::after(&calls).memory.build() else { continue };
        let image = hundred(&memory);
        let sequences = plain(&image).expect("an image").sequences.len();
        assert_eq!(usize::from(memory.num_sequences()), sequences);
        // Without the zeros behind it, or with them.
        let sent = if random.chance(50) { memory.as_bytes().to_vec() } else { image.to_vec() };
        let upload = Operation::UploadWaveformMemory(sent, true);
        assert!(pair.compare(&upload, &Script::reading(&[0])).answer.is_ok());
        assert_eq!(usize::from(pair.sequences()), sequences);
        for id in 0..=16 {
            let play = Operation::PlaySequence(id, 0);
            let outcome = pair.compare(&play, &Script::reading(&[random.byte()]));
            let wanted = match id {
                16 => Err((11, None)),
                _ if usize::from(id) >= sequences => Err((28, None)),
                _ => Ok(Value::Nothing),
            };
            assert_eq!(outcome.answer, wanted, "sequence {id} of {sequences}");
            begun += usize::from(wanted.is_ok());
            cases += 1;
        }
        images += 1;
        sizes[sequences] += 1;
    }
    compared("plays after uploads of images", cases, 2_000 * 17);
    compared("of these begun", begun, 16_735);
    assert!(sizes[1..].iter().all(|it| *it > 10), "{sizes:?}");
}

// ---- every upload

/// Records as `new` and `configure` leave them, and others whose bytes neither writes; each counts some sequences.
fn records() -> [[u8; RECORD]; 7] {
    let mut odd = stored();
    (odd[1], odd[2], odd[COUNT]) = (7, 0, 200);
    [
        record_bytes(0x4A, Variant::DA7280, None, 1),
        stored(),
        record_bytes(0x4B, Variant::DA7281, Some(&longest()), 255),
        odd,
        [MARKER; RECORD],
        [0xFF; RECORD],
        [1; RECORD],
    ]
}

/// Whether the first sequence can be selected.
fn selects(record: &[u8; RECORD]) -> u8 {
    let mut lent = *record;
    let told = raw::start(&Operation::SelectSequence(0, 0), &mut lent, &mut [MARKER; SESSION]);
    assert_eq!(lent, *record);
    told
}

/// Uploads of every length, with and without the lock, on each record: the count is 0 from the start on and after every answer before the
/// last, after a failure at any exchange, whatever count the record has that is lent with it, and where the session is dropped before any
/// exchange; the last answer sets it to what the image says. An answer out of turn leaves it. No other byte of the record changes.
#[test]
fn every_upload_on_every_record() {
    let (mut uploads, mut failed, mut dropped, mut refused) = (0, 0, 0, 0);
    let lengths = (0..=100_usize).flat_map(|len| [(len, 0), (len, 1)]);
    for ((len, lock), start) in lengths.flat_map(|it| records().map(|record| (it, record))) {
        let image = image(len, 3 + len as u8);
        let named = if len < 2 { 0 } else { 3 + len as u8 };
        let all = exchanges(len) - usize::from(lock == 0);
        let with = |count: u8| {
            let mut record = start;
            record[COUNT] = count;
            record
        };
        let (mut record, mut session) = (start, [MARKER; SESSION]);
        assert_eq!(raw::upload(&mut record, &image, lock, &mut session), 0);
        for made in 0..all {
            let what = format!("{len} bytes, lock {lock}, {made} made, {start:02X?}");
            assert_eq!(record, with(0), "{what}");
            assert_eq!(selects(&record), 28, "{what}");
            dropped += 1;

            for lent in [start, record] {
                let (mut after, mut broken) = (lent, session);
                let told = raw::answer(&mut after, &mut broken, FAILED, 9, &mut []);
                assert_eq!(told, word(17, 9, made + 1, true), "{what}");
                assert_eq!((after, selects(&after)), (with(0), 28), "{what}");
                // The session has ended: a record that counts some is left.
                let mut other = start;
                let told = raw::answer(&mut other, &mut broken, DONE, 0, &mut []);
                assert_eq!((told, other), (word(19, 0, made + 1, true), start), "{what}");
            }
            failed += 1;

            let (mut after, mut same) = (start, session);
            let told = raw::answer(&mut after, &mut same, BYTE, 1, &mut []);
            assert_eq!((told, after), (word(19, 0, made, false), start), "{what}");
            assert_eq!(same, session, "{what}");
            refused += 1;

            let told = raw::answer(&mut record, &mut session, DONE, 0, &mut []);
            assert_eq!(told, word(0, 0, made + 1, made + 1 == all), "{what}");
        }
        assert_eq!(record, with(named), "{len} bytes, lock {lock}");
        assert_eq!(selects(&record), if named == 0 { 28 } else { 0 }, "{len} bytes");
        let mut late = start;
        let told = raw::answer(&mut late, &mut session, DONE, 0, &mut []);
        assert_eq!((told, late), (word(19, 0, all, true), start), "{len} bytes");
        assert_eq!(raw::result(&session), result_word(0, all, true));
        uploads += 1;
    }
    let every = 2 * (101 + 32 * (1 + 2 + 3) + 4 * 4) + 101;
    assert_eq!(every, 719);
    compared("uploads on records", uploads, 7 * 202);
    compared("failures of uploads on records", failed, 7 * every);
    compared("uploads on records that were dropped", dropped, 7 * every);
    compared("answers to uploads out of turn", refused, 7 * every);
}

/// The count is byte 1, every value of it, whatever else is uploaded; 0 where there is no byte 1.
#[test]
fn every_byte_1() {
    let mut cases = 0;
    for named in 0..=255_u8 {
        for len in [2, 3, 99, 100] {
            for first in [0, 1, !named] {
                let mut bytes = image(len, named);
                bytes[0] = first;
                let mut record = stored();
                let mut session = uploading(&mut record, &bytes);
                finish(&mut record, &mut session);
                assert_eq!(record[COUNT], named, "{len} bytes, byte 0 is {first}");
                cases += 1;
            }
        }
        let mut record = stored();
        let mut session = uploading(&mut record, &[named]);
        finish(&mut record, &mut session);
        assert_eq!(record[COUNT], 0, "one byte, {named}");
        cases += 1;
    }
    compared("bytes 1 of uploads", cases, 256 * 13);
}

/// Every number, loop count and count, in C, with settings and without: 11, then 28, else the number goes out.
#[test]
fn every_number_loop_count_and_count() {
    let settings = Settings::plain(OperationMode::RTWM_MODE, DrivingMode::WIDEBAND);
    let (mut cases, mut told) = (0, [0; 3]);
    for (count, with) in COUNTS.iter().flat_map(|it| [(*it, false), (*it, true)]) {
        let settings = with.then_some(&settings);
        let before = record_bytes(0x4A, Variant::DA7280, settings, count);
        let mut record = before;
        for (id, loops) in (0..=255).flat_map(|id| (0..=255).map(move |loops| (id, loops))) {
            let (wanted, kind) = match (id, loops) {
                (16.., _) | (_, 16..) => (11, 0),
                _ if id >= count => (28, 1),
                _ => (0, 2),
            };
            for operation in
                [Operation::SelectSequence(id, loops), Operation::PlaySequence(id, loops)]
            {
                let mut session = [MARKER; SESSION];
                let number = raw::start(&operation, &mut record, &mut session);
                assert_eq!(number, wanted, "{operation:?}, {count} loaded");
                if wanted == 0 {
                    let mut sent = [MARKER; 3];
                    assert_eq!(raw::pending(&session, &mut sent), 2 + 256 * 0x4A);
                    assert_eq!(sent, [0x28, id + 16 * loops, MARKER]);
                } else {
                    assert_eq!(session, [MARKER; SESSION]);
                }
                told[kind] += 1;
                cases += 1;
            }
        }
        assert_eq!(record, before);
    }
    compared("numbers, loop counts and counts", cases, 2 * 2 * 7 * 65_536);
    let begun = 2 * 2 * 16 * (1 + 4 + 15 + 3 * 16);
    assert_eq!(told, [2 * 2 * 7 * (65_536 - 256), 2 * 2 * 7 * 256 - begun, begun]);
}

// ---- one after the other, and in between

/// Begins an upload that locks the memory; the count is 0 then.
fn uploading(record: &mut [u8], image: &[u8]) -> [u8; SESSION] {
    let mut session = [MARKER; SESSION];
    assert_eq!(raw::upload(record, image, 1, &mut session), 0);
    session
}

/// Makes the pending exchange; true if it was the last.
fn make(record: &mut [u8], session: &mut [u8]) -> bool {
    let kind = (raw::pending(session, &mut []) >> 16) as u8;
    let told = raw::answer(record, session, kind, 0x5A, &mut []);
    assert_eq!(told & 0xFFFF, 0);
    told >> 24 == 1
}

/// Makes all exchanges that are left; how many these are.
fn finish(record: &mut [u8], session: &mut [u8]) -> usize {
    let mut made = 1;
    while !make(record, session) {
        made += 1;
    }
    made
}

fn fail(record: &mut [u8], session: &mut [u8]) {
    assert_eq!(raw::answer(record, session, FAILED, 7, &mut []) & 0xFFFF, 17 + 256 * 7);
}

/// An upload of four exchanges.
fn four(named: u8) -> Vec<u8> {
    image(40, named)
}

/// An upload is left at each exchange, another is completed, and the first goes on: 0 after each answer and after a failure at each exchange;
/// its own count if it comes to its end.
#[test]
fn an_older_upload_after_a_newer_one() {
    let (mut failed, mut completed) = (0, 0);
    for left in 0..4 {
        let mut record = stored();
        let mut older = uploading(&mut record, &four(3));
        (0..left).for_each(|_| assert!(!make(&mut record, &mut older)));
        let mut newer = uploading(&mut record, &four(5));
        assert_eq!(finish(&mut record, &mut newer), 4);
        assert_eq!(record[COUNT], 5);
        for fails in left..4 {
            let (mut record, mut older) = (record, older);
            for _ in left..fails {
                assert!(!make(&mut record, &mut older));
                assert_eq!(record[COUNT], 0);
            }
            fail(&mut record, &mut older);
            assert_eq!((record[COUNT], selects(&record)), (0, 28));
            failed += 1;
        }
        assert_eq!(finish(&mut record, &mut older), 4 - left);
        assert_eq!((record[COUNT], selects(&record)), (3, 0));
        completed += 1;
    }
    compared("older uploads that failed", failed, 4 + 3 + 2 + 1);
    compared("older uploads that were completed", completed, 4);
}

/// Two uploads whose answers come in any order, each to its end or left, or broken off by any of them, where the other may then go on: the
/// count is what the last answer has set, 0 behind a start.
#[test]
fn two_uploads_in_any_order() {
    let (mut cases, mut others) = (0, 0);
    for order in 0..1_u32 << 8 {
        // A bit for each answer: whose it is. The first of each begins it.
        let mut record = stored();
        let (mut sessions, mut made) = ([None, None], [0; 2]);
        for turn in 0..8 {
            let at = (order >> turn & 1) as usize;
            let (named, other) = ([3, 5][at], sessions[1 - at]);
            let session = match &mut sessions[at] {
                Some(session) => session,
                empty => {
                    let session = empty.insert(uploading(&mut record, &four(named)));
                    assert_eq!(record[COUNT], 0);
                    session
                }
            };
            if made[at] < 4 {
                made[at] += 1;
                let before = record;
                let mut broken = (before, *session);
                fail(&mut broken.0, &mut broken.1);
                assert_eq!(broken.0[COUNT], 0);
                if let (Some(mut other), made @ 1..4) = (other, made[1 - at]) {
                    assert_eq!(finish(&mut broken.0, &mut other), 4 - made);
                    assert_eq!(broken.0[COUNT], [5, 3][at]);
                    others += 1;
                }
                let last = make(&mut record, session);
                assert_eq!((last, record[COUNT]), (made[at] == 4, if last { named } else { 0 }));
                assert_eq!(record[..COUNT], stored()[..COUNT]);
                cases += 1;
            } else {
                // It is completed: nothing is taken, and the count stays.
                let before = record;
                let told = raw::answer(&mut record, session, DONE, 0, &mut []);
                assert_eq!((told, record), (word(19, 0, 4, true), before));
            }
        }
    }
    // Of 8 answers so many are the first's, and at most four of each are taken.
    let taken = [1, 8, 28, 56, 70, 56, 28, 8, 1].iter().zip(0..=8_usize);
    let taken = taken.map(|(orders, first)| orders * (first.min(4) + (8 - first).min(4)));
    compared("answers to two uploads", cases, taken.sum());
    compared("failures of one before the other's end", others, 1_008);
}

/// A copy of the record from before the upload, lent with each answer: it is set to 0, to the count by the last; the record that is not lent
/// keeps the 0 of the start.
#[test]
fn a_stale_copy() {
    let mut cases = 0;
    for lends in 0..4 {
        for fails in [false, true] {
            let (mut record, mut stale) = (stored(), stored());
            let mut session = uploading(&mut record, &four(5));
            (0..lends).for_each(|_| assert!(!make(&mut record, &mut session)));
            assert_eq!((record[COUNT], stale[COUNT]), (0, LOADED));
            let last = lends == 3 && !fails;
            if fails {
                fail(&mut stale, &mut session);
            } else {
                assert_eq!(make(&mut stale, &mut session), last);
            }
            assert_eq!((record[COUNT], stale[COUNT]), (0, if last { 5 } else { 0 }));
            assert_eq!(stale[..COUNT], stored()[..COUNT]);
            cases += 1;
        }
    }
    compared("stale copies", cases, 8);
}

/// Other records lent with each answer: one of another address stays, one of the address is written whatever its variant and settings, one
/// of another length stays.
#[test]
fn other_records() {
    let chip = record_bytes(0x4A, Variant::DA7280, None, 16);
    let mut lendable = vec![];
    for variant in [0, 1, 2, 3, 255] {
        for flag in [0, 1, 2, 255] {
            for address in [0x4A, 0x4B, 0, 0xCA] {
                let mut record = stored();
                record[..3].copy_from_slice(&[address, variant, flag]);
                record[COUNT] = 9;
                lendable.push((record.to_vec(), address == 0x4A));
            }
        }
    }
    for len in [0, 1, 37, 39, 76] {
        lendable.push((vec![0x4A; len], false));
    }
    let (mut stays, mut written) = (0, 0);
    for (lent, is_of_the_chip) in &lendable {
        for made in 0..4 {
            for kind in [DONE, FAILED] {
                let mut record = chip;
                let mut session = uploading(&mut record, &four(5));
                (0..made).for_each(|_| assert!(!make(&mut record, &mut session)));
                let mut after = lent.clone();
                let told = raw::answer(&mut after, &mut session, kind, 1, &mut []);
                assert_eq!(told & 255, if kind == FAILED { 17 } else { 0 });
                let mut wanted = lent.clone();
                if *is_of_the_chip {
                    wanted[COUNT] = if made == 3 && kind == DONE { 5 } else { 0 };
                    written += 1;
                } else {
                    stays += 1;
                }
                assert_eq!(after, wanted, "{made} made, kind {kind}");
                // The chip's own record was not lent: it has the 0 of the start.
                assert_eq!(record[COUNT], 0);
            }
        }
    }
    compared("records that stay", stays, (5 * 4 * 3 + 5) * 8);
    compared("records of the chip", written, 5 * 4 * 8);
}

/// Started from a record of another length, which stays, an upload goes to address 0: records of that address are written.
#[test]
fn an_upload_from_no_record() {
    let mut cases = 0;
    for len in (0..=80).filter(|len| *len != RECORD) {
        for address in [0, 0x4A] {
            let mut none = vec![0x4A; len];
            let mut session = uploading(&mut none, &four(5));
            let mut record = record_bytes(address, Variant::DA7282, None, 9);
            for made in 0..4 {
                assert_eq!(raw::pending(&session, &mut []) >> 8 & 255, 0);
                make(&mut record, &mut session);
                let count = if made == 3 { 5 } else { 0 };
                assert_eq!(record[COUNT], if address == 0 { count } else { 9 });
            }
            assert_eq!(none, vec![0x4A; len]);
            cases += 1;
        }
    }
    compared("uploads from no record", cases, 2 * 80);
}

/// `configure` and an upload on one record, in every order of their answers, where the one that is begun first makes so many exchanges before
/// the other begins and is run to its end: the settings are stored by the last of `configure`, the count set by those of the upload, and
/// each leaves what the other has made.
#[test]
fn configure_and_an_upload() {
    let x = Settings::plain(OperationMode::RTWM_MODE, DrivingMode::FREQUENCY_TRACK);
    let before = record_bytes(0x4A, Variant::DA7280, None, 16);
    let done = |count| record_bytes(0x4A, Variant::DA7280, Some(&x), count);
    let none = |count| record_bytes(0x4A, Variant::DA7280, None, count);
    let configuring = |record: &[u8]| {
        let mut session = [MARKER; SESSION];
        assert_eq!(raw::configure(record, &x.encode(), &mut session), 0);
        session
    };
    let mut cases = 0;
    for made in 0..14 {
        for fails in [None, Some(0), Some(1), Some(2), Some(3)] {
            let mut record = before;
            let mut settings = configuring(&record);
            (0..made).for_each(|_| assert!(!make(&mut record, &mut settings)));
            assert_eq!(record, before);
            let mut upload = uploading(&mut record, &four(5));
            let count = match fails {
                None => {
                    finish(&mut record, &mut upload);
                    5
                }
                Some(at) => {
                    (0..at).for_each(|_| assert!(!make(&mut record, &mut upload)));
                    fail(&mut record, &mut upload);
                    0
                }
            };
            assert_eq!(record, none(count));
            assert_eq!(finish(&mut record, &mut settings), 14 - made);
            assert_eq!(record, done(count));
            cases += 1;
        }
    }
    for made in 0..4 {
        for fails in 0..=14 {
            let mut record = before;
            let mut upload = uploading(&mut record, &four(5));
            (0..made).for_each(|_| assert!(!make(&mut record, &mut upload)));
            let mut settings = configuring(&record);
            (0..fails).for_each(|at| assert_eq!(make(&mut record, &mut settings), at == 13));
            if fails < 14 {
                fail(&mut record, &mut settings);
                assert_eq!(record, none(0));
            } else {
                assert_eq!(record, done(0));
            }
            assert_eq!(finish(&mut record, &mut upload), 4 - made);
            assert_eq!(record, if fails < 14 { none(5) } else { done(5) });
            cases += 1;
        }
    }
    compared("orders of configure and an upload", cases, 14 * 5 + 4 * 15);
}

/// What begins no upload leaves the count: a session of another length, and more than a hundred bytes.
#[test]
fn uploads_that_do_not_begin() {
    let mut cases = 0;
    for count in COUNTS {
        let before = record_bytes(0x4A, Variant::DA7281, None, count);
        for len in (0..=300).chain([560]).filter(|len| *len != SESSION) {
            let (mut record, mut session) = (before, vec![MARKER; len]);
            assert_eq!(raw::upload(&mut record, &four(5), 1, &mut session), 0);
            assert_eq!((record, session), (before, vec![MARKER; len]), "{len} bytes");
            cases += 1;
        }
        for len in (101..=130).chain([200, 256, 257, 300, 356, 65_636]) {
            for size in [0, SESSION - 1, SESSION, SESSION + 1] {
                let (mut record, mut session) = (before, vec![MARKER; size]);
                assert_eq!(raw::upload(&mut record, &image(len, 5), 1, &mut session), 8);
                assert_eq!((record, session), (before, vec![MARKER; size]), "{len} bytes");
                cases += 1;
            }
        }
    }
    compared("uploads that do not begin", cases, 7 * (301 + 36 * 4));
}

/// `start_sequence` does not look at the count.
#[test]
fn start_sequence_is_never_refused() {
    for count in 0..=255 {
        let (mut record, mut session) = (stored(), [MARKER; SESSION]);
        record[COUNT] = count;
        let before = record;
        assert_eq!(raw::start(&Operation::StartSequence, &mut record, &mut session), 0);
        assert_eq!((finish(&mut record, &mut session), record), (2, before), "{count}");
    }
}

/// One record from `new` on, without settings: nothing is played before an upload, what it has afterwards, and the count stays when the chip
/// is set up. A `new` that fails leaves it; one that is completed sets it to 0.
#[test]
fn a_record_without_settings() {
    let mut record = [MARKER; RECORD];
    let mut session = [0; SESSION];
    let answer_new = |record: &mut [u8], session: &mut [u8], kind, byte| {
        assert_eq!(raw::new(0x4A, 0, session), 0);
        raw::answer(record, session, kind, byte, &mut []) & 255
    };
    assert_eq!(answer_new(&mut record, &mut session, BYTE, revision(Variant::DA7280)), 0);
    assert_eq!(record, record_bytes(0x4A, Variant::DA7280, None, 0));
    let play = |id| Operation::PlaySequence(id, 0);
    assert_eq!(raw::start(&play(0), &mut record, &mut session), 28);

    let mut session = uploading(&mut record, &image(100, 4));
    finish(&mut record, &mut session);
    assert_eq!(record, record_bytes(0x4A, Variant::DA7280, None, 4));
    assert_eq!(raw::start(&Operation::Enable, &mut record, &mut session), 15);
    // "A unit was told to play sequence 9 from a set of four."
    assert_eq!(raw::start(&play(9), &mut record, &mut session), 28);
    assert_eq!(raw::start(&play(4), &mut record, &mut session), 28);
    assert_eq!(raw::start(&play(3), &mut record, &mut session), 0);
    assert_eq!(finish(&mut record, &mut session), 3);

    let x = Settings::plain(OperationMode::RTWM_MODE, DrivingMode::WIDEBAND);
    assert_eq!(raw::configure(&record, &x.encode(), &mut session), 0);
    finish(&mut record, &mut session);
    let configured = record_bytes(0x4A, Variant::DA7280, Some(&x), 4);
    assert_eq!(record, configured);

    assert_eq!(answer_new(&mut record, &mut session, BYTE, 0), 16);
    assert_eq!(answer_new(&mut record, &mut session, FAILED, 0), 17);
    assert_eq!(record, configured);
    assert_eq!(answer_new(&mut record, &mut session, BYTE, revision(Variant::DA7280)), 0);
    assert_eq!(record, record_bytes(0x4A, Variant::DA7280, None, 0));
}

/// The wrapper gives every count, and a driver whose upload was dropped has none.
#[test]
fn counts_by_the_wrapper() {
    for count in 0..=255 {
        let mut driver = DA728x::from_bytes(record_bytes(0x4A, Variant::DA7280, None, count));
        assert_eq!(driver.sequences(), count);
        assert_eq!(driver.upload_waveform_memory(&[0; 101], false).unwrap_err().number(), 8);
        assert_eq!(driver.sequences(), count);
        drop(driver.upload_waveform_memory(&four(5), true).unwrap());
        assert_eq!(driver.sequences(), 0);
    }
}
