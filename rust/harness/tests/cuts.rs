//! Document 02, CR 14: however an upload is cut, the same upload run to its end afterwards leaves the chip's bytes and its lock as one
//! undisturbed run from the same start. The chip is the harness's own (`harness::chip`). On it run the compiled library's sessions and the
//! published Rust, whose undisturbed upload says what is wanted; and lists of bare writes, for the proviso and to see that what is wrong
//! is found.

use harness::chip::{Board, Chip, Cut, Plan, Try};
use harness::compared;
use harness::driver::{Operation, record_bytes};
use harness::random::Random;
use harness::settings::{MEMORY_TIMEBASES, Settings, VARIANTS};
use harness::uploads::{Bare, Fault, Library, Program, Published, Upload, operate, read_back};
use std::collections::HashSet;
use std::mem::discriminant;
use yambelugo::{IMAGE, Variant};

/// A chip's memory as it may have been before, and an upload of so many bytes, each of which is another than the chip's.
fn apart(random: &mut Random, len: usize, lock: bool, unlocked: bool) -> (Chip, Upload) {
    let chip = Chip { address: random.byte(), bytes: [0; IMAGE].map(|_| random.byte()), unlocked };
    let image = chip.bytes[..len].iter().map(|byte| byte ^ random.within(1, 255) as u8).collect();
    (chip, Upload { image, lock })
}

// ---- the chip

/// What the document says of the chip, in single exchanges.
#[test]
fn what_the_chip_stores() {
    let start = Chip { address: 0x4A, bytes: [9; IMAGE], unlocked: true };
    let after = |start: Chip, address, sent: &[u8], wanted, part| {
        let mut chip = start;
        chip.reached(address, sent, wanted, part);
        chip
    };
    let with = |front: usize, bytes: &[u8]| {
        let mut chip = start;
        chip.bytes[front..front + bytes.len()].copy_from_slice(bytes);
        chip
    };
    let locked = Chip { unlocked: false, ..start };
    let write = [0x84, 1, 2, 3];
    for part in 0..=4 {
        assert_eq!(after(start, 0x4A, &write, 0, part), with(0, &write[1..][..part.min(3)]));
        assert_eq!(after(locked, 0x4A, &write, 0, part), locked);
        assert_eq!(after(start, 0x4B, &write, 0, part), start);
        assert_eq!(after(start, 0x4A, &write, 1, part), start);
    }
    // Across both ends of the memory, and through the lock.
    assert_eq!(after(start, 0x4A, &[0x82, 1, 2, 3, 4], 0, 4), with(0, &[3, 4]));
    assert_eq!(after(start, 0x4A, &[0xE6, 1, 2, 3, 4], 0, 4), with(98, &[1, 2]));
    assert_eq!(after(start, 0x4A, &[0xFF, 1, 2], 0, 2), start);
    assert_eq!(after(start, 0x4A, &[0x2C, 0xFF, 0x7F, 0xFF], 0, 3), locked);
    for byte in 0..=255_u8 {
        let unlocked = byte >= 0x80;
        for before in [start, locked] {
            assert_eq!(after(before, 0x4A, &[0x2D, byte], 0, 1), Chip { unlocked, ..before });
            assert_eq!(after(before, 0x4A, &[0x2D, byte], 0, 0), before);
        }
        let register = usize::from(byte);
        let wanted = match register {
            0x2D => locked,
            0x84..=0xE7 => with(register - 0x84, &[0x55]),
            _ => start,
        };
        assert_eq!(after(start, 0x4A, &[byte, 0x55], 0, 1), wanted);
        let reads = match register {
            0x2D => 0x80,
            0x84..=0xE7 => 0x55,
            _ => 0xBA,
        };
        assert_eq!(Chip { bytes: [0x55; IMAGE], ..start }.read(byte), reads);
    }
    assert_eq!(locked.read(0x2D), 0);
}

// ---- every cut

/// What came of cuts.
#[derive(Debug, Default, PartialEq)]
struct Found {
    cuts: usize,
    /// Runs that were cut.
    runs: usize,
    /// Runs that left something else than they may by where they were cut, or took themselves for completed.
    at_once: usize,
    /// Runs after which the upload's run to its end left something else than it has to.
    in_the_end: usize,
    /// The first of these.
    first: Option<String>,
}

/// Every cut of uploads of these lengths, with the lock and without, to memory that is locked and to memory that is not: at each exchange,
/// of whose data each leading part reaches the chip, none and all among them. There the exchange fails, or no answer comes, or the run was
/// for another chip. Then the same upload is run to its end, unless the chip's own run took itself for completed.
fn every_cut(program: &mut impl Program, lengths: impl Iterator<Item = usize>) -> Found {
    let mut random = Random::new(0xC0C0);
    let (mut rust, mut found) = (Published::default(), Found::default());
    let kinds = lengths.flat_map(|len| [(len, false), (len, true)]);
    for ((len, lock), unlocked) in kinds.flat_map(|it| [(it, false), (it, true)]) {
        let (start, upload) = apart(&mut random, len, lock, unlocked);
        let wanted = rust.whole(start, &upload);
        assert_eq!(wanted, upload.whole(&start), "{upload:02X?} on {start:02X?}");
        let parts = (0..upload.exchanges()).map(|at| (at, upload.data(at)));
        for (at, part) in parts.flat_map(|(at, data)| (0..=data).map(move |part| (at, part))) {
            let (code, own, other) = (Some(random.byte()), start.address, !start.address);
            let either = code.filter(|code| code % 2 == 0);
            for (code, address) in [(code, own), (None, own), (either, other)] {
                let cut = Cut { at, part, code };
                let mut board = Board::new(start, Plan::cut(cut));
                let completed = program.run(&mut board, address, &upload);
                let left = if address == own { upload.cut(&start, at, part) } else { start };
                let at_once = completed || board.chip != left;
                if !completed || address == other {
                    board.chip = program.whole(board.chip, &upload);
                }
                let in_the_end = board.chip != wanted;
                if (at_once || in_the_end) && found.first.is_none() {
                    let what = format!("{cut:?} to {address:02X}, {upload:02X?} on {start:02X?}");
                    found.first = Some(what);
                }
                found.at_once += usize::from(at_once);
                found.in_the_end += usize::from(in_the_end);
                found.runs += 1;
            }
            found.cuts += 1;
        }
    }
    found
}

/// For each length, lock and start: of each exchange one cut more than it has data bytes, which are one of the unlock, one of the lock and
/// those of the chunks.
const CUTS: usize = 2 * (2 * (101 * 2 + 5050 + 32 * (1 + 2 + 3) + 4 * 4) + 101 * 2);

fn every_cut_is_made_good(mut program: impl Program, what: &str) {
    let found = every_cut(&mut program, 0..=IMAGE);
    compared(what, found.cuts, 22_244);
    compared("runs cut there", found.runs, 66_732);
    assert_eq!(found, Found { cuts: CUTS, runs: 3 * CUTS, ..Found::default() });
}

#[test]
fn every_cut_of_the_library() {
    every_cut_is_made_good(Library::default(), "cuts of the library's uploads");
}

#[test]
fn every_cut_of_the_published_rust() {
    every_cut_is_made_good(Published::default(), "cuts of the published uploads");
}

/// Writes with a fault leave something else in the end, after some cut; the same writes without one never do.
#[test]
fn wrong_programs_are_found() {
    let all = |mut program| every_cut(&mut program, [0, 1, 31, 32, 33, 64, 65, 100].into_iter());
    let right = all(Bare::new(true));
    assert_eq!(right, Found { cuts: 1_456, runs: 3 * 1_456, ..Found::default() });
    let faults = [
        Fault::LockBeforeTheLastChunk,
        Fault::ResumesBehindAcknowledged,
        Fault::ResumesBehindMade,
        Fault::OffByOne,
        Fault::GoesOnAfterFailedUnlock,
        Fault::LockKeepsBit7,
    ];
    for program in faults.map(Bare::wrong).into_iter().chain([Bare::new(false)]) {
        let what = format!("{program:?}");
        let found = all(program);
        println!("{what}: {} of {} runs", found.in_the_end, found.runs);
        assert!(found.in_the_end > 0 && found.first.is_some(), "{what} is not found");
    }
}

/// What the chip holds is what the library's `read_waveform_memory` reads, after a cut and in the end.
#[test]
fn what_is_stored_is_read_back() {
    let (mut random, mut library, mut reads) = (Random::new(0xBACC), Library::default(), 0);
    let kinds = (0..=IMAGE).flat_map(|len| [(len, false), (len, true)]);
    for ((len, lock), unlocked) in kinds.flat_map(|it| [(it, false), (it, true)]) {
        let (start, upload) = apart(&mut random, len, lock, unlocked);
        let cut = any_cut(&mut random, &upload);
        let mut board = Board::new(start, Plan::cut(cut));
        library.run(&mut board, start.address, &upload);
        let left = upload.cut(&start, cut.at, cut.part);
        let what = format!("{cut:?}, {upload:02X?} on {start:02X?}");
        assert_eq!(read_back(&board.chip), left.bytes, "{what}");
        let whole = library.whole(board.chip, &upload);
        assert_eq!(read_back(&whole), upload.whole(&start).bytes, "{what}");
        reads += 2;
    }
    compared("memories read back", reads, 2 * 4 * 101);
}

// ---- chains of cuts

/// A cut at any exchange and any part of its data; half of them fail, half get no answer.
fn any_cut(random: &mut Random, upload: &Upload) -> Cut {
    let at = random.below(upload.exchanges());
    let part = random.within(0, upload.data(at));
    Cut { at, part, code: random.chance(50).then(|| random.byte()) }
}

/// Sometimes tries before exchanges are made, and answers that do not fit.
fn any_tries(random: &mut Random, upload: &Upload) -> Vec<Try> {
    let tries = if random.chance(30) { random.within(1, 4) } else { 0 };
    let mut any = || {
        let at = random.below(upload.exchanges());
        Try { at, part: random.within(0, upload.data(at)), refused: random.chance(50) }
    };
    (0..tries).map(|_| any()).collect()
}

/// Any bytes in the chip, and any image.
fn any(random: &mut Random) -> (Chip, Upload) {
    let bytes = [0; IMAGE].map(|_| random.byte());
    let chip = Chip { address: random.byte(), bytes, unlocked: random.chance(50) };
    let len = match random.below(2) {
        0 => random.pick(&[0, 1, 2, 31, 32, 33, 63, 64, 65, 96, 97, 100]),
        _ => random.within(0, IMAGE),
    };
    let image = (0..len).map(|_| random.byte()).collect();
    (chip, Upload { image, lock: random.chance(50) })
}

/// What chains met.
#[derive(Debug, Default, PartialEq)]
struct Chains {
    chains: usize,
    /// Runs that were cut by a failure, and by an answer that did not come.
    failed: usize,
    lost: usize,
    /// Runs to their end before the last.
    completed: usize,
    /// Runs for another address, cut or not.
    others: usize,
    /// Tries of exchanges before they are made.
    tries: usize,
    /// Sessions that were begun in the bytes of the one before.
    reused: usize,
}

/// Chains of up to five runs, most of them cut, and one to its end, by the library and by the published Rust.
#[test]
fn random_chains_of_cuts() {
    let (mut random, mut met) = (Random::new(0xCA1B), Chains::default());
    let (mut library, mut rust) = (Library::default(), Published::default());
    for _ in 0..200_000 {
        let (start, upload) = any(&mut random);
        let mut chips = [start; 2];
        let mut run = |random: &mut Random, cut: Option<Cut>, address: u8| {
            let plan = Plan { tries: any_tries(random, &upload), cut };
            met.tries += plan.tries.len();
            library.reuses = random.chance(30);
            met.reused += usize::from(library.reuses);
            let [mut ours, mut theirs] = chips.map(|chip| Board::new(chip, plan.clone()));
            let completed = library.run(&mut ours, address, &upload);
            assert_eq!(completed, cut.is_none());
            assert_eq!(rust.run(&mut theirs, address, &upload), completed);
            chips = [ours.chip, theirs.chip];
            let what = || format!("{plan:?}, {upload:02X?} on {start:02X?}");
            assert_eq!(chips[0], chips[1], "{}", what());
            assert!(upload.is_front_of(&chips[0], &start), "{}", what());
        };
        for _ in 0..random.within(1, 5) {
            let cut = random.chance(85).then(|| any_cut(&mut random, &upload));
            let other = random.chance(10);
            run(&mut random, cut, if other { !start.address } else { start.address });
            match cut {
                _ if other => met.others += 1,
                Some(cut) => {
                    *(if cut.code.is_some() { &mut met.failed } else { &mut met.lost }) += 1
                }
                None => met.completed += 1,
            }
        }
        run(&mut random, None, start.address);
        let wanted = rust.whole(start, &upload);
        assert_eq!(chips, [wanted; 2], "{upload:02X?} on {start:02X?}");
        assert_eq!(wanted, upload.whole(&start));
        met.chains += 1;
    }
    let wanted = Chains {
        chains: 200_000,
        failed: 229_072,
        lost: 229_457,
        completed: 80_705,
        others: 60_092,
        tries: 600_655,
        reused: 239_925,
    };
    assert_eq!(met, wanted);
    compared("chains of cuts", met.chains, 200_000);
    compared("cuts in chains", met.failed + met.lost, 458_529);
    compared("answers refused in chains", library.refused, 235_074);
}

// ---- what may be between the runs

/// One of the operations that neither upload nor write the lock alone.
fn other(random: &mut Random) -> Operation {
    match random.below(14) {
        0 => Operation::Configure(Settings::accepted(random)),
        1 => Operation::GetChipRev,
        2 => Operation::GetEvents,
        3 => Operation::GetStatus,
        4 => Operation::SetFrequency(random.within(50, 300) as u16),
        5 => Operation::SetOverrideValue(random.byte() as i8),
        6 => Operation::SetTimebase(random.pick(&MEMORY_TIMEBASES)),
        7 => Operation::Enable,
        8 => Operation::Disable,
        9 => Operation::SetCustomDriveWaveform([(); 3].map(|()| random.byte())),
        10 => Operation::ReadWaveformMemory(random.below(101), random.below(101)),
        11 => Operation::SelectSequence(random.below(16) as u8, random.below(16) as u8),
        12 => Operation::StartSequence,
        _ => Operation::PlaySequence(random.below(16) as u8, random.below(16) as u8),
    }
}

/// "Between them nothing else is written": no other operation changes the memory or its lock, wherever it is cut; those of the lock change that alone.
#[test]
fn other_operations_leave_the_chip() {
    let (mut random, mut begun, mut kinds) = (Random::new(0x0DD5), 0, HashSet::new());
    for _ in 0..100_000 {
        let (start, _) = any(&mut random);
        let settings = Settings::accepted(&mut random);
        let variant = random.pick(&VARIANTS);
        let mut record = record_bytes(start.address, variant, Some(&settings), 16);
        let operation = other(&mut random);
        let place = |random: &mut Random| (random.below(26), random.below(34));
        let tries = (0..random.below(4)).map(|_| place(&mut random));
        let tries = tries.map(|(at, part)| Try { at, part, refused: false }).collect();
        let cut = random.chance(50).then(|| {
            let (at, part) = place(&mut random);
            Cut { at, part, code: random.chance(50).then(|| random.byte()) }
        });
        let mut board = Board::new(start, Plan { tries, cut });
        if operate(&mut board, &operation, &mut record) {
            begun += 1;
            kinds.insert(discriminant(&operation));
        }
        assert_eq!(board.chip, start, "{operation:?}, {cut:?}");
    }
    compared("other operations run on the chip", begun, 89_484);
    compared("kinds of them", kinds.len(), 14);

    for (operation, unlocked) in
        [(Operation::UnlockWaveformMemory, true), (Operation::LockWaveformMemory, false)]
    {
        let (start, _) = any(&mut random);
        let mut board = Board::new(start, Plan::default());
        let mut record = record_bytes(start.address, Variant::DA7280, None, 0);
        assert!(operate(&mut board, &operation, &mut record));
        assert_eq!(board.chip, Chip { unlocked, ..start });
    }
}

// ---- the proviso

/// "Provided the memory starts unlocked or each run unlocks it": else the bytes differ. Of memory that is locked, a cut run of the library
/// unlocks it and stores five bytes; then a run stores the rest that does not unlock it and that would have stored nothing alone.
#[test]
fn the_proviso_is_needed() {
    let mut random = Random::new(0x10CC);
    for (len, lock) in [(5, false), (6, true), (40, true), (100, false)] {
        let (start, upload) = apart(&mut random, len, lock, false);
        let mut board = Board::new(start, Plan::cut(Cut { at: 1, part: 5, code: Some(3) }));
        assert!(!Library::default().run(&mut board, start.address, &upload));
        assert_eq!(board.chip.bytes[..5], upload.image[..5]);
        assert_eq!(board.chip.bytes[5..], start.bytes[5..]);
        let shut = |chip| Bare::new(false).whole(chip, &upload);
        assert_eq!(shut(board.chip), upload.whole(&start));
        assert_eq!(shut(start), start);
        assert_ne!(shut(board.chip).bytes, shut(start).bytes);
    }
}

/// Chains of runs that unlock the memory and of runs that do not, by bare writes. Of memory that starts unlocked, whatever the mixture, they
/// leave what one undisturbed run of either kind does. Of memory that starts locked they do where the last run unlocks it, and where no run
/// does, by which nothing changes; else most differ from one that does not.
#[test]
fn runs_that_unlock_and_runs_that_do_not() {
    let mut random = Random::new(0xF1A6);
    let (mut unlocked, mut last, mut never, mut mixed, mut differ) = (0, 0, 0, 0, 0);
    for _ in 0..200_000 {
        let (start, upload) = any(&mut random);
        let sole = [false, true].map(|it| Bare::new(it).whole(start, &upload));
        assert_eq!(sole[1], upload.whole(&start));
        // None of the runs, about half of them, or all.
        let share = random.pick(&[0, 50, 100]);
        let (mut chip, mut unlocks) = (start, Vec::new());
        for left in (0..=random.within(1, 5)).rev() {
            let mut program = Bare::new(random.chance(share));
            unlocks.push(program.unlocks);
            let writes = program.writes(&upload);
            let is_cut = left > 0 && !writes.is_empty() && random.chance(85);
            let cut = is_cut.then(|| {
                let at = random.below(writes.len());
                let part = random.within(0, writes[at].len() - 1);
                Cut { at, part, code: random.chance(50).then_some(1) }
            });
            let mut board = Board::new(chip, Plan { tries: any_tries(&mut random, &upload), cut });
            assert_eq!(program.run(&mut board, start.address, &upload), cut.is_none());
            chip = board.chip;
        }
        let what = || format!("{unlocks:?}, {upload:02X?} on {start:02X?}");
        if start.unlocked {
            assert_eq!([chip; 2], sole, "{}", what());
            unlocked += 1;
        } else if unlocks.ends_with(&[true]) {
            assert_eq!(chip, sole[1], "{}", what());
            last += 1;
        } else if !unlocks.contains(&true) {
            assert_eq!([chip; 2], [sole[0], start], "{}", what());
            never += 1;
        } else {
            differ += usize::from(chip != sole[0]);
            mixed += 1;
        }
    }
    compared("chains of bare writes, unlocked at the start", unlocked, 100_061);
    compared("locked, the last run unlocks", last, 50_110);
    compared("locked, no run unlocks", never, 36_360);
    compared("locked, a run before the last unlocks", mixed, 13_469);
    compared("of these differ from one undisturbed run", differ, 12_388);
}
