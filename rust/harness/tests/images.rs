//! Random lists of calls that make images, against the published Rust.

use harness::generate::{any_call, list, with_noise};
use harness::images::{added, hundred};
use harness::lists::{MARKER, Misuse};
use harness::oracle::{Builders, number};
use harness::patterns::{KINDS, mended, sizes, small};
use harness::random::Random;
use harness::raw::ffi::{da728x_assemble, da728x_assemble_strict};
use harness::whole::Judged;
use harness::{compared, encoded};
use yambelugo::{Call, IMAGE};

/// Lists of each kind.
const LISTS: usize = 130_000;

/// Bytes around a lent buffer, to see that they stay.
const GUARD: usize = 8;

/// A lent image with its guards.
const LENT: usize = GUARD + IMAGE + GUARD;

/// What was met on the way, so that a generator that misses a limit fails.
#[derive(Default)]
struct Met {
    lists: usize,
    calls: usize,
    /// By answer: of calls, of calls that add to the memory, of `build`.
    answers: [usize; 15],
    added: [usize; 15],
    built: [usize; 15],
    /// By answer: of the first refused call of a list.
    first: [usize; 15],
    misuse: Misuse,
    /// Lists by the size of their image: 99, 100, 101.
    sizes: [usize; 3],
    /// Images with 15 snippets, with 16 sequences, with the number of an absent snippet.
    full_snippets: usize,
    full_sequences: usize,
    absent: usize,
    /// Images with a refused call.
    refused: usize,
}

/// The answers, the answer of `build` and the image of the published Rust.
fn published(calls: &[Option<Call>]) -> (Vec<u8>, Result<[u8; IMAGE], u8>) {
    let mut builders = Builders::default();
    let answers = builders.run(calls);
    let built = builders.memory.build();
    (answers, built.map(|memory| hundred(&memory)).map_err(|error| number(&error)))
}

/// A refusal: its number, and the place of the refused call from 1, or 0 for `build`.
type Refused = (u8, u32);

/// What strict assembling comes to: the first refused call, or what `build` answers.
fn strictly(answers: &[u8], built: Result<[u8; IMAGE], u8>) -> Result<[u8; IMAGE], Refused> {
    match answers.iter().position(|answer| *answer != 0) {
        Some(at) => Err((answers[at], at as u32 + 1)),
        None => built.map_err(|number| (number, 0)),
    }
}

/// The library's strict assembling into an image, through the wrapper.
fn assemble_strict(list: &[u8], image: &mut [u8; IMAGE]) -> Result<(), Refused> {
    yambelugo::assemble_strict(list, image)
        .map_err(|refused| (refused.error.number(), refused.call.map_or(0, |call| call.get())))
}

/// Lends an image between guards; the answer, and whether every byte is as wanted.
fn lend<E>(
    wanted: Option<[u8; IMAGE]>,
    run: impl FnOnce(&mut [u8; IMAGE]) -> Result<(), E>,
) -> (Result<(), E>, bool) {
    let mut lent = [MARKER; LENT];
    let answer = run(lent[GUARD..].first_chunk_mut().unwrap());
    let mut expected = [MARKER; LENT];
    if let Some(image) = wanted {
        expected[GUARD..GUARD + IMAGE].copy_from_slice(&image);
    }
    (answer, lent == expected)
}

/// Compares every answer and every byte that one list leaves.
fn compare(calls: &[Option<Call>], random: &mut Random, met: &mut Met) {
    let list = list(calls, random);
    let (answers, built) = published(calls);

    let mut told = vec![MARKER; calls.len() + GUARD];
    assert_eq!(yambelugo::answers(&list, &mut told[..calls.len()]), calls.len());
    assert_eq!(told, [&answers[..], &[MARKER; GUARD]].concat(), "{calls:?}");

    let lenient = |image: &mut _| yambelugo::assemble(&list, image).map_err(|it| it.number());
    assert_eq!(lend(built.ok(), lenient), (built.map(|_| ()), true), "{calls:?}");

    let strict = strictly(&answers, built);
    let answer = lend(strict.ok(), |image| assemble_strict(&list, image));
    assert_eq!(answer, (strict.map(|_| ()), true), "{calls:?}, strictly");

    met.misuse.count(calls, &answers, list.len());
    met.count(calls, &answers, built);
}

impl Met {
    fn count(&mut self, calls: &[Option<Call>], answers: &[u8], built: Result<[u8; IMAGE], u8>) {
        self.lists += 1;
        self.calls += calls.len();
        for (call, answer) in calls.iter().zip(answers) {
            self.answers[usize::from(*answer)] += 1;
            if let Some(Call::AddSnippet | Call::AddSequence) = call {
                self.added[usize::from(*answer)] += 1;
            }
        }
        self.built[usize::from(built.err().unwrap_or(0))] += 1;
        if let Some(first) = answers.iter().find(|answer| **answer != 0) {
            self.first[usize::from(*first)] += 1;
        }
        let lists = added(calls, answers);
        if let (Ok(_) | Err(8), size @ 99..=101) = (built, lists.size()) {
            self.sizes[size - 99] += 1;
        }
        if let Ok(image) = built {
            self.full_snippets += usize::from(image[0] == 15);
            self.full_sequences += usize::from(image[1] == 16);
            self.absent += usize::from(lists.names_absent());
            self.refused += usize::from(answers.iter().any(|answer| *answer != 0));
        }
    }
}

#[test]
fn random_images() {
    let mut total = Met::default();
    for (seed, (what, generate)) in KINDS.into_iter().enumerate() {
        let mut random = Random::new(60 + seed as u64);
        let before = total.lists;
        for _ in 0..LISTS {
            let calls = with_noise(generate(&mut random), &mut random);
            compare(&calls, &mut random, &mut total);
        }
        compared(&format!("images, {what}"), total.lists - before, LISTS);
    }
    let Met { calls, answers, added, built, sizes, .. } = total;
    println!("images: {calls} calls, answers {answers:?}, of build {built:?}");
    println!("images: of calls that add {added:?}, sizes 99 to 101 {sizes:?}");
    println!("images: first refused calls {:?}", total.first);
    let Met { full_snippets, full_sequences, absent, refused, .. } = total;
    println!("images: {full_snippets} with 15 snippets, {full_sequences} with 16 sequences");
    println!("images: {absent} name an absent snippet, {refused} with a refused call");
    compared("images", total.lists, 4 * LISTS);
    assert!((1..=10).chain([14]).all(|number| answers[number] > 1_000));
    assert!((1..=10).chain([14]).all(|number| total.first[number] > 10));
    assert!([0, 6, 7, 9, 10].iter().all(|number| added[*number] > 10_000));
    assert!([0, 8, 9, 10].iter().all(|number| built[*number] > 10_000));
    assert!(sizes.iter().all(|images| *images > 10_000));
    assert!([full_snippets, full_sequences, absent, refused].iter().all(|met| *met > 10_000));
    total.misuse.assert_met("images", 2_000);
}

/// The accepted ones of these calls and one that is refused: of any number that is met, not the most frequent.
fn with_one_refused(calls: &[Call], random: &mut Random) -> Vec<Option<Call>> {
    let mut builders = Builders::default();
    let answers: Vec<u8> = calls.iter().map(|call| builders.call(*call)).collect();
    let rare = [8, 7, 6, 10, 9, 5, 4].into_iter().find(|it| answers.contains(it));
    let number = rare.unwrap_or(3);
    let refused: Vec<_> = (0..calls.len()).filter(|at| answers[*at] == number).collect();
    let kept = if refused.is_empty() { 0 } else { random.pick(&refused) };
    let calls = calls.iter().zip(&answers).enumerate();
    calls
        .filter(|(at, (_, answer))| *at == kept || **answer == 0)
        .map(|(_, it)| Some(*it.0))
        .collect()
}

/// Lists without a refused call give what `assemble` gives; with one, that call and its place.
#[test]
fn strict_images() {
    let mut random = Random::new(66);
    let (mut made, mut of_build, mut numbers) = (0, [0; 11], [0; 15]);
    for at in 0..80_000 {
        let generated = KINDS[at % KINDS.len()].1(&mut random);
        let calls = mended(&generated);
        let records: Vec<_> = calls.iter().copied().map(Some).collect();
        let (answers, built) = published(&records);
        assert!(answers.iter().all(|answer| *answer == 0));
        let whole = encoded(&calls);
        let strict = lend(built.ok(), |image| assemble_strict(&whole, image));
        assert_eq!(strict, (built.map(|_| ()).map_err(|number| (number, 0)), true), "{calls:?}");
        let lenient = |image: &mut _| yambelugo::assemble(&whole, image).map_err(|it| it.number());
        assert_eq!(lend(built.ok(), lenient), (built.map(|_| ()), true), "{calls:?}");
        match built {
            Ok(_) => made += 1,
            Err(number) => of_build[usize::from(number)] += 1,
        }

        // The list with one of its refused calls, or with another call or none at some place.
        let mut other_records = records;
        if random.chance(50) {
            other_records = with_one_refused(&generated, &mut random);
        } else {
            let other = random.chance(85).then(|| any_call(&mut random));
            other_records.insert(random.within(0, calls.len()), other);
        }
        let (answers, built) = published(&other_records);
        let wanted = strictly(&answers, built);
        let list = list(&other_records, &mut random);
        let strict = lend(wanted.ok(), |image| assemble_strict(&list, image));
        assert_eq!(strict, (wanted.map(|_| ()), true), "{other_records:?}");
        if let Err((number, 1..)) = wanted {
            numbers[usize::from(number)] += 1;
        }
    }
    println!("strict images: {made} made, refused by build {of_build:?}, calls {numbers:?}");
    assert!(made > 10_000 && [8, 9, 10].iter().all(|number| of_build[*number] > 1_000));
    assert!((1..=10).chain([14]).all(|number| numbers[number] > 30));
}

/// The place of a refused call is told up to 16777215, and from there on as 16777215.
#[test]
fn far_places() {
    const LAST: usize = (1 << 24) - 1;
    let mut list = Call::SnippetNew.encode().repeat(LAST + 2);
    for place in [1, 255, 256, 65535, 65536, LAST - 1, LAST, LAST + 1, LAST + 2] {
        let record = 4 * (place - 1)..4 * place;
        list[record.clone()].copy_from_slice(&Call::LoopCount(0).encode());
        let refused = lend(None, |image| assemble_strict(&list, image));
        assert_eq!(refused, (Err((3, place.min(LAST) as u32)), true), "place {place}");
        list[record].copy_from_slice(&Call::SnippetNew.encode());
    }
    // Bytes that are cut short, behind the farthest place.
    list.extend([13, 0, 0]);
    let refused = lend(None, |image| assemble_strict(&list, image));
    assert_eq!(refused, (Err((14, LAST as u32)), true));
    list.truncate(list.len() - 3);
    assert_eq!(lend(None, |image| assemble_strict(&list, image)), (Err((9, 0)), true));
    assert_eq!(yambelugo::answers(&list, &mut []), LAST + 2);
}

/// Every length of buffer, with two markers, byte for byte; also for refused images. One that is too short for its image is refused
/// last, and stays.
#[test]
fn buffers_of_every_length() {
    const LONGEST: usize = 110;
    let mut random = Random::new(64);
    let (mut judged, mut refused, mut made, mut of_build) = (Judged::default(), 0, 0, [0; 11]);
    for at in 0..300 {
        let calls = if at % 2 == 0 { small(&mut random) } else { sizes(&mut random) };
        let calls = if at % 4 < 2 { mended(&calls) } else { calls };
        let list = encoded(&calls);
        let records: Vec<_> = calls.into_iter().map(Some).collect();
        let (answers, built) = published(&records);
        let strict = strictly(&answers, built);
        refused += usize::from(strict.is_err());
        of_build[usize::from(built.err().unwrap_or(0))] += 1;
        for strictly in [false, true] {
            let place = if strictly { strict.err().map_or(0, |it| it.1) } else { 0 };
            let item = if strictly { strict.map_err(|it| it.0) } else { built };
            made += usize::from(item.is_ok());
            for (marker, length) in (0..=LONGEST).flat_map(|it| [(0x00, it), (0xFF, it)]) {
                let mut lent = vec![marker; GUARD + length + GUARD];
                let (at, len, image) = (list.as_ptr(), list.len(), lent[GUARD..].as_mut_ptr());
                // SAFETY: each pointer is to so many bytes that are borrowed; none overlap.
                let answer = unsafe {
                    match strictly {
                        true => da728x_assemble_strict(at, len, image, length),
                        false => da728x_assemble(at, len, image, length).into(),
                    }
                };
                let mut expected = vec![marker; GUARD + length + GUARD];
                let image = item.as_ref().map(|it| it.as_slice()).map_err(|it| *it);
                let told = judged.wanted_bytes(image, &mut expected[GUARD..GUARD + length]);
                let word = u32::from(told.err().unwrap_or(0)) + 256 * place;
                assert_eq!(answer, word, "{records:?}, strictly {strictly}");
                assert_eq!(lent, expected, "{records:?}, a buffer of {length} bytes");
            }
        }
    }
    println!("images into buffers: {refused} of 300 refused, by build {of_build:?}");
    assert!(refused > 50 && refused < 250);
    assert!([0, 8, 9, 10].iter().all(|number| of_build[*number] > 5));
    let too_short = made * 2 * IMAGE;
    judged.assert_met("images into buffers", 2 * 300 * 2 * 111 - too_short, too_short);
}

/// The published Rust alone.
#[test]
fn acceleration_changes_nothing() {
    let mut random = Random::new(65);
    let (mut cases, mut built) = (0, 0);
    for (_, generate) in KINDS.into_iter().cycle().take(10_000) {
        let records: Vec<_> = generate(&mut random).into_iter().map(Some).collect();
        let (answers, image) = published(&records);
        let lists = added(&records, &answers);
        assert_eq!(lists.published(false), image);
        assert_eq!(lists.published(true), image);
        built += usize::from(image.is_ok());
        cases += 1;
    }
    assert!(built > 2_000);
    compared("images by both flags", cases, 10_000);
}

/// Assembles the calls, all of them accepted but the last if `last` is its refusal.
fn assemble(calls: &[Call], last: u8) -> Result<[u8; IMAGE], u8> {
    let (list, mut answers, mut image) =
        (encoded(calls), vec![MARKER; calls.len()], [MARKER; IMAGE]);
    assert_eq!(yambelugo::answers(&list, &mut answers), calls.len());
    assert_eq!(answers.pop(), Some(last));
    assert!(answers.iter().all(|answer| *answer == 0));
    let answer = yambelugo::assemble(&list, &mut image).map_err(|error| error.number());

    let strict =
        lend(answer.ok().filter(|()| last == 0).map(|()| image), |it| assemble_strict(&list, it));
    let refused = match last {
        0 => answer.map_err(|number| (number, 0)),
        _ => Err((last, calls.len() as u32)),
    };
    assert_eq!(strict, (refused, true));
    assert!(answer.is_ok() || image == [MARKER; IMAGE]);
    answer.map(|()| image)
}

/// Document 01: snippet AA 00 with sequence 01 gives 01 01 05 06 AA 00 01 and 93 zeros.
#[test]
fn the_example_image() {
    let calls = [
        Call::Ramp(3, 10),
        Call::Step(1, 0),
        Call::AddSnippet,
        Call::FrameNew(1),
        Call::AddFrame,
        Call::AddSequence,
    ];
    let mut wanted = [0; IMAGE];
    wanted[..7].copy_from_slice(&[0x01, 0x01, 0x05, 0x06, 0xAA, 0x00, 0x01]);
    assert_eq!(assemble(&calls, 0), Ok(wanted));
}

/// Calls that make a sequence of so many bytes, in `frames` frames if given, else in the fewest.
fn frames(bytes: usize, frames: Option<usize>) -> Vec<Call> {
    let frames = frames.unwrap_or(bytes.div_ceil(3));
    let (threes, two) = ((bytes - frames) / 2, (bytes - frames) % 2);
    let mut calls = [Call::FrameNew(1), Call::FrequencyHz(300), Call::AddFrame].repeat(threes);
    calls.extend([Call::FrameNew(9), Call::AddFrame].repeat(two));
    calls.extend([Call::FrameNew(1), Call::AddFrame].repeat(frames - threes - two));
    calls
}

/// Document 01: size 100 builds, 101 gives 8.
#[test]
fn sizes_100_and_101() {
    let mut cases = 0;
    for points in 1..=16 {
        for size in 99..=101 {
            let mut calls = vec![Call::Ramp(3, 10); points];
            calls.push(Call::AddSnippet);
            calls.extend(frames(size - 4 - points, None));
            calls.push(Call::AddSequence);
            let image = assemble(&calls, 0);
            match size {
                101 => assert_eq!(image, Err(8), "{points} points"),
                _ => assert_eq!(usize::from(image.unwrap()[3]), size - 1, "{points} points"),
            }
            cases += 1;
        }
    }
    compared("sizes 99 to 101", cases, 16 * 3);
}

/// Document 01: a 33rd frame gives 8 after 96 bytes, 7 after 95 or fewer if it fits.
#[test]
fn a_33rd_frame() {
    let mut cases = 0;
    for bytes in 32..=96 {
        for last in 1..=3 {
            let mut calls = vec![Call::Step(1, 0), Call::AddSnippet];
            calls.extend(frames(bytes, Some(32)));
            calls.push(Call::AddSequence);
            let image = assemble(&calls, 0);
            // With the header, two pointers and a point, 96 bytes are one too many.
            assert_eq!(image.is_ok(), bytes < 96);

            // The 33rd frame comes before the sequence is added, which is then the same.
            let added = calls.pop().unwrap();
            calls.extend(&[Call::FrameNew(1), Call::LoopCount(0), Call::FrequencyHz(0)][..last]);
            calls.push(Call::AddFrame);
            let refusal = if bytes + last > 96 { 8 } else { 7 };
            assert_eq!(assemble(&calls, refusal), Err(10), "{last} after {bytes} bytes");
            calls.push(added);
            let (answers, built) = published(&calls.iter().copied().map(Some).collect::<Vec<_>>());
            assert_eq!((answers[answers.len() - 2], built), (refusal, image));
            let lenient = lend(image.ok(), |it| yambelugo::assemble(&encoded(&calls), it));
            assert_eq!(lenient.0.map_err(|it| it.number()), image.map(|_| ()));
            assert!(lenient.1, "{last} after {bytes} bytes");
            cases += 1;
        }
    }
    compared("33rd frames", cases, 65 * 3);
}

/// A sequence of one silent frame.
const ONE_FRAME: [Call; 3] = [Call::Silence, Call::AddFrame, Call::AddSequence];

/// Fifteen snippets and sixteen sequences build, one more of either is refused.
#[test]
fn counts_at_the_limits() {
    let (snippet, sequence) = ([Call::Step(1, 0), Call::AddSnippet], ONE_FRAME);
    let calls = [snippet.repeat(15), sequence.repeat(16)].concat();
    let image = assemble(&calls, 0).unwrap();
    assert_eq!(image[..3], [15, 16, 33]);
    assert_eq!(assemble(&[&calls[..], &snippet].concat(), 6), Ok(image));
    assert_eq!(assemble(&[&calls[..], &sequence].concat(), 7), Ok(image));
}

/// An empty snippet is 9 and an empty sequence 10, when added and when nothing was added.
#[test]
fn nothing_to_build_from() {
    let (snippet, sequence) = ([Call::Step(1, 0), Call::AddSnippet], ONE_FRAME);
    assert_eq!(assemble(&[Call::SnippetNew], 0), Err(9));
    assert_eq!(assemble(&[Call::AddSnippet], 9), Err(9));
    assert_eq!(assemble(&[Call::AddSequence], 10), Err(9));
    assert_eq!(assemble(&sequence, 0), Err(9));
    assert_eq!(assemble(&snippet, 0), Err(10));
    assert_eq!(assemble(&[&snippet[..], &[Call::AddSequence]].concat(), 10), Err(10));
    let image = assemble(&[&snippet[..], &sequence].concat(), 0).unwrap();
    assert_eq!(image[..7], [1, 1, 4, 5, 0, 0, 0]);
}

/// A wrong number never plays the frame before it again, nor silence.
#[test]
fn a_refused_new_adds_no_frame() {
    let snippet = [Call::Step(1, 0), Call::AddSnippet];
    let calls = [
        &snippet[..],
        &[Call::FrameNew(1), Call::AddFrame, Call::FrameNew(16), Call::AddFrame, Call::AddSequence],
    ]
    .concat();
    let mut answers = [MARKER; 7];
    assert_eq!(yambelugo::answers(&encoded(&calls), &mut answers), 7);
    assert_eq!(answers, [0, 0, 0, 0, 3, 3, 0]);
    let strict = lend(None, |image| assemble_strict(&encoded(&calls), image));
    assert_eq!(strict, (Err((3, 5)), true));
    let mut image = [MARKER; IMAGE];
    assert_eq!(yambelugo::assemble(&encoded(&calls), &mut image), Ok(()));
    assert_eq!(image[..7], [1, 1, 4, 5, 0x00, 0x01, 0x00]);
    let lists = yambelugo::read_lists(&image).unwrap();
    let frames: Vec<_> = lists.sequences().flatten().map(|frame| frame.snippet).collect();
    assert_eq!(frames, [1]);
}
