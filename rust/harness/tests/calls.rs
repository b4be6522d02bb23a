//! Random lists of calls with refused ones in between, against the published Rust.

use harness::generate::{any_call, any_frame_call, any_point, frame, good_point};
use harness::generate::{list, record, with_noise};
use harness::lists::{Misuse, library, published};
use harness::oracle::NO_CALL;
use harness::random::Random;
use harness::{compared, encoded};
use yambelugo::Call;

/// Lists of each kind.
const LISTS: usize = 60_000;

/// What was met on the way, so that a generator that misses a limit fails.
#[derive(Default)]
struct Met {
    lists: usize,
    calls: usize,
    answers: [usize; 15],
    misuse: Misuse,
    refused_compared: usize,
    longest_snippet: usize,
    longest_sequence: usize,
}

fn run(what: &str, seed: u64, generate: fn(&mut Random) -> Vec<Call>) -> Met {
    let mut random = Random::new(seed);
    let mut met = Met::default();
    for _ in 0..LISTS {
        let calls = with_noise(generate(&mut random), &mut random);
        compare(&calls, &mut random, &mut met);
    }
    println!("{what}: {} calls, answers {:?}", met.calls, met.answers);
    println!("{what}: {} items before and after a refusal", met.refused_compared);
    compared(what, met.lists, LISTS);
    met
}

/// Compares what one list leaves, and what one of its refused calls leaves alone.
fn compare(calls: &[Option<Call>], random: &mut Random, met: &mut Met) {
    let list = list(calls, random);
    let room = if random.chance(75) { calls.len() + 4 } else { random.below(calls.len() + 1) };

    let left = library(&list, room);
    assert_eq!(left, published(calls, room), "{calls:?}, answers {room}");

    let answers = &published(calls, calls.len()).answers[..calls.len()];
    let refused: Vec<_> = (0..calls.len()).filter(|at| answers[*at] != 0).collect();
    if !refused.is_empty() {
        let at = random.pick(&refused);
        let before = library(&list[..4 * at], 0);
        let after = library(&list[..(4 * at + 4).min(list.len())], 0);
        // A refused `new` leaves no frame; nothing else is changed by a refused call.
        let [snippet, frame, sequence] = before.items;
        let frame = match calls[at] {
            Some(Call::FrameNew(_)) => library(&[], 0).items[1].clone(),
            _ => frame,
        };
        assert_eq!(after.items, [snippet, frame, sequence], "{calls:?}, the refused call {at}");
        assert_eq!(after.current_len, before.current_len, "{calls:?}, the refused call {at}");
        met.refused_compared += 1;
    }

    met.lists += 1;
    met.calls += calls.len();
    met.misuse.count(calls, answers, list.len());
    for answer in answers {
        met.answers[usize::from(*answer)] += 1;
    }
    for built in &left.items {
        if let Err(number) = built.answer {
            met.answers[usize::from(number)] += 1;
        }
    }
    met.longest_snippet = met.longest_snippet.max(left.items[0].answer.unwrap_or(0));
    met.longest_sequence = met.longest_sequence.max(left.items[2].answer.unwrap_or(0));
}

/// Snippets that end around the 16th point, with other calls in between.
fn snippets(random: &mut Random) -> Vec<Call> {
    let points = if random.chance(70) { random.within(14, 18) } else { random.below(14) };
    let mut calls = Vec::new();
    for _ in 0..points {
        if random.chance(15) {
            calls.push(any_point(random));
        }
        if random.chance(2) {
            calls.push(any_call(random));
        }
        calls.push(good_point(random));
    }
    calls.extend((0..random.below(5)).map(|_| any_point(random)));
    calls
}

/// Calls on frames, most of which are begun first.
fn frames(random: &mut Random) -> Vec<Call> {
    let mut calls = Vec::new();
    if random.chance(70) {
        calls.push(Call::FrameNew(random.within(1, 15) as u8));
    }
    for _ in 0..random.below(14) {
        match random.below(100) {
            0..85 => calls.push(any_frame_call(random)),
            85..90 => calls.extend([any_frame_call(random), Call::AddFrame]),
            90..95 => calls.extend([Call::FrameNew(16), Call::AddFrame]),
            _ => calls.extend([Call::Silence, any_frame_call(random), Call::AddFrame]),
        }
    }
    calls
}

/// Sequences that end around the 32nd frame and, half of them, around 96 bytes.
fn sequences(random: &mut Random) -> Vec<Call> {
    let frames = if random.chance(90) { random.within(30, 34) } else { random.below(30) };
    let mut missing = random.below(6);
    let dense = random.chance(50);
    let mut calls = Vec::new();
    for _ in 0..frames {
        let bytes = if !dense {
            random.within(1, 3)
        } else if missing > 0 && random.chance(20) {
            let less = random.within(1, missing.min(2));
            missing -= less;
            3 - less
        } else {
            3
        };
        calls.extend(frame(bytes, random));
        if random.chance(2) {
            calls.push(any_point(random));
        }
        calls.push(Call::AddFrame);
    }
    for _ in 0..random.below(5) {
        let bytes = random.within(1, 3);
        calls.extend(frame(bytes, random));
        calls.push(Call::AddFrame);
    }
    if random.chance(5) {
        calls.extend([Call::SequenceNew, Call::FrameNew(1), Call::AddFrame]);
    }
    calls
}

fn mixed(random: &mut Random) -> Vec<Call> {
    let length = random.below(90);
    (0..length).map(|_| any_call(random)).collect()
}

#[test]
fn random_snippets() {
    let met = run("snippets", 1, snippets);
    assert!([1, 2, 6].iter().all(|number| met.answers[*number] > 1_000));
    assert!(met.longest_snippet == 16 && met.refused_compared > LISTS / 2);
}

#[test]
fn random_frames() {
    let met = run("frames", 2, frames);
    assert!([3, 4, 5].iter().all(|number| met.answers[*number] > 10_000));
    assert!(met.refused_compared > LISTS / 2);
}

#[test]
fn random_sequences() {
    let met = run("sequences", 3, sequences);
    assert!([3, 4, 5, 7, 8].iter().all(|number| met.answers[*number] > 10_000));
    assert!(met.longest_sequence == 96 && met.refused_compared > LISTS / 2);
}

#[test]
fn random_mixtures() {
    let met = run("mixtures", 4, mixed);
    assert!([1, 2, 3, 4, 5, 9, 10, 14].iter().all(|number| met.answers[*number] > 1_000));
    assert!(met.refused_compared > LISTS / 2);
    met.misuse.assert_met("mixtures", 1_000);
}

/// The answers to a list and the frames that its sequence has.
fn answers_and_frames<const N: usize>(calls: [Call; N]) -> ([u8; N], Result<Vec<u8>, u8>) {
    let list = calls.map(Call::encode);
    let left = library(list.as_flattened(), N);
    assert_eq!(left, published(&calls.map(Some), N), "{calls:?}");
    let sequence = &left.items[2];
    let frames = sequence.answer.map(|length| sequence.out[..length].to_vec());
    (left.answers[..N].try_into().unwrap(), frames)
}

/// A frame that was not begun is never added, and never one that was added before.
#[test]
fn frames_that_are_not_begun() {
    use Call::{AddFrame, FrameNew, FrequencyHz, Gain, LoopCount, Silence, Timebase};
    let half = Gain(yambelugo::Gain::Half);
    let slow = Timebase(yambelugo::Timebase::Ms87_04);
    // A refused `new`, after a frame that was added and after one that was not.
    let calls = [FrameNew(1), AddFrame, FrameNew(16), AddFrame];
    assert_eq!(answers_and_frames(calls), ([0, 0, 3, 3], Ok(vec![0x01])));
    let calls = [FrameNew(1), FrameNew(0), half, AddFrame, FrameNew(2), AddFrame];
    assert_eq!(answers_and_frames(calls), ([0, 3, 3, 3, 0, 0], Ok(vec![0x02])));
    let calls = [Silence, LoopCount(1), FrameNew(255), AddFrame];
    assert_eq!(answers_and_frames(calls), ([0, 0, 3, 3], Err(10)));
    // A forgotten one: 3 comes before what the argument or the sequence would be refused with.
    let calls =
        [half, slow, LoopCount(16), FrequencyHz(512), LoopCount(0), FrequencyHz(0), AddFrame];
    assert_eq!(answers_and_frames(calls), ([3; 7], Err(10)));
    let calls = [FrameNew(1), AddFrame, half, LoopCount(16), AddFrame];
    assert_eq!(answers_and_frames(calls), ([0, 0, 3, 3, 3], Ok(vec![0x01])));
    let full = [[FrameNew(1), AddFrame]; 33];
    let (answers, frames) = answers_and_frames::<66>(full.as_flattened().try_into().unwrap());
    assert_eq!(
        (&answers[..64], &answers[64..], frames),
        (&[0; 64][..], &[0, 7][..], Ok(vec![1; 32]))
    );
    // A refused add leaves the frame: it is added to the next sequence.
    let calls = [full.as_flattened(), &[Call::SequenceNew, AddFrame, AddFrame]].concat();
    let (answers, frames) = answers_and_frames::<69>(calls.try_into().unwrap());
    assert_eq!((&answers[65..], frames), (&[7, 0, 0, 3][..], Ok(vec![1])));
    // `da728x_frame` on none.
    for calls in [&[][..], &[FrameNew(16)], &[FrameNew(1), FrameNew(16)], &[FrameNew(1), AddFrame]]
    {
        let mut out = [0xA5; 3];
        let told = yambelugo::frame(&encoded(calls), &mut out).map_err(|it| it.number());
        assert_eq!((told, out), (Err(3), [0xA5; 3]), "{calls:?}");
    }
}

/// A forgotten `SnippetNew` or `SequenceNew`: what was added is not there any more, what was not is.
#[test]
fn snippets_and_sequences_that_are_not_begun() {
    use Call::{AddFrame, AddSequence, AddSnippet, FrameNew, Ramp, SequenceNew, SnippetNew, Step};
    let snippet = |calls: &[Call]| {
        let left = library(&encoded(calls), calls.len());
        let records: Vec<_> = calls.iter().copied().map(Some).collect();
        assert_eq!(left, published(&records, calls.len()), "{calls:?}");
        let [snippet, ..] = &left.items;
        let points = snippet.answer.map(|length| snippet.out[..length].to_vec());
        (left.answers[..calls.len()].to_vec(), points)
    };
    assert_eq!(snippet(&[Ramp(3, 10)]), (vec![0], Ok(vec![0xAA])));
    assert_eq!(snippet(&[AddSnippet]), (vec![9], Err(9)));
    assert_eq!(snippet(&[Ramp(3, 10), AddSnippet]), (vec![0, 0], Err(9)));
    assert_eq!(snippet(&[Ramp(3, 10), AddSnippet, AddSnippet]), (vec![0, 0, 9], Err(9)));
    assert_eq!(snippet(&[Ramp(3, 10), AddSnippet, Step(1, 0)]), (vec![0; 3], Ok(vec![0])));
    assert_eq!(snippet(&[Ramp(3, 10), SnippetNew, Step(1, 0)]), (vec![0; 3], Ok(vec![0])));
    assert_eq!(snippet(&[Ramp(3, 10), Step(1, 0)]), (vec![0; 2], Ok(vec![0xAA, 0])));

    let one = [FrameNew(1), AddFrame];
    assert_eq!(answers_and_frames(one), ([0, 0], Ok(vec![1])));
    assert_eq!(answers_and_frames([AddSequence]), ([10], Err(10)));
    let calls = [FrameNew(1), AddFrame, AddSequence, AddSequence];
    assert_eq!(answers_and_frames(calls), ([0, 0, 0, 10], Err(10)));
    let calls = [FrameNew(1), AddFrame, AddSequence, FrameNew(2), AddFrame];
    assert_eq!(answers_and_frames(calls), ([0; 5], Ok(vec![2])));
    let calls = [FrameNew(1), AddFrame, SequenceNew, FrameNew(2), AddFrame];
    assert_eq!(answers_and_frames(calls), ([0; 5], Ok(vec![2])));
    let calls = [FrameNew(1), AddFrame, FrameNew(2), AddFrame];
    assert_eq!(answers_and_frames(calls), ([0; 4], Ok(vec![1, 2])));
}

/// Strict assembling stops at the first refused one of these answers; the lists add nothing to the memory.
fn compare_strict(list: &[u8], answers: &[u8]) {
    let first = answers.iter().position(|answer| *answer != 0);
    let wanted = first.map_or((9, 0), |at| (answers[at], at as u32 + 1));
    let mut image = [0xA5; yambelugo::IMAGE];
    let refused = yambelugo::assemble_strict(list, &mut image).unwrap_err();
    let place = refused.call.map_or(0, |call| call.get());
    assert_eq!((refused.error.number(), place), wanted, "{list:?}");
    assert_eq!(image, [0xA5; yambelugo::IMAGE]);
}

/// Every code that is no call, and every gain and timebase that there is not, at every place of lists; lists cut at every byte.
#[test]
fn unknown_codes_and_cut_lists() {
    let mut random = Random::new(6);
    let (mut unknown, mut cut) = (0, 0);
    for _ in 0..60 {
        let calls: Vec<_> = frames(&mut random).into_iter().map(Some).collect();
        let all = encoded(&calls.iter().flatten().copied().collect::<Vec<_>>());
        for place in 0..=calls.len() {
            let mut other = calls.clone();
            other.insert(place, None);
            let wanted = published(&other, other.len());
            assert_eq!(wanted.answers[place], NO_CALL);
            let gains = (4..=255).flat_map(|choice| [[7, choice], [8, choice]]);
            for [code, a] in (15..=255).chain([0]).map(|code| [code, 1]).chain(gains) {
                let mut list = all.clone();
                list.splice(4 * place..4 * place, [code, a, 1, 1]);
                assert_eq!(library(&list, other.len()), wanted, "code {code} {a} at {place}");
                compare_strict(&list, &wanted.answers[..other.len()]);
                unknown += 1;
            }
        }
        for length in 0..all.len() {
            let mut whole = calls[..length / 4].to_vec();
            whole.extend(vec![None; (length % 4).min(1)]);
            let wanted = published(&whole, calls.len());
            assert_eq!(library(&all[..length], calls.len()), wanted, "{length} bytes of {calls:?}");
            compare_strict(&all[..length], &wanted.answers[..whole.len()]);
            cut += 1;
        }
    }
    println!("{unknown} unknown codes, {cut} cut lists");
    assert!(unknown > 100_000 && cut > 1_000);
}

/// More calls than a u16 counts, with the last ones taking effect.
#[test]
fn a_long_list() {
    let mut random = Random::new(5);
    let mut calls: Vec<_> = (0..70_000).map(|_| Some(any_call(&mut random))).collect();
    calls.extend([Call::SnippetNew, Call::Ramp(3, 10), Call::SequenceNew].map(Some));
    calls.extend([Call::FrameNew(9), Call::AddFrame].map(Some));
    let list: Vec<u8> = calls.iter().flat_map(|call| record(*call, &mut random)).collect();
    let left = library(&list, calls.len());
    assert_eq!(left, published(&calls, calls.len()));
    assert_eq!((left.items[0].answer, left.items[2].answer), (Ok(1), Ok(2)));
    compared("calls of a long list", calls.len(), 70_005);
}
