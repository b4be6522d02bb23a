//! Random lists of calls that make images.

use crate::generate::{add_frames, any_call, frame, good_point};
use crate::oracle::Builders;
use crate::random::Random;
use yambelugo::Call;

/// Makes a list.
pub type Generate = fn(&mut Random) -> Vec<Call>;

/// Each kind of list by name.
pub const KINDS: [(&str, Generate); 4] =
    [("small", small), ("counts", counts), ("sizes", sizes), ("mixtures", mixed)];

/// A call that is always refused, by its argument or because no frame is begun.
fn refused(random: &mut Random) -> Call {
    random.pick(&[
        Call::Ramp(0, 15),
        Call::Step(9, 16),
        Call::Ramp(8, 16),
        Call::FrameNew(0),
        Call::FrameNew(16),
        Call::LoopCount(16),
        Call::FrequencyHz(512),
    ])
}

/// Adds the call, but not in one of so many cases.
fn mostly(call: Call, but: usize, calls: &mut Vec<Call>, random: &mut Random) {
    if random.below(but) > 0 {
        calls.push(call);
    }
}

/// Those of these calls that are accepted: all are accepted then.
pub fn mended(calls: &[Call]) -> Vec<Call> {
    let mut builders = Builders::default();
    calls.iter().copied().filter(|call| builders.call(*call) == 0).collect()
}

/// Adds a snippet of so many points, by calls that are refused above 16 and for none.
fn add_snippet(calls: &mut Vec<Call>, points: usize, random: &mut Random) {
    mostly(Call::SnippetNew, 3, calls, random);
    for _ in 0..points {
        if random.chance(5) {
            calls.push(refused(random));
        }
        calls.push(good_point(random));
    }
    calls.push(Call::AddSnippet);
}

/// Adds a sequence of so many bytes, by calls that are refused above 96 and for none.
fn add_sequence(calls: &mut Vec<Call>, mut bytes: usize, random: &mut Random) {
    mostly(Call::SequenceNew, 3, calls, random);
    let mut frames = 32_usize;
    while bytes > 0 {
        // So that 32 frames take up to 96 bytes.
        let least = bytes.saturating_sub(3 * frames.saturating_sub(1)).clamp(1, 3);
        let more = random.within(least, bytes.clamp(least, 3));
        calls.extend(frame(more, random));
        calls.push(Call::AddFrame);
        bytes = bytes.saturating_sub(more);
        frames = frames.saturating_sub(1);
    }
    calls.push(Call::AddSequence);
}

/// Few items, also empty ones, ones at their own limits, and none.
pub fn small(random: &mut Random) -> Vec<Call> {
    let mut calls = Vec::new();
    for _ in 0..random.below(7) {
        match random.below(20) {
            0 => add_snippet(&mut calls, random.within(15, 18), random),
            1 if random.chance(25) => add_sequence(&mut calls, random.within(94, 99), random),
            // One-byte frames.
            1 => {
                calls.push(Call::SequenceNew);
                calls.extend(add_frames(random.within(30, 34), 1, random));
                calls.push(Call::AddSequence);
            }
            2..11 => add_snippet(&mut calls, random.below(5), random),
            11..19 => add_sequence(&mut calls, random.below(6), random),
            // Adds of what may be used up or not begun.
            _ => {
                calls.extend([good_point(random), Call::AddSnippet, Call::AddFrame]);
                calls.push(Call::AddSequence);
            }
        }
    }
    calls
}

/// About 15 snippets and 16 sequences, in any order.
pub fn counts(random: &mut Random) -> Vec<Call> {
    let (mut snippets, mut sequences) = (random.within(13, 17), random.within(14, 18));
    let mut calls = Vec::new();
    while snippets + sequences > 0 {
        // Without anything to add.
        let again = random.chance(4);
        if random.below(snippets + sequences) < snippets {
            snippets -= 1;
            match again {
                true => calls.push(Call::AddSnippet),
                false => add_snippet(&mut calls, random.pick(&[1, 1, 2]), random),
            }
        } else {
            sequences -= 1;
            match again {
                true => calls.push(Call::AddSequence),
                false => add_sequence(&mut calls, random.pick(&[1, 1, 1, 2, 3]), random),
            }
        }
    }
    calls
}

/// Images of about 100 bytes.
pub fn sizes(random: &mut Random) -> Vec<Call> {
    let (snippets, sequences) = (random.within(1, 8), random.within(1, 8));
    let mut lengths = vec![1; snippets + sequences];
    let size = if random.chance(80) { random.within(98, 102) } else { random.within(50, 115) };
    let mut rest = size - 2 - 2 * lengths.len();
    while rest > 0 {
        let at = random.below(lengths.len());
        let limit = if at < snippets { 16 } else { 96 };
        let more = random.within(1, 9).min(rest).min(limit - lengths[at]);
        lengths[at] += more;
        rest -= more;
    }
    let mut calls = Vec::new();
    for (at, length) in lengths.into_iter().enumerate() {
        match at < snippets {
            true => add_snippet(&mut calls, length, random),
            false => add_sequence(&mut calls, length, random),
        }
    }
    calls
}

/// Any calls, and more that add to the memory.
pub fn mixed(random: &mut Random) -> Vec<Call> {
    let length = random.below(90);
    let more = [Call::AddSnippet, Call::AddSequence, Call::SnippetNew, Call::SequenceNew];
    (0..length)
        .map(|_| if random.chance(15) { random.pick(&more) } else { any_call(random) })
        .collect()
}
