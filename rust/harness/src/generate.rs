//! Random calls, mostly near the limits, and the lists of them.

use crate::random::Random;
use crate::{GAINS, TIMEBASES, oracle};
use yambelugo::{Call, PwlPoint};

/// The last code of a call.
const LAST: u8 = 14;

/// Puts records that are no call between the calls and behind them.
pub fn with_noise(calls: Vec<Call>, random: &mut Random) -> Vec<Option<Call>> {
    let noisy = random.chance(30);
    let mut list = Vec::new();
    for call in calls {
        if noisy && random.chance(20) {
            list.push(None);
        }
        list.push(Some(call));
    }
    if random.chance(25) {
        list.push(None);
    }
    list
}

/// The list of these records. A last one that is no call is mostly one of fewer than four bytes.
pub fn list(calls: &[Option<Call>], random: &mut Random) -> Vec<u8> {
    let mut list: Vec<u8> = calls.iter().flat_map(|call| record(*call, random)).collect();
    if calls.last() == Some(&None) && random.chance(80) {
        // It would be a call were it whole.
        let cut = [random.within(0, usize::from(LAST) + 1) as u8, 1, 1];
        list.truncate(list.len() - 4);
        list.extend(&cut[..random.within(1, 3)]);
    }
    // A memory checker then sees a step past the end.
    list.shrink_to_fit();
    list
}

/// The record of a call, or of no call, with random values in the bytes that say nothing.
pub fn record(call: Option<Call>, random: &mut Random) -> [u8; 4] {
    let [x, y, z] = [random.byte(), random.byte(), random.byte()];
    let Some(call) = call else {
        let code = match random.below(5) {
            0 => 0,
            1 => LAST + random.within(1, 3) as u8,
            // A gain or a timebase that there is not.
            2 => return [random.pick(&[7, 8]), random.near(&[4, 5, 7, 8, 255]).max(4), y, z],
            _ => random.within(usize::from(LAST) + 1, 255) as u8,
        };
        return [code, x, y, z];
    };
    let [code, a, b, _] = call.encode();
    match call {
        Call::SnippetNew | Call::Silence | Call::SequenceNew | Call::AddFrame => [code, x, y, z],
        Call::AddSnippet | Call::AddSequence => [code, x, y, z],
        Call::Point(_) | Call::FrameNew(_) => [code, a, y, z],
        Call::Gain(_) | Call::Timebase(_) | Call::LoopCount(_) => [code, a, y, z],
        Call::Ramp(..) | Call::Step(..) | Call::FrequencyHz(_) => [code, a, b, z],
    }
}

/// A point that is accepted unless the snippet is full.
pub fn good_point(random: &mut Random) -> Call {
    let (length, amplitude) = (random.within(1, 8) as u8, random.below(16) as u8);
    match random.below(3) {
        0 => Call::Ramp(length, amplitude),
        1 => Call::Step(length, amplitude),
        _ => Call::Point(PwlPoint::ramp(length, amplitude).unwrap()),
    }
}

/// A point of any kind, mostly near the limits.
pub fn any_point(random: &mut Random) -> Call {
    let length = random.near(&[0, 1, 2, 7, 8, 9, 10, 255]);
    let amplitude = random.near(&[0, 1, 14, 15, 16, 17, 255]);
    match random.below(5) {
        0 | 1 => Call::Ramp(length, amplitude),
        2 | 3 => Call::Step(length, amplitude),
        _ => {
            let point = oracle::point(random.byte());
            let make = if point.is_ramp() { PwlPoint::ramp } else { PwlPoint::step };
            Call::Point(make(point.timebases(), point.amplitude()).unwrap())
        }
    }
}

/// A call on the frame, mostly near the limits.
pub fn any_frame_call(random: &mut Random) -> Call {
    let frequencies = [0, 1, 255, 256, 257, 300, 510, 511, 512, 513, 768, 65535];
    match random.below(12) {
        0 | 1 => Call::FrameNew(random.near(&[0, 1, 7, 8, 9, 15, 16, 17, 255])),
        2 => Call::Silence,
        3 | 4 => Call::Gain(random.pick(&GAINS)),
        5 | 6 => Call::Timebase(random.pick(&TIMEBASES)),
        7 | 8 => Call::LoopCount(random.near(&[0, 1, 8, 14, 15, 16, 17, 255])),
        9 | 10 => Call::FrequencyHz(random.pick(&frequencies)),
        _ => Call::FrequencyHz(random.below(65536) as u16),
    }
}

pub fn any_call(random: &mut Random) -> Call {
    match random.below(20) {
        0..7 => any_point(random),
        7..14 => any_frame_call(random),
        14..18 => Call::AddFrame,
        18 => {
            random.pick(&[Call::SnippetNew, Call::SequenceNew, Call::AddSnippet, Call::AddSequence])
        }
        _ => good_point(random),
    }
}

/// Calls that begin a frame of 1, 2 or 3 bytes; some lose it again by a refused `FrameNew`.
pub fn frame(bytes: usize, random: &mut Random) -> Vec<Call> {
    let mut calls = vec![match bytes {
        _ if random.chance(15) => Call::Silence,
        1 => Call::FrameNew(random.within(1, 7) as u8),
        _ => Call::FrameNew(random.within(1, 15) as u8),
    }];
    let high = matches!(calls[0], Call::FrameNew(8..));
    if bytes == 3 {
        calls.push(Call::FrequencyHz(random.below(512) as u16));
    }
    if bytes == 2 && !high || bytes > 1 && random.chance(40) {
        calls.push(Call::LoopCount(random.below(16) as u8));
    }
    if random.chance(20) {
        calls.push(Call::Gain(random.pick(&GAINS)));
    }
    if random.chance(20) {
        calls.push(Call::Timebase(random.pick(&TIMEBASES)));
    }
    if random.chance(8) {
        // Always refused.
        calls.push(random.pick(&[Call::LoopCount(16), Call::FrequencyHz(512)]));
    }
    if random.chance(2) {
        calls.push(Call::FrameNew(random.pick(&[0, 16, 255])));
    }
    calls
}

/// Calls that add so many frames, each of these bytes.
pub fn add_frames(frames: usize, bytes: usize, random: &mut Random) -> Vec<Call> {
    let mut calls = Vec::new();
    for _ in 0..frames {
        calls.extend(frame(bytes, random));
        calls.push(Call::AddFrame);
    }
    calls
}
