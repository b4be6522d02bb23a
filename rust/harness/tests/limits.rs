//! Every fill of a snippet and of a sequence, and the next call on it, against the published Rust.

use harness::lists::{library, published};
use harness::{compared, encoded};
use yambelugo::{Call, PwlPoint};

/// Compares all that the list leaves; the last answer and the current length.
fn compare(calls: &[Call]) -> (u8, usize) {
    let left = library(&encoded(calls), calls.len());
    let records: Vec<_> = calls.iter().copied().map(Some).collect();
    assert_eq!(left, published(&records, calls.len()), "{calls:?}");
    (left.answers[calls.len() - 1], left.current_len)
}

/// Calls that add a frame of 1, 2 or 3 bytes.
fn add(bytes: usize) -> Vec<Call> {
    match bytes {
        1 => vec![Call::FrameNew(5), Call::AddFrame],
        2 => vec![Call::FrameNew(13), Call::AddFrame],
        _ => vec![Call::FrameNew(2), Call::FrequencyHz(300), Call::AddFrame],
    }
}

#[test]
fn every_fill_of_a_sequence() {
    let mut cases = 0;
    for frames in 0..=32 {
        for bytes in frames..=3 * frames {
            // As many frames of three bytes as there can be, then at most one of two.
            let mut rest = bytes - frames;
            let mut calls = Vec::new();
            for _ in 0..frames {
                let more = rest.min(2);
                rest -= more;
                calls.extend(add(1 + more));
            }
            for added in 1..=3 {
                let calls = [calls.clone(), add(added)].concat();
                let wanted = match (frames, bytes + added) {
                    (32, 97..) => (8, bytes),
                    (32, _) => (7, bytes),
                    (_, sum) => (0, sum),
                };
                assert_eq!(compare(&calls), wanted, "{frames} frames, {bytes} bytes, {added} more");
                cases += 1;
            }
        }
    }
    compared("fills of sequences", cases, 3 * 33 * 33);
}

#[test]
fn every_fill_of_a_snippet() {
    let point = PwlPoint::ramp(2, 7).unwrap();
    // Bad length before bad amplitude before full.
    let next = [
        (Call::Ramp(1, 15), 0, 6),
        (Call::Step(8, 0), 0, 6),
        (Call::Point(point), 0, 6),
        (Call::Ramp(0, 15), 1, 1),
        (Call::Step(9, 15), 1, 1),
        (Call::Ramp(0, 16), 1, 1),
        (Call::Step(255, 255), 1, 1),
        (Call::Ramp(1, 16), 2, 2),
        (Call::Step(8, 255), 2, 2),
        (Call::SnippetNew, 0, 0),
    ];
    let mut cases = 0;
    for points in 0..=16_u8 {
        for (call, open, full) in next {
            let mut calls: Vec<_> = (0..points).map(|at| Call::Step(at % 8 + 1, at % 16)).collect();
            calls.push(call);
            let wanted = if points < 16 { open } else { full };
            assert_eq!(compare(&calls).0, wanted, "{points} points, then {call:?}");
            cases += 1;
        }
    }
    compared("fills of snippets", cases, 17 * 10);
}
