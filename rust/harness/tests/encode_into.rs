//! Every length of item into every length of buffer, byte for byte: against the published Rust where the item has room, else against
//! the rule that a buffer which is too short is refused and stays.

use harness::encoded;
use harness::oracle::{Builders, NOT_BEGUN, number};
use harness::whole::{Judged, TOO_SHORT};
use yambelugo::{Call, Error};

/// Longer than the longest item.
const LONGEST: usize = 110;

/// Bytes around the lent ones, to see that they stay.
const GUARD: usize = 8;

type Answer = Result<usize, u8>;

/// Lends every length of buffer, with two markers, to both, and compares answer and bytes.
fn compare(
    item: Answer,
    library: impl Fn(&mut [u8]) -> Answer,
    published: impl Fn(&mut [u8]) -> Answer,
    judged: &mut Judged,
) {
    for marker in [0x00, 0xFF] {
        for length in 0..=LONGEST {
            let lend = |encode: &mut dyn FnMut(&mut [u8]) -> Answer| {
                let mut bytes = [marker; GUARD + LONGEST + GUARD];
                let answer = encode(&mut bytes[GUARD..GUARD + length]);
                (answer, bytes)
            };
            let wanted = lend(&mut |out| judged.wanted(item, out, &published));
            assert_eq!(lend(&mut |out| library(out)), wanted, "a buffer of {length} bytes");
        }
    }
}

fn compare_snippet(calls: &[Call], wanted: Answer, judged: &mut Judged) {
    let list = encoded(calls);
    let built = Builders::after(calls).snippet.build().map_err(|error| number(&error));
    assert_eq!(built.map(|snippet| snippet.byte_len()), wanted);
    compare(
        wanted,
        |out| yambelugo::snippet(&list, out).map_err(|error| error.number()),
        |out| Ok(built?.encode_into(out)),
        judged,
    );
}

fn compare_frame(calls: &[Call], wanted: Answer, judged: &mut Judged) {
    let list = encoded(calls);
    let frame = Builders::after(calls).frame.ok_or(NOT_BEGUN).map(|frame| frame.build().unwrap());
    assert_eq!(frame.map(|frame| frame.byte_len()), wanted);
    compare(
        wanted,
        |out| yambelugo::frame(&list, out).map_err(|error| error.number()),
        |out| Ok(frame?.encode_into(out)),
        judged,
    );
}

fn compare_sequence(calls: &[Call], wanted: Answer, judged: &mut Judged) {
    let list = encoded(calls);
    let built = Builders::after(calls).sequence.build().map_err(|error| number(&error));
    assert_eq!(built.map(|sequence| sequence.byte_len()), wanted);
    compare(
        wanted,
        |out| yambelugo::sequence(&list, out).map_err(|error| error.number()),
        |out| Ok(built?.encode_into(out)),
        judged,
    );
}

/// Two markers and 111 lengths for each item; of these, too short are as many lengths as the item has bytes.
fn assert_met(what: &str, judged: Judged, items: usize, bytes: usize) {
    judged.assert_met(what, items * 2 * 111 - 2 * bytes, 2 * bytes);
}

#[test]
fn snippets_of_every_length() {
    let mut judged = Judged::default();
    compare_snippet(&[], Err(9), &mut judged);
    for points in 1..=16_u8 {
        let calls: Vec<_> = (0..points).map(|at| Call::Ramp(at % 8 + 1, 15 - at % 16)).collect();
        compare_snippet(&calls, Ok(points.into()), &mut judged);
    }
    assert_met("snippets into buffers", judged, 17, 16 * 17 / 2);
}

#[test]
fn frames_of_every_length() {
    let calls = [Call::FrameNew(7), Call::LoopCount(9), Call::FrequencyHz(299)];
    let mut judged = Judged::default();
    compare_frame(&[], Err(NOT_BEGUN), &mut judged);
    compare_frame(&[calls[0], Call::FrameNew(16)], Err(NOT_BEGUN), &mut judged);
    for bytes in 1..=3 {
        compare_frame(&calls[..bytes], Ok(bytes), &mut judged);
    }
    assert_met("frames into buffers", judged, 5, 1 + 2 + 3);
}

#[test]
fn sequences_of_every_length() {
    let mut judged = Judged::default();
    compare_sequence(&[], Err(10), &mut judged);
    for bytes in 1..=96_u16 {
        let mut calls = Vec::new();
        for at in 0..bytes / 3 {
            calls.extend([Call::FrameNew(3), Call::FrequencyHz(100 + at), Call::AddFrame]);
        }
        match bytes % 3 {
            1 => calls.extend([Call::FrameNew(4), Call::AddFrame]),
            2 => calls.extend([Call::FrameNew(12), Call::AddFrame]),
            _ => {}
        }
        compare_sequence(&calls, Ok(bytes.into()), &mut judged);
    }
    assert_met("sequences into buffers", judged, 97, 96 * 97 / 2);
}

/// A display program lent nine bytes for a snippet of twelve points: the Rust tells 12 and writes nine.
#[test]
fn twelve_points_into_nine_bytes() {
    let calls = [Call::Ramp(3, 10); 12];
    let list = encoded(&calls);
    let mut nine = [0x5A; 9];
    let published = Builders::after(&calls).snippet.build().unwrap();
    assert_eq!((published.encode_into(&mut nine), nine), (12, [0xAA; 9]));

    nine = [0x5A; 9];
    let refused = yambelugo::snippet(&list, &mut nine);
    assert_eq!((refused, nine), (Err(Error::BufferTooShort), [0x5A; 9]));
    assert_eq!(Error::BufferTooShort.number(), TOO_SHORT);

    let mut twelve = [0x5A; 12];
    assert_eq!((yambelugo::snippet(&list, &mut twelve), twelve), (Ok(12), [0xAA; 12]));
}
