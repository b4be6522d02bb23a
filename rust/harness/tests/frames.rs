//! Every frame and every refused value of a frame, against the published Rust.

use harness::oracle::{Builders, NOT_BEGUN};
use harness::{GAINS, TIMEBASES, compared, encoded};
use yambelugo::{Call, Gain, Timebase};

/// Compares the frame of these calls and each call's answer; the last answer.
fn compare(calls: &[Call]) -> u8 {
    let (mut answers, mut out) = ([0xA5; 8], [0x5A; 6]);
    let list = encoded(calls);
    assert_eq!(yambelugo::answers(&list, &mut answers), calls.len());
    let copied = yambelugo::frame(&list, &mut out).map_err(|error| error.number());

    let mut builders = Builders::default();
    let mut wanted_answers = [0xA5; 8];
    for (answer, call) in wanted_answers.iter_mut().zip(calls) {
        *answer = builders.call(*call);
    }
    let mut wanted_out = [0x5A; 6];
    let frame = builders.frame.ok_or(NOT_BEGUN).map(|frame| frame.build().unwrap());
    let wanted_copied = frame.map(|frame| frame.encode_into(&mut wanted_out));

    assert_eq!(answers, wanted_answers, "{calls:?}");
    assert_eq!((copied, out), (wanted_copied, wanted_out), "{calls:?}");
    wanted_answers[calls.len() - 1]
}

#[test]
fn every_frame() {
    let mut cases = 0;
    let mut calls = Vec::new();
    for snippet in 0..=15 {
        let begin = if snippet == 0 { Call::Silence } else { Call::FrameNew(snippet) };
        for gain in GAINS {
            for timebase in TIMEBASES {
                for count in (0..=15).map(Some).chain([None]) {
                    // 512 is the first that is refused.
                    for frequency in (0..=512).map(Some).chain([None]) {
                        calls.clear();
                        calls.extend([begin, Call::Gain(gain), Call::Timebase(timebase)]);
                        calls.extend(count.map(Call::LoopCount));
                        calls.extend(frequency.map(Call::FrequencyHz));
                        let refused = if frequency == Some(512) { 5 } else { 0 };
                        assert_eq!(compare(&calls), refused, "{calls:?}");
                        cases += 1;
                    }
                }
            }
        }
    }
    compared("frames", cases, 16 * 4 * 4 * 17 * 514);
}

#[test]
fn every_refused_value() {
    let full = [
        Call::FrameNew(11),
        Call::Gain(Gain::Quarter),
        Call::Timebase(Timebase::Ms21_76),
        Call::LoopCount(6),
        Call::FrequencyHz(401),
    ];
    let mut cases = 0;
    for begun in [&full[..0], &full[..1], &full[..4], &full[..]] {
        let mut refused = |call, number| {
            assert_eq!(compare(&[begun, &[call]].concat()), number, "{call:?}");
            cases += 1;
        };
        refused(Call::FrameNew(0), 3);
        (16..=255).for_each(|snippet| refused(Call::FrameNew(snippet), 3));
        // Without a frame, 3 comes before what the argument is refused with.
        let (four, five) = if begun.is_empty() { (3, 3) } else { (4, 5) };
        (16..=255).for_each(|count| refused(Call::LoopCount(count), four));
        (512..=65535).for_each(|frequency| refused(Call::FrequencyHz(frequency), five));
    }
    compared("refused values of frames", cases, 4 * (241 + 240 + 65024));
}
