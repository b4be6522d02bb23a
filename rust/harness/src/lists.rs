//! What lists of calls leave, by the library and by the published Rust.

use crate::oracle::{Builders, NOT_BEGUN, number};
use yambelugo::{Call, Error};

/// Marks bytes that stay; no answer has this value.
pub const MARKER: u8 = 0xA5;

/// Longer than any item.
const OUT: usize = 104;

/// Bytes behind a lent buffer, to see that they stay.
const GUARD: usize = 8;

/// What one function leaves: its answer or the number of its refusal, and the buffer lent to it.
#[derive(Debug, Clone, PartialEq)]
pub struct Item {
    pub answer: Result<usize, u8>,
    pub out: [u8; OUT + GUARD],
}

/// What a list leaves: the snippet, the frame and the sequence under construction, the sequence's
/// current length, how many calls the list has, and the answers to them.
#[derive(Debug, Clone, PartialEq)]
pub struct Left {
    pub items: [Item; 3],
    pub current_len: usize,
    pub calls: usize,
    pub answers: Vec<u8>,
}

/// What the library leaves, with `room` for answers.
pub fn library(calls: &[u8], room: usize) -> Left {
    let number = |error: Error| error.number();
    let mut answers = vec![MARKER; room + GUARD];
    Left {
        items: [
            item(|out| yambelugo::snippet(calls, out).map_err(number)),
            item(|out| yambelugo::frame(calls, out).map_err(number)),
            item(|out| yambelugo::sequence(calls, out).map_err(number)),
        ],
        current_len: yambelugo::current_len(calls),
        calls: yambelugo::answers(calls, &mut answers[..room]),
        answers,
    }
}

/// What the published Rust leaves for the same; `None` is a record that says no call.
pub fn published(calls: &[Option<Call>], room: usize) -> Left {
    let mut builders = Builders::default();
    let answered = builders.run(calls);
    let mut answers = vec![MARKER; room + GUARD];
    let fitting = answered.len().min(room);
    answers[..fitting].copy_from_slice(&answered[..fitting]);
    let Builders { snippet, frame, sequence, .. } = builders;
    let number = |error| number(&error);
    Left {
        items: [
            item(|out| snippet.build().map(|it| it.encode_into(out)).map_err(number)),
            item(|out| match frame {
                Some(frame) => frame.build().map(|it| it.encode_into(out)).map_err(number),
                None => Err(NOT_BEGUN),
            }),
            item(|out| sequence.build().map(|it| it.encode_into(out)).map_err(number)),
        ],
        current_len: sequence.current_len(),
        calls: answered.len(),
        answers,
    }
}

fn item(run: impl FnOnce(&mut [u8]) -> Result<usize, u8>) -> Item {
    let mut out = [MARKER; OUT + GUARD];
    let answer = run(&mut out[..OUT]);
    Item { answer, out }
}

/// How often lists met what a careless author does, so that a generator that misses it fails.
#[derive(Debug, Default)]
pub struct Misuse {
    /// A refused `FrameNew`, and those of them that lost a frame that was begun.
    pub refused_new: usize,
    pub lost: usize,
    /// Calls on the frame without one: at the beginning, after a refused `FrameNew`, and after the
    /// frame was added.
    pub unbegun: [usize; 3],
    /// Those of them that add the frame.
    pub unbegun_added: [usize; 3],
    /// Points and frames behind an accepted add, without a `SnippetNew` or `SequenceNew` between.
    pub no_snippet_new: usize,
    pub no_sequence_new: usize,
    /// Records with an unknown code, and lists that end in a record of 1, 2 or 3 bytes.
    pub unknown: usize,
    pub partial: [usize; 3],
}

impl Misuse {
    /// Counts what is met in a list of so many bytes.
    pub fn count(&mut self, calls: &[Option<Call>], answers: &[u8], bytes: usize) {
        let (mut begun, mut why) = (false, 0);
        let (mut snippet_added, mut sequence_added) = (false, false);
        for (call, answer) in calls.iter().zip(answers) {
            let accepted = *answer == 0;
            match call {
                None => self.unknown += 1,
                Some(Call::FrameNew(_)) if !accepted => {
                    self.refused_new += 1;
                    self.lost += usize::from(begun);
                    (begun, why) = (false, 1);
                }
                Some(Call::FrameNew(_) | Call::Silence) => begun = true,
                Some(Call::SnippetNew) => snippet_added = false,
                Some(Call::SequenceNew) => sequence_added = false,
                Some(Call::Ramp(..) | Call::Step(..) | Call::Point(_)) => {
                    self.no_snippet_new += usize::from(accepted && snippet_added);
                }
                Some(Call::AddSnippet) => snippet_added |= accepted,
                Some(Call::AddSequence) => sequence_added |= accepted,
                Some(call) => {
                    let adds = *call == Call::AddFrame;
                    if !begun {
                        self.unbegun[why] += 1;
                        self.unbegun_added[why] += usize::from(adds);
                    } else if accepted && adds {
                        self.no_sequence_new += usize::from(sequence_added);
                        (begun, why) = (false, 2);
                    }
                }
            }
        }
        if let Some(rest) = (bytes % 4).checked_sub(1) {
            self.unknown -= 1;
            self.partial[rest] += 1;
        }
    }

    /// Prints what was met; each has to be met so many times.
    pub fn assert_met(&self, what: &str, least: usize) {
        println!("{what}: {self:?}");
        let Misuse { refused_new, lost, no_snippet_new, no_sequence_new, unknown, .. } = *self;
        let single = [refused_new, lost, no_snippet_new, no_sequence_new, unknown];
        let mut met = single.iter().chain(&self.unbegun).chain(&self.unbegun_added);
        let met = met.all(|it| *it >= least) && self.partial.iter().all(|it| *it >= least);
        assert!(met, "{what}: fewer than {least} of one");
    }
}
