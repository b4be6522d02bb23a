//! The published Rust, run call by call.

use da728x::errors::Error;
use da728x::waveform::WaveformMemoryBuilder;
use da728x::waveform::{self, FrameBuilder, PwlPoint, SequenceBuilder, SnippetBuilder};
use std::mem;
use yambelugo::{Call, Gain, Timebase};

/// Whether the published refusal with the first of these numbers may be told by the second: the published `InvalidValue`, 11,
/// matches any of the four that document 02 tells apart (CR 3).
pub fn matches(published: u8, told: u8) -> bool {
    published == told || published == 11 && (21..=23).contains(&told)
}

/// Document 01's number of a refusal.
pub fn number(error: &Error) -> u8 {
    match error {
        Error::InvalidTimebase => 1,
        Error::InvalidAmplitude => 2,
        Error::InvalidSnippetId => 3,
        Error::InvalidLoopCount => 4,
        Error::InvalidFrequency => 5,
        Error::TooManySnippets => 6,
        Error::TooManySequences => 7,
        Error::WaveformMemoryFull => 8,
        Error::EmptySnippet => 9,
        Error::EmptySequence => 10,
        Error::InvalidValue => 11,
        Error::WrongMode => 12,
        Error::MissingTriggerConfigInEtwmMode => 13,
        Error::NotSupported => 14,
        Error::NotConfigured => 15,
        Error::VariantMismatch => 16,
        Error::I2c(_) => 17,
        Error::Gpio(_) => panic!("no ported operation drives a pin"),
    }
}

/// The point with this byte.
pub fn point(byte: u8) -> PwlPoint {
    let make = if byte < 128 { PwlPoint::step } else { PwlPoint::ramp };
    let point = make(byte / 16 % 8 + 1, byte % 16).unwrap();
    assert_eq!(point.as_byte(), byte);
    point
}

/// The answer to a call on a frame that was not begun: a missing `new` counts as `new` of number 0.
pub const NOT_BEGUN: u8 = 3;

/// The answer to a record that says no call.
pub const NO_CALL: u8 = 14;

/// What a Rust program has in its variables while it writes a pattern: a snippet, a frame if one is
/// begun, a sequence and a memory under construction.
///
/// `new` and `build` go as in Rust: a refused `new` makes no frame, and what is added is moved away.
/// Where the Rust drops a refused builder, it stays here, as document 01 says.
#[derive(Clone)]
pub struct Builders {
    pub snippet: SnippetBuilder,
    pub frame: Option<FrameBuilder>,
    pub sequence: SequenceBuilder,
    pub memory: WaveformMemoryBuilder,
}

impl Default for Builders {
    fn default() -> Self {
        Self {
            snippet: SnippetBuilder::new(),
            frame: None,
            sequence: SequenceBuilder::new(),
            memory: WaveformMemoryBuilder::new(false),
        }
    }
}

impl Builders {
    /// The builders after these calls, all refusals left aside.
    pub fn after(calls: &[Call]) -> Self {
        let mut builders = Self::default();
        for call in calls {
            builders.call(*call);
        }
        builders
    }

    /// Runs the records, of which `None` says no call; the answer to each.
    pub fn run(&mut self, records: &[Option<Call>]) -> Vec<u8> {
        records.iter().map(|call| call.map_or(NO_CALL, |call| self.call(call))).collect()
    }

    /// Makes one call: 0, or the number of its refusal.
    pub fn call(&mut self, call: Call) -> u8 {
        let made = match call {
            Call::SnippetNew => {
                self.snippet = SnippetBuilder::new();
                Ok(())
            }
            Call::Ramp(length, amplitude) => self.snippet(|it| it.ramp(length, amplitude)),
            Call::Step(length, amplitude) => self.snippet(|it| it.step(length, amplitude)),
            Call::Point(byte) => self.snippet(|it| it.point(point(byte.as_byte()))),
            Call::FrameNew(snippet) => {
                let made = FrameBuilder::new(snippet);
                let answer = made.as_ref().map_or_else(number, |_| 0);
                self.frame = made.ok();
                return answer;
            }
            Call::Silence => {
                self.frame = Some(FrameBuilder::silence());
                Ok(())
            }
            Call::SequenceNew => {
                self.sequence = SequenceBuilder::new();
                Ok(())
            }
            Call::AddSnippet => self.add_snippet(),
            Call::AddSequence => self.add_sequence(),
            Call::Gain(_) | Call::Timebase(_) | Call::LoopCount(_) | Call::FrequencyHz(_) => {
                let Some(frame) = self.frame.take() else { return NOT_BEGUN };
                self.set(frame, call)
            }
            Call::AddFrame => {
                let Some(frame) = self.frame.take() else { return NOT_BEGUN };
                self.add_frame(frame)
            }
        };
        made.map_or_else(|error| number(&error), |()| 0)
    }

    fn snippet(
        &mut self,
        add: impl FnOnce(SnippetBuilder) -> Result<SnippetBuilder, Error>,
    ) -> Result<(), Error> {
        self.snippet = add(self.snippet)?;
        Ok(())
    }

    /// A call that sets a field of the frame.
    fn set(&mut self, frame: FrameBuilder, call: Call) -> Result<(), Error> {
        let kept = frame.clone();
        let made = match call {
            Call::Gain(it) => Ok(frame.gain(gain(it))),
            Call::Timebase(it) => Ok(frame.timebase(timebase(it))),
            Call::LoopCount(count) => frame.loop_count(count),
            Call::FrequencyHz(frequency) => frame.frequency_hz(frequency),
            _ => unreachable!("{call:?} sets no field"),
        };
        let (frame, answer) = made.map_or_else(|error| (kept, Err(error)), |it| (it, Ok(())));
        self.frame = Some(frame);
        answer
    }

    fn add_frame(&mut self, frame: FrameBuilder) -> Result<(), Error> {
        let kept = frame.clone();
        let added = frame.build().and_then(|built| self.sequence.add_frame(built));
        self.sequence = added.inspect_err(|_| self.frame = Some(kept))?;
        Ok(())
    }

    fn add_snippet(&mut self) -> Result<(), Error> {
        let snippet = mem::take(&mut self.snippet);
        let added = snippet.build().and_then(|built| self.memory.add_snippet(built));
        self.memory = added.inspect_err(|_| self.snippet = snippet)?;
        Ok(())
    }

    fn add_sequence(&mut self) -> Result<(), Error> {
        let sequence = mem::take(&mut self.sequence);
        let added = sequence.build().and_then(|built| self.memory.add_sequence(built));
        self.memory = added.inspect_err(|_| self.sequence = sequence)?;
        Ok(())
    }
}

pub fn gain(gain: Gain) -> waveform::Gain {
    match gain {
        Gain::Full => waveform::Gain::Full,
        Gain::Half => waveform::Gain::Half,
        Gain::Quarter => waveform::Gain::Quarter,
        Gain::Eighth => waveform::Gain::Eighth,
    }
}

pub fn timebase(timebase: Timebase) -> waveform::Timebase {
    match timebase {
        Timebase::Ms5_44 => waveform::Timebase::Ms5_44,
        Timebase::Ms21_76 => waveform::Timebase::Ms21_76,
        Timebase::Ms43_52 => waveform::Timebase::Ms43_52,
        Timebase::Ms87_04 => waveform::Timebase::Ms87_04,
    }
}
