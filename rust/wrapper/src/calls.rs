//! Lists of builder calls, and what they build.

use crate::error::{Error, told};
use crate::ffi;
use crate::point::PwlPoint;

/// How loud a frame plays its snippet.
#[derive(Debug, Clone, Copy, PartialEq, Eq, Default)]
#[repr(u8)]
pub enum Gain {
    /// 0 dB.
    #[default]
    Full = 0,
    /// -6 dB.
    Half = 1,
    /// -12 dB.
    Quarter = 2,
    /// -18 dB.
    Eighth = 3,
}

/// How long one timebase of a frame's snippet lasts, unless
/// [`DA728x::set_timebase`](crate::DA728x::set_timebase) changed what the four stand for.
#[derive(Debug, Clone, Copy, PartialEq, Eq, Default)]
#[repr(u8)]
pub enum Timebase {
    /// 5.44 ms.
    #[default]
    Ms5_44 = 0,
    /// 21.76 ms.
    Ms21_76 = 1,
    /// 43.52 ms.
    Ms43_52 = 2,
    /// 87.04 ms.
    Ms87_04 = 3,
}

/// One builder call, on the snippet, the frame, the sequence or the memory under construction.
///
/// A list of calls is made of records of four bytes, one for each call ([`Call::encode`]). The calls
/// run in order. A list begins with an empty snippet, an empty sequence and no frame:
/// [`FrameNew`](Call::FrameNew) or [`Silence`](Call::Silence) begins one. An accepted add uses up
/// what it added.
///
/// A refused call changes nothing, except that a refused `FrameNew` leaves no frame begun, and the
/// calls after it still run. A call on a frame that is not begun is refused with
/// `InvalidSnippetId`. Bytes that are no call (another code, a gain or timebase code above 3, or
/// fewer than four bytes at the end of the list) count as a call that is refused with `NotSupported`.
///
/// ```
/// # use yambelugo::{Call, Error, Gain};
/// let calls = [
///     Call::FrameNew(1),
///     Call::AddFrame,
///     Call::FrameNew(16), // refused: no frame is begun
///     Call::Gain(Gain::Half),
///     Call::AddFrame,
/// ];
/// let mut answers = [0; 5];
/// assert_eq!(yambelugo::answers(calls.map(Call::encode).as_flattened(), &mut answers), 5);
/// let refused = Error::InvalidSnippetId.number();
/// assert_eq!(answers, [0, 0, refused, refused, refused]);
/// ```
#[derive(Debug, Clone, Copy, PartialEq, Eq)]
pub enum Call {
    /// Begins the snippet anew, without points. Those that were not added are discarded.
    SnippetNew,
    /// Adds a ramp of this length (1 to 8) and amplitude (0 to 15) to the snippet.
    Ramp(u8, u8),
    /// Adds a step of this length (1 to 8) and amplitude (0 to 15) to the snippet.
    Step(u8, u8),
    /// Adds a point to the snippet.
    Point(PwlPoint),
    /// Begins a frame for this snippet number (1 to 15); 1 is the snippet added first. If it is
    /// refused, no frame is begun.
    FrameNew(u8),
    /// Begins a frame for silence.
    Silence,
    /// Sets the frame's gain.
    Gain(Gain),
    /// Sets the frame's timebase.
    Timebase(Timebase),
    /// Sets the frame's loop count (0 to 15).
    LoopCount(u8),
    /// Sets the frame's frequency (0 to 511 Hz).
    FrequencyHz(u16),
    /// Begins the sequence anew, without frames. Those that were not added are discarded.
    SequenceNew,
    /// Adds the frame to the sequence; then no frame is begun.
    AddFrame,
    /// Adds the snippet to the memory; the next snippet begins without points.
    AddSnippet,
    /// Adds the sequence to the memory; the next sequence begins without frames.
    AddSequence,
}

impl Call {
    /// The record of this call in a list of calls.
    ///
    /// ```
    /// # use yambelugo::Call;
    /// const PULSE: [[u8; 4]; 2] = [Call::Ramp(1, 15).encode(), Call::FrequencyHz(300).encode()];
    /// assert_eq!(PULSE.as_flattened(), [2, 1, 15, 0, 10, 44, 1, 0]);
    /// ```
    pub const fn encode(self) -> [u8; 4] {
        let (code, a, b) = match self {
            Call::SnippetNew => (1, 0, 0),
            Call::Ramp(timebases, amplitude) => (2, timebases, amplitude),
            Call::Step(timebases, amplitude) => (3, timebases, amplitude),
            Call::Point(point) => (4, point.as_byte(), 0),
            Call::FrameNew(snippet) => (5, snippet, 0),
            Call::Silence => (6, 0, 0),
            Call::Gain(gain) => (7, gain as u8, 0),
            Call::Timebase(timebase) => (8, timebase as u8, 0),
            Call::LoopCount(count) => (9, count, 0),
            Call::FrequencyHz(frequency) => (10, frequency as u8, (frequency >> 8) as u8),
            Call::SequenceNew => (11, 0, 0),
            Call::AddFrame => (12, 0, 0),
            Call::AddSnippet => (13, 0, 0),
            Call::AddSequence => (14, 0, 0),
        };
        [code, a, b, 0]
    }
}

/// Runs the calls, builds the snippet under construction and copies all its bytes, 1 to 16, into the
/// front of `out`; how many they are. The other bytes of `out` stay. Refused calls are left out
/// silently: [`answers`] shows them.
///
/// ```
/// # use yambelugo::{Call, Error};
/// let calls = [Call::Ramp(3, 10), Call::Ramp(9, 10), Call::Step(1, 0)].map(Call::encode);
/// let mut out = [0; 16];
/// let length = yambelugo::snippet(calls.as_flattened(), &mut out)?;
/// assert_eq!(out[..length], [0xAA, 0x00]);
///
/// // Twelve points go into nine bytes not at all.
/// let (calls, mut out) = ([Call::Ramp(3, 10); 12].map(Call::encode), [0x5A; 9]);
/// let refused = yambelugo::snippet(calls.as_flattened(), &mut out);
/// assert_eq!((refused, out), (Err(Error::BufferTooShort), [0x5A; 9]));
/// # Ok::<(), Error>(())
/// ```
///
/// # Errors
/// `EmptySnippet` if the snippet has no points, else `BufferTooShort` if `out` is shorter than it;
/// `out` stays then.
pub fn snippet(calls: &[u8], out: &mut [u8]) -> Result<usize, Error> {
    built(ffi::da728x_snippet, calls, out)
}

/// Runs the calls, builds the frame under construction and copies all its bytes, 1 to 3, into the
/// front of `out`; how many they are. The other bytes of `out` stay. Refused calls are left out
/// silently.
///
/// ```
/// # use yambelugo::{Call, Error, Gain, Timebase};
/// let calls = [
///     Call::FrameNew(3),
///     Call::Gain(Gain::Half),
///     Call::Timebase(Timebase::Ms43_52),
///     Call::LoopCount(2),
///     Call::FrequencyHz(300),
/// ];
/// let mut out = [0; 3];
/// let length = yambelugo::frame(calls.map(Call::encode).as_flattened(), &mut out)?;
/// assert_eq!(out[..length], [0x33, 0x96, 0x2C]);
///
/// let refused = yambelugo::frame(&Call::FrameNew(16).encode(), &mut out);
/// assert_eq!(refused, Err(Error::InvalidSnippetId));
/// let short = yambelugo::frame(calls.map(Call::encode).as_flattened(), &mut out[..2]);
/// assert_eq!(short, Err(Error::BufferTooShort));
/// # Ok::<(), Error>(())
/// ```
///
/// # Errors
/// `InvalidSnippetId` if no frame is begun, else `BufferTooShort` if `out` is shorter than the frame;
/// `out` stays then.
pub fn frame(calls: &[u8], out: &mut [u8]) -> Result<usize, Error> {
    built(ffi::da728x_frame, calls, out)
}

/// Runs the calls, builds the sequence under construction and copies all its bytes, 1 to 96, into the
/// front of `out`; how many they are. The other bytes of `out` stay. Refused calls are left out
/// silently.
///
/// ```
/// # use yambelugo::{Call, Error};
/// let calls = [
///     Call::FrameNew(1),
///     Call::AddFrame,
///     Call::FrameNew(1),
///     Call::LoopCount(2),
///     Call::AddFrame,
/// ];
/// let mut out = [0; 96];
/// let length = yambelugo::sequence(calls.map(Call::encode).as_flattened(), &mut out)?;
/// assert_eq!(out[..length], [0x01, 0x01, 0x90]);
/// assert_eq!(yambelugo::sequence(&[], &mut out), Err(Error::EmptySequence));
/// let short = yambelugo::sequence(calls.map(Call::encode).as_flattened(), &mut out[..2]);
/// assert_eq!(short, Err(Error::BufferTooShort));
/// # Ok::<(), Error>(())
/// ```
///
/// # Errors
/// `EmptySequence` if the sequence has no frames, else `BufferTooShort` if `out` is shorter than it;
/// `out` stays then.
pub fn sequence(calls: &[u8], out: &mut [u8]) -> Result<usize, Error> {
    built(ffi::da728x_sequence, calls, out)
}

/// Runs the calls; how many bytes (0 to 96) the sequence under construction has.
///
/// ```
/// # use yambelugo::Call;
/// let calls = [
///     Call::FrameNew(1),
///     Call::FrequencyHz(170),
///     Call::AddFrame,
///     Call::Silence,
///     Call::AddFrame,
/// ];
/// assert_eq!(yambelugo::current_len(calls.map(Call::encode).as_flattened()), 3 + 1);
/// ```
pub fn current_len(calls: &[u8]) -> usize {
    // SAFETY: the pointer and length are a borrowed slice.
    unsafe { ffi::da728x_current_len(calls.as_ptr(), calls.len()) }
}

/// Runs the calls and stores the answer to each, 0 or the number of its refusal, into the front of
/// `answers`, as many as fit; how many calls the list has.
///
/// ```
/// # use yambelugo::{Call, Error};
/// let mut list = [Call::Ramp(3, 10), Call::Ramp(9, 10)].map(Call::encode).as_flattened().to_vec();
/// list.extend([2, 3]); // cut short
/// let mut answers = [255; 4];
/// assert_eq!(yambelugo::answers(&list, &mut answers), 3);
/// let refused = [Error::InvalidTimebase, Error::NotSupported].map(Error::number);
/// assert_eq!(answers, [0, refused[0], refused[1], 255]);
/// ```
pub fn answers(calls: &[u8], answers: &mut [u8]) -> usize {
    let (list, len) = (calls.as_ptr(), calls.len());
    // SAFETY: each pointer and length is a borrowed slice; the mutable one overlaps no other.
    let count = unsafe { ffi::da728x_answers(list, len, answers.as_mut_ptr(), answers.len()) };
    debug_assert_eq!(count, calls.len().div_ceil(4));
    count
}

fn built(build: ffi::Build, calls: &[u8], out: &mut [u8]) -> Result<usize, Error> {
    let (list, len) = (calls.as_ptr(), calls.len());
    // SAFETY: each pointer and length is a borrowed slice; the mutable one overlaps no other.
    let answer = unsafe { build(list, len, out.as_mut_ptr(), out.len()) };
    told(answer, 65536).map(|length| length as usize)
}
