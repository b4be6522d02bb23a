//! What images hold: as added, as read by the library, and as document 01 reads them.

use crate::oracle::{gain, number, point, timebase};
use crate::raw::LISTS;
use crate::{GAINS, TIMEBASES};
use da728x::waveform::{self, FrameBuilder, SequenceBuilder, SnippetBuilder};
use da728x::waveform::{WaveformMemory, WaveformMemoryBuilder};
use std::mem;
use yambelugo::{Call, Frame, IMAGE, PwlPoint};

/// Document 01's example: snippet AA 00 with sequence 01.
pub const EXAMPLE: [u8; IMAGE] = {
    let mut image = [0; IMAGE];
    *image.first_chunk_mut().unwrap() = [0x01, 0x01, 0x05, 0x06, 0xAA, 0x00, 0x01];
    image
};

/// The image of these items, in which nothing is tested.
pub fn laid(snippets: &[Vec<u8>], sequences: &[Vec<u8>]) -> [u8; IMAGE] {
    let mut image = [0; IMAGE];
    image[..2].copy_from_slice(&[snippets.len() as u8, sequences.len() as u8]);
    let mut end = 2 + snippets.len() + sequences.len();
    for (at, item) in snippets.iter().chain(sequences).enumerate() {
        image[end..end + item.len()].copy_from_slice(item);
        end += item.len();
        image[2 + at] = (end - 1) as u8;
    }
    image
}

/// Every image whose points and frames are so many of these bytes, in all ways of cutting them; nothing is tested.
pub fn small_world(bytes: &[u8], length: u32) -> Vec<[u8; IMAGE]> {
    let mut world = Vec::new();
    for number in 0..bytes.len().pow(length) {
        let byte = |at| bytes[number / bytes.len().pow(at) % bytes.len()];
        let data: Vec<u8> = (0..length).map(byte).collect();
        for cuts in 1..1 << (length - 1) {
            let mut items = vec![vec![data[0]]];
            for (at, byte) in data.iter().enumerate().skip(1) {
                match cuts >> (at - 1) & 1 {
                    0 => items.last_mut().unwrap().push(*byte),
                    _ => items.push(vec![*byte]),
                }
            }
            for snippets in 1..items.len() {
                let (snippets, sequences) = items.split_at(snippets);
                world.push(laid(snippets, sequences));
            }
        }
    }
    world
}

/// The bytes of each snippet's points and the frames of each sequence.
#[derive(Debug, Clone, Default, PartialEq)]
pub struct Lists {
    pub snippets: Vec<Vec<u8>>,
    pub sequences: Vec<Vec<Frame>>,
}

impl Lists {
    /// The size of their image, at most 100 or not.
    pub fn size(&self) -> usize {
        let points: usize = self.snippets.iter().map(Vec::len).sum();
        let frames = self.sequences.iter().flatten();
        let bytes: usize = frames.map(|frame| published_frame(frame).byte_len()).sum();
        2 + self.snippets.len() + self.sequences.len() + points + bytes
    }

    /// Whether some frame names a snippet that is absent.
    pub fn names_absent(&self) -> bool {
        let mut frames = self.sequences.iter().flatten();
        frames.any(|frame| usize::from(frame.snippet) > self.snippets.len())
    }

    /// The image that the published builders make of them.
    pub fn published(&self, acceleration: bool) -> Result<[u8; IMAGE], u8> {
        let build = || {
            let mut memory = WaveformMemoryBuilder::new(acceleration);
            for points in &self.snippets {
                let snippet = SnippetBuilder::new();
                let snippet = points.iter().try_fold(snippet, |it, byte| it.point(point(*byte)))?;
                memory = memory.add_snippet(snippet.build()?)?;
            }
            for frames in &self.sequences {
                let mut frames = frames.iter().map(published_frame);
                let sequence =
                    frames.try_fold(SequenceBuilder::new(), SequenceBuilder::add_frame)?;
                memory = memory.add_sequence(sequence.build()?)?;
            }
            memory.build()
        };
        build().map(|memory| hundred(&memory)).map_err(|error| number(&error))
    }

    /// The bytes of these in `da728x_read_lists`: points, the end of each snippet, frames, the end of
    /// each sequence, and zeros where there are none.
    pub fn laid(&self) -> [u8; LISTS] {
        let mut bytes = [0; LISTS];
        let (mut points, mut frames) = (0, 0);
        for (at, snippet) in self.snippets.iter().enumerate() {
            bytes[points..points + snippet.len()].copy_from_slice(snippet);
            points += snippet.len();
            bytes[96 + at] = points as u8;
        }
        for (at, sequence) in self.sequences.iter().enumerate() {
            for frame in sequence {
                let word = frame_word(frame).to_le_bytes();
                bytes[111 + 6 * frames..][..6].copy_from_slice(&word[..6]);
                frames += 1;
            }
            bytes[687 + at] = frames as u8;
        }
        bytes
    }

    /// Whether a reader of the image of these may find `read`: an absent loop count is read as 0
    /// from a frame of two or three bytes.
    pub fn agree(&self, read: &Lists) -> bool {
        let mut told = self.clone();
        for frame in told.sequences.iter_mut().flatten() {
            if frame.snippet >= 8 || frame.frequency_hz.is_some() {
                frame.loop_count = frame.loop_count.or(Some(0));
            }
        }
        told == *read
    }
}

fn published_frame(frame: &Frame) -> waveform::Frame {
    let mut builder = match frame.snippet {
        0 => FrameBuilder::silence(),
        snippet => FrameBuilder::new(snippet).unwrap(),
    };
    builder = builder.gain(gain(frame.gain)).timebase(timebase(frame.timebase));
    if let Some(count) = frame.loop_count {
        builder = builder.loop_count(count).unwrap();
    }
    if let Some(frequency) = frame.frequency_hz {
        builder = builder.frequency_hz(frequency).unwrap();
    }
    builder.build().unwrap()
}

/// The fields of a frame as one number.
pub fn frame_word(frame: &Frame) -> u64 {
    let gain = GAINS.iter().position(|it| *it == frame.gain).unwrap() as u64;
    let timebase = TIMEBASES.iter().position(|it| *it == frame.timebase).unwrap() as u64;
    let loops = u64::from(frame.loop_count.unwrap_or(255));
    let frequency = u64::from(frame.frequency_hz.unwrap_or(65535));
    u64::from(frame.snippet) | gain << 8 | timebase << 16 | loops << 24 | frequency << 32
}

/// All the bytes of a published memory; it shows those up to its length, the others are zero.
pub fn hundred(memory: &WaveformMemory) -> [u8; IMAGE] {
    let mut image = [0; IMAGE];
    image[..memory.len()].copy_from_slice(memory.as_bytes());
    image
}

/// What those of these calls added to the memory whose answer is 0.
pub fn added(calls: &[Option<Call>], answers: &[u8]) -> Lists {
    let mut added = Added::default();
    for (call, answer) in calls.iter().zip(answers) {
        match (call, answer) {
            (Some(call), 0) => added.accept(*call),
            (Some(Call::FrameNew(_)), _) => added.frame = None,
            _ => {}
        }
    }
    added.lists
}

/// What accepted calls left.
#[derive(Default)]
struct Added {
    snippet: Vec<u8>,
    frame: Option<Frame>,
    sequence: Vec<Frame>,
    lists: Lists,
}

impl Added {
    fn accept(&mut self, call: Call) {
        match call {
            Call::SnippetNew => self.snippet.clear(),
            Call::Ramp(length, amplitude) => self.snippet.push(112 + 16 * length + amplitude),
            Call::Step(length, amplitude) => self.snippet.push(16 * length - 16 + amplitude),
            Call::Point(point) => self.snippet.push(point.as_byte()),
            Call::FrameNew(snippet) => self.frame = Some(begun(snippet)),
            Call::Silence => self.frame = Some(begun(0)),
            Call::Gain(gain) => self.frame().gain = gain,
            Call::Timebase(timebase) => self.frame().timebase = timebase,
            Call::LoopCount(count) => self.frame().loop_count = Some(count),
            Call::FrequencyHz(frequency) => self.frame().frequency_hz = Some(frequency),
            Call::SequenceNew => self.sequence.clear(),
            Call::AddFrame => {
                self.frame();
                self.sequence.extend(self.frame.take());
            }
            Call::AddSnippet => self.lists.snippets.push(mem::take(&mut self.snippet)),
            Call::AddSequence => self.lists.sequences.push(mem::take(&mut self.sequence)),
        }
    }

    fn frame(&mut self) -> &mut Frame {
        self.frame.as_mut().expect("a call on the frame is accepted: one is begun")
    }
}

/// A frame with the published defaults.
fn begun(snippet: u8) -> Frame {
    let (gain, timebase) = (GAINS[0], TIMEBASES[0]);
    Frame { snippet, gain, timebase, loop_count: None, frequency_hz: None }
}

/// What the library reads in these bytes, item by item until there is none.
pub fn read(image: &[u8]) -> Option<Lists> {
    let snippets = until_none(|at| {
        until_none(|point| yambelugo::read_point(image, at, point).map(PwlPoint::as_byte))
    });
    let sequences = until_none(|at| until_none(|frame| yambelugo::read_frame(image, at, frame)));
    let counts = (snippets.as_ref().map_or(0, Vec::len), sequences.as_ref().map_or(0, Vec::len));
    assert_eq!(yambelugo::read_counts(image).unwrap_or((0, 0)), counts, "{image:02X?}");
    Some(Lists { snippets: snippets?, sequences: sequences? })
}

/// The items until there is none; `None` if there is none at all.
fn until_none<T>(item: impl Fn(usize) -> Option<T>) -> Option<Vec<T>> {
    let items: Vec<T> = (0..).map_while(item).collect();
    (!items.is_empty()).then_some(items)
}

/// What the library reads in these bytes, all in one call.
pub fn read_at_once(image: &[u8]) -> Option<Lists> {
    let lists = yambelugo::read_lists(image).ok()?;
    let bytes =
        |points: &mut dyn Iterator<Item = PwlPoint>| points.map(PwlPoint::as_byte).collect();
    Some(Lists {
        snippets: lists.snippets().map(|mut points| bytes(&mut points)).collect(),
        sequences: lists.sequences().map(|frames| frames.collect()).collect(),
    })
}

/// What document 01 reads in these bytes.
pub fn plain(image: &[u8]) -> Option<Lists> {
    if image.len() != 100 {
        return None;
    }
    let (s, q) = (usize::from(image[0]), usize::from(image[1]));
    if !(1..=15).contains(&s) || !(1..=16).contains(&q) {
        return None;
    }
    let mut lists = Lists::default();
    let mut begin = 2 + s + q;
    for (at, pointer) in image[2..2 + s + q].iter().enumerate() {
        let last = usize::from(*pointer);
        if last < begin || last > 99 {
            return None;
        }
        let item = &image[begin..=last];
        if at >= s {
            lists.sequences.push(plain_frames(item)?);
        } else if item.len() <= 16 {
            lists.snippets.push(item.to_vec());
        } else {
            return None;
        }
        begin = last + 1;
    }
    image[begin..].iter().all(|byte| *byte == 0).then_some(lists)
}

/// The frames in all bytes of a sequence.
fn plain_frames(mut bytes: &[u8]) -> Option<Vec<Frame>> {
    let mut frames = Vec::new();
    while let [first @ 0..128, rest @ ..] = bytes {
        let mut frame = begun(first % 8);
        frame.gain = GAINS[usize::from(first / 32)];
        frame.timebase = TIMEBASES[usize::from(first / 8 % 4)];
        bytes = rest;
        if let [second @ 128..=255, rest @ ..] = bytes {
            frame.snippet += second % 2 * 8;
            frame.loop_count = Some(second / 8 % 16);
            bytes = match (second / 4 % 2, second / 2 % 2, rest) {
                (0, 0, _) => rest,
                (1, high, [low, rest @ ..]) => {
                    frame.frequency_hz = Some(256 * u16::from(high) + u16::from(*low));
                    rest
                }
                _ => return None,
            };
        }
        frames.push(frame);
    }
    (bytes.is_empty() && frames.len() <= 32).then_some(frames)
}
