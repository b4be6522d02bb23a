//! Calls of the functions of points, builder calls, images and registers.

use super::choices::Choices;
use super::functions::Function::{self, *};
use super::functions::{NOTHING, OF_BUILD};
use super::hands::{Hands, lent, shown};
use crate::encoded;
use crate::generate::{add_frames, any_call, good_point, list, with_noise};
use crate::images::plain;
use crate::merges::{any_images, merged, put};
use crate::pages::{self, LONGEST};
use crate::patterns::{KINDS, mended};
use crate::random::Random;
use crate::raw::{LISTS, ffi};
use crate::registers::{ADDRESSES, GROUPS};
use yambelugo::Call;

/// How many bytes of an image are written.
const IMAGE: usize = 100;

/// Lists of builder calls and images that are called with again, in part or altered.
pub struct Patterns {
    lists: Vec<Vec<u8>>,
    images: Vec<Vec<u8>>,
}

impl Patterns {
    pub fn new(choices: &mut Choices) -> Self {
        let mut pools = Self { lists: vec![Vec::new(); 16], images: vec![vec![0; IMAGE]; 16] };
        if !choices.is_taped() {
            pools.lists.iter_mut().for_each(|list| *list = new_list(choices));
        }
        pools
    }

    pub fn call(&mut self, function: Function, choices: &mut Choices, hands: &mut Hands) {
        match function {
            da728x_point => point(choices, hands),
            da728x_point_is_ramp | da728x_point_timebases | da728x_point_amplitude => {
                field(function, choices, hands);
            }
            da728x_snippet => self.build(function, ffi::da728x_snippet, choices, hands),
            da728x_frame => self.build(function, ffi::da728x_frame, choices, hands),
            da728x_sequence => self.build(function, ffi::da728x_sequence, choices, hands),
            da728x_current_len => self.current_len(choices, hands),
            da728x_answers => {
                let calls = self.list(choices);
                answers(&calls, choices, hands);
            }
            da728x_assemble_strict => self.assemble_strict(choices, hands),
            da728x_assemble => self.assemble(choices, hands),
            da728x_read_counts => self.read_counts(choices, hands),
            da728x_read_point => self.read_point(choices, hands),
            da728x_read_frame => self.read_frame(choices, hands),
            da728x_read_lists => self.read_lists(choices, hands),
            da728x_page => self.page(choices, hands),
            da728x_merge => self.merge(choices, hands),
            _ => register(function, choices, hands),
        }
    }

    /// A list of builder calls of any length: a kept one, or part of it, or one with altered bytes.
    fn list(&mut self, choices: &mut Choices) -> Vec<u8> {
        if choices.is_taped() {
            return new_list(choices);
        }
        let at = choices.below(self.lists.len());
        if choices.chance(4) {
            self.lists[at] = new_list(choices);
        }
        let mut list = self.lists[at].clone();
        match choices.below(10) {
            0..4 => {}
            4 => list.truncate(choices.below(5000)),
            5..8 => list.truncate(choices.below(120)),
            _ => choices.forge(&mut list),
        }
        list
    }

    /// An image, mostly of a hundred bytes: a built one, one with altered bytes, or any bytes.
    pub fn image(&mut self, choices: &mut Choices) -> Vec<u8> {
        let at = choices.below(self.images.len());
        match choices.below(10) {
            0..5 => self.images[at].clone(),
            5 | 6 => {
                let mut image = self.images[at].clone();
                choices.forge(&mut image);
                image
            }
            7 => {
                let mut image = self.images[at].clone();
                image.resize(choices.len_near(IMAGE), 0);
                image
            }
            _ => {
                let len = choices.len_near(IMAGE);
                choices.bytes(len)
            }
        }
    }

    fn build(
        &mut self,
        function: Function,
        build: ffi::Build,
        choices: &mut Choices,
        hands: &mut Hands,
    ) {
        let calls = self.list(choices);
        let out = out(choices, 96);
        let told = hands.call(function, choices, [shown(&calls), lent(&out)], |[list, out]| {
            // SAFETY: each pointer and length is a slice; the mutable one overlaps no other.
            u64::from(unsafe { build(list.0, list.1, out.0, out.1) })
        });
        // The same item with room for all of it.
        let mut whole = [0; 96];
        // SAFETY: each pointer and length is a slice; they do not overlap.
        let item =
            unsafe { build(calls.as_ptr(), calls.len(), whole.as_mut_ptr(), whole.len()) } as usize;
        let most = match function {
            da728x_snippet => 16,
            da728x_frame => 3,
            _ => 96,
        };
        let (number, written) = (told >> 16, told as usize & 0xFFFF);
        let name = function.name();
        match number {
            0 => {
                assert!((1..=most).contains(&written) && written == item, "{name}");
                assert_eq!(hands.slice(1).1[..written], whole[..written], "{name}");
            }
            24 => assert!(out.len() < item && item <= most && written == 0, "{name}"),
            _ => assert_eq!(told, item as u64, "{name}"),
        }
        hands.assert_rest_stays(function, 1, written);
        hands.tally.count(function, number);
    }

    fn current_len(&mut self, choices: &mut Choices, hands: &mut Hands) {
        let calls = self.list(choices);
        let told = hands.call(da728x_current_len, choices, [shown(&calls)], |[(list, len)]| {
            // SAFETY: the pointer and length are a slice.
            unsafe { ffi::da728x_current_len(list, len) as u64 }
        });
        assert!(told <= 96, "a sequence of {told} bytes");
        hands.tally.count(da728x_current_len, 0);
    }

    fn assemble_strict(&mut self, choices: &mut Choices, hands: &mut Hands) {
        let calls = self.list(choices);
        let image = out(choices, IMAGE);
        let slices = [shown(&calls), lent(&image)];
        let told = hands.call(da728x_assemble_strict, choices, slices, |[list, (image, len)]| {
            // SAFETY: each pointer and length is a slice; the mutable one overlaps no other.
            unsafe { ffi::da728x_assemble_strict(list.0, list.1, image, len).into() }
        });
        let mut whole = [0; IMAGE];
        // SAFETY: each pointer and length is a slice; they do not overlap.
        let room = unsafe {
            ffi::da728x_assemble_strict(calls.as_ptr(), calls.len(), whole.as_mut_ptr(), IMAGE)
        };
        self.assembled(da728x_assemble_strict, told, room.into(), choices, hands);
        let answered = answers(&calls, choices, hands);
        let (number, place) = (told % 256, told as usize / 256);
        match answered.iter().position(|answer| *answer != 0) {
            Some(at) => assert_eq!((number, place), (answered[at].into(), at + 1)),
            None => assert!(
                place == 0 || (answered.len() + 1..=calls.len().div_ceil(4)).contains(&place)
            ),
        }
        assert!(place == 0 || number > 0, "a place without a refusal");
        let of_build = if told > 0 && place == 0 { OF_BUILD } else { 0 };
        hands.tally.count(da728x_assemble_strict, number + of_build);
    }

    fn assemble(&mut self, choices: &mut Choices, hands: &mut Hands) {
        let calls = self.list(choices);
        let image = out(choices, IMAGE);
        let slices = [shown(&calls), lent(&image)];
        let told = hands.call(da728x_assemble, choices, slices, |[list, (image, len)]| {
            // SAFETY: each pointer and length is a slice; the mutable one overlaps no other.
            unsafe { ffi::da728x_assemble(list.0, list.1, image, len).into() }
        });
        let mut whole = [0; IMAGE];
        // SAFETY: each pointer and length is a slice; they do not overlap.
        let room =
            unsafe { ffi::da728x_assemble(calls.as_ptr(), calls.len(), whole.as_mut_ptr(), IMAGE) };
        self.assembled(da728x_assemble, told, room.into(), choices, hands);
        hands.tally.count(da728x_assemble, told);
    }

    /// Looks at what is left of the image, and keeps one that was made; `room` is what is told where it has room.
    fn assembled(
        &mut self,
        by: Function,
        told: u64,
        room: u64,
        choices: &mut Choices,
        hands: &mut Hands,
    ) {
        hands.assert_rest_stays(by, 1, if told == 0 { IMAGE } else { 0 });
        let (_, image) = hands.slice(1);
        let short = room == 0 && image.len() < IMAGE;
        assert_eq!(told, if short { 24 } else { room }, "{}", by.name());
        if told == 0 {
            assert!((1..=15).contains(&image[0]) && (1..=16).contains(&image[1]));
            let at = choices.below(self.images.len());
            self.images[at].copy_from_slice(&image[..IMAGE]);
        }
    }

    fn read_counts(&mut self, choices: &mut Choices, hands: &mut Hands) {
        let image = self.image(choices);
        counts(&image, choices, hands);
    }

    fn read_point(&mut self, choices: &mut Choices, hands: &mut Hands) {
        let image = self.image(choices);
        let (snippet, point) = (choices.number(), choices.number());
        let told = hands.call(da728x_read_point, choices, [shown(&image)], |[(image, len)]| {
            // SAFETY: the pointer and length are a slice.
            unsafe { ffi::da728x_read_point(image, len, snippet, point).into() }
        });
        let number = match told {
            0..256 => 0,
            256 => NOTHING,
            _ => {
                assert_eq!(told % 65536, 0, "{told} is told of a point");
                told / 65536
            }
        };
        if let Some((snippets, _)) = found(&image, number, choices, hands) {
            assert!(number != 0 || snippet < snippets && point < 16);
            assert!(number == 0 || snippet >= snippets || point > 0, "a snippet without a point");
        }
        hands.tally.count(da728x_read_point, number);
    }

    fn read_frame(&mut self, choices: &mut Choices, hands: &mut Hands) {
        let image = self.image(choices);
        let (sequence, frame) = (choices.number(), choices.number());
        let told = hands.call(da728x_read_frame, choices, [shown(&image)], |[(image, len)]| {
            // SAFETY: the pointer and length are a slice.
            unsafe { ffi::da728x_read_frame(image, len, sequence, frame) }
        });
        let [snippet, gain, timebase, loops, low, high, none, number] = told.to_le_bytes();
        assert!(none <= 1 && (none == 0 || number == 0), "{told:X} is told of a frame");
        if (none, number) == (0, 0) {
            assert!(snippet <= 15 && gain <= 3 && timebase <= 3 && (loops <= 15 || loops == 255));
            assert!(matches!(u16::from_le_bytes([low, high]), 0..=511 | 65535));
        } else {
            assert_eq!(told << 16, 0);
        }
        let number = if none == 1 { NOTHING } else { number.into() };
        if let Some((_, sequences)) = found(&image, number, choices, hands) {
            assert!(number != 0 || sequence < sequences && frame < 32);
            assert!(
                number == 0 || sequence >= sequences || frame > 0,
                "a sequence without a frame"
            );
        }
        hands.tally.count(da728x_read_frame, number);
    }

    /// What is written is what document 01 reads in these bytes.
    fn read_lists(&mut self, choices: &mut Choices, hands: &mut Hands) {
        let image = self.image(choices);
        let room = out(choices, LISTS);
        let slices = [shown(&image), lent(&room)];
        let told = hands.call(da728x_read_lists, choices, slices, |[image, (lists, len)]| {
            // SAFETY: each pointer and length is a slice; the mutable one overlaps no other.
            unsafe { ffi::da728x_read_lists(image.0, image.1, lists, len).into() }
        });
        let (before, after) = hands.slice(1);
        let (mut wanted, mut word) = (before.to_vec(), 18 * 65536);
        if let Some(lists) = plain(&image) {
            match wanted.get_mut(..LISTS) {
                Some(front) => {
                    front.copy_from_slice(&lists.laid());
                    word = 256 * lists.snippets.len() + lists.sequences.len();
                }
                None => word = 24 * 65536,
            }
        }
        assert_eq!(told, word as u64, "{image:02X?}");
        assert!(wanted == after, "not the lists of {image:02X?}");
        found(&image, told >> 16, choices, hands);
        hands.tally.count(da728x_read_lists, told >> 16);
    }

    /// What is written is the page that document 02 says.
    fn page(&mut self, choices: &mut Choices, hands: &mut Hands) {
        let image = self.image(choices);
        let page = pages::page(&image);
        // About as much room as it takes, or as any may.
        let usual = page.as_ref().filter(|_| choices.chance(80)).map_or(LONGEST, String::len);
        let room = out(choices, usual);
        let slices = [shown(&image), lent(&room)];
        let told = hands.call(da728x_page, choices, slices, |[image, (out, len)]| {
            // SAFETY: each pointer and length is a slice; the mutable one overlaps no other.
            unsafe { ffi::da728x_page(image.0, image.1, out, len).into() }
        });
        let (before, after) = hands.slice(1);
        let (mut wanted, mut word) = (before.to_vec(), 18 * 65536);
        if let Some(page) = page {
            match wanted.get_mut(..page.len()) {
                Some(front) => {
                    front.copy_from_slice(page.as_bytes());
                    word = page.len();
                }
                None => word = 24 * 65536,
            }
        }
        assert_eq!(told, word as u64, "{image:02X?}");
        assert!(wanted == after, "not the page of {image:02X?}");
        found(&image, told >> 16, choices, hands);
        hands.tally.count(da728x_page, told >> 16);
    }

    /// Two images, of which any may be no image; mostly such as fit together, or miss it by little.
    fn pair(&mut self, choices: &mut Choices) -> [Vec<u8>; 2] {
        if choices.chance(40) {
            return [self.image(choices), self.image(choices)];
        }
        let mut pair = any_images(choices.random()).map(Vec::from);
        if choices.chance(10) {
            let side = choices.below(2);
            choices.forge(&mut pair[side]);
        }
        pair
    }

    /// What is written is the image that the published builders make of both.
    fn merge(&mut self, choices: &mut Choices, hands: &mut Hands) {
        let [first, second] = self.pair(choices);
        let room = out(choices, IMAGE);
        let slices = [shown(&first), shown(&second), lent(&room)];
        let told = hands.call(da728x_merge, choices, slices, |[first, second, (image, len)]| {
            // SAFETY: each pointer and length is a slice; the mutable one overlaps no other.
            unsafe { ffi::da728x_merge(first.0, first.1, second.0, second.1, image, len).into() }
        });
        let (before, after) = hands.slice(2);
        let mut wanted = before.to_vec();
        let number = put(merged(&first, &second), &mut wanted);
        assert_eq!(told, number.into(), "{first:02X?}, {second:02X?}");
        assert!(wanted == after, "not the image of {first:02X?} and {second:02X?}");
        if told == 0 {
            let at = choices.below(self.images.len());
            self.images[at].copy_from_slice(&wanted[..IMAGE]);
        }
        hands.tally.count(da728x_merge, told);
    }
}

/// The numbers of snippets and sequences of an image, if it is one; all readers have to agree on that.
fn found(
    image: &[u8],
    number: u64,
    choices: &mut Choices,
    hands: &mut Hands,
) -> Option<(usize, usize)> {
    let found = counts(image, choices, hands);
    assert_eq!(found.is_none(), number == 18, "an image for one function only");
    found
}

fn counts(image: &[u8], choices: &mut Choices, hands: &mut Hands) -> Option<(usize, usize)> {
    let told = hands.call(da728x_read_counts, choices, [shown(image)], |[(image, len)]| {
        // SAFETY: the pointer and length are a slice.
        unsafe { ffi::da728x_read_counts(image, len).into() }
    });
    hands.tally.count(da728x_read_counts, told >> 16);
    if told >= 65536 {
        assert_eq!(told % 65536, 0, "{told} is told of counts");
        return None;
    }
    let counts = (told as usize / 256, told as usize % 256);
    assert!((1..=15).contains(&counts.0) && (1..=16).contains(&counts.1) && image.len() == 100);
    Some(counts)
}

fn point(choices: &mut Choices, hands: &mut Hands) {
    let ramp = choices.random().near(&[0, 1, 2]);
    let timebases = choices.random().near(&[0, 1, 2, 7, 8, 9]);
    let amplitude = choices.random().near(&[0, 1, 14, 15, 16]);
    let told = hands
        .call(da728x_point, choices, [], |[]| ffi::da728x_point(ramp, timebases, amplitude).into());
    let number = match (timebases, amplitude) {
        (0 | 9.., _) => 1,
        (_, 16..) => 2,
        _ => 0,
    };
    assert_eq!(told >> 8, number, "point {timebases} {amplitude}");
    assert!(number == 0 || told % 256 == 0);
    hands.tally.count(da728x_point, told >> 8);
}

fn field(function: Function, choices: &mut Choices, hands: &mut Hands) {
    let byte = choices.byte();
    let (read, range): (extern "C" fn(u8) -> u8, _) = match function {
        da728x_point_is_ramp => (ffi::da728x_point_is_ramp, 0..=1),
        da728x_point_timebases => (ffi::da728x_point_timebases, 1..=8),
        _ => (ffi::da728x_point_amplitude, 0..=15),
    };
    let told = hands.call(function, choices, [], |[]| read(byte).into());
    assert!(range.contains(&told), "{} tells {told}", function.name());
    hands.tally.count(function, 0);
}

/// How many bytes a function of registers has to tell: the addresses, or the fields, or those that are not read-only.
fn whole(function: Function) -> usize {
    let first = da728x_read_interrupts as usize;
    let Some(at) = (function as usize).checked_sub(first) else {
        return ADDRESSES.len();
    };
    let fields = GROUPS[at % 4].1.iter().flat_map(|(_, fields)| *fields);
    fields.filter(|(_, _, replace)| at < 4 || replace.is_some()).count()
}

fn register(function: Function, choices: &mut Choices, hands: &mut Hands) {
    let (byte, value) = (choices.byte(), choices.byte());
    let out = out(choices, 48);
    let told = hands.call(function, choices, [lent(&out)], |[(out, len)]| {
        // SAFETY: the pointer and length are a slice.
        let told = unsafe {
            match function {
                da728x_register_addresses => ffi::da728x_register_addresses(out, len),
                da728x_read_interrupts => ffi::da728x_read_interrupts(byte, out, len),
                da728x_read_actuator => ffi::da728x_read_actuator(byte, out, len),
                da728x_read_control => ffi::da728x_read_control(byte, out, len),
                da728x_read_trigger => ffi::da728x_read_trigger(byte, out, len),
                da728x_replace_interrupts => ffi::da728x_replace_interrupts(byte, value, out, len),
                da728x_replace_actuator => ffi::da728x_replace_actuator(byte, value, out, len),
                da728x_replace_control => ffi::da728x_replace_control(byte, value, out, len),
                da728x_replace_trigger => ffi::da728x_replace_trigger(byte, value, out, len),
                _ => unreachable!("{} is of no register", function.name()),
            }
        };
        told as u64
    });
    assert_eq!(told, whole(function).min(out.len()) as u64, "{}", function.name());
    hands.assert_rest_stays(function, 0, told as usize);
    hands.tally.count(function, 0);
}

/// A list that makes an image, one that fills a sequence and a snippet, one of calls near the limits, or any bytes.
fn new_list(choices: &mut Choices) -> Vec<u8> {
    match choices.below(12) {
        0..3 => {
            let len = choices.len();
            choices.bytes(len)
        }
        3 if !choices.is_taped() && choices.chance(2) => {
            let len = 4 * 65536 + choices.below(9);
            choices.bytes(len)
        }
        3..6 => {
            let len = choices.below(120);
            let mut list = choices.bytes(len);
            list.iter_mut().step_by(4).for_each(|code| *code %= 16);
            list
        }
        6 => encoded(&too_many(choices.random())),
        7..9 => {
            let random = choices.random();
            let calls = (0..random.below(90)).map(|_| any_call(random)).collect();
            let calls = with_noise(calls, random);
            list(&calls, random)
        }
        _ => {
            let random = choices.random();
            let (_, generate) = random.pick(&KINDS);
            let mut calls = generate(random);
            // Without a refused call, with one, or with any.
            match random.below(5) {
                0..3 => calls = mended(&calls),
                3 => {
                    calls = mended(&calls);
                    let begun = calls.iter().position(|it| matches!(it, Call::FrameNew(_)));
                    match begun {
                        Some(at) if random.chance(50) => {
                            let bad = [Call::LoopCount(16), Call::FrequencyHz(512)];
                            calls.insert(at + 1, random.pick(&bad));
                        }
                        _ => calls.insert(random.within(0, calls.len()), any_call(random)),
                    }
                }
                _ => return list(&with_noise(calls, random), random),
            }
            encoded(&calls)
        }
    }
}

/// Calls of which the first that is refused adds one too many: a frame, a point, a snippet or a sequence.
fn too_many(random: &mut Random) -> Vec<Call> {
    if random.chance(40) {
        let snippets = [good_point(random), Call::AddSnippet].repeat(random.within(14, 17));
        let sequence = [Call::Silence, Call::AddFrame, Call::AddSequence];
        return [snippets, sequence.repeat(random.within(16, 18))].concat();
    }
    let bytes = random.pick(&[1, 2, 3, 3, 3]);
    let mut calls = mended(&add_frames(random.within(32, 36), bytes, random));
    if random.chance(80) {
        calls.extend([Call::FrameNew(9), Call::FrequencyHz(300), Call::AddFrame]);
    }
    calls.extend((0..random.within(15, 24)).map(|_| good_point(random)));
    calls.extend([Call::AddSnippet, Call::AddSequence]);
    calls
}

fn out(choices: &mut Choices, usual: usize) -> Vec<u8> {
    let len = choices.len_near(usual);
    vec![choices.byte(); len]
}

/// The answers of a list of calls: each record has one, a listed one, as far as they fit; the other bytes stay.
fn answers(calls: &[u8], choices: &mut Choices, hands: &mut Hands) -> Vec<u8> {
    let records = calls.len().div_ceil(4);
    let room = vec![choices.byte(); choices.len_near(records)];
    let slices = [shown(calls), lent(&room)];
    let told = hands.call(da728x_answers, choices, slices, |[list, (answers, len)]| {
        // SAFETY: each pointer and length is a slice; the mutable one overlaps no other.
        unsafe { ffi::da728x_answers(list.0, list.1, answers, len) as u64 }
    });
    assert_eq!(told, records as u64, "how many calls there are");
    let answers = hands.slice(1).1[..records.min(room.len())].to_vec();
    hands.assert_rest_stays(da728x_answers, 1, records);
    for (record, answer) in calls.chunks(4).zip(&answers) {
        hands.tally.count_call(record, *answer);
    }
    hands.tally.count(da728x_answers, 0);
    answers
}
