//! What the library reads in images and in other bytes, against document 01 and the published Rust.

use harness::compared;
use harness::damage::{built, damaged};
use harness::images::{Lists, plain, read, read_at_once};
use harness::lists::MARKER;
use harness::random::Random;
use harness::raw::{LISTS, ffi};
use harness::whole::TOO_SHORT;
use yambelugo::{Error, IMAGE, PwlPoint};

const BUILT: usize = 150_000;
const ONE_BYTE: usize = 700_000;
const TWO_BYTES: usize = 500_000;
const RANDOM: usize = 250_000;
const LAID_OUT: usize = 300_000;
const _: () = assert!(BUILT + ONE_BYTE + TWO_BYTES + RANDOM + LAID_OUT + HEADERS > 2_000_000);

/// Three images of each number of snippets and sequences from 1 to 6; there are 36, of 9 bytes of
/// header on average.
const HEADERS: usize = 3 * 36 * 9 * 256;

/// One of so many images is read whole, of those up to 16 bytes and of the others.
const WHOLE_SMALL: usize = 8;
const WHOLE: usize = 64;

/// What was met on the way.
#[derive(Default)]
struct Met {
    inputs: usize,
    accepted: usize,
    /// Accepted ones of which all points and frames were read.
    whole: usize,
    /// Calls that read one point or frame, and those that read all lists.
    items: usize,
    listed: usize,
}

/// Bytes around lent ones, to see that they stay.
const GUARD: usize = 8;

/// Compares the word and every byte that `da728x_read_lists` leaves, with room for so many; whether the lists were refused for it.
fn compare_lists(image: &[u8], wanted: Option<&Lists>, room: usize) -> bool {
    const LENT: usize = GUARD + LISTS + 4 + GUARD;
    let (mut lent, mut expected) = ([MARKER; LENT], [MARKER; LENT]);
    assert!(room <= LISTS + 4);
    let (at, to) = (image.as_ptr(), lent[GUARD..].as_mut_ptr());
    // SAFETY: each pointer is to so many bytes that are borrowed; they do not overlap.
    let word = unsafe { ffi::da728x_read_lists(at, image.len(), to, room) };
    let wanted = match wanted {
        None => 18 << 16,
        Some(_) if room < LISTS => usize::from(TOO_SHORT) << 16,
        Some(lists) => {
            expected[GUARD..GUARD + LISTS].copy_from_slice(&lists.laid());
            256 * lists.snippets.len() + lists.sequences.len()
        }
    };
    assert_eq!(word as usize, wanted, "{image:02X?}");
    assert!(lent == expected, "{image:02X?}, {room} bytes: {lent:?}");
    wanted == usize::from(TOO_SHORT) << 16
}

impl Met {
    fn compared(self, what: &str, wanted: usize) -> Self {
        let Met { inputs, accepted, whole, items, listed } = self;
        assert_eq!(listed, inputs, "all lists in one call");
        println!("{what}: {accepted} accepted, {whole} read whole, {items} items read");
        compared(what, inputs, wanted);
        self
    }

    /// Compares what is read in these bytes: all of it in some images, one item in the others.
    fn compare(&mut self, image: &[u8], random: &mut Random) -> Option<Lists> {
        self.inputs += 1;
        let wanted = plain(image);
        let counts = wanted.as_ref().map(|it| (it.snippets.len(), it.sequences.len()));
        let told = yambelugo::read_counts(image);
        assert_eq!(told, counts.ok_or(Error::NotAnImage), "{image:02X?}");
        self.listed += 1;
        assert!(!compare_lists(image, wanted.as_ref(), LISTS));

        let Some(lists) = &wanted else {
            if random.below(16) == 0 {
                self.one(image, &Lists::default(), random);
            }
            return None;
        };
        self.accepted += 1;
        // Through the wrapper; and the Rust makes the image of what was read in it.
        let read_lists = read_at_once(image).expect("an image");
        assert_eq!(read_lists, *lists, "{image:02X?}");
        assert_eq!(read_lists.published(false).unwrap(), image, "{image:02X?}");
        if random.below(if lists.size() <= 16 { WHOLE_SMALL } else { WHOLE }) == 0 {
            self.whole += 1;
            self.items += lists.size();
            assert_eq!(read(image).as_ref(), Some(lists), "{image:02X?}");
        } else {
            self.one(image, lists, random);
        }
        wanted
    }

    /// Compares one point or one frame, or that there is none.
    fn one(&mut self, image: &[u8], lists: &Lists, random: &mut Random) {
        self.items += 1;
        if random.chance(40) {
            let (at, point) = place(&lists.snippets, random);
            let read = yambelugo::read_point(image, at, point).map(PwlPoint::as_byte);
            let wanted = lists.snippets.get(at).and_then(|points| points.get(point));
            assert_eq!(read.as_ref(), wanted, "{image:02X?}, snippet {at}, point {point}");
        } else {
            let (at, frame) = place(&lists.sequences, random);
            let read = yambelugo::read_frame(image, at, frame);
            let wanted = lists.sequences.get(at).and_then(|frames| frames.get(frame));
            assert_eq!(read.as_ref(), wanted, "{image:02X?}, sequence {at}, frame {frame}");
        }
    }
}

/// The place of a point or a frame, or one place too far.
fn place<T>(items: &[Vec<T>], random: &mut Random) -> (usize, usize) {
    let at = random.within(0, items.len());
    (at, random.within(0, items.get(at).map_or(0, Vec::len)))
}

#[test]
fn built_images() {
    let mut random = Random::new(70);
    let mut met = Met::default();
    for _ in 0..BUILT {
        let (image, added) = built(&mut random);
        let lists = met.compare(&image, &mut random).expect("an image");
        assert!(added.agree(&lists), "{added:?}, {lists:?}");
    }
    let met = met.compared("built images read", BUILT);
    assert!(met.accepted == BUILT && met.whole > 2_000);
}

fn damage(what: &str, bytes: usize, cases: usize, seed: u64) {
    let mut random = Random::new(seed);
    let mut met = Met::default();
    let (mut image, _) = built(&mut random);
    for case in 0..cases {
        if case % 10 == 0 {
            image = built(&mut random).0;
        }
        met.compare(&damaged(&image, bytes, &mut random), &mut random);
    }
    let met = met.compared(what, cases);
    assert!(met.accepted > cases / 10 && met.accepted < cases * 9 / 10);
}

#[test]
fn damaged_in_one_byte() {
    damage("images damaged in one byte", 1, ONE_BYTE, 71);
}

#[test]
fn damaged_in_two_bytes() {
    damage("images damaged in two bytes", 2, TWO_BYTES, 72);
}

#[test]
fn random_bytes() {
    let mut random = Random::new(73);
    let mut met = Met::default();
    for _ in 0..RANDOM {
        let mut image = [0; IMAGE];
        // Mostly with counts that could be.
        let length = random.within(1, IMAGE);
        image[..length].fill_with(|| random.byte());
        if random.chance(80) {
            image[0] = random.within(0, 16) as u8;
            image[1] = random.within(0, 17) as u8;
        }
        met.compare(&image, &mut random);
    }
    met.compared("random bytes", RANDOM);
}

/// Items of these lengths, with random bytes in them that are mostly those of frames.
fn laid_out(snippets: &[usize], sequences: &[usize], random: &mut Random) -> [u8; IMAGE] {
    let mut image = [0; IMAGE];
    image[0] = snippets.len() as u8;
    image[1] = sequences.len() as u8;
    let mut end = 2 + snippets.len() + sequences.len();
    for (at, length) in snippets.iter().chain(sequences).enumerate() {
        for byte in image.iter_mut().skip(end).take(*length) {
            *byte = random.byte();
            if at >= snippets.len() {
                *byte &= random.pick(&[0x7F, 0x7F, 0x7F, 0xF9, 0xFD, 0xFF]);
            }
        }
        end += length;
        image[2 + at] = (end - 1) as u8;
    }
    image
}

/// Lengths of items of which `most` are admitted, of up to `longest` bytes; some leave that.
fn lengths(most: usize, longest: usize, random: &mut Random) -> Vec<usize> {
    let items = if random.chance(10) { random.within(0, most + 1) } else { random.within(1, 3) };
    (0..items)
        .map(|_| match random.below(100) {
            0 => 0,
            1..8 => random.within(longest - 1, longest + 2),
            _ => random.within(1, 5),
        })
        .collect()
}

#[test]
fn random_items() {
    let mut random = Random::new(74);
    let mut met = Met::default();
    for _ in 0..LAID_OUT {
        let snippets = lengths(15, 16, &mut random);
        let sequences = lengths(16, 32, &mut random);
        let mut image = laid_out(&snippets, &sequences, &mut random);
        if random.chance(5) {
            image[random.within(90, 99)] = 1;
        }
        met.compare(&image, &mut random);
    }
    let met = met.compared("random items", LAID_OUT);
    assert!(met.accepted > LAID_OUT / 10 && met.accepted < LAID_OUT * 9 / 10);
}

#[test]
fn every_value_of_each_header_byte() {
    let mut random = Random::new(75);
    let mut met = Met::default();
    for (s, q) in (1..=6).flat_map(|s| (1..=6).map(move |q| (s, q))) {
        for _ in 0..3 {
            let mut length = || random.within(1, 3);
            let snippets: Vec<_> = (0..s).map(|_| length()).collect();
            let sequences: Vec<_> = (0..q).map(|_| length()).collect();
            let mut image = laid_out(&snippets, &sequences, &mut random);
            // Frames of one byte each: pointers may be moved.
            image[2 + s + q + snippets.iter().sum::<usize>()..]
                .iter_mut()
                .for_each(|it| *it &= 0x7F);
            assert!(plain(&image).is_some());
            for at in 0..2 + s + q {
                for value in 0..=255 {
                    let mut other = image;
                    other[at] = value;
                    met.compare(&other, &mut random);
                }
            }
        }
    }
    let met = met.compared("values of header bytes", HEADERS);
    assert!(met.accepted > 2_000);
}

/// Images cut or padded with zeros, each in its own allocation.
#[test]
fn every_length() {
    let mut random = Random::new(76);
    let mut met = Met::default();
    for _ in 0..500 {
        let (image, _) = built(&mut random);
        for length in 0..=130 {
            let mut bytes = image.to_vec();
            bytes.resize(length, 0);
            bytes.shrink_to_fit();
            met.compare(&bytes, &mut random);
        }
    }
    let met = met.compared("lengths of images", 500 * 131);
    assert_eq!(met.accepted, 500);
}

/// Every room for the lists, of images and of damaged ones.
#[test]
fn rooms_for_lists() {
    let mut random = Random::new(80);
    let (mut cases, mut accepted, mut too_short) = (0, 0, 0);
    for at in 0..40 {
        let (mut image, _) = built(&mut random);
        if at % 4 == 0 {
            image[1] += 1;
        }
        let lists = plain(&image);
        accepted += usize::from(lists.is_some());
        for room in 0..=LISTS + 4 {
            too_short += usize::from(compare_lists(&image, lists.as_ref(), room));
            cases += 1;
        }
    }
    assert!((20..40).contains(&accepted));
    compared("rooms too short for lists", too_short, accepted * LISTS);
    compared("rooms for lists", cases, 40 * (LISTS + 5));
}

/// An image with one snippet of one point and this sequence.
fn around(sequence: &[u8]) -> [u8; IMAGE] {
    let mut image = [0; IMAGE];
    image[..5].copy_from_slice(&[1, 1, 4, 4 + sequence.len() as u8, 0x5A]);
    image[5..5 + sequence.len()].copy_from_slice(sequence);
    image
}

/// Compares whether the sequence is read, and all of its frames.
fn compare_frames(sequence: &[u8]) -> bool {
    let image = around(sequence);
    let lists = plain(&image);
    assert_eq!(read(&image), lists, "{sequence:02X?}");
    assert_eq!(read_at_once(&image), lists, "{sequence:02X?}");
    lists.is_some()
}

#[test]
fn every_sequence_of_one_or_two_bytes() {
    let (mut cases, mut accepted) = (0, 0);
    for first in 0..=255 {
        accepted += usize::from(compare_frames(&[first]));
        accepted += (0..=255).filter(|second| compare_frames(&[first, *second])).count();
        cases += 257;
    }
    // A first byte, two of them, or a first and a second one without frequency.
    assert_eq!(accepted, 128 + 128 * 128 + 128 * 32);
    compared("sequences of one or two bytes", cases, 256 + 65536);
}

/// Every second and third byte after 14 first bytes that begin a frame and two that do not.
#[test]
fn sequences_of_three_bytes() {
    let mut random = Random::new(77);
    let (mut cases, mut accepted) = (0, 0);
    for (second, third) in (0..=255).flat_map(|it| (0..=255).map(move |other| (it, other))) {
        for at in 0..16 {
            let first = random.below(128) as u8 + if at < 14 { 0 } else { 128 };
            let image = around(&[first, second, third]);
            let lists = plain(&image);
            let told = yambelugo::read_counts(&image);
            assert_eq!(told.ok(), lists.as_ref().map(|_| (1, 1)), "{first} {second} {third}");
            compare_lists(&image, lists.as_ref(), LISTS);
            if let Some(lists) = lists {
                // One frame of each, or none behind the last.
                let frames = &lists.sequences[0];
                let at = random.within(0, frames.len());
                let frame = yambelugo::read_frame(&image, 0, at);
                assert_eq!(frame.as_ref(), frames.get(at), "{first} {second} {third}, {at}");
                accepted += 1;
            }
            cases += 1;
        }
    }
    // Three first bytes; a frame of one and one of two, in either order; one of three.
    assert_eq!(accepted, 14 * (128 * 128 + 128 * 32 + 32 * 128 + 64 * 256));
    compared("sequences of three bytes", cases, 16 * 65536);
}

/// Numbers of items that are far too large, also when cut to fewer bits.
#[test]
fn far_items() {
    let mut random = Random::new(78);
    let mut cases = 0;
    for _ in 0..200 {
        let (image, _) = built(&mut random);
        for far in [100, 1 << 8, 1 << 16, 1 << 32, 1 << 63, usize::MAX - 1, usize::MAX] {
            for (item, at) in [(far, 0), (0, far), (far, far)] {
                assert_eq!(yambelugo::read_point(&image, item, at), None, "{item}, {at}");
                assert_eq!(yambelugo::read_frame(&image, item, at), None, "{item}, {at}");
                cases += 2;
            }
        }
    }
    compared("far items", cases, 200 * 7 * 3 * 2);
}

/// The example image of document 01 and others at the limits are read; next to them none is.
#[test]
fn near_misses() {
    let mut random = Random::new(79);
    let mut cases = 0;
    let mut check = |what: &str, bytes: &[u8], accepted: bool| {
        let mut image = [0; IMAGE];
        image[..bytes.len()].copy_from_slice(bytes);
        assert_eq!(plain(&image).is_some(), accepted, "{what}");
        assert_eq!(read(&image), plain(&image), "{what}");
        assert_eq!(read_at_once(&image), plain(&image), "{what}");
        cases += 1;
    };
    let rows: [(&str, &[u8], bool); 14] = [
        ("the example", &[1, 1, 5, 6, 0xAA, 0x00, 0x01], true),
        ("no snippets", &[0, 1, 3, 0x01], false),
        ("no sequences", &[1, 0, 3, 0x01], false),
        ("an empty snippet", &[1, 1, 3, 4, 0x01], false),
        ("an empty snippet after another", &[2, 1, 5, 5, 6, 0xAA, 0x01], false),
        ("an empty sequence", &[1, 1, 4, 4, 0xAA], false),
        ("an empty sequence before another", &[1, 2, 5, 5, 6, 0xAA, 0x01], false),
        ("snippets that fall", &[2, 1, 6, 5, 7, 0xAA, 0x00, 0x01], false),
        ("sequences that fall", &[1, 2, 5, 7, 6, 0xAA, 0x01, 0x01], false),
        ("pointers relative to the data", &[1, 1, 1, 2, 0xAA, 0x00, 0x01], false),
        ("a sequence to the end", &[1, 1, 4, 7, 0xAA, 0x01, 0x84, 0x80], true),
        (
            "a sequence that ends before its third byte",
            &[1, 1, 4, 6, 0xAA, 0x01, 0x84, 0x80],
            false,
        ),
        ("one that ends before its second", &[1, 2, 5, 6, 8, 0xAA, 0x01, 0x84, 0x80], false),
        ("a byte after the data", &[1, 1, 4, 5, 0xAA, 0x01, 0x01], false),
    ];
    for (what, bytes, accepted) in rows {
        check(what, bytes, accepted);
    }
    for (s, q, accepted) in [(15, 16, true), (16, 16, false), (15, 17, false), (1, 17, false)] {
        let image = laid_out(&vec![1; s], &vec![1; q], &mut random).map(|byte| byte & 0x7F);
        check("items of one byte", &image, accepted);
    }
    for (points, frames, accepted) in [(16, 32, true), (17, 32, false), (16, 33, false)] {
        let image = laid_out(&[points], &[frames], &mut random).map(|byte| byte & 0x7F);
        check("long items", &image, accepted);
    }
    let sequences: [(&str, &[u8], bool); 8] = [
        ("a first byte with bit 7", &[0x81], false),
        ("a second byte", &[0x01, 0x80], true),
        ("a second byte with bit 1 alone", &[0x01, 0x82], false),
        ("a second byte with bits 1 and 0", &[0x01, 0x83], false),
        ("no third byte", &[0x01, 0x01, 0x86], false),
        ("a third byte with bit 7", &[0x01, 0x84, 0x80], true),
        ("bit 7 after a second byte", &[0x01, 0x80, 0x80], false),
        ("bit 7 after a third byte", &[0x01, 0x84, 0x00, 0x80], false),
    ];
    for (what, sequence, accepted) in sequences {
        check(what, &around(sequence), accepted);
    }
    // 31 frames of three bytes and one of two fill the image.
    let mut full = around(&[&[0x01, 0x84, 0x00].repeat(31)[..], &[0x01, 0x80]].concat());
    check("a full image", &full, true);
    full[3] = 100;
    check("a pointer behind the image", &full, false);
    let mut zeros = around(&[0x01]);
    zeros[99] = 1;
    check("a last byte that is not zero", &zeros, false);
    compared("near misses", cases, 14 + 4 + 3 + 8 + 3);
}
