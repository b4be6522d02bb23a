//! The page of an image (document 02, CR 1) against a plain printer and against pages written by hand, into buffers of every length; and
//! that no two images have the same.

use harness::compared;
use harness::damage::{built, damaged};
use harness::images::{EXAMPLE, laid, plain, small_world};
use harness::lists::MARKER;
use harness::pages::{LINE, LONGEST, SHORTEST, page};
use harness::random::Random;
use harness::raw::ffi;
use harness::whole::Judged;
use std::collections::{BTreeSet, HashMap};
use std::hash::{DefaultHasher, Hash, Hasher};
use std::thread;
use yambelugo::IMAGE;

const BUILT: usize = 300_000;
const DAMAGED: usize = 300_000;

/// So many parts of them run at once.
const PARTS: usize = 4;

/// Images that are cut or padded to every length from 0 to this.
const CUT: usize = 500;
const LENGTH: usize = 130;

/// Bytes around a lent buffer, to see that they stay.
const GUARD: usize = 8;

/// The number of `NotAnImage`.
const NO_IMAGE: u8 = 18;

/// Compares with this page, or with 18 for none, the word and every byte that is left of a buffer of so many markers, and the wrapper's
/// answer.
fn compare(image: &[u8], page: Option<&str>, room: usize, marker: u8, judged: &mut Judged) {
    let mut lent = vec![marker; GUARD + room + GUARD];
    let mut expected = lent.clone();
    let item = page.map(str::as_bytes).ok_or(NO_IMAGE);
    let wanted = judged.wanted_bytes(item, &mut expected[GUARD..GUARD + room]);

    let (at, to) = (image.as_ptr(), lent[GUARD..].as_mut_ptr());
    // SAFETY: each pointer is to so many bytes that are borrowed; they do not overlap.
    let word = unsafe { ffi::da728x_page(at, image.len(), to, room) };
    let told = wanted.map_or_else(|number| u32::from(number) << 16, |length| length as u32);
    assert_eq!(word, told, "{image:02X?}, {room} bytes");
    assert!(lent == expected, "{image:02X?}, {room} bytes: {}", String::from_utf8_lossy(&lent));

    lent.fill(marker);
    let answer = yambelugo::page(image, &mut lent[GUARD..GUARD + room]);
    let text = wanted.map(|_| page.expect("a page"));
    assert_eq!(answer.map_err(|it| it.number()), text, "{image:02X?}, {room} bytes");
    assert!(lent == expected, "{image:02X?}, {room} bytes by the wrapper");
}

/// How many lines a page has, each of them 36 characters that are wanted and a newline.
fn lines(page: &str) -> usize {
    let mut count = 0;
    for line in page.as_bytes().chunks(LINE + 1) {
        let (newline, characters) = line.split_last().expect("a line");
        assert_eq!((*newline, characters.len()), (b'\n', 36), "{page}");
        let wanted = |it: &u8| matches!(it, b' ' | b'0'..=b'9' | b'A'..=b'F' | b'S');
        assert!(characters.iter().all(wanted), "{page}");
        count += 1;
    }
    count
}

/// The bytes of two hexadecimal digits each.
fn bytes(digits: &str) -> Vec<u8> {
    let byte = |at| u8::from_str_radix(&digits[at..at + 2], 16).unwrap();
    (0..digits.len()).step_by(2).map(byte).collect()
}

/// The image that a reader of the paper puts together from its lines.
fn typed(page: &str) -> [u8; IMAGE] {
    let (mut snippets, mut sequences) = (Vec::new(), Vec::<Vec<u8>>::new());
    for line in page.lines() {
        let (kind, rest) = line.split_at(1);
        let (number, rest) = rest.split_at(2);
        let number: usize = number.parse().unwrap();
        match (kind, rest.trim().split_once(' ')) {
            ("S", None) => {
                snippets.push(bytes(rest.trim()));
                assert!(number == snippets.len() && sequences.is_empty(), "{page}");
            }
            ("F", Some((frame, digits))) => {
                if frame == "01" {
                    sequences.push(Vec::new());
                }
                assert_eq!(number + 1, sequences.len(), "{page}");
                sequences[number].extend(bytes(digits));
            }
            _ => panic!("{page}"),
        }
    }
    laid(&snippets, &sequences)
}

/// Images by their pages, to see that no two have the same: under the hash of each page those whose pages have it.
#[derive(Default)]
struct Binder {
    images: HashMap<u64, Vec<[u8; IMAGE]>>,
    kept: usize,
}

impl Binder {
    /// Keeps an image, unless it is kept; no other one may have its page.
    fn keep(&mut self, image: [u8; IMAGE], text: &str) {
        let mut hasher = DefaultHasher::new();
        text.hash(&mut hasher);
        self.keep_under(hasher.finish(), image);
    }

    fn keep_under(&mut self, hash: u64, image: [u8; IMAGE]) {
        let alike = self.images.entry(hash).or_default();
        if alike.contains(&image) {
            return;
        }
        for other in alike.iter() {
            assert_ne!(page(other), page(&image), "{other:02X?}, {image:02X?}");
        }
        alike.push(image);
        self.kept += 1;
    }
}

/// What was met on the way.
#[derive(Default)]
struct Met {
    judged: Judged,
    printed: usize,
    lines: usize,
    /// The sizes of images, and how many lines their pages have.
    sizes: BTreeSet<usize>,
    heights: BTreeSet<usize>,
    binder: Binder,
}

impl Met {
    fn compare(&mut self, image: &[u8]) {
        let (lists, text) = (plain(image), page(image));
        compare(image, text.as_deref(), LONGEST, MARKER, &mut self.judged);
        assert_eq!(lists.is_some(), text.is_some(), "{image:02X?}");
        let Some((lists, text)) = lists.zip(text) else { return };
        let frames: usize = lists.sequences.iter().map(Vec::len).sum();
        let lines = lines(&text);
        assert_eq!(lines, lists.snippets.len() + frames, "{text}");
        assert_eq!(typed(&text), image, "{text}");
        self.printed += 1;
        self.lines += lines;
        self.sizes.insert(lists.size());
        self.heights.insert(lines);
        self.binder.keep(image.try_into().unwrap(), &text);
    }

    /// Puts what was met elsewhere to it.
    fn join(&mut self, other: Self) {
        self.judged.compared += other.judged.compared;
        self.judged.too_short += other.judged.too_short;
        self.printed += other.printed;
        self.lines += other.lines;
        self.sizes.extend(other.sizes);
        self.heights.extend(other.heights);
        for (hash, images) in other.binder.images {
            images.into_iter().for_each(|image| self.binder.keep_under(hash, image));
        }
    }
}

/// A part of the images that the library builds, of damaged ones, and of those of every length; how many of the damaged ones are printed.
fn part(seed: u64) -> (Met, usize) {
    let mut random = Random::new(seed);
    let mut met = Met::default();
    for _ in 0..BUILT / PARTS {
        met.compare(&built(&mut random).0);
    }
    assert_eq!(met.printed, BUILT / PARTS);
    let mut image = built(&mut random).0;
    for case in 0..DAMAGED / PARTS {
        if case % 10 == 0 {
            image = built(&mut random).0;
        }
        met.compare(&damaged(&image, 1 + case % 2, &mut random));
    }
    let of_damaged = met.printed - BUILT / PARTS;
    for _ in 0..CUT / PARTS {
        let (image, _) = built(&mut random);
        for length in 0..=LENGTH {
            let mut bytes = image.to_vec();
            bytes.resize(length, 0);
            bytes.shrink_to_fit();
            met.compare(&bytes);
        }
    }
    (met, of_damaged)
}

/// Images that the library builds, damaged ones, and slices of every length: all that are printed in one binder.
#[test]
fn built_and_damaged_images() {
    let parts: Vec<_> = (0..PARTS as u64).map(|at| thread::spawn(move || part(110 + at))).collect();
    let (mut met, mut of_damaged) = (Met::default(), 0);
    for part in parts {
        let (other, damaged) = part.join().unwrap();
        met.join(other);
        of_damaged += damaged;
    }
    let Met { judged, printed, lines, sizes, heights, binder } = met;
    let (kept, none) = (binder.kept, DAMAGED - of_damaged);
    println!("pages: {of_damaged} of damaged images, {none} of which are none");
    println!("pages: {printed} printed, {lines} lines, {} heights; {kept} differ", heights.len());
    assert!((DAMAGED / 10..DAMAGED * 9 / 10).contains(&of_damaged));
    assert_eq!(printed, BUILT + of_damaged + CUT);
    assert!(kept > BUILT / 2 && binder.images.values().map(Vec::len).sum::<usize>() == kept);
    assert!(sizes.into_iter().eq(6..=IMAGE), "every size of an image");
    assert!(heights.len() > 50 && heights.first() == Some(&2));
    judged.assert_met("pages", BUILT + DAMAGED + CUT * (LENGTH + 1), 0);
}

/// Every length of buffer up to a few bytes more than the page, with two markers, byte for byte.
#[test]
fn buffers_of_every_length() {
    const MORE: usize = 8;
    let mut random = Random::new(101);
    let (mut judged, mut short, mut pages) = (Judged::default(), 0, BTreeSet::new());
    for at in 0..200 {
        let image = match at {
            0 => EXAMPLE,
            1 => longest(),
            _ => built(&mut random).0,
        };
        let text = page(&image).expect("an image");
        for (marker, room) in (0..=text.len() + MORE).flat_map(|it| [(0x00, it), (0xFF, it)]) {
            compare(&image, Some(&text), room, marker, &mut judged);
        }
        short += 2 * text.len();
        pages.insert(text.len());
    }
    let ends = (pages.first().copied(), pages.last().copied());
    assert_eq!(ends, (Some(SHORTEST), Some(LONGEST)));
    assert!(pages.len() > 30, "{} lengths of pages", pages.len());
    judged.assert_met("pages into buffers", 200 * 2 * (MORE + 1), short);
}

/// What is no image is told for a buffer of any length, also for one that has no room for a line.
#[test]
fn no_image_into_buffers() {
    const LONGEST_BUFFER: usize = 100;
    let mut random = Random::new(102);
    let (mut judged, mut of_another_length) = (Judged::default(), 0);
    let mut cases = 0;
    while cases < 200 {
        let (image, _) = built(&mut random);
        let mut bytes = damaged(&image, 1, &mut random).to_vec();
        if cases % 4 == 0 {
            bytes.resize(random.within(0, LENGTH), 0);
        }
        if plain(&bytes).is_some() {
            continue;
        }
        of_another_length += usize::from(bytes.len() != IMAGE);
        for (marker, room) in (0..=LONGEST_BUFFER).flat_map(|it| [(0x00, it), (0xFF, it)]) {
            compare(&bytes, None, room, marker, &mut judged);
        }
        cases += 1;
    }
    assert!((40..60).contains(&of_another_length), "{of_another_length} of another length");
    judged.assert_met("no image into buffers", 200 * 2 * (LONGEST_BUFFER + 1), 0);
}

/// Images that differ in little more than one number or one end: each pair is printed, and not alike.
#[test]
fn near_pairs() {
    let items = |text: &str| text.split('|').map(bytes).collect::<Vec<_>>();
    let image = |(snippets, sequences): (&str, &str)| laid(&items(snippets), &items(sequences));
    let pairs = [
        // Where one sequence ends and the next begins, and whether it does.
        (("AA", "0102|03"), ("AA", "01|0203")),
        (("AA", "0102|03"), ("AA", "0102|04")),
        (("AA", "0102|03"), ("AA", "010203")),
        (("AA", "01|02|03"), ("AA", "0102|03")),
        (("AA", "01|0102"), ("AA", "0101|02")),
        (("AA", "00|0000"), ("AA", "0000|00")),
        (("AA", "00"), ("AA", "0000")),
        (("AA", "0101"), ("AA", "01|01")),
        (("AA", "0180|01"), ("AA", "01|0180")),
        // Where one snippet ends and the next begins, and the last snippet and the first sequence.
        (("AA00|11", "01"), ("AA|0011", "01")),
        (("AA00|11", "01"), ("AA0011", "01")),
        (("AA|AA", "01"), ("AAAA", "01")),
        (("00", "01"), ("0000", "01")),
        (("AA01", "01"), ("AA", "0101")),
        (("AA|01", "01"), ("AA", "01|01")),
        (("AA|01", "0101"), ("AA|0101", "01")),
        (("AA|01", "01|01"), ("AA|01|01", "01")),
        // A frame of another length, or the same bytes in other frames.
        (("AA", "01"), ("AA", "0180")),
        (("AA", "01"), ("AA", "018400")),
        (("AA", "0180"), ("AA", "018400")),
        (("AA", "018000"), ("AA", "018400")),
        (("AA", "018001"), ("AA", "018401")),
        (("AA", "018001"), ("AA", "010180")),
        (("AA", "0180|01"), ("AA", "018001")),
        (("AA", "018401"), ("AA", "0180|01")),
        // One field.
        (("AA", "00"), ("AA", "01")),
        (("AA", "01"), ("AA", "02")),
        (("AA", "01"), ("AA", "09")),
        (("AA", "01"), ("AA", "21")),
        (("AA", "0180"), ("AA", "0181")),
        (("AA", "0180"), ("AA", "0188")),
        (("AA", "018400"), ("AA", "018401")),
        (("AA", "018400"), ("AA", "018480")),
        (("AA", "018400"), ("AA", "018600")),
        (("AA", "01"), ("2A", "01")),
        (("AA", "01"), ("BA", "01")),
        (("AA", "01"), ("AB", "01")),
        // The same items in another order.
        (("AA00", "01"), ("00AA", "01")),
        (("AA|00", "01"), ("00|AA", "01")),
        (("AA", "0102"), ("AA", "0201")),
        (("AA", "01|02"), ("AA", "02|01")),
    ];
    let (mut cases, mut judged) = (0, Judged::default());
    for pair in pairs {
        let images = [image(pair.0), image(pair.1)];
        let [one, other] = images.map(|image| {
            let text = page(&image).unwrap_or_else(|| panic!("{pair:?}"));
            compare(&image, Some(&text), LONGEST, MARKER, &mut judged);
            text
        });
        assert_ne!(images[0], images[1], "{pair:?}");
        assert_ne!(one, other, "{pair:?}");
        cases += 1;
    }
    judged.assert_met("images of near pairs", 2 * 41, 0);
    compared("near pairs", cases, 41);
}

/// Every image whose points and frames are two to six bytes of these four, in all ways of cutting them: printed are those that can be
/// read, each differently.
#[test]
fn a_small_world() {
    const BYTES: [u8; 4] = [0x00, 0x01, 0x80, 0x84];
    let mut met = Met::default();
    for image in (2..=6).flat_map(|length| small_world(&BYTES, length)) {
        met.compare(&image);
    }
    // With r(n) ways of n bytes to be whole frames, 1, 2, 6, 24, 76, 248, these are Q(n) in some sequences, 2, 10, 56, 296, 1568; and n
    // bytes are S(n) in some snippets, 4, 32, 256, 2048, 16384.
    compared("images of a small world", met.printed, 8 + 104 + 1_056 + 9_632 + 83_328);
    compared("different pages of them", met.binder.kept, met.printed);
    met.judged.assert_met("small world", 16 + 256 + 3_072 + 32_768 + 327_680, 0);
}

/// All that differ from an image in one byte.
#[test]
fn neighbours() {
    let mut random = Random::new(103);
    let (mut judged, mut printed, mut kept) = (Judged::default(), 0, 0);
    for _ in 0..10 {
        let (image, _) = built(&mut random);
        let mut met = Met { judged, ..Met::default() };
        met.compare(&image);
        for (at, byte) in image.iter().enumerate() {
            for value in (0..=255).filter(|value| value != byte) {
                let mut other = image;
                other[at] = value;
                met.compare(&other);
            }
        }
        judged = met.judged;
        printed += met.printed;
        kept += met.binder.kept;
    }
    assert!((25_000..225_000).contains(&printed));
    compared("different pages of neighbours", kept, printed);
    judged.assert_met("neighbours", 10 * (1 + 255 * IMAGE), 0);
}

/// The image with most lines: a point, and 93 frames of one byte in three sequences.
fn longest() -> [u8; IMAGE] {
    let mut image = [0x01; IMAGE];
    image[..7].copy_from_slice(&[1, 3, 6, 38, 70, 99, 0x5A]);
    image
}

/// The numbers of frames, as they are printed.
const NUMBERS: &str = "01 02 03 04 05 06 07 08 09 10 11 12 13 14 15 16 17 18 19 20 21 22 23 24 25 26 27 28 29 30 31 32";

/// These lines with blanks up to 36.
fn padded(lines: &[&str]) -> String {
    const BLANKS: &str = "                                    ";
    assert_eq!(BLANKS.len(), 36);
    lines.iter().map(|line| [line, &BLANKS[line.len()..], "\n"].concat()).collect()
}

/// An image, and its page written by hand: it is what the printer prints and the library, into just its length too.
fn check(image: &[u8; IMAGE], wanted: &str) {
    let mut judged = Judged::default();
    assert_eq!(page(image).as_deref(), Some(wanted));
    for room in [wanted.len() - 1, wanted.len(), LONGEST] {
        compare(image, Some(wanted), room, MARKER, &mut judged);
    }
    assert_eq!(judged, Judged { compared: 2, too_short: 1 });
    assert_eq!(typed(wanted), *image);
    assert_eq!(lines(wanted), wanted.lines().count());
}

/// Document 02: "01's image example prints "S01 AA00" and "F00 01 01", both padded".
#[test]
fn the_example() {
    let wanted =
        concat!("S01 AA00                            \n", "F00 01 01                           \n");
    check(&EXAMPLE, wanted);
    assert_eq!(padded(&["S01 AA00", "F00 01 01"]), wanted);
    assert_eq!(wanted.len(), SHORTEST);
}

/// Sixteen points fill a line, without a blank behind them.
#[test]
fn sixteen_points() {
    let points = bytes("00112233445566778899AABBCCDDEEFF");
    let wanted = concat!(
        "S01 00112233445566778899AABBCCDDEEFF\n",
        "S02 F0                              \n",
        "F00 01 00                           \n"
    );
    check(&laid(&[points, vec![0xF0]], &[vec![0]]), wanted);
}

/// Frames of one, two and three bytes, whose third byte has bit 7 or looks like a first or a second one.
#[test]
fn frames_of_every_length() {
    let sequences = ["01018033962C", "2F8FFF0084800184017F", "00", "078207"].map(bytes);
    // A stray frequency bit 8 in the last.
    assert_eq!(page(&laid(&[vec![0x7F]], &sequences)), None);
    let wanted = padded(&[
        "S01 7F",
        "F00 01 01",
        "F00 02 0180",
        "F00 03 33962C",
        "F01 01 2F8FFF",
        "F01 02 008480",
        "F01 03 018401",
        "F01 04 7F",
        "F02 01 00",
    ]);
    check(&laid(&[vec![0x7F]], &sequences[..3]), &wanted);
}

#[test]
fn fifteen_snippets() {
    let snippets: Vec<_> = (0..15).map(|at| vec![16 * at + 1]).collect();
    let wanted = padded(&[
        "S01 01",
        "S02 11",
        "S03 21",
        "S04 31",
        "S05 41",
        "S06 51",
        "S07 61",
        "S08 71",
        "S09 81",
        "S10 91",
        "S11 A1",
        "S12 B1",
        "S13 C1",
        "S14 D1",
        "S15 E1",
        "F00 01 0F81",
    ]);
    check(&laid(&snippets, &[vec![0x0F, 0x81]]), &wanted);
}

/// They count from 00, and each has its own frame 01.
#[test]
fn sixteen_sequences() {
    let sequences: Vec<_> =
        (0..16).map(|at| if at == 9 { vec![at, at + 1] } else { vec![at] }).collect();
    let wanted = padded(&[
        "S01 AA",
        "F00 01 00",
        "F01 01 01",
        "F02 01 02",
        "F03 01 03",
        "F04 01 04",
        "F05 01 05",
        "F06 01 06",
        "F07 01 07",
        "F08 01 08",
        "F09 01 09",
        "F09 02 0A",
        "F10 01 0A",
        "F11 01 0B",
        "F12 01 0C",
        "F13 01 0D",
        "F14 01 0E",
        "F15 01 0F",
    ]);
    check(&laid(&[vec![0xAA]], &sequences), &wanted);
}

#[test]
fn thirty_two_frames() {
    let frames = [[0x61, 0x80].repeat(31), vec![0x05]].concat();
    let mut wanted = padded(&["S01 00"]);
    for number in NUMBERS.split(' ').take(31) {
        wanted += &padded(&[&["F00", number, "6180"].join(" ")]);
    }
    wanted += &padded(&["F00 32 05"]);
    check(&laid(&[vec![0x00]], &[frames]), &wanted);
}

/// 94 lines, 3,478 bytes.
#[test]
fn the_longest_page() {
    let mut wanted = padded(&["S01 5A"]);
    for (sequence, frames) in [("F00", 32), ("F01", 32), ("F02", 29)] {
        for number in NUMBERS.split(' ').take(frames) {
            wanted += &padded(&[&[sequence, number, "01"].join(" ")]);
        }
    }
    check(&longest(), &wanted);
    assert_eq!((lines(&wanted), wanted.len(), LONGEST), (94, 3_478, 3_478));
    assert_eq!(&wanted[37..47], "F00 01 01 ");
    assert_eq!(&wanted[3_441..3_451], "F02 29 01 ");
}
