//! Two images into one (document 02, CR 7) against the published builders, a player of images and rules on bytes, into buffers of every
//! length.

use harness::compared;
use harness::damage::damaged;
use harness::images::{laid, plain, small_world};
use harness::lists::MARKER;
use harness::merges::{KINDS, any_images, grown, images, least, merged, miss, plays, put, sound};
use harness::random::Random;
use harness::raw::{self, ffi};
use std::collections::{BTreeMap, BTreeSet};
use std::thread;
use yambelugo::IMAGE;

const PAIRS: usize = 500_000;
const DAMAGED: usize = 120_000;

/// So many parts of a test run at once.
const PARTS: usize = 4;

/// Images are cut or padded to every length from 0 to this.
const LENGTH: usize = 130;

/// The longest lent buffer.
const ROOM: usize = 108;

/// Compares the number that is told, every byte that is left of a buffer of so many markers, what the sequences play, and the wrapper's
/// answer; the number.
fn compare(first: &[u8], second: &[u8], room: usize, marker: u8) -> u8 {
    let wanted = merged(first, second);
    let mut expected = vec![marker; room];
    let number = put(wanted, &mut expected);
    let mut lent = vec![marker; room];
    let told = raw::merge(first, second, &mut lent);
    assert_eq!(told, number, "{first:02X?}, {second:02X?}, {room} bytes");
    assert!(lent == expected, "{first:02X?}, {second:02X?}, {room} bytes: {lent:02X?}");
    if told == 0 {
        let before = [first, second].map(|image| plays(image).expect("what is merged plays"));
        assert_eq!(plays(&lent[..IMAGE]), Some(before.concat()), "{first:02X?}, {second:02X?}");
    }
    let answer = yambelugo::merge(first, second).map_err(|it| it.number());
    assert_eq!(answer, wanted, "{first:02X?}, {second:02X?} by the wrapper");
    told
}

/// How often each number was told.
type Told = BTreeMap<u8, usize>;

/// As `compare`, with room for an image; counts the number.
fn count(first: &[u8], second: &[u8], told: &mut Told) -> u8 {
    let number = compare(first, second, IMAGE, MARKER);
    *told.entry(number).or_default() += 1;
    number
}

/// Puts what was told elsewhere to it.
fn join(told: &mut Told, other: Told) {
    other.into_iter().for_each(|(number, cases)| *told.entry(number).or_default() += cases);
}

/// What each part came to, all run at once.
fn in_parts<T: Send + 'static>(run: fn(usize) -> T) -> Vec<T> {
    let parts: Vec<_> = (0..PARTS).map(|part| thread::spawn(move || run(part))).collect();
    parts.into_iter().map(|part| part.join().unwrap()).collect()
}

/// The bytes of two hexadecimal digits each.
fn bytes(digits: &str) -> Vec<u8> {
    digits.split_whitespace().map(|byte| u8::from_str_radix(byte, 16).unwrap()).collect()
}

/// The image that begins with these bytes; zeros follow.
fn image(digits: &str) -> [u8; IMAGE] {
    let mut image = bytes(digits);
    image.resize(IMAGE, 0);
    image.try_into().unwrap()
}

/// What was met of random pairs.
#[derive(Default)]
struct Met {
    told: Told,
    /// Of those that were merged: their sizes, the counts of snippets, and how many have a frame that grew.
    sizes: BTreeSet<usize>,
    snippets: BTreeSet<(usize, usize)>,
    growing: usize,
    /// How many are too large only because frames grow.
    outgrown: usize,
}

impl Met {
    fn compare(&mut self, [first, second]: [&[u8]; 2], room: usize, marker: u8) {
        let told = compare(first, second, room, marker);
        *self.told.entry(told).or_default() += 1;
        let Some((one, other)) = plain(first).zip(plain(second)) else { return };
        let growth = grown(&other, one.snippets.len());
        let size = one.size() + other.size() - 2 + growth;
        match told {
            0 => {
                self.sizes.insert(size);
                self.snippets.insert((one.snippets.len(), other.snippets.len()));
                self.growing += usize::from(growth > 0);
            }
            8 => self.outgrown += usize::from(size - growth <= IMAGE),
            _ => {}
        }
    }
}

/// A part of the random pairs, of some with a damaged image or another length of buffer.
fn pairs(part: usize) -> Met {
    let mut random = Random::new(120 + part as u64);
    let mut met = Met::default();
    for _ in 0..PAIRS / PARTS {
        let kind = random.pick(&[0, 0, 0, 0, 0, 0, 0, 0, 1, 1, 2, 2, 2, 3, 4, 4, 4, 5, 5, 5]);
        let pair = KINDS[kind](&mut random);
        let mut both = images(&pair);
        assert_eq!(both.each_ref().map(|image| plain(image)), pair.map(Some));
        if random.chance(6) {
            let side = random.below(2);
            both[side] = damaged(&both[side], random.within(1, 2), &mut random);
        }
        let room = match random.below(20) {
            0 | 1 => random.below(IMAGE),
            2 => random.within(IMAGE, ROOM),
            _ => IMAGE,
        };
        met.compare(both.each_ref().map(|image| &image[..]), room, random.byte());
    }
    met
}

#[test]
fn random_pairs() {
    let mut met = Met::default();
    for part in in_parts(pairs) {
        join(&mut met.told, part.told);
        met.sizes.extend(part.sizes);
        met.snippets.extend(part.snippets);
        met.growing += part.growing;
        met.outgrown += part.outgrown;
    }
    let Met { told, sizes, snippets, growing, outgrown } = met;
    println!(
        "random pairs: {told:?}; a frame grows in {growing}, {outgrown} too large by it alone"
    );
    assert!(told[&0] >= 100_000 && [18, 25, 6, 7, 8, 24].iter().all(|it| told[it] >= 10_000));
    assert!(told.len() == 7 && growing >= 50_000 && outgrown >= 5_000);
    assert!(sizes.len() > 80 && sizes.last() == Some(&IMAGE), "{} sizes", sizes.len());
    compared("counts of snippets", snippets.len(), 15 * 14 / 2);
    compared("random pairs", told.values().sum(), PAIRS);
}

/// A frame of every number in every form: every first byte, alone, and with second and third bytes that have the ends of their fields.
fn frames() -> Vec<Vec<u8>> {
    let mut frames = Vec::new();
    for first in 0..128 {
        frames.push(vec![first]);
        for second in [0x80, 0x81] {
            frames.extend([0x00, 0x08, 0x78].map(|loops| vec![first, second | loops]));
            for more in [0x04, 0x06, 0x7C, 0x7E] {
                frames.extend([0x00, 0x80, 0xFF].map(|third| vec![first, second | more, third]));
            }
        }
    }
    frames
}

/// The number of a frame's snippet: its low three bits are in the first byte, bit 3 in the second.
fn number(frame: &[u8]) -> usize {
    usize::from(frame[0] & 7) + frame.get(1).map_or(0, |second| usize::from(second & 1) * 8)
}

/// A frame of the second image behind so many snippets: another number, in the same bytes or in one more.
fn raised(frame: &[u8], behind: usize) -> Vec<u8> {
    let mut frame = frame.to_vec();
    if number(&frame) == 0 {
        return frame;
    }
    let number = number(&frame) + behind;
    frame[0] = frame[0] & 0x78 | number as u8 & 7;
    if number >= 8 {
        if frame.len() == 1 {
            frame.push(0x80);
        }
        frame[1] |= 1;
    }
    frame
}

/// A part of: every number of snippets of both, and every frame, in the second image and in the first.
fn frames_behind(part: usize) -> Told {
    let mut told = Told::new();
    let plain_frame = vec![0x01];
    for (first, second) in (1..=15).flat_map(|first| (1..=15).map(move |second| (first, second))) {
        if (first + second) % PARTS != part {
            continue;
        }
        let points = |from: usize, snippets: usize| -> Vec<Vec<u8>> {
            (from..from + snippets).map(|point| vec![point as u8]).collect()
        };
        let snippets = [points(0x20, first), points(0xE0, second)];
        let all = snippets.concat();
        for frame in frames() {
            let rows = [
                (&plain_frame, &frame, [plain_frame.clone(), raised(&frame, first)], second),
                (&frame, &plain_frame, [frame.clone(), raised(&plain_frame, first)], first),
            ];
            for (one, other, sequences, lacks_above) in rows {
                let one = laid(&snippets[0], std::slice::from_ref(one));
                let other = laid(&snippets[1], std::slice::from_ref(other));
                let wanted = match (number(&frame), first + second) {
                    (number, _) if number > lacks_above => Err(25),
                    (_, 16..) => Err(6),
                    _ => Ok(laid(&all, &sequences)),
                };
                assert_eq!(merged(&one, &other), wanted, "{one:02X?}, {other:02X?}");
                count(&one, &other, &mut told);
            }
        }
    }
    told
}

/// Every number of snippets of both images, with a frame of every number in every form of one, two and three bytes: in the second, which
/// raises it, and in the first, which leaves it.
#[test]
fn every_number_in_every_form() {
    let mut told = Told::new();
    in_parts(frames_behind).into_iter().for_each(|part| join(&mut told, part));
    compared("frames", frames().len(), 128 * (1 + 2 * (3 + 4 * 3)));
    // A number up to 7 has 16 * (1 + 3 + 12) forms, one above 7 has 16 * (3 + 12).
    let forms = |numbers: usize| 256 * numbers.min(8) + 240 * numbers.saturating_sub(8);
    let sums = |first: usize| (1..=15 - first).map(|second| forms(second + 1)).sum::<usize>();
    let accepted = (1..=14).map(sums).sum::<usize>();
    let named = 15 * (1..=15).map(|snippets| forms(snippets + 1)).sum::<usize>();
    assert_eq!((accepted, named), (168_896, 509_760));
    let wanted = [(0, accepted), (6, named - accepted), (25, 225 * 3_968 - named)];
    assert_eq!(told, Told::from(wanted.map(|(number, cases)| (number, 2 * cases))));
    compared("frames behind snippets", told.values().sum(), 2 * 225 * 3_968);
}

/// Images of 99, 100 and 101 bytes together, in which each number of frames grows, or none.
#[test]
fn sizes_at_the_limit() {
    let (mut told, mut cases, mut outgrown) = (Told::new(), 0, 0);
    for first in 1..=14 {
        let reaching_8 = (15 - first).min(7) as u8;
        for (frames, size) in (1..=32).flat_map(|frames| [99, 100, 101].map(|size| (frames, size)))
        {
            for (number, growth) in [(reaching_8, frames), (0, 0)] {
                let sequences = [vec![0x01], vec![0x60 | number; frames]];
                let mut snippets: Vec<_> = (0..15).map(|at| vec![16 * at]).collect();
                let others = 2 + 15 + 2 + 15 + 1 + frames + growth;
                for at in 0..size - others {
                    snippets[at % 15].push(at as u8);
                }
                let one = laid(&snippets[..first], &sequences[..1]);
                let other = laid(&snippets[first..], &sequences[1..]);
                assert_eq!(grown(&plain(&other).unwrap(), first), growth);
                let wanted = if size > 100 { 8 } else { 0 };
                assert_eq!(count(&one, &other, &mut told), wanted, "{one:02X?}, {other:02X?}");
                if wanted == 0 {
                    let merged = yambelugo::merge(&one, &other).unwrap();
                    assert_eq!(usize::from(merged[18]), size - 1, "the last pointer");
                } else {
                    outgrown += usize::from(size - growth <= 100);
                }
                cases += 1;
            }
        }
    }
    assert_eq!(told, Told::from([(0, 2 * 896), (8, 896)]));
    compared("too large because frames grow", outgrown, 14 * 32);
    compared("images at the limit", cases, 14 * 32 * 3 * 2);
}

/// A part of the pairs in which one image or both are damaged; how many are images: both, the first alone, the second alone, none.
fn damaged_pairs(part: usize) -> [usize; 4] {
    let mut random = Random::new(130 + part as u64);
    let mut met = [0; 4];
    for case in 0..DAMAGED / PARTS {
        let kind = random.pick(&[0, 0, 0, 1, 2, 3, 4, 5]);
        let mut both = images(&KINDS[kind](&mut random));
        for (side, image) in both.iter_mut().enumerate() {
            if case % 3 != side {
                *image = damaged(image, 1 + case % 2, &mut random);
            }
        }
        let [first, second] = both.each_ref().map(|image| plain(image).is_some());
        let told = compare(&both[0], &both[1], IMAGE, MARKER);
        assert_eq!(told == 18, !first || !second, "{both:02X?}");
        met[usize::from(!first) * 2 + usize::from(!second)] += 1;
    }
    met
}

/// 18 exactly where document 01 reads no image in the one or the other.
#[test]
fn damaged_images() {
    let mut met = [0; 4];
    for part in in_parts(damaged_pairs) {
        met.iter_mut().zip(part).for_each(|(all, cases)| *all += cases);
    }
    println!("damaged pairs: {met:?} with both images, the first alone, the second alone, none");
    assert!(met.iter().all(|cases| *cases >= 10_000));
    compared("damaged pairs", met.iter().sum(), DAMAGED);
}

/// Pairs of which one is cut or padded to every length, in a buffer of any length.
#[test]
fn images_of_every_length() {
    let mut random = Random::new(131);
    let (mut unreadable, mut cases) = (0, 0);
    for _ in 0..200 {
        let both = any_images(&mut random);
        for (side, length) in
            [0, 1].into_iter().flat_map(|side| (0..=LENGTH).map(move |it| (side, it)))
        {
            let mut pair = both.map(Vec::from);
            pair[side].resize(length, 0);
            let told = compare(&pair[0], &pair[1], random.within(0, ROOM), MARKER);
            assert_eq!(told == 18, length != IMAGE, "{pair:02X?}");
            unreadable += usize::from(told == 18);
            cases += 1;
        }
    }
    compared("images of another length", unreadable, 200 * 2 * LENGTH);
    compared("lengths of images", cases, 200 * 2 * (LENGTH + 1));
}

/// A pair of which this number is told where there is room.
fn pair_of(number: u8, random: &mut Random) -> [[u8; IMAGE]; 2] {
    loop {
        let mut both = any_images(random);
        if number == 18 {
            let side = random.below(2);
            both[side] = damaged(&both[side], 1, random);
        }
        if merged(&both[0], &both[1]).err().unwrap_or(0) == number {
            return both;
        }
    }
}

/// All that differ in one byte from a pair of each number.
#[test]
fn neighbours() {
    let mut random = Random::new(132);
    let mut told = Told::new();
    for number in [0, 25, 6, 7, 8] {
        let both = pair_of(number, &mut random);
        for (side, at) in [0, 1].into_iter().flat_map(|side| (0..IMAGE).map(move |at| (side, at))) {
            for value in (0..=255).filter(|value| *value != both[side][at]) {
                let mut pair = both;
                pair[side][at] = value;
                count(&pair[0], &pair[1], &mut told);
            }
        }
    }
    println!("neighbours: {told:?}");
    assert!([0, 25, 6, 7, 8, 18].iter().all(|number| told[number] > 1_000));
    compared("neighbours", told.values().sum(), 5 * 2 * 255 * IMAGE);
}

/// Every combination of what is refused: an image that cannot be read and a missing snippet, each in either image, too many snippets, too many
/// sequences, too many bytes, and a buffer that is too short. The first in the order 18, 25, 6, 7, 8, 24 is told.
#[test]
fn orders_of_refusals() {
    const ROUNDS: usize = 20;
    let mut random = Random::new(133);
    let mut told = Told::new();
    for faults in (0..1 << 8).flat_map(|faults| [faults; ROUNDS]) {
        let fault = |at: usize| faults >> at & 1 == 1;
        let snippets = if fault(4) { [8, 8] } else { [5, 6] };
        let sequences = if fault(5) { [8, 9] } else { [3, 2] };
        let mut pair = [0, 1].map(|at| {
            let more = if fault(6) { 45 } else { random.below(4) };
            let size = least(snippets[at], sequences[at]) + more;
            sound(snippets[at], sequences[at], size, &mut random)
        });
        for (at, lists) in pair.iter_mut().enumerate() {
            if fault(2 + at) {
                miss(lists, &mut random);
            }
        }
        let mut both = images(&pair).map(Vec::from);
        for (at, image) in both.iter_mut().enumerate() {
            if fault(at) {
                unread(image, &mut random);
            }
            assert_eq!(plain(image).is_none(), fault(at));
        }
        let room = if fault(7) { random.below(IMAGE) } else { random.within(IMAGE, ROOM) };
        let number = compare(&both[0], &both[1], room, random.byte());
        let wanted = match faults {
            _ if fault(0) || fault(1) => 18,
            _ if fault(2) || fault(3) => 25,
            _ if fault(4) => 6,
            _ if fault(5) => 7,
            _ if fault(6) => 8,
            _ if fault(7) => 24,
            _ => 0,
        };
        assert_eq!(number, wanted, "{faults:08b}: {both:02X?}");
        *told.entry(number).or_default() += 1;
    }
    let wanted = [(18, 192), (25, 48), (6, 8), (7, 4), (8, 2), (24, 1), (0, 1)];
    assert_eq!(told, Told::from(wanted.map(|(number, cases)| (number, cases * ROUNDS))));
    compared("combinations of refusals", told.values().sum(), 256 * ROUNDS);
}

/// Makes of an image one that cannot be read, and leaves nearly all of it.
fn unread(image: &mut Vec<u8>, random: &mut Random) {
    let header = 2 + usize::from(image[0]) + usize::from(image[1]);
    match random.below(6) {
        0 => image.push(0),
        1 => image.truncate(99),
        // A byte behind the last, a pointer, a count.
        2 => image[99] = 1,
        3 => image[header - 1] = 100,
        4 => image[header - 1] = image[header - 2],
        _ => image[1] = 17,
    }
}

/// Every length of buffer to a few bytes more than the image, with two markers, for pairs that are merged and for those of each refusal.
#[test]
fn buffers_of_every_length() {
    const EACH: usize = 40;
    let mut random = Random::new(134);
    let mut told = Told::new();
    for number in [0, 18, 25, 6, 7, 8].into_iter().flat_map(|number| [number; EACH]) {
        let both = pair_of(number, &mut random);
        for (room, marker) in (0..=ROOM).flat_map(|room| [(room, 0x00), (room, 0xFF)]) {
            let number = compare(&both[0], &both[1], room, marker);
            *told.entry(number).or_default() += 1;
        }
    }
    let buffers = 2 * (ROOM + 1) * EACH;
    let mut wanted = Told::from([18, 25, 6, 7, 8].map(|number| (number, buffers)));
    wanted.extend([(24, 2 * IMAGE * EACH), (0, 2 * (ROOM + 1 - IMAGE) * EACH)]);
    assert_eq!(told, wanted);
    compared("buffers", told.values().sum(), 6 * buffers);
}

/// The same bytes lent for both images, which is allowed since neither is written.
#[test]
fn one_image_twice() {
    let mut random = Random::new(135);
    let mut told = Told::new();
    for _ in 0..20_000 {
        let [image, _] = any_images(&mut random);
        let (at, mut out) = (image.as_ptr(), [MARKER; IMAGE]);
        // SAFETY: each pointer is to an array of this length; the mutable one overlaps no other.
        let number = unsafe { ffi::da728x_merge(at, IMAGE, at, IMAGE, out.as_mut_ptr(), IMAGE) };
        let wanted = merged(&image, &image);
        assert_eq!(number, wanted.err().unwrap_or(0), "{image:02X?}");
        assert_eq!(out, wanted.unwrap_or([MARKER; IMAGE]), "{image:02X?}");
        *told.entry(number).or_default() += 1;
    }
    println!("one image twice: {told:?}");
    assert!([0, 25, 6, 7, 8].iter().all(|number| told[number] > 500));
    compared("images merged with themselves", told.values().sum(), 20_000);
}

/// Three images give the same one in either way of pairing them, or none.
#[test]
fn three_images() {
    const TRIPLES: usize = 40_000;
    let mut random = Random::new(136);
    let (mut merges, mut growing) = (0, 0);
    for _ in 0..TRIPLES {
        let lists = [(); 3].map(|()| {
            let (snippets, sequences) = (random.within(1, 6), random.within(1, 6));
            let size = least(snippets, sequences) + random.below(24);
            sound(snippets, sequences, size, &mut random)
        });
        let [a, b, c] = lists.each_ref().map(|lists| lists.published(false).expect("an image"));
        let merge = |one: &[u8], other: &[u8]| yambelugo::merge(one, other).ok();
        let left = merge(&a, &b).and_then(|both| merge(&both, &c));
        let right = merge(&b, &c).and_then(|both| merge(&a, &both));
        assert_eq!(left, right, "{a:02X?}, {b:02X?}, {c:02X?}");
        merges += usize::from(left.is_some());
        let behind = lists[0].snippets.len() + lists[1].snippets.len();
        growing += usize::from(left.is_some() && grown(&lists[2], behind) > 0);
    }
    println!(
        "three images: {merges} merged, {growing} of them with a frame of the last that grows"
    );
    assert!((TRIPLES / 4..TRIPLES * 9 / 10).contains(&merges) && growing > TRIPLES / 20);
}

/// Every image whose points and frames are two to four bytes of these five, behind and before one of each number of snippets; and those of
/// two and three bytes in pairs.
#[test]
fn a_small_world() {
    const BYTES: [u8; 5] = [0x00, 0x01, 0x80, 0x81, 0x84];
    let [two, three, four] = [2, 3, 4].map(|length| {
        let mut world = small_world(&BYTES, length);
        world.retain(|image| plain(image).is_some());
        world
    });
    let small = [two, three].concat();
    // With r(n) ways of n bytes to be whole frames, 2, 8, 34, these are Q(n) in some sequences, 2, 12, 74; and n bytes are S(n) in some
    // snippets, 5, 50, 500.
    compared("images of a small world", small.len() + four.len(), 10 + 160 + 1_970);
    let mut told = Told::new();
    for snippets in 1..=15 {
        let points: Vec<_> = (0..snippets).map(|at| vec![16 * at, at]).collect();
        let other = laid(&points, &[vec![0x01], vec![snippets % 8, 0x80 | snippets / 8]]);
        for image in small.iter().chain(&four) {
            count(&other, image, &mut told);
            count(image, &other, &mut told);
        }
    }
    for (one, other) in small.iter().flat_map(|one| small.iter().map(move |other| (one, other))) {
        count(one, other, &mut told);
    }
    println!("small world: {told:?}");
    assert!([0, 6, 25].iter().all(|number| told[number] > 5_000));
    compared("merges of a small world", told.values().sum(), 15 * 2 * 2_140 + 170 * 170);
}

/// Two images and the merged one, written by hand.
fn check(first: &str, second: &str, wanted: &str) {
    let ([first, second], wanted) = ([first, second].map(image), image(wanted));
    assert_eq!(merged(&first, &second), Ok(wanted));
    for room in [99, 100, 101] {
        assert_eq!(compare(&first, &second, room, MARKER), if room < 100 { 24 } else { 0 });
    }
    assert_eq!(yambelugo::merge(&first, &second), Ok(wanted));
}

/// Two images that are refused with this number.
fn check_refused(first: &str, second: &str, wanted: u8) {
    let [first, second] = [first, second].map(image);
    assert_eq!(compare(&first, &second, IMAGE, MARKER), wanted, "{first:02X?}, {second:02X?}");
}

/// Of seven snippets, and of six.
const SEVEN: &str = "07 01 0A 0B 0C 0D 0E 0F 10 11 AA AA AA AA AA AA AA 07";
const SIX: &str = "06 01 09 0A 0B 0C 0D 0E 0F AA AA AA AA AA AA 06";

/// Frames of number 1, of silence, and of number 2 with the loop count 0.
const SECOND: &str = "02 01 05 06 0A 01 02 01 38 02 80";

/// Behind seven snippets 1 is 8, which takes two bytes; behind six it is 7, which takes one, and 2 is 8, whose loop count stays.
#[test]
fn numbers_that_reach_8() {
    check(
        SEVEN,
        SECOND,
        "09 02 0D 0E 0F 10 11 12 13 14 15 16 1B AA AA AA AA AA AA AA 01 02 07 00 81 38 01 81",
    );
    check(
        SIX,
        SECOND,
        "08 02 0C 0D 0E 0F 10 11 12 13 14 18 AA AA AA AA AA AA 01 02 06 07 38 00 81",
    );
    check(
        SECOND,
        SEVEN,
        "09 02 0D 0E 0F 10 11 12 13 14 15 19 1B 01 02 AA AA AA AA AA AA AA 01 38 02 80 01 81",
    );
}

/// A loop count of 0 that is given stays, and one that is absent stays absent.
#[test]
fn loop_counts() {
    let first = "02 01 05 06 07 11 22 01";
    check(first, "01 01 04 06 AA 01 80", "03 02 07 08 09 0A 0C 11 22 AA 01 03 80");
    check(first, "01 01 04 06 AA 01 01", "03 02 07 08 09 0A 0C 11 22 AA 01 03 03");
    check(first, "01 01 04 06 AA 01 F8", "03 02 07 08 09 0A 0C 11 22 AA 01 03 F8");
}

/// Silence of every form stays, with all its fields, and so do the frames of the first image.
#[test]
fn silence_stays() {
    check(
        "02 02 06 07 08 0B 11 22 02 01 96 2C",
        "01 03 06 07 09 0C AA 78 20 88 00 86 FF",
        "03 05 0A 0B 0C 0D 10 11 13 16 11 22 AA 02 01 96 2C 78 20 88 00 86 FF",
    );
}

/// A third byte stays, though it looks like another frame.
#[test]
fn third_bytes() {
    check(
        "05 01 08 09 0A 0B 0C 0D 01 02 03 04 05 05",
        "03 01 06 07 08 11 11 22 33 33 96 2C 01 84 01 02 84 81",
        "08 02 0C 0D 0E 0F 10 11 12 13 14 1D 01 02 03 04 05 11 22 33 05 30 97 2C 06 84 01 07 84 81",
    );
}

/// Seven snippets and a sequence of so many one-byte frames, and a snippet with 32 frames of it.
#[test]
fn thirty_two_frames_that_grow() {
    let points: Vec<_> = (1..=7).map(|point| vec![point]).collect();
    let second = laid(&[vec![0xAA]], &[vec![0x01; 32]]);
    for (frames, snippets, wanted) in [(15, 7, 0), (16, 7, 0), (17, 7, 8), (17, 6, 0), (32, 6, 0)] {
        let first = laid(&points[..snippets], &[vec![0x02; frames]]);
        assert_eq!(compare(&first, &second, IMAGE, MARKER), wanted, "{frames} behind {snippets}");
    }
}

/// The refusal that comes first, in images written by hand.
#[test]
fn refusals_by_hand() {
    let missing = "01 01 04 04 AA 02";
    assert_eq!(plain(&image(missing)), None);
    let fifteen = "0F 01 12 13 14 15 16 17 18 19 1A 1B 1C 1D 1E 1F 20 21 01 02 03 04 05 06 07 08 09 0A 0B 0C 0D 0E 0F 01";
    let (sound, lacking) = ("01 01 04 05 AA 01", "01 01 04 05 AA 02");
    check_refused(fifteen, lacking, 25);
    check_refused(lacking, fifteen, 25);
    check_refused(fifteen, sound, 6);
    check_refused(sound, fifteen, 6);
    // Snippet 2 of the merged image is that of the second.
    check_refused(lacking, sound, 25);
    check_refused(sound, lacking, 25);
    check_refused(missing, lacking, 18);
    check_refused(lacking, missing, 18);
    let sixteen = "01 10 13 14 15 16 17 18 19 1A 1B 1C 1D 1E 1F 20 21 22 23 AA 01 01 01 01 01 01 01 01 01 01 01 01 01 01 01 01";
    check_refused(sixteen, sound, 7);
    check_refused(sixteen, fifteen, 6);
}
