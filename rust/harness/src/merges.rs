//! Two images into one, as document 02 (CR 7) says it: which pairs are refused, and by which number; of the others the image, which the
//! published builders make; and what the sequences of an image play.

use crate::images::{Lists, plain};
use crate::random::Random;
use crate::whole::TOO_SHORT;
use crate::{GAINS, TIMEBASES};
use yambelugo::{Frame, Gain, IMAGE, Timebase};

/// The refusals, in the order in which they are tried; last comes the buffer.
pub const REFUSALS: [u8; 5] = [18, 25, 6, 7, 8];

/// The merged image of these bytes, or the number of their refusal.
pub fn merged(first: &[u8], second: &[u8]) -> Result<[u8; IMAGE], u8> {
    let [unreadable, missing, snippets, sequences, size] = REFUSALS;
    let (first, second) = plain(first).zip(plain(second)).ok_or(unreadable)?;
    if first.names_absent() || second.names_absent() {
        return Err(missing);
    }
    let limit = if first.snippets.len() + second.snippets.len() > 15 {
        Some(snippets)
    } else if first.sequences.len() + second.sequences.len() > 16 {
        Some(sequences)
    } else {
        // Both have the two counts, which the merged image has once.
        let bytes = first.size() + second.size() - 2 + grown(&second, first.snippets.len());
        (bytes > 100).then_some(size)
    };
    let built = joined(&first, &second).published(false);
    assert_eq!(built.err(), limit, "{first:02X?}, {second:02X?}");
    built
}

/// The number that is told where this buffer is lent, 24 included; writes what then is in the buffer.
pub fn put(merged: Result<[u8; IMAGE], u8>, buffer: &mut [u8]) -> u8 {
    match (merged, buffer.get_mut(..IMAGE)) {
        (Err(number), _) => number,
        (Ok(_), None) => TOO_SHORT,
        (Ok(image), Some(front)) => {
            front.copy_from_slice(&image);
            0
        }
    }
}

/// What is added again: the snippets and sequences of the first, then those of the second, whose frames name the snippets that they named.
fn joined(first: &Lists, second: &Lists) -> Lists {
    let mut lists = first.clone();
    lists.snippets.extend(second.snippets.iter().cloned());
    for frames in &second.sequences {
        let raised = frames.iter().map(|frame| {
            let by = if frame.snippet == 0 { 0 } else { first.snippets.len() };
            Frame { snippet: frame.snippet + by as u8, ..*frame }
        });
        lists.sequences.push(raised.collect());
    }
    lists
}

/// How many of these frames grow behind so many snippets: "A one-byte frame whose number reaches 8 grows to two bytes."
pub fn grown(second: &Lists, behind: usize) -> usize {
    let grows = |frame: &&Frame| {
        let one_byte = frame.loop_count.is_none() && frame.frequency_hz.is_none();
        one_byte && frame.snippet > 0 && usize::from(frame.snippet) + behind >= 8
    };
    second.sequences.iter().flatten().filter(grows).count()
}

/// What a frame plays: the points of its snippet, none in silence, and its fields; a loop count that is absent is 0.
#[derive(Debug, Clone, PartialEq)]
pub struct Played {
    pub points: Option<Vec<u8>>,
    pub gain: Gain,
    pub timebase: Timebase,
    pub loops: u8,
    pub frequency_hz: Option<u16>,
}

/// What each sequence plays that is read in these bytes; `None` if they are no image, or a frame names a snippet that is absent.
pub fn plays(image: &[u8]) -> Option<Vec<Vec<Played>>> {
    let Lists { snippets, sequences } = plain(image)?;
    let played = |frame: &Frame| {
        let Frame { snippet, gain, timebase, loop_count, frequency_hz } = *frame;
        let points = match snippet {
            0 => None,
            number => Some(snippets.get(usize::from(number) - 1)?.clone()),
        };
        Some(Played { points, gain, timebase, loops: loop_count.unwrap_or(0), frequency_hz })
    };
    sequences.iter().map(|frames| frames.iter().map(played).collect()).collect()
}

/// What two images hold.
pub type Pair = [Lists; 2];

/// Makes a pair.
pub type Generate = fn(&mut Random) -> Pair;

/// Each kind of pair.
pub const KINDS: [Generate; 6] = [
    fitting,
    about_15_snippets,
    about_16_sequences,
    about_15_and_16,
    about_100_bytes,
    with_a_missing_snippet,
];

/// The images of a pair, which the published builders make.
pub fn images(pair: &Pair) -> [[u8; IMAGE]; 2] {
    pair.each_ref().map(|lists| lists.published(false).expect("an image"))
}

/// The images of a pair of any kind.
pub fn any_images(random: &mut Random) -> [[u8; IMAGE]; 2] {
    images(&random.pick(&KINDS)(random))
}

/// How many bytes the image of so many items has at least.
pub fn least(snippets: usize, sequences: usize) -> usize {
    2 + 2 * (snippets + sequences)
}

/// So many snippets and sequences with an image of this size, or of less where they have no room for more. A frame names one of the
/// snippets, or silence.
pub fn sound(snippets: usize, sequences: usize, size: usize, random: &mut Random) -> Lists {
    let mut lists = Lists {
        snippets: (0..snippets).map(|_| vec![random.byte()]).collect(),
        sequences: (0..sequences).map(|_| vec![frame(1, snippets, random)]).collect(),
    };
    let mut rest = size.saturating_sub(least(snippets, sequences));
    let mut open: Vec<usize> = (0..snippets + sequences).collect();
    while rest > 0 && !open.is_empty() {
        let at = random.below(open.len());
        let (full, more) = match lists.snippets.get_mut(open[at]) {
            Some(points) => {
                points.push(random.byte());
                (points.len() == 16, 1)
            }
            None => {
                let (frames, bytes) =
                    (&mut lists.sequences[open[at] - snippets], random.within(1, rest.min(3)));
                frames.push(frame(bytes, snippets, random));
                (frames.len() == 32, bytes)
            }
        };
        rest -= more;
        if full {
            open.swap_remove(at);
        }
    }
    lists
}

/// A frame of so many bytes, as it is read from an image of so many snippets.
fn frame(bytes: usize, snippets: usize, random: &mut Random) -> Frame {
    // A number of 8 or more takes two bytes.
    let most = if bytes == 1 { snippets.min(7) } else { snippets };
    Frame {
        snippet: if random.chance(15) { 0 } else { random.within(1, most) as u8 },
        gain: random.pick(&GAINS),
        timebase: random.pick(&TIMEBASES),
        loop_count: (bytes > 1).then(|| if random.chance(40) { 0 } else { random.below(16) as u8 }),
        frequency_hz: (bytes > 2).then(|| random.below(512) as u16),
    }
}

/// Counts that are allowed together, and mostly the size too.
fn fitting(random: &mut Random) -> Pair {
    let first = random.within(1, 14);
    let (snippets, sequences) = ([first, random.within(1, 15 - first)], [0; 2]);
    let sequences = sequences.map(|_| random.within(1, 5));
    let least = [0, 1].map(|at| least(snippets[at], sequences[at]));
    let more = random.below(102 - least[0] - least[1]);
    let to_first = random.within(0, more);
    let more = [to_first, more - to_first];
    [0, 1].map(|at| sound(snippets[at], sequences[at], least[at] + more[at], random))
}

/// A count of which the two have so many together, and each up to a limit.
fn shared(together: usize, limit: usize, random: &mut Random) -> [usize; 2] {
    let first = random.within(together.saturating_sub(limit).max(1), limit.min(together - 1));
    [first, together - first]
}

/// 13 to 18 snippets together.
fn about_15_snippets(random: &mut Random) -> Pair {
    let snippets = shared(random.within(13, 18), 15, random);
    snippets.map(|snippets| {
        let sequences = random.within(1, 3);
        sound(snippets, sequences, least(snippets, sequences) + random.below(8), random)
    })
}

/// 14 to 19 sequences together, mostly of one frame, and few snippets.
fn about_16_sequences(random: &mut Random) -> Pair {
    let sequences = shared(random.within(14, 19), 16, random);
    sequences.map(|sequences| {
        let snippets = random.within(1, 4);
        sound(snippets, sequences, least(snippets, sequences) + random.below(8), random)
    })
}

/// 13 to 18 snippets and 14 to 19 sequences together.
fn about_15_and_16(random: &mut Random) -> Pair {
    let snippets = shared(random.within(13, 18), 15, random);
    let sequences = shared(random.within(14, 19), 16, random);
    [0, 1].map(|at| {
        let size = least(snippets[at], sequences[at]) + random.below(4);
        sound(snippets[at], sequences[at], size, random)
    })
}

/// 97 to 103 bytes together.
fn about_100_bytes(random: &mut Random) -> Pair {
    let snippets = shared(random.within(2, 15), 14, random);
    let sequences = [random.within(1, 4), random.within(1, 4)];
    let least = [0, 1].map(|at| least(snippets[at], sequences[at]));
    let second = sound(snippets[1], sequences[1], random.within(least[1], 60), random);
    let others = second.size() + grown(&second, snippets[0]) - 2;
    let size = random.within(97, 103).saturating_sub(others).clamp(least[0], 100);
    let first = sound(snippets[0], sequences[0], size, random);
    [first, second]
}

/// A frame of one image, or one of each, names a snippet that its own image lacks, whatever the other has.
fn with_a_missing_snippet(random: &mut Random) -> Pair {
    loop {
        let mut pair = random.pick(&KINDS[..5])(random);
        let sides = random.pick(&[[true, false], [false, true], [true, true]]);
        let of_each = pair.iter_mut().zip(sides).filter_map(|(lists, side)| side.then_some(lists));
        of_each.for_each(|lists| miss(lists, random));
        let built = pair.iter().all(|lists| lists.published(false).is_ok());
        if built && pair.iter().any(Lists::names_absent) {
            return pair;
        }
    }
}

/// Has a frame name a snippet that is absent, if there are fewer than 15; often the next one.
pub fn miss(lists: &mut Lists, random: &mut Random) {
    let next = lists.snippets.len() + 1;
    if next > 15 {
        return;
    }
    let number = if random.chance(50) { next } else { random.within(next, 15) };
    let at = random.below(lists.sequences.len());
    let sequence = &mut lists.sequences[at];
    let frame = random.below(sequence.len());
    sequence[frame].snippet = number as u8;
    if number > 7 {
        sequence[frame].loop_count.get_or_insert(0);
    }
}
