//! Writes the stored sample of the published Rust's answers, `crates/vectors/stdin`, or, with the
//! argument `told`, what the program `vectors` has to say of it, `crates/vectors/stdout`.
//!
//! No expected value is of the proved library. Answers, bytes and exchanges are the published
//! Rust's, and the settings of a register's value are those for which its `configure` writes it
//! (`harness::ranges`); the numbers of refusals, the low two bits of TRIM4, a trigger's mode bit, the layout of records, the count of
//! sequences in them and what lies outside the comparison are document 01's and 02's; what an image holds is told by the plain reader,
//! and the Rust has to make the same image of that; its page is the plain printer's (`harness::pages`); which images are merged is
//! document 02's (`harness::merges`), and the Rust makes the image of their items; what a chip holds is that of `harness::chip`, to which
//! the published Rust uploads.

use da728x::waveform::PwlPoint;
use harness::bus::{Script, Wire, kind};
use harness::chip::{Board, Chip, Cut, Plan};
use harness::driver::{Operation, Outcome, Published, Value, record_bytes, revision};
use harness::generate::{add_frames, any_call, any_frame_call, any_point, frame, good_point};
use harness::generate::{list, with_noise};
use harness::images::{Lists, added, frame_word, hundred, plain};
use harness::lists::MARKER;
use harness::merges;
use harness::oracle::{Builders, NOT_BEGUN, number, point};
use harness::pages::{self, page};
use harness::patterns;
use harness::random::Random;
use harness::ranges::{PLACES, Sources};
use harness::raw::{LISTS, result_word};
use harness::registers::{ADDRESSES, Field, GROUPS};
use harness::settings::{DRIVINGS, MEMORY_TIMEBASES, Settings, VARIANTS, near};
use harness::text;
use harness::uploads::{self, Program, Upload};
use harness::whole::Judged;
use std::fmt::Write;
use yambelugo::{Call, DrivingMode, OperationMode, Reply, Variant};

/// Each kind of case: its number, the name of its C function without `da728x_`, or of what it is in
/// two words, and how many there are. A kind's cases depend on nothing but its number and how many they are.
const KINDS: [(u8, &str, usize); 46] = [
    (0x01, "point", 300),
    (0x02, "point_is_ramp", 256),
    (0x03, "point_timebases", 256),
    (0x04, "point_amplitude", 256),
    (0x05, "snippet", 240),
    (0x06, "frame", 240),
    (0x07, "sequence", 200),
    (0x08, "current_len", 160),
    (0x14, "answers", 200),
    (0x15, "assemble_strict", 160),
    (0x09, "assemble", 80),
    (0x0A, "read_counts, read_point, read_frame", 160),
    (0x16, "read_lists", 80),
    (0x1A, "page", 60),
    (0x1B, "merge", 120),
    (0x0B, "register_addresses", ADDRESS_ROOMS.len()),
    (0x0C, "read_interrupts", 40),
    (0x0D, "read_actuator", 40),
    (0x0E, "read_control", 40),
    (0x0F, "read_trigger", 40),
    (0x10, "replace_interrupts", 50),
    (0x11, "replace_actuator", 50),
    (0x12, "replace_control", 50),
    (0x13, "replace_trigger", 50),
    (0x20, "new", 150),
    (0x21, "configure", 500),
    (0x22, "get_chip_rev", 60),
    (0x23, "get_events", 80),
    (0x24, "get_status", 60),
    (0x25, "set_frequency", 160),
    (0x26, "set_override_value", 120),
    (0x27, "set_timebase", 80),
    (0x28, "enable", 80),
    (0x29, "disable", 80),
    (0x2A, "set_custom_drive_waveform", 60),
    (0x2B, "unlock_waveform_memory", 40),
    (0x2C, "lock_waveform_memory", 40),
    (0x2D, "upload_waveform_memory", 80),
    (0x2E, "read_waveform_memory", 80),
    (0x2F, "select_sequence", 120),
    (0x30, "start_sequence", 80),
    (0x31, "play_sequence", 120),
    (0x17, "voltage_settings", 60),
    (0x18, "current_settings", 60),
    (0x19, "frequency_settings", 60),
    (0x32, "cut uploads", 120),
];

/// The images whose pages are printed first: how many points each snippet has, and of each sequence how many frames of how many bytes.
/// The longest page, the shortest, most snippets and sequences, lines without a blank behind them, and a hundred bytes of long frames.
const SHAPES: [(&[usize], &[(usize, usize)]); 5] = [
    (&[1], &[(32, 1), (32, 1), (29, 1)]),
    (&[1], &[(1, 1)]),
    (&[1; 15], &[(1, 1); 16]),
    (&[16; 5], &[(4, 3)]),
    (&[1], &[(32, 2), (10, 3)]),
];

/// The images that are merged first: how many snippets and sequences each of two has, and its size. As many as are allowed, and more by
/// one; too many of both; too many sequences in too many bytes.
const PAIRS: [[(usize, usize, usize); 2]; 8] = [
    [(7, 1, 20), (8, 1, 30)],
    [(8, 1, 30), (8, 1, 20)],
    [(8, 9, 36), (8, 8, 34)],
    [(1, 8, 20), (1, 8, 30)],
    [(1, 9, 22), (1, 8, 20)],
    [(1, 9, 51), (1, 8, 52)],
    [(2, 2, 48), (2, 2, 54)],
    [(2, 2, 49), (2, 2, 54)],
];

/// What is told of the others in turn, where there is room. In every other round one of the second's frames grows, if both can be read.
const MERGES: [u8; 10] = [0, 18, 0, 25, 0, 6, 0, 7, 0, 8];

/// The lengths of buffer that the addresses are copied into.
const ADDRESS_ROOMS: [usize; 8] = [0, 1, 2, 21, 41, 42, 43, 50];

/// The voltage bytes that are asked for first.
const VOLTAGES: [u8; 12] = [0, 1, 2, 105, 106, 107, 127, 128, 149, 253, 254, 255];

/// The period words that are asked for first, each when tracking and when not: the ends of both
/// bands with their neighbours, words of one frequency and of two, the ends of 15 and of 16 bits.
const WORDS: [u16; 21] = [
    0, 1, 731, 732, 733, 734, 735, 837, 2499, 2500, 2501, 4411, 14999, 15000, 15001, 29999, 30000,
    30001, 32767, 32768, 65535,
];

/// The lengths of image that are uploaded in turn, before others: the ends of each chunk with their
/// neighbours, and more that have four chunks.
const LENGTHS: [usize; 16] = [0, 1, 31, 32, 33, 63, 64, 65, 96, 97, 98, 99, 100, 100, 100, 100];

/// The longest line that the program takes.
const LONGEST: usize = 8192;

const HEAD: &str = "\
Answers of the published Rust to random calls near the limits, refused ones among them; 24 where a
buffer is too short for its item, its image, its lists or its page; its InvalidValue as 21, 22 or 23
where document 02 tells it apart, the low two bits of TRIM4 as document 01 has them, bit 2 of a GPI
register as its trigger's mode, custom drive points written, where the Rust has no body for it, and
28 for the number of a sequence that is not loaded. The settings of a register's value are those for
which the Rust's configure, run for every setting, writes it, less those that document 01 refuses.
The page of an image, which the Rust does not print, is the harness's, after document 02 (CR 1); so is
which images are merged (CR 7), and the merged image is what the Rust makes of the items of both.
Written by `scripts/remake-vectors` (rust/harness/src/bin/sample.rs), never by hand; read by the
program `vectors`. The Rust is da728x-rs, revision REVISION, in rust/oracle, with these sums:
SUMS
A line that begins with # says nothing; one that begins with = names the kind of the cases below it;
each other line is a case: fields of hexadecimal bytes between single spaces, - for no bytes. The
first field is the number of the kind. Every lent byte is A5 before, and the bytes lent are as many
as the field has that shows them after. Numbers have the most significant byte first. Functions,
layouts and words are those of include/da728x.h.

Kinds 01 to 09 and 0B to 1A: the numbers among the arguments, the calls or the image, the word
answered, the bytes lent.
Kind 1B: the first image, the second, the word answered, the bytes lent.
Kind 0A: the image, the word of read_counts, then three bytes of read_point for each point of snippet
0, of 1 and so on up to the first snippet that there is not, each with the answer past its last
point; then eight bytes of read_frame for each frame likewise.
Kinds 20 to 31, sessions: the record, the numbers among the arguments, the settings or the image, the
number of the refusal or 00, the exchanges, the word that the last answer is told, the read buffer,
the record after it, the word of result. The record is lent with the start and with each answer;
kind 20 has none at the start, and 38 bytes A5 are lent with its answer. A record after it of no
bytes says that the one lent is as before. An exchange is the chip address; how many bytes are
sent, plus 80 if a byte is wanted, plus 40 if the bus fails; the bytes sent; the byte read or the
bus's code, if there is one.
Kind 32, runs of one upload to one chip, cut or not, the last one whole: the record, the lock choice,
the image, then whether the chip's memory is unlocked (01 or 00) and its hundred bytes; then a field
of each run: how many exchanges are made before it ends; 00 if they are all, 01 if it is dropped, 02
if the bus fails; how many bytes of one exchange more reach the chip, the register's among them; the
bus's code; whether the memory is unlocked then, and its bytes. The record and the session's bytes are
lent to one run after the other. The chip is the harness's, after document 02 (CR 14).
";

fn main() {
    let told = std::env::args().nth(1).is_some_and(|it| it == "told");
    print!("{}", if told { words() } else { sample() });
}

/// What the program has to say.
fn words() -> String {
    let mut text = String::new();
    for (_, name, cases) in KINDS {
        writeln!(text, "{name}: {cases} of {cases} agree").unwrap();
    }
    let all: usize = KINDS.iter().map(|(_, _, cases)| cases).sum();
    text + &format!("all: {all} of {all} agree\n")
}

fn sample() -> String {
    let (sums, about) = (text("rust/oracle/SHA256SUMS"), text("rust/oracle/README.md"));
    let (revision, _) = about.split_once("revision ").unwrap().1.split_once(',').unwrap();
    let head = HEAD.replace("REVISION", revision).replace("SUMS\n", &format!("{sums}\n"));
    let mut text = String::new();
    for line in head.lines() {
        writeln!(text, "{}", format!("# {line}").trim_end()).unwrap();
    }
    writeln!(text, "#\n# The kinds, and how many cases:").unwrap();
    for (kind, name, cases) in KINDS {
        writeln!(text, "#   {kind:02X} {name}: {cases}").unwrap();
    }
    for (kind, name, cases) in KINDS {
        writeln!(text, "= {name}").unwrap();
        let mut random = Random::new(0xDA72_8000 + u64::from(kind));
        for at in 0..cases {
            let line = line(kind, &fields(kind, at, &mut random));
            assert!(line.len() <= LONGEST, "{line}");
            writeln!(text, "{line}").unwrap();
        }
    }
    text
}

fn line(kind: u8, fields: &[Vec<u8>]) -> String {
    let mut line = format!("{kind:02X}");
    for field in fields {
        line.push(' ');
        match field.as_slice() {
            [] => line.push('-'),
            bytes => bytes.iter().for_each(|byte| write!(line, "{byte:02X}").unwrap()),
        }
    }
    line
}

/// The fields of the case `at` of its kind, after the number.
fn fields(kind: u8, at: usize, random: &mut Random) -> Vec<Vec<u8>> {
    match kind {
        0x01 => made_point(random),
        0x02..=0x04 => point_field(kind, at as u8),
        0x05..=0x08 => item(kind, random),
        0x14 => answers(random),
        0x15 => strictly(random),
        0x09 => assembled(random),
        0x0A => read(at, random),
        0x16 => listed(at, random),
        0x1A => printed(at, random),
        0x1B => merged(at, random),
        0x0B => copied(&[], ADDRESSES.iter().map(|it| it.1).collect(), ADDRESS_ROOMS[at]),
        0x0C..=0x13 => register_fields(kind, random),
        0x17..=0x19 => settings_of(kind, at, random),
        0x20 => made(random),
        0x32 => cut(at, random),
        _ => operated(kind, random),
    }
}

/// A number without leading zeros.
fn bytes_of(number: u64) -> Vec<u8> {
    let zeros = number.leading_zeros() as usize / 8;
    number.to_be_bytes()[zeros.min(7)..].to_vec()
}

fn lent(room: usize) -> Vec<u8> {
    vec![MARKER; room]
}

// ---- points

fn made_point(random: &mut Random) -> Vec<Vec<u8>> {
    let ramp = random.pick(&[0, 0, 1, 1, 2, 255]);
    let timebases = random.near(&[0, 1, 2, 4, 5, 7, 8, 9, 255]);
    let amplitude = random.near(&[0, 1, 8, 14, 15, 16, 255]);
    let make = if ramp == 0 { PwlPoint::step } else { PwlPoint::ramp };
    let word = match make(timebases, amplitude) {
        Ok(point) => u64::from(point.as_byte()),
        Err(error) => 256 * u64::from(number(&error)),
    };
    vec![vec![ramp, timebases, amplitude], vec![], bytes_of(word), vec![]]
}

fn point_field(kind: u8, byte: u8) -> Vec<Vec<u8>> {
    let point = point(byte);
    let field = match kind {
        0x02 => point.is_ramp().into(),
        0x03 => point.timebases(),
        _ => point.amplitude(),
    };
    vec![vec![byte], vec![], vec![field], vec![]]
}

// ---- builder calls

/// A snippet, a frame, a sequence or its current length, after a list of calls.
fn item(kind: u8, random: &mut Random) -> Vec<Vec<u8>> {
    let calls = match kind {
        0x05 => snippet_calls(random),
        0x06 => frame_calls(random),
        _ => sequence_calls(random),
    };
    let calls = with_noise(calls, random);
    let list = list(&calls, random);
    let mut builders = Builders::default();
    builders.run(&calls);
    let refused = |error| number(&error);
    let encode = |out: &mut [u8]| match kind {
        0x05 => builders.snippet.build().map(|it| it.encode_into(out)).map_err(refused),
        0x06 => match builders.frame.clone() {
            Some(frame) => frame.build().map(|it| it.encode_into(out)).map_err(refused),
            None => Err(NOT_BEGUN),
        },
        0x07 => builders.sequence.build().map(|it| it.encode_into(out)).map_err(refused),
        _ => Ok(builders.sequence.current_len()),
    };
    let whole = encode(&mut [0; 100]);
    let mut out = match kind {
        0x08 => vec![],
        _ => {
            let longest = whole.unwrap_or(2);
            lent(random.pick(&[longest, longest, longest + 2, longest - 1, 0]))
        }
    };
    let told = match kind {
        0x08 => whole,
        _ => Judged::default().wanted(whole, &mut out, encode),
    };
    let word = match told {
        Ok(length) => length as u64,
        Err(number) => 65536 * u64::from(number),
    };
    vec![vec![], list, bytes_of(word), out]
}

/// Calls on a frame, which is mostly begun first.
fn frame_calls(random: &mut Random) -> Vec<Call> {
    let begun = random.chance(75).then(|| Call::FrameNew(random.within(1, 15) as u8));
    let more = random.below(9);
    begun.into_iter().chain((0..more).map(|_| frame_call(random))).collect()
}

fn snippet_calls(random: &mut Random) -> Vec<Call> {
    let length = if random.chance(15) { random.within(14, 19) } else { random.below(8) };
    let mut call = || match random.below(20) {
        0 => Call::SnippetNew,
        1 => any_call(random),
        2..8 => any_point(random),
        _ => good_point(random),
    };
    (0..length).map(|_| call()).collect()
}

fn frame_call(random: &mut Random) -> Call {
    if random.chance(8) { any_call(random) } else { any_frame_call(random) }
}

fn sequence_calls(random: &mut Random) -> Vec<Call> {
    let mut calls = Vec::new();
    if random.chance(15) {
        // About 32 frames or 96 bytes.
        calls.extend(add_frames(random.within(31, 34), random.within(1, 3), random));
    }
    for _ in 0..random.below(5) {
        match random.below(10) {
            0 => calls.push(Call::SequenceNew),
            1 => calls.push(any_call(random)),
            _ => {
                calls.extend(frame(random.within(1, 3), random));
                calls.push(Call::AddFrame);
            }
        }
    }
    calls
}

/// The answers to any calls: mostly as many bytes are lent as there are calls.
fn answers(random: &mut Random) -> Vec<Vec<u8>> {
    let calls = match random.below(5) {
        0 => snippet_calls(random),
        1 => frame_calls(random),
        2 => sequence_calls(random),
        3 => patterns::mixed(random),
        _ => patterns::small(random),
    };
    let calls = with_noise(calls, random);
    let list = list(&calls, random);
    let answered = Builders::default().run(&calls);
    let all = answered.len();
    let mut answers = lent(random.pick(&[all, all, all, all + 1, all.saturating_sub(1), 0]));
    let copied = all.min(answers.len());
    answers[..copied].copy_from_slice(&answered[..copied]);
    vec![vec![], list, bytes_of(all as u64), answers]
}

// ---- images

fn pattern(random: &mut Random) -> Vec<Option<Call>> {
    let generate = match random.below(20) {
        0 => patterns::counts,
        1..4 => patterns::sizes,
        4 => patterns::mixed,
        _ => patterns::small,
    };
    with_noise(generate(random), random)
}

/// Makes the calls; what each answered, and the image.
fn image_of(calls: &[Option<Call>]) -> (Vec<u8>, Result<[u8; 100], u8>) {
    let mut builders = Builders::default();
    let answered = builders.run(calls);
    let built = builders.memory.build();
    (answered, built.map(|memory| hundred(&memory)).map_err(|error| number(&error)))
}

fn assembled(random: &mut Random) -> Vec<Vec<u8>> {
    let calls = pattern(random);
    let list = list(&calls, random);
    let (_, built) = image_of(&calls);
    let (told, image) = lent_image(built, random);
    vec![vec![], list, vec![told], image]
}

/// Half of the lists are without a refused call, most of the others with one.
fn strictly(random: &mut Random) -> Vec<Vec<u8>> {
    let mut calls = pattern(random);
    if random.chance(80) {
        let some = calls.into_iter().flatten().collect::<Vec<_>>();
        calls = patterns::mended(&some).into_iter().map(Some).collect();
        if random.chance(40) {
            let other = random.chance(70).then(|| any_call(random));
            calls.insert(random.within(0, calls.len()), other);
        }
    }
    let list = list(&calls, random);
    let (answered, built) = image_of(&calls);
    let refused = answered.iter().position(|answer| *answer != 0);
    let (told, image) = lent_image(refused.map_or(built, |at| Err(answered[at])), random);
    let place = refused.map_or(0, |at| at + 1);
    vec![vec![], list, bytes_of(u64::from(told) + 256 * place as u64), image]
}

/// The number told where bytes are lent for an image, or for its refusal, and those bytes.
fn lent_image(image: Result<[u8; 100], u8>, random: &mut Random) -> (u8, Vec<u8>) {
    let room = match image {
        Ok(_) => random.pick(&[100, 100, 100, 101, 99, 20, 0]),
        Err(_) => random.pick(&[0, 4]),
    };
    let mut out = lent(room);
    let image = image.as_ref().map(|it| it.as_slice()).map_err(|it| *it);
    (Judged::default().wanted_bytes(image, &mut out).err().unwrap_or(0), out)
}

/// An image that the Rust builds; what was added is what is read in it.
fn built(random: &mut Random) -> [u8; 100] {
    loop {
        let calls = pattern(random);
        if let (answered, Ok(image)) = image_of(&calls) {
            let lists = plain(&image).expect("an image");
            assert!(added(&calls, &answered).agree(&lists), "{image:02X?}");
            return image;
        }
    }
}

/// Bytes that are an image, or nearly: one of four cases is as built, most have a byte or two
/// changed, some are cut, padded or random.
fn nearly(at: usize, random: &mut Random) -> Vec<u8> {
    let mut image = built(random);
    match at % 8 {
        0 | 1 => {}
        2..6 => change(&mut image, random),
        6 => (0..2).for_each(|_| change(&mut image, random)),
        _ if random.chance(50) => {
            let mut bytes = image.to_vec();
            bytes.resize(random.pick(&[0, 1, 2, 99, 101, 130]), 0);
            return bytes;
        }
        _ => image[random.within(2, 20)..].fill_with(|| random.byte()),
    }
    image.to_vec()
}

/// Changes a byte, often of the header.
fn change(image: &mut [u8; 100], random: &mut Random) {
    let header = 2 + usize::from(image[0].min(15)) + usize::from(image[1].min(16));
    let last = usize::from(image[header - 1]).clamp(header, 98);
    let at = match random.below(20) {
        0..7 => random.below(header),
        7..18 => random.within(header, last + 1),
        _ => random.below(100),
    };
    let byte = image[at];
    image[at] = match random.below(4) {
        0 => byte.wrapping_add(1),
        1 => byte.wrapping_sub(1),
        2 => byte ^ 1 << random.below(8),
        _ => random.pick(&[0, 1, 15, 16, 17, 99, 100, 130, 255]),
    };
}

/// What these bytes hold; the Rust makes the same bytes of it.
fn held(image: &[u8]) -> Option<Lists> {
    let lists = plain(image)?;
    assert_eq!(lists.published(false).unwrap().as_slice(), image, "{image:02X?}");
    Some(lists)
}

/// How many snippets and sequences there are, in one word, or its refusal.
fn counts(lists: &Option<Lists>) -> Vec<u8> {
    let counts = lists.as_ref().map(|it| 256 * it.snippets.len() + it.sequences.len());
    bytes_of(counts.unwrap_or(18 << 16) as u64)
}

fn read(at: usize, random: &mut Random) -> Vec<Vec<u8>> {
    let image = nearly(at, random);
    let lists = held(&image);
    let word = counts(&lists);
    let Some(Lists { snippets, sequences }) = lists else {
        let refused = |zeros| [vec![18], vec![0; zeros]].concat();
        return vec![image, word, refused(2), refused(7)];
    };
    let points = walked(&snippets, 3, 256, |byte| (*byte).into());
    vec![image, word, points, walked(&sequences, 8, 1 << 48, frame_word)]
}

fn listed(at: usize, random: &mut Random) -> Vec<Vec<u8>> {
    let image = nearly(at, random);
    let lists = held(&image);
    let mut out = lent(random.pick(&[LISTS, LISTS, LISTS, LISTS + 1, LISTS - 1, 110, 0]));
    let Some(laid) = lists.as_ref().map(Lists::laid) else {
        out.truncate(4);
        return vec![vec![], image, counts(&lists), out];
    };
    let word = match Judged::default().wanted_bytes(Ok(&laid), &mut out) {
        Ok(_) => counts(&lists),
        Err(number) => bytes_of(u64::from(number) << 16),
    };
    vec![vec![], image, word, out]
}

/// The page of an image: of each shape where it has room and where a byte is missing, then of images and of bytes that are nearly one.
fn printed(at: usize, random: &mut Random) -> Vec<Vec<u8>> {
    let image = match SHAPES.get(at / 2) {
        Some((snippets, sequences)) => shaped(snippets, sequences, random),
        None => nearly(at, random),
    };
    let text = held(&image).and_then(|_| page(&image));
    let Some(text) = text.as_ref().map(String::as_bytes) else {
        let room = random.pick(&[pages::LINE + 1, pages::SHORTEST, 4, 0]);
        return vec![vec![], image, bytes_of(18 << 16), lent(room)];
    };
    let all = text.len();
    let room = match at / 2 < SHAPES.len() {
        true => all - at % 2,
        false => random.pick(&[all, all, all, all + 1, all + 40, all - 1, pages::LINE + 1, 0]),
    };
    let mut out = lent(room);
    let word = match Judged::default().wanted_bytes(Ok(text), &mut out) {
        Ok(length) => length,
        Err(number) => usize::from(number) << 16,
    };
    vec![vec![], image, bytes_of(word as u64), out]
}

/// Two images into one: of `PAIRS`, then of pairs of which is told what `MERGES` has in its turn; into a buffer with room, or without.
fn merged(at: usize, random: &mut Random) -> Vec<Vec<u8>> {
    let wanted = (MERGES[at % MERGES.len()], at / MERGES.len() % 2 == 1);
    let ([first, second], merged) = loop {
        let images = match PAIRS.get(at) {
            Some(pair) => sound(pair, random),
            None => pair(random),
        };
        let merged = merges::merged(&images[0], &images[1]);
        let told = merged.err().unwrap_or(0);
        let grows = match images.each_ref().map(|image| held(image)) {
            [Some(first), Some(second)] => merges::grown(&second, first.snippets.len()) > 0,
            _ => wanted.1,
        };
        if at < PAIRS.len() || (told, grows) == wanted {
            break (images, merged);
        }
    };
    let mut out = lent(match merged {
        Ok(_) if at < PAIRS.len() => 100,
        Ok(_) => random.pick(&[100, 100, 100, 100, 101, 130, 99, 20, 0]),
        Err(_) => random.pick(&[100, 100, 99, 4, 0]),
    });
    let told = merges::put(merged, &mut out);
    vec![first, second, vec![told], out]
}

/// Two images of these counts and sizes.
fn sound(pair: &[(usize, usize, usize); 2], random: &mut Random) -> [Vec<u8>; 2] {
    let mut lists = |&(snippets, sequences, size)| merges::sound(snippets, sequences, size, random);
    merges::images(&pair.each_ref().map(&mut lists)).map(Vec::from)
}

/// Two images, mostly near the limits; of some pairs one or both are nearly an image, or one is the other.
fn pair(random: &mut Random) -> [Vec<u8>; 2] {
    let mut pair = merges::any_images(random).map(Vec::from);
    let side = random.below(2);
    match random.below(10) {
        0 | 1 => pair = [(); 2].map(|()| nearly(random.below(8), random)),
        2 | 3 => pair[side] = nearly(random.below(8), random),
        4 => pair[side] = pair[1 - side].clone(),
        _ => {}
    }
    pair
}

/// An image of this shape, with random points and frames.
fn shaped(snippets: &[usize], sequences: &[(usize, usize)], random: &mut Random) -> Vec<u8> {
    let mut image = vec![snippets.len() as u8, sequences.len() as u8];
    let (mut data, mut end) = (Vec::new(), 1 + snippets.len() + sequences.len());
    for points in snippets {
        data.extend((0..*points).map(|_| random.byte()));
        end += points;
        image.push(end as u8);
    }
    for (frames, bytes) in sequences {
        for _ in 0..*frames {
            let second =
                if *bytes == 3 { 0x84 | random.byte() } else { 0x80 | random.byte() & 0x79 };
            data.extend(&[random.byte() & 0x7F, second, random.byte()][..*bytes]);
        }
        end += frames * bytes;
        image.push(end as u8);
    }
    image.extend(data);
    image.resize(100, 0);
    image
}

/// The word of every item in so many bytes, with that of no item behind each list and behind all.
fn walked<T>(lists: &[Vec<T>], width: usize, none: u64, word: fn(&T) -> u64) -> Vec<u8> {
    let wide = |word: u64| word.to_be_bytes()[8 - width..].to_vec();
    let mut bytes = Vec::new();
    for list in lists {
        bytes.extend(list.iter().flat_map(|item| wide(word(item))));
        bytes.extend(wide(none));
    }
    bytes.extend(wide(none));
    bytes
}

// ---- registers

/// A list of bytes, copied into so many.
fn copied(arguments: &[u8], list: Vec<u8>, room: usize) -> Vec<Vec<u8>> {
    let mut out = lent(room);
    let copied = list.len().min(room);
    out[..copied].copy_from_slice(&list[..copied]);
    vec![arguments.to_vec(), vec![], bytes_of(copied as u64), out]
}

fn register_fields(kind: u8, random: &mut Random) -> Vec<Vec<u8>> {
    let group = usize::from(kind - 0x0C) % 4;
    let fields: Vec<&Field> = GROUPS[group].1.iter().flat_map(|(_, fields)| *fields).collect();
    let byte = random.byte();
    let (arguments, list): (_, Vec<u8>) = match kind {
        ..0x10 => (vec![byte], fields.iter().map(|(_, read, _)| read(byte)).collect()),
        _ => {
            let value = random.near(&[0, 1, 2, 7, 8, 15, 16, 127, 128, 254, 255]);
            let with = fields.iter().filter_map(|(_, _, with)| *with);
            (vec![byte, value], with.map(|with| with(byte, value)).collect())
        }
    };
    let all = list.len();
    copied(&arguments, list, random.pick(&[all, all, all, all + 1, all - 1, 1, 0]))
}

// ---- from registers back to settings

/// The settings of a voltage byte, of an IMAX, or of a period word under a driving mode's code.
fn settings_of(kind: u8, at: usize, random: &mut Random) -> Vec<Vec<u8>> {
    let sources = Sources::published();
    let (arguments, settings) = match kind {
        0x17 => {
            let byte = VOLTAGES.get(at).copied().unwrap_or_else(|| random.byte());
            let [nominal, absolute] = PLACES.map(|place| sources.voltage(place, byte));
            assert_eq!(nominal, absolute, "{byte:02X}");
            (vec![byte], nominal)
        }
        0x18 => {
            let mut first = (0..=40).chain([63, 64, 127, 128, 254, 255]);
            let imax = first.nth(at).unwrap_or_else(|| random.within(41, 255) as u8);
            (vec![imax], sources.current(imax))
        }
        _ => {
            let code = if at.is_multiple_of(2) { 0 } else { random.pick(&[1, 2, 3, 255]) };
            let mode = DRIVINGS[usize::from(code).min(2)];
            let word = match WORDS.get(at / 2) {
                Some(word) => *word,
                None => near_period(sources, mode, random),
            };
            ([&word.to_be_bytes()[..], &[code]].concat(), sources.frequency(word, mode))
        }
    };
    let word = settings.map_or(0, |it| u64::from(*it.start()) + 65536 * u64::from(*it.end()));
    vec![arguments, vec![], bytes_of(word), vec![]]
}

/// The word of an accepted frequency, or one beside it.
fn near_period(sources: &Sources, mode: DrivingMode, random: &mut Random) -> u16 {
    let frequency = match mode {
        DrivingMode::FREQUENCY_TRACK => random.within(50, 300),
        _ => random.within(25, 1024),
    };
    let gives = |word: &u16| {
        sources.frequency(*word, mode).is_some_and(|it| it.contains(&(frequency as u16)))
    };
    let word = (0..=32767).find(gives).expect("the word of an accepted frequency");
    random.pick(&[word - 1, word, word, word + 1])
}

// ---- sessions

/// A bus with random reads, on which an exchange up to `last` may fail.
fn script(random: &mut Random, last: usize) -> Script {
    let reads = (0..20).map(|_| random.byte()).collect();
    Script { reads, fails: random.chance(30).then(|| (random.within(0, last), random.byte())) }
}

/// The code of a variant.
fn code(variant: Variant) -> u8 {
    VARIANTS.iter().position(|it| *it == variant).unwrap() as u8
}

/// The record of a driver: what it has stored, and the count of sequences.
fn record(driver: &Published) -> Vec<u8> {
    let head = [driver.address, code(driver.variant)];
    let (flag, settings) = match &driver.stored {
        Some(it) => (2, settings_bytes(it)),
        None => (1, vec![0; 34]),
    };
    [&head[..], &[flag], &settings, &[driver.loaded.sequences()]].concat()
}

/// The bytes of settings, from the published types.
fn settings_bytes(settings: &Settings) -> Vec<u8> {
    let (actuator, device) = settings.published();
    let (kp, ki) = actuator.pid_Kp_Ki.unwrap_or((0, 0));
    let mut bytes = vec![actuator.actuator_type as u8];
    for word in [
        actuator.nominal_max_mV,
        actuator.absolute_max_mV,
        actuator.max_current_mA,
        actuator.impedance_mOhm,
        actuator.inductance_uH,
        actuator.frequency_Hz,
    ] {
        bytes.extend(word.to_le_bytes());
    }
    bytes.push(actuator.pid_Kp_Ki.is_some().into());
    bytes.extend([kp.to_le_bytes(), ki.to_le_bytes()].concat());
    bytes.extend([device.operation_mode as u8, device.driving_mode as u8]);
    for trigger in device.gpi_triggers {
        bytes.extend(
            trigger.map_or([0; 4], |it| [1, it.sequence_id, it.polarity as u8, it.mode as u8]),
        );
    }
    bytes.extend([device.acceleration, device.rapid_stop].map(u8::from));
    bytes
}

fn made(random: &mut Random) -> Vec<Vec<u8>> {
    let (address, variant) = (random.byte(), random.pick(&VARIANTS));
    let mut script = script(random, 1);
    script.reads[0] = match random.below(10) {
        0..5 => revision(variant),
        5..8 => revision(random.pick(&VARIANTS)),
        8 => revision(variant) ^ 1 << random.below(8),
        _ => random.byte(),
    };
    let (outcome, driver) = Published::new(address, variant, &script);
    let after = driver.map(|it| record(&it));
    let input = vec![vec![], vec![address, code(variant)], vec![]];
    [input, session(&outcome, &script, lent(1), after)].concat()
}

/// An operation on a driver with settings or without, and with sequences or without.
fn operated(kind: u8, random: &mut Random) -> Vec<Vec<u8>> {
    let (address, variant) = (random.byte(), random.pick(&VARIANTS));
    let mut driver = Published::new(address, variant, &Script::reading(&[revision(variant)])).1;
    let driver = driver.as_mut().unwrap();
    if random.chance(if kind == 0x21 { 50 } else { 80 }) {
        let mut settings = Settings::accepted(random);
        if random.chance(30) {
            settings.device.operation_mode = OperationMode::DRO_MODE;
        }
        let stored = driver.outcome(&Operation::Configure(settings), &Script::reading(&[90, 165]));
        assert!(stored.answer.is_ok(), "{settings:?}");
    }
    let (operation, last) = operation(kind, random);
    if random.chance(80) {
        let image = vec![1, sequences(&operation, random)];
        let upload = Operation::UploadWaveformMemory(image, random.chance(50));
        assert!(driver.outcome(&upload, &Script::reading(&[0])).answer.is_ok());
    }
    let before = record(driver);
    let (arguments, input) = arguments(&operation);
    let script = script(random, last);
    let outcome = driver.outcome(&operation, &script);
    let buffer = match operation {
        Operation::ReadWaveformMemory(..) => outcome.buffer().to_vec(),
        _ => lent(1),
    };
    let after = record(driver);
    let after = (after != before).then_some(after);
    [vec![before, arguments, input], session(&outcome, &script, buffer, after)].concat()
}

/// How many sequences are loaded before an operation: below, at and above the number that it selects or plays; any before others.
fn sequences(operation: &Operation, random: &mut Random) -> u8 {
    match *operation {
        Operation::SelectSequence(id, _) | Operation::PlaySequence(id, _) => {
            let (below, above) = (id.saturating_sub(1), id.saturating_add(1));
            random.pick(&[id, id, id, below, id / 2, above, above, 16, 17, 255])
        }
        _ => random.near(&[1, 2, 4, 15, 16]),
    }
}

/// A random operation, and about how many exchanges it makes.
fn operation(kind: u8, random: &mut Random) -> (Operation, usize) {
    let mut four_bits = || random.near(&[0, 1, 3, 7, 8, 9, 14, 15, 15, 16]);
    match kind {
        0x21 => (Operation::Configure(Settings::any(random)), 25),
        0x22 => (Operation::GetChipRev, 1),
        0x23 => (Operation::GetEvents, 4),
        0x24 => (Operation::GetStatus, 1),
        0x25 => {
            let (low, high) = random.pick(&[(50, 300), (25, 1024)]);
            (Operation::SetFrequency(near(random, low, high)), 2)
        }
        0x26 => (Operation::SetOverrideValue(random.near(&[0, 1, 127, 128, 129, 255]) as i8), 1),
        0x27 => (Operation::SetTimebase(random.pick(&MEMORY_TIMEBASES)), 2),
        0x28 => (Operation::Enable, 1),
        0x29 => (Operation::Disable, 2),
        0x2A => {
            (Operation::SetCustomDriveWaveform([random.byte(), random.byte(), random.byte()]), 3)
        }
        0x2B => (Operation::UnlockWaveformMemory, 1),
        0x2C => (Operation::LockWaveformMemory, 1),
        0x2D => {
            let edges = [0, 1, 31, 32, 33, 63, 64, 65, 96, 97, 99, 100, 100, 101, 256];
            let len = if random.chance(50) { random.pick(&edges) } else { random.within(0, 60) };
            let mut image: Vec<u8> = (0..len).map(|_| random.byte()).collect();
            if let Some(byte) = image.get_mut(1) {
                *byte = random.near(&[0, 1, 2, 15, 16, 17, 200, 255]);
            }
            (Operation::UploadWaveformMemory(image, random.chance(50)), 1 + len.div_ceil(32))
        }
        0x2E => {
            let mut length = || match random.below(6) {
                0 => random.pick(&[99, 100, 101, 255, 256, 257]),
                _ => random.within(0, 12),
            };
            (Operation::ReadWaveformMemory(length(), length()), 12)
        }
        0x2F => (Operation::SelectSequence(four_bits(), four_bits()), 1),
        0x30 => (Operation::StartSequence, 2),
        _ => (Operation::PlaySequence(four_bits(), four_bits()), 3),
    }
}

/// The numbers among the arguments, and the bytes lent to be read.
fn arguments(operation: &Operation) -> (Vec<u8>, Vec<u8>) {
    match operation {
        Operation::Configure(settings) => (vec![], settings_bytes(settings)),
        Operation::SetFrequency(frequency) => (frequency.to_be_bytes().to_vec(), vec![]),
        Operation::SetOverrideValue(value) => (vec![*value as u8], vec![]),
        Operation::SetTimebase(it) => (
            vec![MEMORY_TIMEBASES.iter().position(|timebase| timebase == it).unwrap() as u8],
            vec![],
        ),
        Operation::SetCustomDriveWaveform(points) => (points.to_vec(), vec![]),
        Operation::UploadWaveformMemory(image, lock) => (vec![(*lock).into()], image.clone()),
        Operation::ReadWaveformMemory(len, room) => {
            ([*len, *room].map(|it| (it as u16).to_be_bytes()).concat(), vec![])
        }
        Operation::SelectSequence(id, loops) | Operation::PlaySequence(id, loops) => {
            (vec![*id, *loops], vec![])
        }
        _ => (vec![], vec![]),
    }
}

/// The fields of what an operation came to on this script, and what it made of the record.
fn session(
    outcome: &Outcome,
    script: &Script,
    buffer: Vec<u8>,
    after: Option<Vec<u8>>,
) -> Vec<Vec<u8>> {
    if let (Err((number, _)), 0) = (outcome.answer, outcome.made) {
        return vec![vec![number], vec![], vec![], vec![], vec![], vec![]];
    }
    let told = match outcome.answer {
        _ if outcome.made == 0 => vec![],
        Ok(_) => vec![1, outcome.made as u8, 0, 0],
        Err((17, failure)) => {
            let code = script.fails.unwrap().1;
            assert_eq!(failure, Some(kind(code)));
            vec![1, outcome.made as u8, code, 17]
        }
        Err((number, _)) => vec![1, outcome.made as u8, 0, number],
    };
    let exchanges = exchanges(outcome, script);
    vec![vec![0], exchanges, told, buffer, after.unwrap_or_default(), result(outcome)]
}

/// The exchanges of the published driver with what the bus answered.
fn exchanges(outcome: &Outcome, script: &Script) -> Vec<u8> {
    let (mut wire, mut exchanges) = (Wire::new(script), vec![]);
    for exchange in &outcome.log {
        let sent = &exchange.bytes[..exchange.len];
        let reply = wire.exchange(exchange.address, sent, exchange.wanted);
        let wanted = 128 * exchange.wanted as u8;
        let (flags, answered) = match reply {
            Reply::Done => (wanted, vec![]),
            Reply::Byte(byte) => (wanted, vec![byte]),
            Reply::Failed(code) => (wanted + 64, vec![code]),
        };
        exchanges.extend([exchange.address, flags + exchange.len as u8]);
        exchanges.extend(sent);
        exchanges.extend(answered);
    }
    exchanges
}

/// The word of the result: what the published driver returned, how many exchanges it made, and whether it succeeded.
fn result(outcome: &Outcome) -> Vec<u8> {
    let value = match outcome.answer {
        Ok(Value::Byte(byte)) => byte.into(),
        Ok(Value::Events([event, warning, sequence])) => {
            u32::from_be_bytes([0, event, warning, sequence])
        }
        Ok(Value::Count(count)) => count as u32,
        Ok(Value::Nothing) | Err(_) => 0,
    };
    bytes_of(result_word(value, outcome.made, outcome.answer.is_ok()))
}

// ---- uploads that are cut

/// An upload to one chip: run one to five times, the first cut and the others nearly always, and then to
/// its end, which leaves what one run alone leaves.
fn cut(at: usize, random: &mut Random) -> Vec<Vec<u8>> {
    let (address, variant) = (random.byte(), random.pick(&VARIANTS));
    let settings = random.chance(50).then(|| Settings::accepted(random));
    let sequences = random.near(&[0, 1, 2, 16]);
    let record = record_bytes(address, variant, settings.as_ref(), sequences);
    let len = LENGTHS.get(at % 24).copied().unwrap_or_else(|| random.within(2, 95));
    let image = (0..len).map(|_| random.byte()).collect();
    let upload = Upload { image, lock: random.chance(50) };
    let bytes = [(); 100].map(|()| random.byte());
    let start = Chip { address, bytes, unlocked: random.chance(50) };

    let (mut published, mut chip) = (uploads::Published::default(), start);
    let mut runs = Vec::new();
    for before in 0..1 + at % 5 {
        let cut = (before == 0 || random.chance(90)).then(|| place(&upload, random));
        runs.push(run(&mut published, &mut chip, &upload, cut));
    }
    runs.push(run(&mut published, &mut chip, &upload, None));
    assert_eq!(chip, uploads::Published::default().whole(start, &upload), "{upload:02X?}");

    let start = [vec![start.unlocked.into()], bytes.to_vec()].concat();
    [vec![record.to_vec(), vec![upload.lock.into()], upload.image, start], runs].concat()
}

/// An exchange, how many of its bytes reach the chip, often none or all of those behind the register,
/// and the bus's code if it fails.
fn place(upload: &Upload, random: &mut Random) -> (usize, usize, Option<u8>) {
    let at = random.below(upload.exchanges());
    let sent = 1 + upload.data(at);
    let some = random.within(2, sent);
    let reached = random.pick(&[0, 1, 2, some, sent - 1, sent, sent]);
    (at, reached, random.chance(50).then(|| random.byte()))
}

/// Runs the published upload as far as it is cut; the field of the run.
fn run(
    published: &mut uploads::Published,
    chip: &mut Chip,
    upload: &Upload,
    cut: Option<(usize, usize, Option<u8>)>,
) -> Vec<u8> {
    let (plan, head) = match cut {
        None => (Plan::default(), [upload.exchanges() as u8, 0, 0, 0]),
        Some((at, reached, code)) => {
            let end = if code.is_none() { 1 } else { 2 };
            let head = [at as u8, end, reached as u8, code.unwrap_or(0)];
            (Plan::cut(Cut { at, part: reached.saturating_sub(1), code }), head)
        }
    };
    let mut board = Board::new(*chip, plan);
    assert_eq!(published.run(&mut board, chip.address, upload), cut.is_none());
    *chip = board.chip;
    [&head[..], &[chip.unlocked.into()], &chip.bytes].concat()
}
