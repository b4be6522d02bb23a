//! What the program `example` says (crates/example/stdout) against the published Rust: its builder calls give its images, so do the
//! lists that it read back, its pages are the plain printer's, that of both patterns too, whose image the published builders make, and its
//! exchanges are the published driver's on the same chip, whose memory and lock are the harness's own.

use harness::bus::Script;
use harness::chip;
use harness::driver::{Operation, Outcome, Pair, compare_new};
use harness::images::plain;
use harness::merges;
use harness::oracle::Builders;
use harness::pages;
use harness::registers::ADDRESSES;
use harness::settings::Settings;
use harness::{GAINS, TIMEBASES, compared, text};
use yambelugo::{Call, DrivingMode, Error, OperationMode, Variant};

const PATTERNS: [&str; 2] = ["shallow ahead", "turn now"];

/// The last image that is read in part 3.
const DAMAGED: &str = "turn now with byte 02 changed to FF";

/// The last paragraph of part 3.
const LACKING: &str =
    "the same with byte 13 of turn now changed to 1B, a frame of snippet 3, which turn now lacks";

/// The bus's code for its failure, in parts 5 and 6.
const CODE: u8 = 3;

/// The lines below the title of a numbered part.
fn part(number: usize) -> Vec<String> {
    let (start, end) = (format!("{number}. "), format!("{}. ", number + 1));
    let text = text("crates/example/stdout");
    let lines = text.lines().skip_while(|line| !line.starts_with(&start)).skip(1);
    lines.take_while(|line| !line.starts_with(&end)).map(str::to_string).collect()
}

/// The paragraphs of a part: each the line that it starts with, and the lines below.
fn paragraphs(number: usize) -> Vec<(String, Vec<String>)> {
    let part = part(number);
    let paragraphs = part.split(|line| line.is_empty()).filter(|lines| !lines.is_empty());
    paragraphs.map(|lines| (lines[0].clone(), lines[1..].to_vec())).collect()
}

/// The paragraph that starts with a pattern's name.
fn of_pattern(number: usize, name: &str) -> Vec<String> {
    let mut found = paragraphs(number).into_iter().filter(|(start, _)| {
        start.strip_prefix(name).is_some_and(|rest| rest.is_empty() || rest.starts_with(':'))
    });
    let lines = found.next().unwrap_or_else(|| panic!("no {name:?} in part {number}")).1;
    assert!(found.next().is_none(), "{name:?} twice in part {number}");
    lines
}

fn hex(byte: &str) -> u8 {
    u8::from_str_radix(byte, 16).unwrap()
}

/// The hundred bytes that are printed of a pattern.
fn printed_image(name: &str) -> Vec<u8> {
    let mut image = Vec::new();
    for line in of_pattern(2, name) {
        let mut row = line.split_whitespace().map(hex);
        assert_eq!(usize::from(row.next().unwrap()), image.len(), "an offset of {name:?}");
        image.extend(row);
    }
    assert_eq!(image.len(), 100, "{name:?}");
    image
}

/// What is said of an image's parts is what its counts and end pointers say.
#[test]
fn parts_are_those_of_the_images() {
    for name in PATTERNS {
        let image = printed_image(name);
        let data = 2 + image[0] + image[1];
        let (points, frames) = (image[1 + usize::from(image[0])], image[usize::from(data) - 1]);
        let parts = [
            ("counts", 0, 1),
            ("end pointers", 2, data - 1),
            ("snippets", data, points),
            ("sequences", points + 1, frames),
        ];
        let parts = parts.map(|(part, from, to)| format!("{part} {from:02X} to {to:02X}"));
        let wanted = format!("{name}: {}, then zeros", parts.join(", "));
        assert!(part(2).contains(&wanted), "{wanted}");
        assert!(image[usize::from(frames) + 1..].iter().all(|byte| *byte == 0), "{name:?}");
    }
}

/// What stands at the place of a text among four.
fn choice<T: Copy>(texts: [&str; 4], values: [T; 4], text: &str) -> T {
    let place = texts.iter().position(|it| *it == text);
    values[place.unwrap_or_else(|| panic!("{text:?}"))]
}

fn gain(text: &str) -> Call {
    Call::Gain(choice(["1", "1/2", "1/4", "1/8"], GAINS, text))
}

fn timebase(text: &str) -> Call {
    Call::Timebase(choice(["5.44 ms", "21.76 ms", "43.52 ms", "87.04 ms"], TIMEBASES, text))
}

/// A call that is printed as `name(arguments)`.
fn call(name: &str, arguments: &str) -> Call {
    let two = || {
        let (length, amplitude) = arguments.split_once(", ").unwrap();
        (length.parse().unwrap(), amplitude.parse().unwrap())
    };
    match name {
        "ramp" => Call::Ramp(two().0, two().1),
        "step" => Call::Step(two().0, two().1),
        "new" => Call::FrameNew(arguments.parse().unwrap()),
        "silence" => Call::Silence,
        "gain" => gain(arguments),
        "timebase" => timebase(arguments),
        "loop_count" => Call::LoopCount(arguments.parse().unwrap()),
        "frequency_hz" => Call::FrequencyHz(arguments.parse().unwrap()),
        _ => panic!("{name:?}"),
    }
}

/// The calls on a line, each with its refusal as printed, or nothing.
fn calls(line: &str) -> Vec<(Call, String)> {
    let mut calls = Vec::new();
    let mut rest = line.trim_start();
    while let Some((name, after)) = rest.split_once('(') {
        let (arguments, after) = after.split_once(')').unwrap();
        let made = call(name, arguments);
        match after.strip_prefix(" refused with ") {
            Some(after) => {
                let (refusal, after) = after.split_once(',').unwrap();
                calls.push((made, refusal.to_string()));
                rest = after.trim_start();
            }
            None => {
                calls.push((made, String::new()));
                rest = after.trim_start();
            }
        }
    }
    calls
}

/// The name and number of a refusal as they are printed; nothing for 0.
fn refusal(number: u8) -> String {
    match Error::from_number(number, 0) {
        None => String::new(),
        Some(error) => {
            let name = format!("{error:?}");
            format!("{number} {}", name.split('(').next().unwrap())
        }
    }
}

/// The published builders under a pattern's calls.
#[derive(Default)]
struct Run {
    builders: Builders,
    calls: usize,
    refused: usize,
}

impl Run {
    /// Makes a call and holds its answer to what is printed.
    fn make(&mut self, call: Call, printed: &str) {
        let number = self.builders.call(call);
        assert_eq!(refusal(number), printed, "{call:?}");
        self.calls += 1;
        self.refused += usize::from(number > 0);
    }

    fn begin(&mut self, call: Call, id: &str, next: u8) {
        assert_eq!(id, next.to_string(), "the number at {call:?}");
        self.make(call, "");
    }

    fn image(&self) -> Vec<u8> {
        let mut image = self.builders.memory.build().unwrap().as_bytes().to_vec();
        image.resize(100, 0);
        image
    }
}

/// The builders after the items of a pattern: a snippet's line by one function, a frame's by another.
fn run(lines: &[String], snippet: impl Fn(&mut Run, &str), frame: impl Fn(&mut Run, &str)) -> Run {
    let mut run = Run::default();
    let mut within = false;
    for line in lines {
        let memory = run.builders.memory;
        if let Some(rest) = line.strip_prefix("  snippet ") {
            let (id, points) = rest.split_once("   ").unwrap();
            run.begin(Call::SnippetNew, id, memory.next_snippet_id());
            snippet(&mut run, points);
            run.make(Call::AddSnippet, "");
        } else if let Some(id) = line.strip_prefix("  sequence ") {
            if within {
                run.make(Call::AddSequence, "");
            }
            within = true;
            run.begin(Call::SequenceNew, id, run.builders.memory.next_sequence_id());
        } else {
            frame(&mut run, line.strip_prefix("    ").unwrap());
            run.make(Call::AddFrame, "");
        }
    }
    run.make(Call::AddSequence, "");
    run
}

/// The calls of part 1 give the image of part 2; a refused one is refused with that number, and adds nothing.
#[test]
fn calls_give_the_images() {
    let (mut made, mut refused) = (0, 0);
    for name in PATTERNS {
        let snippet = |run: &mut Run, line: &str| {
            let (line, points) = line.split_once(": ").unwrap();
            for (call, printed) in calls(line) {
                run.make(call, &printed);
            }
            let built = run.builders.snippet.build().unwrap();
            assert_eq!(points, format!("{} points", built.byte_len()));
        };
        let frame = |run: &mut Run, line: &str| {
            for (call, printed) in calls(line) {
                run.make(call, &printed);
            }
        };
        let run = run(&of_pattern(1, name), snippet, frame);
        assert_eq!(run.image(), printed_image(name), "{name:?}");
        made += run.calls;
        refused += run.refused;
    }
    assert_eq!(refused, 1, "refused calls");
    compared("builder calls of the example", made, 89);
}

/// The lists of part 3 are what the image of part 2 is built from; the damaged image has none.
#[test]
fn lists_give_the_images() {
    let mut items = 0;
    for name in PATTERNS {
        let snippet = |run: &mut Run, line: &str| {
            for point in line.split(", ") {
                let (kind, rest) = point.split_once(' ').unwrap();
                let (length, amplitude) = rest.split_once(" timebases to ").unwrap();
                run.make(call(kind, &format!("{length}, {amplitude}")), "");
            }
        };
        let frame = |run: &mut Run, line: &str| {
            let mut fields = line.split(", ");
            match fields.next().unwrap().strip_prefix("snippet ") {
                Some(id) => run.make(call("new", id), ""),
                None => run.make(Call::Silence, ""),
            }
            run.make(gain(fields.next().unwrap().strip_prefix("gain ").unwrap()), "");
            run.make(timebase(fields.next().unwrap()), "");
            for field in fields {
                match field.strip_prefix("loop count ") {
                    Some(count) => run.make(call("loop_count", count), ""),
                    None => run.make(call("frequency_hz", field.strip_suffix(" Hz").unwrap()), ""),
                }
            }
        };
        let run = run(&of_pattern(3, name), snippet, frame);
        assert_eq!(run.image(), printed_image(name), "{name:?}");
        items += run.calls;
    }
    compared("read items of the example, as calls", items, 91);

    assert_eq!(of_pattern(3, DAMAGED), [format!("  refused with {}", refusal(18))]);
    assert!(plain(&printed_image("turn now")).is_some());
    assert!(plain(&damaged()).is_none());
}

/// The image that DAMAGED names.
fn damaged() -> Vec<u8> {
    let mut image = printed_image("turn now");
    image[2] = 0xFF;
    image
}

/// Below its title the page of each image of part 2 is the plain printer's, byte for byte; the damaged image has none.
#[test]
fn pages_are_those_of_the_images() {
    let said = text("crates/example/stdout");
    let mut lines = 0;
    for name in PATTERNS {
        let page = pages::page(&printed_image(name)).unwrap();
        let below = said.split_once(&format!("\nthe page of {name}\n")).unwrap().1;
        assert!(below.starts_with(&format!("{page}\n")), "the page of {name}:\n{below}");
        lines += page.lines().count();
    }
    assert_eq!(pages::page(&damaged()), None);
    let told = of_pattern(3, &format!("the page of {DAMAGED}"));
    assert_eq!(told, [format!("  refused with {}", refusal(18))]);
    assert_eq!(said.matches("\nthe page of ").count(), 4, "pages");
    compared("lines of the example's pages", lines, 16);
}

/// The page of both patterns is the plain printer's of the image that the published builders make of their items; with a frame of a snippet
/// that is not in its own image, which can be read, they are refused.
#[test]
fn both_are_in_one_image() {
    let [ahead, turn] = PATTERNS.map(printed_image);
    let page = pages::page(&merges::merged(&ahead, &turn).unwrap()).unwrap();
    let said = text("crates/example/stdout");
    let title = format!("\nthe page of {} and {} in one image\n", PATTERNS[0], PATTERNS[1]);
    let below = said.split_once(&title).unwrap().1;
    assert!(below.starts_with(&format!("{page}\n")), "{below}");
    compared("lines of the page of both", page.lines().count(), 16);

    let mut lacking = turn;
    lacking[0x13] = 0x1B;
    let frames = plain(&lacking).unwrap().sequences[0].clone();
    assert_eq!(frames[3].snippet, 3);
    assert_eq!(merges::merged(&ahead, &lacking), Err(25));
    assert_eq!(of_pattern(3, LACKING), [format!("  refused with {}", refusal(25))]);
}

/// The simulated chip, on which the published driver is run.
struct Chip {
    registers: [u8; 256],
    memory: chip::Chip,
    exchanges: usize,
}

/// The exchange at which the bus fails, and how many bytes of it are stored.
type Failure = (usize, usize);

impl Chip {
    /// The bus on which these registers are read, in turn.
    fn script(&self, reads: &[u8], fails: Option<Failure>) -> Script {
        let reads = reads.iter().map(|it| self.registers[usize::from(*it)]).collect();
        Script { reads, fails: fails.map(|(exchange, _)| (exchange, CODE)) }
    }

    /// What is printed of an operation with this outcome, words parted by single blanks.
    fn printed(&mut self, outcome: &Outcome, fails: Option<Failure>) -> Vec<String> {
        if let (Err((number, None)), 0) = (outcome.answer, outcome.made) {
            return vec![format!("refused with {}", refusal(number))];
        }
        let mut lines = Vec::new();
        let failed = outcome.answer.is_err();
        for (i, exchange) in outcome.log.iter().enumerate() {
            let (register, sent) = (exchange.bytes[0], &exchange.bytes[1..exchange.len]);
            let at = usize::from(register);
            let breaks = failed && i + 1 == outcome.log.len();
            let (kind, bytes) = match exchange.wanted {
                0 => ("write", sent.to_vec()),
                _ => ("read", vec![self.registers[at]]),
            };
            let stored = fails.filter(|it| it.0 == i).map_or(sent.len(), |it| it.1);
            let all = &exchange.bytes[..exchange.len];
            self.memory.reached(exchange.address, all, exchange.wanted, stored);
            if at < 0x84 {
                self.registers[at..at + stored].copy_from_slice(&sent[..stored]);
            }
            let bytes: Vec<_> = bytes.iter().map(|byte| format!("{byte:02X}")).collect();
            let mut line = format!("{} {kind} {} {}", i + 1, named(register), bytes.join(" "));
            if breaks {
                line += &format!(" ends with {}, the bus's code {CODE}", refusal(17));
            }
            lines.push(line);
            self.exchanges += 1;
        }
        let end = if failed { "broken off" } else { "completed" };
        lines.push(format!("exchanges made: {}, {end}", outcome.made));
        lines
    }

    /// What is printed of the memory after an upload of this image.
    fn held(&self, name: &str, image: &[u8]) -> [String; 2] {
        let chip::Chip { bytes, unlocked, .. } = self.memory;
        let held = image.iter().zip(bytes).take_while(|(new, held)| *new == held).count();
        let lock = if unlocked { "unlocked" } else { "locked" };
        let first: Vec<_> = bytes[..16].iter().map(|byte| format!("{byte:02X}")).collect();
        [
            format!("the chip's memory holds {held} of {} bytes of {name}, {lock}", image.len()),
            format!("its first 16 bytes: {}", first.join(" ")),
        ]
    }
}

/// The bytes of a pattern's image without the zeros behind them.
fn used(name: &str) -> Vec<u8> {
    let mut image = printed_image(name);
    let last = image[1 + usize::from(image[0] + image[1])];
    image.truncate(usize::from(last) + 1);
    image
}

/// How many bytes of the image are stored where the upload of part 6 is cut, as its paragraph says.
fn stored_in_part_6() -> usize {
    let (title, _) = &paragraphs(6)[0];
    let bytes = title.split_once("; the bus fails when ").unwrap().1;
    bytes.strip_suffix(" bytes of it are stored").unwrap().parse().unwrap()
}

/// A register's published name, or its place in the waveform memory.
fn named(register: u8) -> String {
    match ADDRESSES.iter().find(|(_, address)| *address == register) {
        Some((name, _)) => name.to_string(),
        None => format!("SNP_MEM_{}", register.checked_sub(0x84).unwrap()),
    }
}

/// An operation's paragraph, words parted by single blanks; bytes that stand on lines of their own joined to their exchange.
fn operation(lines: &[String]) -> Vec<String> {
    let mut joined: Vec<String> = Vec::new();
    for line in lines {
        let words = line.split_whitespace().collect::<Vec<_>>().join(" ");
        match line.starts_with(&" ".repeat(20)) {
            true => *joined.last_mut().unwrap() += &format!(" {words}"),
            false => joined.push(words),
        }
    }
    joined
}

/// Each operation of parts 4 to 6: its exchanges in order, their bytes, the counts, how it ends, and what the memory holds of an image.
#[test]
fn exchanges_are_the_published_ones() {
    let memory = chip::Chip { address: 0x4A, bytes: [0; 100], unlocked: false };
    let mut chip = Chip { registers: [0; 256], memory, exchanges: 0 };
    for (register, byte) in [(0x00, 0xBA), (0x14, 0x05), (0x20, 0x50)] {
        chip.registers[register] = byte;
    }
    let upload = |name| Operation::UploadWaveformMemory(used(name), true);
    let settings = |mode, driving| Operation::Configure(Settings::plain(mode, driving));
    let rtwm = settings(OperationMode::RTWM_MODE, DrivingMode::WIDEBAND);
    let dro = settings(OperationMode::DRO_MODE, DrivingMode::FREQUENCY_TRACK);
    let play = |id| Operation::PlaySequence(id, 0);
    let [ahead, turn] = PATTERNS;
    assert_eq!(used(turn)[1], 2, "the sequences of turn now");
    // The part within the image, so that bytes of both images are held.
    let stored = stored_in_part_6();
    assert!((1..used(ahead).len()).contains(&stored));
    let record = "the record is the one from before";
    // How a paragraph starts, the operation, the registers that are read, the failure, and a line behind it or the pattern's name.
    let operations: [(&str, Operation, &[u8], Option<Failure>, &str); 9] = [
        ("configure:", rtwm, &[0x14, 0x20], None, ""),
        ("upload_waveform_memory: turn now,", upload(turn), &[], None, turn),
        ("enable", Operation::Enable, &[], None, ""),
        ("play_sequence: sequence 1, loops 0", play(1), &[0x22], None, ""),
        ("play_sequence: sequence 2, which is not loaded", play(2), &[], None, ""),
        ("configure:", dro, &[0x14, 0x20], Some((4, 0)), record),
        ("enable, ", Operation::Enable, &[], None, ""),
        ("upload_waveform_memory: shallow", upload(ahead), &[], Some((1, stored)), ahead),
        ("upload_waveform_memory: the same,", upload(ahead), &[], None, ahead),
    ];

    let mut told = (4..=6).flat_map(paragraphs);
    let mut hold = |start: &str, wanted: Vec<String>| {
        let (first, below) = told.next().unwrap();
        assert!(first.starts_with(start), "{first:?}, not {start:?}");
        assert_eq!(operation(&below), wanted, "{first:?}");
    };
    let variant = Variant::DA7280;
    let made = compare_new(0x4A, variant, &chip.script(&[0x00], None));
    hold("new", chip.printed(&made, None));
    let mut pair = Pair::new(0x4A, variant);
    for (start, operation, reads, fails, after) in operations {
        let before = chip.memory;
        let outcome = pair.compare(&operation, &chip.script(reads, fails));
        let mut wanted = chip.printed(&outcome, fails);
        match &operation {
            Operation::UploadWaveformMemory(image, _) => {
                wanted.extend(chip.held(after, image));
                // The image, or what is stored of it, over what was there, and locked at the end alone.
                let new = if fails.is_some() { &image[..stored] } else { &image[..] };
                let bytes = [new, &before.bytes[new.len()..]].concat();
                assert_eq!(chip.memory.bytes, bytes[..], "{start}");
                assert_eq!(chip.memory.unlocked, fails.is_some(), "{start}");
            }
            _ => {
                wanted.extend((!after.is_empty()).then(|| after.to_string()));
                assert_eq!(chip.memory, before, "{start}");
            }
        }
        hold(start, wanted);
    }
    assert!(told.next().is_none(), "more operations");
    compared("exchanges of the example", chip.exchanges, 36);
}

/// A pattern's calls in part 1 as one list, without the calls that begin an empty snippet or sequence.
fn flat(name: &str) -> Vec<Call> {
    let mut list = Vec::new();
    for line in of_pattern(1, name) {
        if let Some(rest) = line.strip_prefix("  snippet ") {
            list.extend(calls(rest.split_once("   ").unwrap().1).into_iter().map(|(call, _)| call));
            list.push(Call::AddSnippet);
        } else if !line.starts_with("  sequence ") {
            list.extend(calls(&line).into_iter().map(|(call, _)| call));
            list.push(Call::AddFrame);
        }
    }
    list.push(Call::AddSequence);
    list
}

/// The list of calls in part 2 stops at the first call that the published Rust refuses; mended, it makes the published image.
#[test]
fn a_list_of_calls_stops_at_the_first_refusal() {
    let mut list = flat("shallow ahead");
    let answers = |list: &[Call]| {
        let mut builders = Builders::default();
        let answers: Vec<u8> = list.iter().map(|call| builders.call(*call)).collect();
        (answers, builders)
    };
    let told = answers(&list).0;
    let place = told.iter().position(|number| *number > 0).unwrap();
    let lines = paragraphs(2);
    let [.., stopped, mended] = &lines[..] else { panic!("{lines:?}") };
    assert_eq!(
        stopped.0,
        "shallow ahead as a list of calls, by the form that stops at the first refusal"
    );
    assert_eq!(
        stopped.1,
        [format!("  refused with {} at call {}", refusal(told[place]), place + 1)]
    );

    let length =
        mended.0.strip_prefix("the same list, the refused ramp with a length of ").unwrap();
    let Call::Ramp(_, amplitude) = list[place] else { panic!("{:?}", list[place]) };
    list[place] = Call::Ramp(length.parse().unwrap(), amplitude);
    let (told, builders) = answers(&list);
    assert!(told.iter().all(|number| *number == 0), "{told:?}");
    let mut image = builders.memory.build().unwrap().as_bytes().to_vec();
    image.resize(100, 0);
    assert_eq!(mended.1[0], "  made");
    let rows = mended.1[1..].iter().flat_map(|line| line.split_whitespace().skip(1).map(hex));
    assert_eq!(rows.collect::<Vec<_>>(), image);
    compared("calls of the list in part 2", list.len(), 21);
}
