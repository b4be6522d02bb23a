//! The stored sample, `crates/vectors/stdin`, and what the program `vectors` has to say of it, are
//! what `sample` makes of the published Rust, and hold every kind of case that their head lists.

use harness::chip::Chip;
use harness::images::{Lists, plain};
use harness::lists::MARKER;
use harness::merges::{grown, plays};
use harness::pages;
use harness::uploads::{Bare, Upload};
use harness::{compared, text};
use std::process::Command;
use yambelugo::Frame;

/// What the command writes.
fn made(arguments: &[&str]) -> String {
    let made = Command::new(env!("CARGO_BIN_EXE_sample")).args(arguments).output().unwrap();
    assert!(made.status.success(), "{}", String::from_utf8_lossy(&made.stderr));
    String::from_utf8(made.stdout).unwrap()
}

/// Line by line, so that a failure is short.
fn same(made: &str, path: &str) {
    let stored = text(path);
    for (at, (made, stored)) in made.lines().zip(stored.lines()).enumerate() {
        assert_eq!(made, stored, "{path}, line {}: run scripts/remake-vectors", at + 1);
    }
    assert!(made == stored, "{path} has another length: run scripts/remake-vectors");
}

#[test]
fn the_stored_sample_is_what_is_made() {
    same(&made(&[]), "crates/vectors/stdin");
    same(&made(&["told"]), "crates/vectors/stdout");
}

/// The kinds in the head: number, name and how many cases.
fn listed(sample: &str) -> Vec<(&str, &str, usize)> {
    let (_, list) = sample.split_once("# The kinds, and how many cases:\n").unwrap();
    let kinds = list.lines().map_while(|line| line.strip_prefix("#   "));
    kinds
        .map(|line| {
            let (number, rest) = line.split_once(' ').unwrap();
            let (name, cases) = rest.rsplit_once(": ").unwrap();
            (number, name, cases.parse().unwrap())
        })
        .collect()
}

/// The functions that every session uses.
const SHARED: [&str; 3] = ["pending", "answer", "result"];

/// Each exported function of the header, by name without `da728x_`.
fn exported() -> Vec<String> {
    let header = text("include/da728x.h");
    let names = header.lines().filter(|line| line.starts_with(|it: char| it.is_ascii_lowercase()));
    let names = names.filter_map(|line| line.split_once(" da728x_")?.1.split_once('('));
    names.map(|(name, _)| name.to_string()).collect()
}

/// The kind of case that is of no function, but of the proved chip.
const OF_THE_CHIP: &str = "cut uploads";

/// As many cases of each kind as the head says, under its heading; every function is of some kind,
/// or every session uses it.
#[test]
fn every_kind_is_there() {
    let sample = text("crates/vectors/stdin");
    let kinds = listed(&sample);
    let mut sections = sample.split("\n= ");
    assert!(sections.next().unwrap().lines().all(|line| line.starts_with('#')));
    let mut cases = 0;
    for (number, name, wanted) in &kinds {
        let (heading, lines) = sections.next().unwrap().split_once('\n').unwrap();
        let lines: Vec<&str> = lines.lines().collect();
        assert_eq!((heading, lines.len()), (*name, *wanted));
        assert!(*wanted > 0 && lines.iter().all(|line| line.split(' ').next() == Some(number)));
        let distinct: std::collections::BTreeSet<_> = lines.iter().collect();
        assert!(2 * distinct.len() > lines.len(), "{name}: {} differ", distinct.len());
        cases += lines.len();
    }
    assert_eq!(sections.next(), None);

    let named = kinds.iter().flat_map(|(_, names, _)| names.split(", "));
    let named: Vec<&str> = named.filter(|name| *name != OF_THE_CHIP).collect();
    let exported = exported();
    let (shared, of_kinds): (Vec<&str>, Vec<&str>) =
        exported.iter().map(String::as_str).partition(|name| SHARED.contains(name));
    assert_eq!((&shared[..], of_kinds), (&SHARED[..], named));
    compared("kinds of the stored sample", kinds.len(), 46);
    compared("cases of the stored sample", cases, 5426);
}

fn bytes(field: &str) -> Vec<u8> {
    let hex = |pair: &[u8]| u8::from_str_radix(str::from_utf8(pair).unwrap(), 16).unwrap();
    if field == "-" { vec![] } else { field.as_bytes().chunks(2).map(hex).collect() }
}

/// A session of the sample: its record before and afterwards, and its number of a sequence or its image.
struct Session {
    before: Vec<u8>,
    after: Vec<u8>,
    numbers: Vec<u8>,
    image: Vec<u8>,
    refused: u8,
}

fn sessions(sample: &str, kind: &str) -> Vec<Session> {
    let cases = sample.lines().map(|line| line.split(' ').collect::<Vec<_>>());
    cases
        .filter(|case| case[0] == kind)
        .map(|case| {
            let [before, numbers, image, refused, after] =
                [1, 2, 3, 4, 8].map(|at| bytes(case[at]));
            let after = if after.is_empty() { before.clone() } else { after };
            Session { before, after, numbers, image, refused: refused[0] }
        })
        .collect()
}

/// Selects and plays of numbers out of range, at the count of sequences in the record, above it, right below it and far below it; and
/// uploads that are refused, that load sequences, and that leave none, by a failure too.
#[test]
fn counts_of_sequences_are_there() {
    let sample = text("crates/vectors/stdin");
    for kind in ["2F", "31"] {
        let mut met = [0; 6];
        for Session { before, after, numbers, refused, .. } in sessions(&sample, kind) {
            let (id, count) = (numbers[0], before[37]);
            met[match refused {
                11 => 0,
                28 if count == 0 => 1,
                28 if id == count => 2,
                28 => 3,
                _ if id + 1 == count => 4,
                _ => 5,
            }] += 1;
            assert!(after == before && (refused == 11 || (refused == 0) == (id < count)));
        }
        println!("numbers of kind {kind}: {met:?}");
        assert!(met.iter().all(|cases| *cases > 5), "{met:?}");
    }

    let mut met = [0; 5];
    for Session { before, after, image, refused, .. } in sessions(&sample, "2D") {
        let (count, named) = (after[37], image.get(1).copied().unwrap_or(0));
        met[match refused {
            8 => 0,
            _ if count > 0 && count != before[37] => 1,
            _ if count > 0 => 2,
            _ if named > 0 => 3,
            _ => 4,
        }] += 1;
        assert!(after[..37] == before[..37]);
        assert!(if refused == 8 { after == before } else { [0, named].contains(&count) });
    }
    println!("uploads: {met:?}");
    assert!([0, 1, 3, 4].iter().all(|it| met[*it] > 5), "{met:?}");
}

/// Buffers that are too short, by kind: the word is 24, or 24 times 65536 beside a length or counts.
#[test]
fn short_buffers_are_there() {
    let sample = text("crates/vectors/stdin");
    let short = |kind: &str, word: &str| {
        let cases = sample.lines().map(|line| line.split(' ').collect::<Vec<_>>());
        cases.filter(|case| case[0] == kind && case.get(3) == Some(&word)).count()
    };
    let kinds = ["05", "06", "07", "09", "15", "16", "1A", "1B"];
    let words = ["180000", "180000", "180000", "18", "18", "180000", "180000", "18"];
    let met: Vec<_> = kinds.iter().zip(words).map(|(kind, word)| short(kind, word)).collect();
    println!("short buffers in the sample: {met:?}");
    assert!(met.iter().all(|cases| *cases > 10), "{met:?}");
}

/// The longest and the shortest page, one of 15 snippets and 16 sequences, lines without a blank behind them, and 32 frames in a sequence,
/// each also refused for a byte of room that is missing; pages into more room and into none; and what is no image, told into any room.
#[test]
fn pages_are_there() {
    let sample = text("crates/vectors/stdin");
    let (mut printed, mut short, mut none) = (Vec::new(), Vec::new(), Vec::new());
    for case in sample.lines().filter_map(|line| line.strip_prefix("1A - ")) {
        let fields: Vec<&str> = case.split(' ').collect();
        let (page, word, out) = (pages::page(&bytes(fields[0])), fields[1], bytes(fields[2]));
        let (room, page) = (out.len(), page.unwrap_or_default());
        let copied = match word {
            "120000" => {
                assert!(page.is_empty());
                none.push(room);
                0
            }
            "180000" => {
                assert!(room < page.len());
                short.push((page.clone(), room));
                0
            }
            _ => {
                assert!(!page.is_empty());
                assert_eq!(usize::from_str_radix(word, 16), Ok(page.len()));
                printed.push((page.clone(), room));
                page.len()
            }
        };
        let (front, rest) = out.split_at(copied);
        assert_eq!(front, &page.as_bytes()[..copied]);
        assert!(rest.iter().all(|byte| *byte == MARKER));
    }
    println!("{} pages, {} too long, {} of no image", printed.len(), short.len(), none.len());
    assert_eq!(printed.len() + short.len() + none.len(), 60);
    let full = |line: &str| line.len() == pages::LINE && !line.ends_with(' ');
    let shapes: [&dyn Fn(&str) -> bool; 5] = [
        &|page| page.len() == pages::LONGEST,
        &|page| page.len() == pages::SHORTEST,
        &|page| page.contains("S15 ") && page.contains("F15 01 "),
        &|page| page.lines().any(full),
        &|page| page.contains("F00 32 ") && page.contains("F01 01 "),
    ];
    for shape in shapes {
        assert!(printed.iter().any(|(page, _)| shape(page)));
        assert!(short.iter().any(|(page, room)| shape(page) && room + 1 == page.len()));
    }
    assert!(printed.iter().filter(|(page, room)| page.len() < *room).count() > 3);
    assert!(short.iter().filter(|(_, room)| *room == 0).count() > 2);
    assert!([0, pages::SHORTEST].iter().all(|room| none.contains(room)) && none.len() > 10);
}

/// A case of two images merged: what is told, the buffer afterwards, the images that can be read, and what they have together.
struct Merge {
    told: u8,
    out: Vec<u8>,
    same: bool,
    read: [Option<Lists>; 2],
    snippets: usize,
    sequences: usize,
    /// How many bytes the merged image takes, and how many frames of one byte grow in it.
    size: usize,
    growth: usize,
}

impl Merge {
    /// Whether an image has a frame that names a snippet that it lacks.
    fn lacks(&self, side: usize) -> bool {
        self.read[side].as_ref().is_some_and(Lists::names_absent)
    }

    /// Whether it is merged, and some frame of the second image is so.
    fn keeps(&self, frame: fn(&Frame) -> bool) -> bool {
        let second = self.read[1].iter().flat_map(|it| it.sequences.iter().flatten());
        self.told == 0 && second.into_iter().any(frame)
    }
}

fn merges(sample: &str) -> Vec<Merge> {
    let cases = sample.lines().filter_map(|line| line.strip_prefix("1B "));
    cases
        .map(|case| {
            let fields: Vec<Vec<u8>> = case.split(' ').map(bytes).collect();
            let [first, second, told, out] = &fields[..] else { panic!("{case}") };
            let read = [first, second].map(|image| plain(image));
            let sum = |of: fn(&Lists) -> usize| read.iter().flatten().map(of).sum::<usize>();
            let growth = match &read {
                [Some(first), Some(second)] => grown(second, first.snippets.len()),
                _ => 0,
            };
            let (snippets, sequences) = (sum(|it| it.snippets.len()), sum(|it| it.sequences.len()));
            // Both have the two counts.
            let size = (sum(Lists::size) + growth).saturating_sub(2);
            let copied = if *told == [0] { 100 } else { 0 };
            let (image, rest) = out.split_at(copied);
            if copied > 0 {
                let before = [first, second].map(|image| plays(image).unwrap());
                assert_eq!(plays(image), Some(before.concat()), "{case}");
            }
            assert!(rest.iter().all(|byte| *byte == MARKER), "{case}");
            let (told, out, same) = (told[0], out.clone(), first == second);
            Merge { told, out, same, read, snippets, sequences, size, growth }
        })
        .collect()
}

/// Images that are merged up to each limit, with growth and without, and each refusal, in the order in which they are tried; a merged
/// image plays what the two play.
#[test]
fn merges_are_there() {
    let sample = text("crates/vectors/stdin");
    let merges = merges(&sample);
    let shapes: [(&str, &dyn Fn(&Merge) -> bool); 27] = [
        ("merged", &|it| it.told == 0),
        ("merged into more room", &|it| it.told == 0 && it.out.len() > 100),
        ("growth", &|it| it.told == 0 && it.growth > 0),
        ("no growth", &|it| it.told == 0 && it.growth == 0),
        ("silence", &|it| it.keeps(|frame| frame.snippet == 0)),
        ("a loop count", &|it| it.keeps(|frame| frame.snippet > 0 && frame.loop_count.is_some())),
        ("no loop count", &|it| it.keeps(|frame| frame.snippet > 0 && frame.loop_count.is_none())),
        ("15 snippets", &|it| it.told == 0 && it.snippets == 15),
        ("16 sequences", &|it| it.told == 0 && it.sequences == 16),
        ("100 bytes", &|it| it.told == 0 && it.size == 100),
        ("an image twice", &|it| it.told == 0 && it.same),
        ("no first image", &|it| it.told == 18 && it.read[0].is_none() && it.read[1].is_some()),
        ("no second image", &|it| it.told == 18 && it.read[0].is_some() && it.read[1].is_none()),
        ("no image", &|it| it.told == 18 && it.read[0].is_none() && it.read[1].is_none()),
        ("18 before 25", &|it| it.told == 18 && (it.lacks(0) || it.lacks(1))),
        ("a snippet that the first lacks", &|it| it.told == 25 && it.lacks(0) && !it.lacks(1)),
        ("a snippet that the second lacks", &|it| it.told == 25 && it.lacks(1) && !it.lacks(0)),
        ("25 before the limits", &|it| it.told == 25 && (it.snippets > 15 || it.sequences > 16)),
        ("16 snippets", &|it| it.told == 6 && it.snippets == 16),
        ("6 before 7", &|it| it.told == 6 && it.sequences > 16),
        ("17 sequences", &|it| it.told == 7 && it.sequences == 17),
        ("7 before 8", &|it| it.told == 7 && it.size > 100),
        ("101 bytes", &|it| it.told == 8 && it.size == 101),
        ("too large by growth alone", &|it| it.told == 8 && it.size - it.growth <= 100),
        ("too short by a byte", &|it| it.told == 24 && it.out.len() == 99),
        ("no room", &|it| it.told == 24 && it.out.is_empty()),
        ("a refusal before 24", &|it| ![0, 24].contains(&it.told) && it.out.len() < 100),
    ];
    let met = shapes.map(|(what, shape)| (what, merges.iter().filter(|it| shape(it)).count()));
    println!("merges in the sample: {met:?}");
    assert!(met.iter().all(|(_, cases)| *cases > 0), "{met:?}");
    compared("merges of the sample", merges.len(), 120);
}

/// Values of registers that come from many settings, from two, from one and from none: voltages at both ends, every IMAX up to 40, and
/// period words under every driving mode.
#[test]
fn settings_of_values_are_there() {
    let sample = text("crates/vectors/stdin");
    // The arguments, and how many settings there are.
    let asked = |kind: &str| -> Vec<(Vec<u8>, usize)> {
        let cases = sample.lines().map(|line| line.split(' ').collect::<Vec<_>>());
        cases
            .filter(|case| case[0] == kind)
            .map(|case| {
                let word = usize::from_str_radix(case[3], 16).unwrap();
                let settings = if word == 0 { 0 } else { word / 65536 + 1 - word % 65536 };
                (bytes(case[1]), settings)
            })
            .collect()
    };
    let voltages = asked("17");
    assert!(voltages.iter().all(|(_, settings)| [23, 24].contains(settings)));
    assert!([0, 1, 254, 255].iter().all(|byte| voltages.iter().any(|(it, _)| it == &[*byte])));
    let currents = asked("18");
    assert!(currents.iter().all(|(it, settings)| (*settings > 0) == (it[0] < 32)));
    assert!((0..=40).all(|imax| currents.iter().any(|(it, _)| it == &[imax])));

    let (mut met, mut codes) = ([[0; 3]; 2], std::collections::BTreeSet::new());
    for (arguments, settings) in asked("19") {
        met[usize::from(arguments[2] != 0)][settings] += 1;
        codes.insert(arguments[2]);
    }
    println!("period words when tracking and when not, of no frequency, one and two: {met:?}");
    let [[none, one, two], others] = met;
    assert!(none > 5 && one > 5 && two == 0 && others.iter().all(|cases| *cases > 1), "{met:?}");
    assert_eq!(Vec::from_iter(codes), [0, 1, 2, 3, 255]);
}

/// A case of uploads that are cut: the upload, the chip at first, and the runs.
struct CutUploads {
    upload: Upload,
    start: Chip,
    runs: Vec<Run>,
}

/// A run: how many exchanges are made, how it ends, how many bytes of the next reach the chip, and the chip then.
struct Run {
    made: usize,
    end: u8,
    reached: usize,
    after: Chip,
}

fn cut_uploads(sample: &str) -> Vec<CutUploads> {
    let cases = sample.lines().filter_map(|line| line.strip_prefix("32 "));
    cases
        .map(|case| {
            let fields: Vec<Vec<u8>> = case.split(' ').map(bytes).collect();
            let [record, lock, image, start, runs @ ..] = &fields[..] else { panic!("{case}") };
            let chip = |unlocked: u8, bytes: &[u8]| {
                assert!(unlocked < 2);
                let bytes = bytes.try_into().unwrap();
                Chip { address: record[0], bytes, unlocked: unlocked == 1 }
            };
            let run = |run: &Vec<u8>| Run {
                made: run[0].into(),
                end: run[1],
                reached: run[2].into(),
                after: chip(run[4], &run[5..]),
            };
            CutUploads {
                upload: Upload { image: image.clone(), lock: lock[0] == 1 },
                start: chip(start[0], &start[1..]),
                runs: runs.iter().map(run).collect(),
            }
        })
        .collect()
}

/// Uploads are cut in the unlock, in each of four chunks and in the lock, before the first byte that is stored, in the midst and behind the
/// last one, by a session that is dropped and by a failure; from locked and unlocked memory, once to five times. Each run leaves what
/// document 01's writes leave, as far as they reach the chip, and the last one the whole image and the lock that is asked.
#[test]
fn cuts_are_there() {
    let sample = text("crates/vectors/stdin");
    // By exchange (unlock, the chunks, lock), by how much is stored of it, and by how the run ends.
    let mut met = [[[0; 2]; 3]; 6];
    let (mut starts, mut lengths, mut cuts) = ([0; 4], [0; 101], [0; 6]);
    let mut whole_between = 0;
    for CutUploads { upload, start, runs } in cut_uploads(&sample) {
        let (writes, mut chip) = (Bare::new(true).writes(&upload), start);
        for run in &runs {
            for sent in &writes[..run.made] {
                chip.reached(chip.address, sent, 0, sent.len());
            }
            let next = writes.get(run.made);
            assert_eq!(run.end == 0, next.is_none());
            if let Some(sent) = next {
                let stored = run.reached.saturating_sub(1);
                chip.reached(chip.address, sent, 0, stored);
                let place = if run.made > 0 && sent[0] == 0x2D { 5 } else { run.made };
                let part = if stored == 0 { 0 } else { 1 + usize::from(run.reached == sent.len()) };
                met[place][part][usize::from(run.end) - 1] += 1;
            }
            assert_eq!(chip, run.after);
        }
        let (last, before) = runs.split_last().unwrap();
        assert_eq!((last.end, last.after), (0, upload.whole(&start)));
        let cut = before.iter().filter(|run| run.end != 0).count();
        starts[2 * usize::from(start.unlocked) + usize::from(upload.lock)] += 1;
        lengths[upload.image.len()] += 1;
        cuts[cut] += 1;
        whole_between += before.len() - cut;
    }
    println!("cuts by exchange, by the part that is stored, dropped and failed: {met:?}");
    println!(
        "starts {starts:?}, how many cuts {cuts:?}, whole runs before the last {whole_between}"
    );
    for (place, parts) in met.iter().enumerate() {
        for (part, ends) in parts.iter().enumerate() {
            // An unlock and a lock have one byte, which is stored or not.
            let is_there = part != 1 || (1..5).contains(&place);
            assert!(ends.iter().all(|cases| (*cases > 0) == is_there), "{place}, {part}: {ends:?}");
        }
    }
    assert!(starts.iter().chain(&cuts[1..]).all(|cases| *cases > 5));
    assert!(cuts[0] == 0 && whole_between > 5);
    let given = [0, 1, 31, 32, 33, 63, 64, 65, 96, 97, 98, 99, 100];
    assert!(given.iter().all(|length| lengths[*length] > 2), "{lengths:?}");
    compared("cases of cut uploads", lengths.iter().sum(), 120);
}
