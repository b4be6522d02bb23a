//! What is measured: the same inputs given to the published Rust and to the library.

use crate::ffi;
use da728x::config::{ActuatorConfig, DeviceConfig};
use da728x::waveform::WaveformMemory;
use embedded_hal_async::i2c::{ErrorKind, ErrorType, I2c};
use harness::bus::{MOST, at_once};
use harness::driver::{record_bytes, revision};
use harness::encoded;
use harness::images::{EXAMPLE, plain};
use harness::merges::{any_images, merged};
use harness::oracle::{Builders, matches, number};
use harness::pages::LONGEST;
use harness::patterns::{KINDS, mended};
use harness::random::Random;
use harness::raw::{BYTE, DONE, LISTS, SESSION};
use harness::records::COUNT;
use harness::settings::{Settings, published_variant};
use harness::triggers;
use harness::{GAINS, TIMEBASES};
use std::hint::black_box;
use yambelugo::{Call, DrivingMode, IMAGE, OperationMode, PwlPoint, RECORD, Variant};

const ADDRESS: u8 = 0x4A;

const TRIM4: u8 = 0x60;

const GPI_0_CTL: u8 = triggers::REGISTERS[0];

const GPI_2_CTL: u8 = triggers::REGISTERS[2];

/// Room for the answers to any of the lists.
const ANSWERS: usize = 512;

const VARIANT: Variant = Variant::DA7280;

/// What both sides are run on.
pub struct Inputs {
    patterns: Patterns,
    /// The same, without the calls that are refused.
    mended: Patterns,
    images: Vec<[u8; IMAGE]>,
    /// Document 01's example image and those of the longest pages, so many of each.
    examples: Vec<[u8; IMAGE]>,
    longest: Vec<[u8; IMAGE]>,
    /// Pairs of images that can be merged, and the calls that make the merged ones.
    pairs: Vec<[[u8; IMAGE]; 2]>,
    merged: Vec<Vec<u8>>,
    accepted: Vec<Case>,
    refused: Vec<Case>,
    /// Period words that come from some frequency, with the mode.
    words: Vec<(u16, u8)>,
}

/// Lists of calls in the forms in which the two sides take them.
struct Patterns {
    calls: Vec<Vec<Call>>,
    lists: Vec<Vec<u8>>,
}

impl Patterns {
    fn new(calls: Vec<Vec<Call>>) -> Self {
        let lists = calls.iter().map(|calls| encoded(calls)).collect();
        Self { calls, lists }
    }
}

/// Settings in the forms in which the two sides take them.
struct Case {
    bytes: [u8; 34],
    published: (ActuatorConfig, DeviceConfig),
}

impl Case {
    fn new(settings: &Settings) -> Self {
        Self { bytes: settings.encode(), published: settings.published() }
    }
}

impl Inputs {
    pub fn new(cases: usize) -> Self {
        let mut random = Random::new(1);
        let calls: Vec<_> = (0..cases).map(|i| KINDS[i % KINDS.len()].1(&mut random)).collect();
        let mended = Patterns::new(calls.iter().map(|calls| mended(calls)).collect());
        let patterns = Patterns::new(calls);
        let images = patterns.lists.iter().filter_map(|list| our_image(list)).collect();
        let accepted = (0..cases).map(|_| Case::new(&Settings::accepted(&mut random))).collect();
        let mut refused = Vec::new();
        while refused.len() < cases {
            let settings = Settings::any(&mut random);
            let case = Case::new(&settings);
            if !settings.outside() && our_start(&case, &our_record(), &mut [0; SESSION]) != 0 {
                refused.push(case);
            }
        }
        let period = |hz: u64| (100_000_000_000 / (133_332 * hz)) as u16;
        let bands = [(50, 300), (25, 1024), (25, 1024)];
        let words = (0..cases).map(|i| {
            let (low, high) = bands[i % 3];
            (period(random.within(low, high) as u64), (i % 3) as u8)
        });
        let words = words.collect();
        let examples = vec![EXAMPLE; cases];
        let longest = (0..cases).map(|_| longest_page(&mut random)).collect();
        let (mut pairs, mut merged_lists) = (Vec::new(), Vec::new());
        while pairs.len() < cases {
            let pair = any_images(&mut random);
            if let Ok(image) = merged(&pair[0], &pair[1]) {
                let list = encoded(&calls_of(&image));
                assert_eq!(our_image(&list), Some(image));
                pairs.push(pair);
                merged_lists.push(list);
            }
        }
        Self {
            patterns,
            mended,
            images,
            examples,
            longest,
            pairs,
            merged: merged_lists,
            accepted,
            refused,
            words,
        }
    }
}

/// The image of a page with 94 lines: a point, and 93 frames of one byte in three sequences.
fn longest_page(random: &mut Random) -> [u8; IMAGE] {
    let mut image = [0; IMAGE];
    image[6..].fill_with(|| random.below(128) as u8);
    image[..6].copy_from_slice(&[1, 3, 6, 38, 70, 99]);
    image
}

/// The fewest calls that make this image.
fn calls_of(image: &[u8]) -> Vec<Call> {
    let lists = plain(image).expect("an image");
    let mut calls = Vec::new();
    for points in &lists.snippets {
        for byte in points {
            let make = if *byte < 128 { PwlPoint::step } else { PwlPoint::ramp };
            calls.push(Call::Point(make(byte / 16 % 8 + 1, byte % 16).expect("a point")));
        }
        calls.push(Call::AddSnippet);
    }
    for frames in &lists.sequences {
        for frame in frames {
            let begin =
                if frame.snippet == 0 { Call::Silence } else { Call::FrameNew(frame.snippet) };
            // A loop count of 0 is there without a call if something else takes a second byte.
            let two_bytes = frame.snippet > 7 || frame.frequency_hz.is_some();
            let loops = frame.loop_count.filter(|count| *count > 0 || !two_bytes);
            calls.push(begin);
            calls.extend((frame.gain != GAINS[0]).then_some(Call::Gain(frame.gain)));
            calls
                .extend((frame.timebase != TIMEBASES[0]).then_some(Call::Timebase(frame.timebase)));
            calls.extend(loops.map(Call::LoopCount));
            calls.extend(frame.frequency_hz.map(Call::FrequencyHz));
            calls.push(Call::AddFrame);
        }
        calls.push(Call::AddSequence);
    }
    calls
}

/// What a side did: a sum over all that it answered, which both sides have to have alike, and how
/// many images or exchanges it made.
#[derive(Debug, Clone, Copy, Default, PartialEq)]
pub struct Done {
    pub sum: u64,
    pub count: u64,
}

impl Done {
    fn add(&mut self, bytes: &[u8]) {
        self.sum = bytes.iter().fold(self.sum, |sum, byte| sum.wrapping_mul(31) + u64::from(*byte));
    }
}

pub type Side = fn(&Inputs) -> Done;

/// What a work may cost, in instructions.
#[derive(Clone, Copy)]
pub enum Goal {
    /// So many times the Rust's.
    OfTheRust(f64),
    /// So many times building an image.
    OfBuilding(f64),
    /// So many times reading the counts of the example image.
    OfCounts(f64),
    /// So many times making the merged images of the row before from their calls.
    OfCalls(f64),
    AtMost(f64),
    Free,
}

/// A piece of work, with the published Rust's side where it has one.
pub struct Work {
    pub name: &'static str,
    pub unit: &'static str,
    pub theirs: Option<Side>,
    pub ours: Side,
    pub goal: Goal,
}

/// The row that pages are held against.
pub const READING_THE_EXAMPLE: &str = "reading the example";

/// The row that merging is held against.
pub const MERGED_FROM_CALLS: &str = "merged images, from calls";

pub const WORKS: [Work; 22] = [
    Work {
        name: "images",
        unit: "image",
        theirs: Some(their_images),
        ours: our_images,
        goal: Goal::OfTheRust(0.95),
    },
    Work {
        name: "images, strict",
        unit: "image",
        theirs: Some(their_strict_images),
        ours: our_strict_images,
        goal: Goal::OfTheRust(0.95),
    },
    Work {
        name: "answers",
        unit: "list",
        theirs: Some(their_answers),
        ours: our_answers,
        goal: Goal::Free,
    },
    Work { name: "one item", unit: "item", theirs: None, ours: our_single_items, goal: Goal::Free },
    Work {
        name: "reading",
        unit: "image",
        theirs: None,
        ours: our_readings,
        goal: Goal::OfBuilding(2.0),
    },
    Work {
        name: "reading all lists",
        unit: "image",
        theirs: None,
        ours: our_lists,
        goal: Goal::OfBuilding(2.0),
    },
    Work {
        name: "reading every item",
        unit: "image",
        theirs: None,
        ours: our_items,
        goal: Goal::Free,
    },
    Work {
        name: READING_THE_EXAMPLE,
        unit: "image",
        theirs: None,
        ours: our_examples,
        goal: Goal::Free,
    },
    Work {
        name: "page of the example",
        unit: "page",
        theirs: None,
        ours: our_short_pages,
        goal: Goal::OfCounts(4.0),
    },
    Work {
        name: "page of the example, by bytes",
        unit: "byte",
        theirs: None,
        ours: our_short_page_bytes,
        goal: Goal::AtMost(20.0),
    },
    Work {
        name: "page of 94 lines",
        unit: "byte",
        theirs: None,
        ours: our_long_pages,
        goal: Goal::AtMost(20.0),
    },
    Work {
        name: MERGED_FROM_CALLS,
        unit: "image",
        theirs: None,
        ours: our_images_from_calls,
        goal: Goal::Free,
    },
    Work {
        name: "merged images",
        unit: "image",
        theirs: None,
        ours: our_merges,
        goal: Goal::OfCalls(1.0),
    },
    Work {
        name: "refused settings",
        unit: "refusal",
        theirs: Some(their_refusals),
        ours: our_refusals,
        goal: Goal::Free,
    },
    Work {
        name: "configure, plan",
        unit: "plan",
        theirs: Some(their_plans),
        ours: our_plans,
        goal: Goal::OfTheRust(1.3),
    },
    Work {
        name: "configure",
        unit: "exchange",
        theirs: Some(their_configures),
        ours: our_configures,
        goal: Goal::AtMost(300.0),
    },
    Work {
        name: "tick of a sweep",
        unit: "tick",
        theirs: Some(their_ticks),
        ours: our_ticks,
        // 1.1 of what it took while it divided
        goal: Goal::AtMost(336.0),
    },
    Work {
        name: "upload, plan",
        unit: "plan",
        theirs: None,
        ours: our_upload_plans,
        goal: Goal::Free,
    },
    Work {
        name: "upload",
        unit: "exchange",
        theirs: Some(their_uploads),
        ours: our_uploads,
        goal: Goal::AtMost(300.0),
    },
    Work {
        name: "settings of a voltage byte",
        unit: "byte",
        theirs: None,
        ours: our_voltages,
        goal: Goal::AtMost(60.0),
    },
    Work {
        name: "settings of an IMAX",
        unit: "IMAX",
        theirs: None,
        ours: our_currents,
        goal: Goal::AtMost(60.0),
    },
    Work {
        name: "settings of a period word",
        unit: "word",
        theirs: None,
        ours: our_frequencies,
        goal: Goal::AtMost(60.0),
    },
];

fn their_images(inputs: &Inputs) -> Done {
    let mut done = Done::default();
    for calls in &inputs.patterns.calls {
        let mut builders = Builders::default();
        for call in calls {
            black_box(builders.call(*call));
        }
        done.built(&builders);
    }
    done
}

/// As a Rust program does that stops at the first refusal; there is none.
fn their_strict_images(inputs: &Inputs) -> Done {
    let mut done = Done::default();
    for calls in &inputs.mended.calls {
        let mut builders = Builders::default();
        if calls.iter().all(|call| builders.call(*call) == 0) {
            done.built(&builders);
        }
    }
    done
}

fn their_answers(inputs: &Inputs) -> Done {
    let mut done = Done::default();
    for calls in &inputs.patterns.calls {
        let (mut answers, mut builders) = ([0; ANSWERS], Builders::default());
        for (answer, call) in answers.iter_mut().zip(calls) {
            *answer = builders.call(*call);
        }
        done.add(&black_box(&answers)[..4]);
        done.count += 1;
    }
    done
}

fn our_answers(inputs: &Inputs) -> Done {
    let mut done = Done::default();
    for list in &inputs.patterns.lists {
        let mut answers = [0; ANSWERS];
        let (at, to) = (list.as_ptr(), answers.as_mut_ptr());
        // SAFETY: each pointer and length is a slice, and they do not overlap.
        unsafe { ffi::da728x_answers(at, list.len(), to, ANSWERS) };
        done.add(&black_box(&answers)[..4]);
        done.count += 1;
    }
    done
}

/// The snippet, the frame and the sequence that a list leaves, and the sequence's length.
fn our_single_items(inputs: &Inputs) -> Done {
    let mut done = Done::default();
    for list in &inputs.patterns.lists {
        let (mut out, at) = ([0; IMAGE], list.as_ptr());
        for build in [ffi::da728x_snippet, ffi::da728x_frame, ffi::da728x_sequence] {
            // SAFETY: each pointer and length is a slice, and they do not overlap.
            let told = unsafe { build(at, list.len(), out.as_mut_ptr(), IMAGE) };
            done.add(&told.to_le_bytes());
        }
        // SAFETY: the pointer and length are a slice.
        let len = unsafe { ffi::da728x_current_len(at, list.len()) };
        done.add(&[len as u8, black_box(&out)[0]]);
        done.count += 4;
    }
    done
}

impl Done {
    fn built(&mut self, builders: &Builders) {
        if let Ok(memory) = builders.memory.build() {
            let mut image = [0; IMAGE];
            image[..memory.as_bytes().len()].copy_from_slice(memory.as_bytes());
            self.add(black_box(&image));
        }
        self.count += 1;
    }
}

fn our_images(inputs: &Inputs) -> Done {
    let mut done = Done::default();
    for list in &inputs.patterns.lists {
        if let Some(image) = our_image(list) {
            done.add(black_box(&image));
        }
        done.count += 1;
    }
    done
}

fn our_strict_images(inputs: &Inputs) -> Done {
    let mut done = Done::default();
    for list in &inputs.mended.lists {
        let (mut image, at) = ([0; IMAGE], list.as_ptr());
        // SAFETY: each pointer and length is a slice, and they do not overlap.
        let told =
            unsafe { ffi::da728x_assemble_strict(at, list.len(), image.as_mut_ptr(), IMAGE) };
        assert!(told < 256, "a call is refused");
        if told == 0 {
            done.add(black_box(&image));
        }
        done.count += 1;
    }
    done
}

fn our_image(list: &[u8]) -> Option<[u8; IMAGE]> {
    let (mut image, at) = ([0; IMAGE], list.as_ptr());
    // SAFETY: each pointer and length is a slice, and they do not overlap.
    let told = unsafe { ffi::da728x_assemble(at, list.len(), image.as_mut_ptr(), IMAGE) };
    (told == 0).then_some(image)
}

fn counts(image: &[u8]) -> u32 {
    // SAFETY: the pointer and length are a slice.
    unsafe { ffi::da728x_read_counts(image.as_ptr(), image.len()) }
}

fn our_lists(inputs: &Inputs) -> Done {
    let mut done = Done::default();
    for image in &inputs.images {
        let mut lists = [0; LISTS];
        let (at, to) = (black_box(image).as_ptr(), lists.as_mut_ptr());
        // SAFETY: each pointer and length is an array, and they do not overlap.
        let told = unsafe { ffi::da728x_read_lists(at, IMAGE, to, LISTS) };
        black_box(&lists);
        done.add(&told.to_le_bytes());
        done.count += 1;
    }
    done
}

fn our_readings(inputs: &Inputs) -> Done {
    read_counts(&inputs.images)
}

fn our_examples(inputs: &Inputs) -> Done {
    read_counts(&inputs.examples)
}

fn read_counts(images: &[[u8; IMAGE]]) -> Done {
    let mut done = Done::default();
    for image in images {
        done.add(&counts(black_box(image)).to_le_bytes());
        done.count += 1;
    }
    done
}

fn our_short_pages(inputs: &Inputs) -> Done {
    Done { count: inputs.examples.len() as u64, ..pages(&inputs.examples) }
}

fn our_short_page_bytes(inputs: &Inputs) -> Done {
    pages(&inputs.examples)
}

fn our_long_pages(inputs: &Inputs) -> Done {
    pages(&inputs.longest)
}

/// Prints the pages, each over the one before; the count is of their bytes.
fn pages(images: &[[u8; IMAGE]]) -> Done {
    let (mut done, mut page) = (Done::default(), [0; LONGEST]);
    for image in images {
        let (at, to) = (black_box(image).as_ptr(), page.as_mut_ptr());
        // SAFETY: each pointer and length is an array, and they do not overlap.
        let told = unsafe { ffi::da728x_page(at, IMAGE, to, LONGEST) };
        assert!(told < 65536, "no page");
        black_box(&page);
        done.add(&told.to_le_bytes());
        done.count += u64::from(told);
    }
    done
}

/// What a program does that keeps the calls of both images.
fn our_images_from_calls(inputs: &Inputs) -> Done {
    let mut done = Done::default();
    for list in &inputs.merged {
        let image = our_image(list).expect("an image");
        done.add(black_box(&image));
        done.count += 1;
    }
    done
}

fn our_merges(inputs: &Inputs) -> Done {
    let mut done = Done::default();
    for [first, second] in &inputs.pairs {
        let (one, other, mut image) = (first.as_ptr(), second.as_ptr(), [0; IMAGE]);
        // SAFETY: each pointer and length is an array, and they do not overlap.
        let told =
            unsafe { ffi::da728x_merge(one, IMAGE, other, IMAGE, image.as_mut_ptr(), IMAGE) };
        assert_eq!(told, 0, "refused");
        done.add(black_box(&image));
        done.count += 1;
    }
    done
}

fn our_items(inputs: &Inputs) -> Done {
    let mut done = Done::default();
    for image in &inputs.images {
        let [sequences, snippets, ..] = counts(image).to_le_bytes();
        let (at, len) = (image.as_ptr(), image.len());
        for snippet in 0..snippets.into() {
            // SAFETY: the pointer and length are a slice.
            let point = |i| unsafe { ffi::da728x_read_point(at, len, snippet, i) };
            let points = (0..).map(point).take_while(|byte| *byte != 256);
            points.for_each(|byte| done.add(&byte.to_le_bytes()));
        }
        for sequence in 0..sequences.into() {
            // SAFETY: the pointer and length are a slice.
            let frame = |i| unsafe { ffi::da728x_read_frame(at, len, sequence, i) };
            let frames = (0..).map(frame).take_while(|fields| *fields != 1 << 48);
            frames.for_each(|fields| done.add(&fields.to_le_bytes()));
        }
        done.count += 1;
    }
    done
}

/// A bus that answers at once and does nothing else: what is left is the driver's own work.
struct Idle;

impl ErrorType for Idle {
    type Error = ErrorKind;
}

impl I2c for Idle {
    async fn write(&mut self, _: u8, sent: &[u8]) -> Result<(), ErrorKind> {
        black_box(sent);
        Ok(())
    }

    async fn write_read(&mut self, _: u8, sent: &[u8], read: &mut [u8]) -> Result<(), ErrorKind> {
        black_box(sent);
        read[0] = black_box(revision(VARIANT));
        Ok(())
    }
}

fn their_plans(inputs: &Inputs) -> Done {
    let mut driver =
        at_once(da728x::DA728x::new(Idle, ADDRESS, published_variant(VARIANT))).unwrap();
    for settings in &inputs.accepted {
        let (actuator, device) = settings.published;
        at_once(driver.configure(actuator, device)).unwrap();
    }
    Done { sum: 0, count: inputs.accepted.len() as u64 }
}

/// A bus that answers at once, and sums what it is sent.
#[derive(Default)]
struct Bus(Done);

impl Bus {
    fn exchange(&mut self, address: u8, sent: &[u8]) -> u8 {
        // The papers have other low bits of TRIM4 and another mode bit of a trigger than the published Rust.
        let ours = match sent[0] {
            TRIM4 => 3,
            GPI_0_CTL..=GPI_2_CTL => triggers::MODE,
            _ => 0,
        };
        self.0.add(&[address, sent[sent.len() - 1] & !ours]);
        self.0.count += 1;
        revision(VARIANT)
    }
}

impl ErrorType for &mut Bus {
    type Error = ErrorKind;
}

impl I2c for &mut Bus {
    async fn write(&mut self, address: u8, sent: &[u8]) -> Result<(), ErrorKind> {
        self.exchange(address, black_box(sent));
        Ok(())
    }

    async fn write_read(
        &mut self,
        address: u8,
        sent: &[u8],
        read: &mut [u8],
    ) -> Result<(), ErrorKind> {
        read[0] = self.exchange(address, black_box(sent));
        Ok(())
    }
}

fn their_driver(bus: &mut Bus) -> da728x::DA728x<&mut Bus> {
    at_once(da728x::DA728x::new(bus, ADDRESS, published_variant(VARIANT))).unwrap()
}

fn their_refusals(inputs: &Inputs) -> Done {
    let (mut bus, mut done) = (Bus::default(), Done::default());
    let mut driver = their_driver(&mut bus);
    for settings in &inputs.refused {
        let (actuator, device) = settings.published;
        let refused = at_once(driver.configure(actuator, device)).unwrap_err();
        done.add(&[one_number(number(&refused))]);
        done.count += 1;
    }
    done
}

/// The numbers that the published `InvalidValue` matches, as one.
fn one_number(told: u8) -> u8 {
    if matches(11, told) { 11 } else { told }
}

fn our_refusals(inputs: &Inputs) -> Done {
    let (mut done, record, mut session) = (Done::default(), our_record(), [0; SESSION]);
    for settings in &inputs.refused {
        done.add(&[one_number(our_start(settings, &record, &mut session))]);
        done.count += 1;
    }
    done
}

fn their_configures(inputs: &Inputs) -> Done {
    let mut bus = Bus::default();
    let mut driver = their_driver(&mut bus);
    for settings in &inputs.accepted {
        let (actuator, device) = settings.published;
        at_once(driver.configure(actuator, device)).unwrap();
    }
    Done { count: bus.0.count - 1, ..bus.0 }
}

fn our_record() -> [u8; RECORD] {
    record_bytes(ADDRESS, VARIANT, None, 0)
}

fn our_start(settings: &Case, record: &[u8; RECORD], session: &mut [u8; SESSION]) -> u8 {
    let (at, len) = (settings.bytes.as_ptr(), settings.bytes.len());
    // SAFETY: each pointer and length is an array, and none overlaps another.
    unsafe {
        ffi::da728x_configure(record.as_ptr(), RECORD, at, len, session.as_mut_ptr(), SESSION)
    }
}

fn our_plans(inputs: &Inputs) -> Done {
    let (record, mut session) = (our_record(), [0; SESSION]);
    for settings in &inputs.accepted {
        assert_eq!(our_start(settings, &record, &mut session), 0);
        black_box(&session);
    }
    Done { sum: 0, count: inputs.accepted.len() as u64 }
}

/// What a sweep is played with: every frequency of the driver may follow.
fn sweeping() -> Settings {
    Settings::plain(OperationMode::PWM_MODE, DrivingMode::WIDEBAND)
}

/// A sweep from the lowest frequency to the highest, over and over.
fn ticks(inputs: &Inputs) -> impl Iterator<Item = u16> {
    (25..=1024).cycle().take(inputs.accepted.len())
}

fn their_ticks(inputs: &Inputs) -> Done {
    let mut driver =
        at_once(da728x::DA728x::new(Idle, ADDRESS, published_variant(VARIANT))).unwrap();
    let (actuator, device) = sweeping().published();
    at_once(driver.configure(actuator, device)).unwrap();
    for hz in ticks(inputs) {
        at_once(driver.set_frequency(black_box(hz))).unwrap();
    }
    Done { sum: 0, count: inputs.accepted.len() as u64 }
}

/// Each tick's session is begun; its two writes cost what other exchanges cost.
fn our_ticks(inputs: &Inputs) -> Done {
    let record = record_bytes(ADDRESS, VARIANT, Some(&sweeping()), 0);
    let mut session = [0; SESSION];
    for hz in ticks(inputs) {
        let (of, at) = (record.as_ptr(), session.as_mut_ptr());
        // SAFETY: each pointer and length is an array, and none overlaps another.
        assert_eq!(unsafe { ffi::da728x_set_frequency(of, RECORD, black_box(hz), at, SESSION) }, 0);
        black_box(&session);
    }
    Done { sum: 0, count: inputs.accepted.len() as u64 }
}

/// Runs a session to its end, as the header shows.
fn run(bus: &mut Bus, record: &mut [u8; RECORD], session: &mut [u8; SESSION]) {
    let mut bytes = [0; MOST];
    loop {
        // SAFETY: each pointer and length is an array, and none overlaps another.
        let next =
            unsafe { ffi::da728x_pending(session.as_ptr(), SESSION, bytes.as_mut_ptr(), MOST) };
        if next == 0 {
            return;
        }
        let [len, address, wanted, _] = next.to_le_bytes();
        let byte = bus.exchange(address, &black_box(&bytes)[..len.into()]);
        let kind = if wanted == 0 { DONE } else { BYTE };
        let (none, at) = (std::ptr::NonNull::dangling().as_ptr(), session.as_mut_ptr());
        let of = record.as_mut_ptr();
        // SAFETY: as above; the last slice is empty.
        let told = unsafe { ffi::da728x_answer(of, RECORD, at, SESSION, kind, byte, none, 0) };
        assert_eq!(told & 255, 0);
    }
}

fn our_configures(inputs: &Inputs) -> Done {
    let (mut bus, mut record, mut session) = (Bus::default(), our_record(), [0; SESSION]);
    bus.exchange(ADDRESS, &[0]);
    for settings in &inputs.accepted {
        our_start(settings, &record, &mut session);
        run(&mut bus, &mut record, &mut session);
    }
    assert_eq!(record[3..COUNT], inputs.accepted.last().unwrap().bytes);
    Done { count: bus.0.count - 1, ..bus.0 }
}

fn their_uploads(inputs: &Inputs) -> Done {
    let mut bus = Bus::default();
    let mut driver = their_driver(&mut bus);
    for image in &inputs.images {
        let memory = WaveformMemory::from_bytes(*image, IMAGE as u8, image[0], image[1]);
        at_once(driver.upload_waveform_memory(&memory, true)).unwrap();
    }
    Done { count: bus.0.count - 1, ..bus.0 }
}

fn our_upload(image: &[u8; IMAGE], record: &mut [u8; RECORD], session: &mut [u8; SESSION]) {
    let (of, at, from) = (record.as_mut_ptr(), session.as_mut_ptr(), image.as_ptr());
    let start = ffi::da728x_upload_waveform_memory;
    // SAFETY: each pointer and length is an array, and none overlaps another.
    assert_eq!(unsafe { start(of, RECORD, from, IMAGE, 1, at, SESSION) }, 0);
}

fn our_upload_plans(inputs: &Inputs) -> Done {
    let (mut done, mut record, mut session) = (Done::default(), our_record(), [0; SESSION]);
    for image in &inputs.images {
        our_upload(image, &mut record, &mut session);
        done.add(&black_box(&session)[..1]);
        done.count += 1;
    }
    done
}

fn our_uploads(inputs: &Inputs) -> Done {
    let (mut bus, mut record, mut session) = (Bus::default(), our_record(), [0; SESSION]);
    bus.exchange(ADDRESS, &[0]);
    for image in &inputs.images {
        our_upload(image, &mut record, &mut session);
        run(&mut bus, &mut record, &mut session);
    }
    assert_eq!(record[COUNT], inputs.images.last().unwrap()[1]);
    Done { count: bus.0.count - 1, ..bus.0 }
}

/// Of every byte, over and over.
fn our_voltages(inputs: &Inputs) -> Done {
    let bytes = (0..inputs.words.len()).map(|i| i as u8);
    ranges(bytes.map(|byte| ffi::da728x_voltage_settings(byte)))
}

/// Of the 32 that come from some current.
fn our_currents(inputs: &Inputs) -> Done {
    let values = (0..inputs.words.len()).map(|i| i as u8 % 32);
    ranges(values.map(|imax| ffi::da728x_current_settings(imax)))
}

fn our_frequencies(inputs: &Inputs) -> Done {
    let words = inputs.words.iter();
    ranges(words.map(|(word, mode)| ffi::da728x_frequency_settings(*word, *mode)))
}

/// How many there were; each has to be a range.
fn ranges(told: impl Iterator<Item = u32>) -> Done {
    let mut done = Done::default();
    for word in told {
        assert_ne!(black_box(word), 0);
        done.count += 1;
    }
    done
}
