//! A C function that tells a value or a refusal in one number never tells both by the same: what the published Rust accepts and
//! what it refuses, or document 02 for want of room, are told apart by the number alone.

use harness::generate::{list, with_noise};
use harness::images::{frame_word, hundred, plain};
use harness::merges::{any_images, merged};
use harness::oracle::{Builders, NOT_BEGUN, number};
use harness::pages::{self, LONGEST};
use harness::patterns::{KINDS, mended};
use harness::random::Random;
use harness::raw::{LISTS, ffi};
use harness::whole::TOO_SHORT;
use std::collections::BTreeMap;
use yambelugo::{Call, IMAGE};

/// Each number that a function told, with whether the Rust, or document 01 of an image, accepts what it was told for.
#[derive(Default)]
struct Numbers(BTreeMap<&'static str, BTreeMap<u64, bool>>);

impl Numbers {
    /// Counts a number; it has to be the wanted one, a value or a refusal.
    fn told(&mut self, function: &'static str, number: impl Into<u64>, wanted: Result<u64, u64>) {
        let number = number.into();
        assert_eq!(number, wanted.unwrap_or_else(|it| it), "{function}: {wanted:?}");
        let before = self.0.entry(function).or_default().insert(number, wanted.is_ok());
        assert!(before.is_none_or(|it| it == wanted.is_ok()), "{function}: {number} is both");
    }

    /// Every function told so many values and refusals, all different.
    fn assert_met(&self, wanted: &[(&str, usize, usize)]) {
        for (function, values, refusals) in wanted {
            let told = &self.0[function];
            let met = told.values().filter(|accepted| **accepted).count();
            println!("{function}: {met} values, {} refusals", told.len() - met);
            assert!(met >= *values && told.len() - met >= *refusals, "{function}");
        }
        assert_eq!(self.0.len(), wanted.len());
    }
}

/// The numbers of one list of calls.
fn built(calls: &[Option<Call>], list: &[u8], numbers: &mut Numbers) {
    let mut builders = Builders::default();
    let answers = builders.run(calls);
    let (at, len) = (list.as_ptr(), list.len());
    let mut out = [0; 100];
    let mut encode = |build: ffi::Build, room: usize| {
        // SAFETY: each pointer and length is a slice; they do not overlap.
        unsafe { build(at, len, out[..room].as_mut_ptr(), room) }
    };
    let snippet = builders.snippet.build().map(|it| it.byte_len()).map_err(|it| number(&it));
    let frame = match builders.frame {
        Some(frame) => frame.build().map(|it| it.byte_len()).map_err(|it| number(&it)),
        None => Err(NOT_BEGUN),
    };
    let sequence = builders.sequence.build().map(|it| it.byte_len()).map_err(|it| number(&it));
    for (name, build, item) in [
        ("snippet", ffi::da728x_snippet as ffi::Build, snippet),
        ("frame", ffi::da728x_frame, frame),
        ("sequence", ffi::da728x_sequence, sequence),
    ] {
        // A buffer that is too short is told apart from the lengths too.
        let length = item.unwrap_or(1);
        for room in [100, length, length - 1] {
            let fits = item.and_then(|it| if room < it { Err(TOO_SHORT) } else { Ok(it as u64) });
            numbers.told(name, encode(build, room), fits.map_err(|it| 65536 * u64::from(it)));
        }
    }

    let built = builders.memory.build().map(|memory| hundred(&memory));
    let built = built.map_err(|error| u64::from(number(&error)));
    let strict = match answers.iter().position(|answer| *answer != 0) {
        Some(place) => Err(u64::from(answers[place]) + 256 * (place as u64 + 1)),
        None => built.map(|_| 0),
    };
    numbers.told("assemble_strict", encode(ffi::da728x_assemble_strict, 100), strict);
    let strict = strict.and(Err(TOO_SHORT.into()));
    numbers.told("assemble_strict", encode(ffi::da728x_assemble_strict, 99), strict);
    // SAFETY: each pointer and length is a slice; they do not overlap.
    let mut assemble = |room| unsafe { ffi::da728x_assemble(at, len, out.as_mut_ptr(), room) };
    numbers.told("assemble", assemble(100), built.map(|_| 0));
    numbers.told("assemble", assemble(99), built.and(Err(TOO_SHORT.into())));
    if let Ok(image) = built {
        read(&image, numbers);
        read(&image[..99], numbers);
        for at in [0, 1, 2, 3, 99] {
            let mut other = image;
            other[at] = other[at].wrapping_add(1);
            read(&other, numbers);
        }
    }
}

/// The numbers of one image, or of other bytes.
fn read(image: &[u8], numbers: &mut Numbers) {
    let (at, len) = (image.as_ptr(), image.len());
    let (lists, mut out) = (plain(image), [0; LISTS]);
    let counts =
        lists.as_ref().map(|it| 256 * it.snippets.len() as u64 + it.sequences.len() as u64);
    let counts = counts.ok_or(18 << 16);
    let mut page = [0; LONGEST];
    let printed = pages::page(image).map(|it| it.len() as u64).ok_or(18 << 16);
    // SAFETY: each pointer and length is a slice; they do not overlap.
    unsafe {
        numbers.told("read_counts", ffi::da728x_read_counts(at, len), counts);
        let told = ffi::da728x_read_lists(at, len, out.as_mut_ptr(), LISTS);
        numbers.told("read_lists", told, counts);
        let told = ffi::da728x_read_lists(at, len, out.as_mut_ptr(), LISTS - 1);
        numbers.told("read_lists", told, counts.and(Err(u64::from(TOO_SHORT) << 16)));
        let mut print = |room| ffi::da728x_page(at, len, page.as_mut_ptr(), room);
        let told = print(LONGEST);
        numbers.told("page", told, printed);
        let told = print(printed.map_or(0, |it| it as usize - 1));
        numbers.told("page", told, printed.and(Err(u64::from(TOO_SHORT) << 16)));
    }
    for (i, j) in [(0, 0), (0, 1), (0, 20), (1, 0), (2, 1), (15, 0)] {
        // That there is no such item is told apart from the items too.
        let (point, frame) = match &lists {
            Some(lists) => {
                let point = lists.snippets.get(i).and_then(|it| it.get(j));
                let frame = lists.sequences.get(i).and_then(|it| it.get(j));
                (point.ok_or(256).map(|it| (*it).into()), frame.ok_or(1 << 48).map(frame_word))
            }
            None => (Err(18 << 16), Err(18 << 56)),
        };
        // SAFETY: the pointer and length are a slice.
        unsafe {
            numbers.told("read_point", ffi::da728x_read_point(at, len, i, j), point);
            numbers.told("read_frame", ffi::da728x_read_frame(at, len, i, j), frame);
        }
    }
}

/// The numbers of one pair of images, with room and without, and of one that is cut.
fn merge([first, second]: [[u8; IMAGE]; 2], numbers: &mut Numbers) {
    let mut out = [0; IMAGE];
    for (length, room) in [(100, 100), (100, 99), (99, 100)] {
        let first = &first[..length];
        let wanted = match merged(first, &second) {
            Err(number) => Err(number.into()),
            Ok(_) if room < IMAGE => Err(TOO_SHORT.into()),
            Ok(_) => Ok(0),
        };
        let (one, other) = (first.as_ptr(), second.as_ptr());
        // SAFETY: each pointer and length is a slice; they do not overlap.
        let told = unsafe { ffi::da728x_merge(one, length, other, IMAGE, out.as_mut_ptr(), room) };
        numbers.told("merge", told, wanted);
    }
}

#[test]
fn values_and_refusals_are_told_apart() {
    let mut random = Random::new(90);
    let mut numbers = Numbers::default();
    for (ramp, length, amplitude) in (0..=255)
        .flat_map(|length| (0..=255).flat_map(move |it| [(0, length, it), (1, length, it)]))
    {
        let make = [da728x::waveform::PwlPoint::step, da728x::waveform::PwlPoint::ramp];
        let wanted = make[usize::from(ramp)](length, amplitude);
        let wanted =
            wanted.map(|it| it.as_byte().into()).map_err(|it| 256 * u64::from(number(&it)));
        numbers.told("point", ffi::da728x_point(ramp, length, amplitude), wanted);
    }
    for at in 0..40_000 {
        let calls = KINDS[at % KINDS.len()].1(&mut random);
        let calls = match at / KINDS.len() % 2 {
            0 => mended(&calls).into_iter().map(Some).collect(),
            _ => with_noise(calls, &mut random),
        };
        // Often cut, so that something is left under construction.
        let cut = if random.chance(50) { random.within(0, calls.len()) } else { calls.len() };
        let list = list(&calls[..cut], &mut random);
        built(&calls[..cut], &list, &mut numbers);
    }
    for _ in 0..5_000 {
        merge(any_images(&mut random), &mut numbers);
    }
    read(&[], &mut numbers);
    read(&[0; IMAGE], &mut numbers);
    numbers.assert_met(&[
        ("point", 256, 2),
        ("snippet", 16, 2),
        ("frame", 3, 2),
        ("sequence", 80, 2),
        ("assemble_strict", 1, 100),
        ("assemble", 1, 4),
        ("read_counts", 100, 1),
        ("read_lists", 100, 2),
        ("page", 60, 2),
        ("merge", 1, 6),
        ("read_point", 256, 2),
        ("read_frame", 1_000, 2),
    ]);
}
