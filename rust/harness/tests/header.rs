//! What the wrapper cannot say: the C functions as the header declares them.

use ffi::*;
use harness::records::COUNT;
use harness::settings::Settings;
use harness::{GAINS, TIMEBASES, compared, oracle, pages, raw, text};
use std::fs;
use std::path::Path;
use std::ptr::{null, null_mut};
use yambelugo::{Call, DrivingMode, OperationMode, PwlPoint};

/// The wrapper's declarations, held against the header below.
#[allow(dead_code)]
#[path = "../../wrapper/src/ffi.rs"]
mod ffi;

/// Also with flags that are neither 0 nor 1.
#[test]
fn point_on_every_input() {
    let mut cases = 0;
    for timebases in 0..=255 {
        for amplitude in 0..=255 {
            for ramp in 0..=255 {
                let wanted = match ramp {
                    0 => da728x::waveform::PwlPoint::step(timebases, amplitude),
                    _ => da728x::waveform::PwlPoint::ramp(timebases, amplitude),
                };
                let wanted = match wanted {
                    Ok(point) => u16::from(point.as_byte()),
                    Err(error) => 256 * u16::from(oracle::number(&error)),
                };
                assert_eq!(
                    da728x_point(ramp, timebases, amplitude),
                    wanted,
                    "flag {ramp}, length {timebases}, amplitude {amplitude}"
                );
                cases += 1;
            }
        }
    }
    compared("inputs of da728x_point", cases, 1 << 24);
}

#[test]
fn fields_of_every_point() {
    let mut cases = 0;
    for byte in 0..=255 {
        let wanted = oracle::point(byte);
        assert_eq!(da728x_point_is_ramp(byte), u8::from(wanted.is_ramp()), "{byte:02X}");
        assert_eq!(da728x_point_timebases(byte), wanted.timebases(), "{byte:02X}");
        assert_eq!(da728x_point_amplitude(byte), wanted.amplitude(), "{byte:02X}");
        cases += 1;
    }
    compared("bytes of points", cases, 256);
}

/// NULL is fine for a length of 0. An empty snippet is 9, no frame 3, an empty sequence 10; a record of no bytes has no settings and no
/// sequences, and settings of no bytes have no impedance.
#[test]
fn empty_slices() {
    let (list, none) = (null::<u8>(), null_mut::<u8>());
    // SAFETY: all lengths are 0.
    unsafe {
        assert_eq!(da728x_snippet(list, 0, none, 0), 9 * 65536);
        assert_eq!(da728x_frame(list, 0, none, 0), 3 * 65536);
        assert_eq!(da728x_sequence(list, 0, none, 0), 10 * 65536);
        assert_eq!(da728x_current_len(list, 0), 0);
        assert_eq!(da728x_answers(list, 0, none, 0), 0);
        assert_eq!(da728x_assemble_strict(list, 0, none, 0), 9);
        assert_eq!(da728x_assemble(list, 0, none, 0), 9);
        assert_eq!(da728x_read_counts(list, 0), 18 * 65536);
        assert_eq!(da728x_read_point(list, 0, 0, 0), 18 * 65536);
        assert_eq!(da728x_read_frame(list, 0, 0, 0), 18 << 56);
        assert_eq!(da728x_read_lists(list, 0, none, 0), 18 * 65536);
        assert_eq!(da728x_page(list, 0, none, 0), 18 * 65536);
        assert_eq!(da728x_merge(list, 0, list, 0, none, 0), 18);
        assert_eq!(da728x_register_addresses(none, 0), 0);
        for read in
            [da728x_read_interrupts, da728x_read_actuator, da728x_read_control, da728x_read_trigger]
        {
            assert_eq!(read(255, none, 0), 0);
        }
        for replace in [
            da728x_replace_interrupts,
            da728x_replace_actuator,
            da728x_replace_control,
            da728x_replace_trigger,
        ] {
            assert_eq!(replace(0, 255, none, 0), 0);
        }
        assert_eq!(da728x_new(0, 0, none, 0), 0);
        assert_eq!(da728x_configure(list, 0, list, 0, none, 0), 22);
        for start in [
            da728x_get_chip_rev,
            da728x_get_events,
            da728x_get_status,
            da728x_unlock_waveform_memory,
            da728x_lock_waveform_memory,
            da728x_start_sequence,
        ] {
            assert_eq!(start(list, 0, none, 0), 0);
        }
        assert_eq!(da728x_set_frequency(list, 0, 100, none, 0), 15);
        assert_eq!(da728x_set_override_value(list, 0, -1, none, 0), 15);
        assert_eq!(da728x_set_timebase(list, 0, 1, none, 0), 0);
        assert_eq!(da728x_enable(list, 0, none, 0), 15);
        assert_eq!(da728x_disable(list, 0, none, 0), 15);
        assert_eq!(da728x_set_custom_drive_waveform(list, 0, 1, 2, 3, none, 0), 15);
        assert_eq!(da728x_upload_waveform_memory(none, 0, list, 0, 1, none, 0), 0);
        assert_eq!(da728x_read_waveform_memory(list, 0, 100, 100, none, 0), 0);
        assert_eq!(da728x_select_sequence(list, 0, 0, 15, none, 0), 28);
        assert_eq!(da728x_play_sequence(list, 0, 16, 0, none, 0), 11);
        assert_eq!(da728x_pending(list, 0, none, 0), 0);
        assert_eq!(da728x_answer(none, 0, none, 0, 2, 9, none, 0), 19 + (1 << 24));
        assert_eq!(da728x_result(list, 0), 0);
    }
}

/// The codes that the header defines are those that the wrapper writes.
#[test]
fn codes_of_calls() {
    let header = text("include/da728x.h");
    let defined: Vec<(&str, u8)> = header
        .lines()
        .filter_map(|line| line.strip_prefix("#define DA728X_CALL_"))
        .map(|line| {
            let mut words = line.split_whitespace();
            (words.next().unwrap(), words.next().unwrap().parse().unwrap())
        })
        .collect();
    let written = [
        ("SNIPPET_NEW", Call::SnippetNew),
        ("RAMP", Call::Ramp(0, 0)),
        ("STEP", Call::Step(0, 0)),
        ("POINT", Call::Point(PwlPoint::step(1, 0).unwrap())),
        ("FRAME_NEW", Call::FrameNew(0)),
        ("SILENCE", Call::Silence),
        ("GAIN", Call::Gain(GAINS[0])),
        ("TIMEBASE", Call::Timebase(TIMEBASES[0])),
        ("LOOP_COUNT", Call::LoopCount(0)),
        ("FREQUENCY_HZ", Call::FrequencyHz(0)),
        ("SEQUENCE_NEW", Call::SequenceNew),
        ("ADD_FRAME", Call::AddFrame),
        ("ADD_SNIPPET", Call::AddSnippet),
        ("ADD_SEQUENCE", Call::AddSequence),
    ]
    .map(|(name, call)| (name, call.encode()[0]));
    assert_eq!(defined, written);
    compared("codes of calls", defined.len(), 14);
}

/// The sizes, the place of the count and the kinds of answers that the header defines are those of the tests and of the wrapper.
#[test]
fn sizes_and_kinds() {
    let header = text("include/da728x.h");
    let defined: Vec<(&str, usize)> = header
        .lines()
        .filter_map(|line| line.strip_prefix("#define DA728X_"))
        .filter(|line| !line.starts_with("CALL_"))
        .filter_map(|line| line.split_once(' '))
        .map(|(name, value)| (name, value.parse().unwrap()))
        .collect();
    let settings = Settings::plain(OperationMode::INACTIVE, DrivingMode::WIDEBAND).encode();
    let used = [
        ("IMAGE", yambelugo::IMAGE),
        ("LISTS", raw::LISTS),
        ("PAGE", pages::LONGEST),
        ("SESSION", raw::SESSION),
        ("RECORD", yambelugo::RECORD),
        ("SEQUENCES", COUNT),
        ("SETTINGS", settings.len()),
        ("DONE", raw::DONE.into()),
        ("BYTE", raw::BYTE.into()),
        ("FAILED", raw::FAILED.into()),
    ];
    assert_eq!(defined, used);
    assert_eq!(size_of::<yambelugo::DA728x>(), yambelugo::RECORD);
    assert_eq!(yambelugo::PAGE, pages::LONGEST);
    compared("sizes and kinds", defined.len(), 10);
}

/// A function's name, the types of its arguments and the type of its answer, in Rust's words.
type Prototype = (String, Vec<String>, String);

fn prototype(name: &str, arguments: impl Iterator<Item = String>, answer: &str) -> Prototype {
    (name.trim().to_string(), arguments.collect(), answer.trim().to_string())
}

fn of_c(kind: &str) -> String {
    let (kind, kept) =
        kind.trim().strip_prefix("const ").map_or((kind.trim(), "*mut "), |kind| (kind, "*const "));
    let (kind, name) = kind.split_once(' ').unwrap();
    let word = match kind {
        "size_t" => "usize",
        "uint8_t" => "u8",
        "uint16_t" => "u16",
        "uint32_t" => "u32",
        "uint64_t" => "u64",
        "int8_t" => "i8",
        _ => panic!("{kind}"),
    };
    if name.starts_with('*') { format!("{kept}{word}") } else { word.to_string() }
}

/// The functions that the header declares.
fn declared() -> Vec<Prototype> {
    let header = text("include/da728x.h");
    let mut code = String::new();
    for part in header.split("/*") {
        code.push_str(part.split_once("*/").map_or(part, |(_, code)| code));
    }
    let lines = code.lines().filter(|line| !line.starts_with('#')).collect::<Vec<_>>().join(" ");
    let (_, body) = lines.split_once('{').unwrap();
    let statements = body.split(';').filter(|it| it.contains("da728x_"));
    statements
        .map(|it| {
            let (head, arguments) = it.trim().strip_suffix(')').unwrap().split_once('(').unwrap();
            let name = head.split_whitespace().nth(1).unwrap();
            prototype(name, arguments.split(',').map(of_c), &of_c(head))
        })
        .collect()
}

/// The functions that the proved crates export: a slice is a pointer and a length.
fn exported() -> Vec<Prototype> {
    let texts = ["crates/capi/src/lib.rt", "crates/capi_driver/src/lib.rt"].map(text);
    let functions = texts.iter().flat_map(|text| text.split("pub extern \"C\" fn ").skip(1));
    functions
        .map(|function| {
            let (name, rest) = function.split_once('(').unwrap();
            let (arguments, answer) = rest.split_once(") -> ").unwrap();
            let arguments = arguments.split(',').filter_map(|it| it.split_once(": "));
            let kinds = arguments.flat_map(|(_, kind)| match kind.trim() {
                "&[u8]" => vec!["*const u8".to_string(), "usize".to_string()],
                "&mut [u8]" => vec!["*mut u8".to_string(), "usize".to_string()],
                kind => vec![kind.to_string()],
            });
            prototype(name, kinds, answer.split_whitespace().next().unwrap())
        })
        .collect()
}

/// No exported function asks anything of its input: its contract promises an answer, and has no `requires`.
#[test]
fn nothing_is_required() {
    let mut contracts = 0;
    for text in ["crates/capi/src/lib.rt", "crates/capi_driver/src/lib.rt"].map(text) {
        for function in text.split("pub extern \"C\" fn ").skip(1) {
            let (contract, _) = function.split_once("\n{\n").unwrap();
            assert!(contract.contains("\n    ensures "), "{contract}");
            assert!(!contract.contains("requires"), "{contract}");
            contracts += 1;
        }
    }
    compared("contracts of exports", contracts, 50);
}

/// Nor does any other public function of a crate, or a method of a public trait: one that asks something of its callers is private, or public
/// within its crate. Every `requires` is looked at; the layout that `rt ci` asks for gives each a line of its own, below its function's first.
#[test]
fn no_public_function_asks() {
    let indent = |line: &str| line.len() - line.trim_start().len();
    let names = |line: &str| {
        !line.trim_start().starts_with("//") && line.split_whitespace().any(|it| it == "fn")
    };
    let crates = Path::new(env!("CARGO_MANIFEST_DIR")).join("../../crates");
    let mut premises = 0;
    for name in fs::read_dir(&crates).unwrap() {
        for file in fs::read_dir(name.unwrap().path().join("src")).unwrap() {
            let text = fs::read_to_string(file.unwrap().path()).unwrap();
            let lines: Vec<&str> = text.lines().collect();
            for clause in 0..lines.len() {
                if !lines[clause].trim_start().starts_with("requires ") {
                    continue;
                }
                let head = lines[..clause].iter().rposition(|it| names(it)).unwrap();
                let inner = |it: &&&str| !it.is_empty() && indent(it) < indent(lines[head]);
                let around = lines[..head].iter().rfind(inner).unwrap_or(&"");
                assert!(!lines[head].trim_start().starts_with("pub "), "{}", lines[head]);
                assert!(!around.starts_with("pub trait "), "{around} {}", lines[head]);
                premises += 1;
            }
        }
    }
    assert!(20 < premises, "only {premises} were found");
}

/// The functions that the wrapper calls.
fn wrapped() -> Vec<Prototype> {
    let text = text("rust/wrapper/src/ffi.rs");
    let (_, body) = text.split_once("unsafe extern \"C\" {").unwrap();
    let (body, _) = body.split_once("\n}").unwrap();
    let statements = body.split(';').filter(|it| it.contains("fn da728x_"));
    statements
        .map(|it| {
            let it = it.split_whitespace().collect::<Vec<_>>().join(" ");
            let (_, it) = it.split_once("fn ").unwrap();
            let (name, rest) = it.split_once('(').unwrap();
            let (arguments, answer) = rest.split_once(") -> ").unwrap();
            let arguments = arguments.split(',').filter_map(|it| it.split_once(": "));
            prototype(name, arguments.map(|(_, kind)| kind.trim().to_string()), answer)
        })
        .collect()
}

/// The header and the wrapper declare what the proved crates export, with its types.
#[test]
fn prototypes_are_those_of_the_exports() {
    let sorted = |mut list: Vec<Prototype>| {
        list.sort();
        list
    };
    let exported = sorted(exported());
    assert_eq!(sorted(declared()), exported);
    assert_eq!(sorted(wrapped()), exported);
    compared("prototypes", exported.len(), 26 + 24);
}
