//! The names of the errors are the published ones, and their numbers those that the proofs are about.

use da728x::errors::Error as Published;
use embedded_hal_async::i2c::ErrorKind;
use harness::{compared, oracle, text};
use yambelugo::Error;

#[test]
fn errors_have_the_published_names() {
    let published = [
        Published::I2c(ErrorKind::Other),
        Published::VariantMismatch,
        Published::InvalidValue,
        Published::NotSupported,
        Published::NotConfigured,
        Published::WrongMode,
        Published::MissingTriggerConfigInEtwmMode,
        Published::WaveformMemoryFull,
        Published::TooManySnippets,
        Published::TooManySequences,
        Published::InvalidSnippetId,
        Published::InvalidTimebase,
        Published::InvalidAmplitude,
        Published::InvalidFrequency,
        Published::InvalidLoopCount,
        Published::EmptySnippet,
        Published::EmptySequence,
    ];
    let name = |shown: String| shown.split('(').next().unwrap().to_string();
    let mut names = Vec::new();
    for wanted in published {
        let error = Error::from_number(oracle::number(&wanted), 0).unwrap();
        assert_eq!(name(format!("{error:?}")), name(format!("{wanted:?}")));
        names.push(error.number());
    }
    names.sort();
    names.dedup();
    compared("names of errors", names.len(), 17);
}

/// The wrapper gives each number the name that the proved crate gives it.
#[test]
fn numbers_are_those_of_the_definitions() {
    let text = text("crates/errors/specs/Number.antt");
    let mut cases = 0;
    for line in text.lines().filter_map(|line| line.strip_prefix("number_and_code ")) {
        let Some((shape, answer)) = line.split_once(" = ") else { continue };
        let (_, name) = shape.split_once("Error.").unwrap();
        let name = name.split(' ').next().unwrap();
        let (number, code) = answer.trim_matches(['(', ')']).split_once(", ").unwrap();
        assert_eq!(code, if name == "I2c" { "code" } else { "0" });
        let error = Error::from_number(number.parse().unwrap(), 0).unwrap();
        assert_eq!(format!("{error:?}").split('(').next().unwrap(), name);
        assert_eq!(error.number().to_string(), number);
        cases += 1;
    }
    compared("numbers of errors", cases, 25);
    let unused = |number: &u8| Error::from_number(*number, 0).is_none();
    assert!([0, 20].iter().chain(&[26, 27, 29, 30]).all(unused));
}
