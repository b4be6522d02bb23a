//! Refusals and failures.

use core::fmt;

/// Why a call was refused or an operation failed.
///
/// Its number is that of the C functions, and of the answers to a list of calls.
///
/// ```
/// # use yambelugo::{Call, Error};
/// let (calls, mut answers) = (Call::Ramp(3, 16).encode(), [0; 1]);
/// assert_eq!(yambelugo::snippet(&calls, &mut []), Err(Error::EmptySnippet));
/// assert_eq!(yambelugo::answers(&calls, &mut answers), 1);
/// assert_eq!(Error::from_number(answers[0], 0), Some(Error::InvalidAmplitude));
/// assert_eq!(Error::InvalidAmplitude.to_string(), "the amplitude of a point is above 15");
/// ```
#[derive(Debug, Clone, Copy, PartialEq, Eq)]
pub enum Error {
    /// 1: a point's length is not 1 to 8.
    InvalidTimebase,
    /// 2: a point's amplitude is above 15.
    InvalidAmplitude,
    /// 3: a snippet number is 0 or above 15, or no frame is begun.
    InvalidSnippetId,
    /// 4: a loop count is above 15.
    InvalidLoopCount,
    /// 5: a frame's frequency is above 511 Hz.
    InvalidFrequency,
    /// 6: a 17th point or a 16th snippet.
    TooManySnippets,
    /// 7: a 33rd frame or a 17th sequence.
    TooManySequences,
    /// 8: a sequence above 96 bytes or an image above 100.
    WaveformMemoryFull,
    /// 9: no points, or no snippets, to build from.
    EmptySnippet,
    /// 10: no frames, or no sequences, to build from.
    EmptySequence,
    /// 11: a sequence number (also a trigger's) or a loop count above 15; an override value below 0
    /// under acceleration.
    InvalidValue,
    /// 12: the operation does not fit the mode.
    WrongMode,
    /// 13: no trigger is given in ETWM mode.
    MissingTriggerConfigInEtwmMode,
    /// 14: the chip or the driver does not support this; a record that is no builder call.
    NotSupported,
    /// 15: no settings are stored yet.
    NotConfigured,
    /// 16: the chip is not of the variant that was given.
    VariantMismatch,
    /// 17: the bus failed with this code of its own.
    I2c(u8),
    /// 18: the bytes are no image.
    NotAnImage,
    /// 19: an answer does not fit, none is pending, or the read buffer's length has changed.
    OutOfTurn,
    /// 21: a voltage is above 5990 mV.
    InvalidVoltage,
    /// 22: a current is not 29 to 252 mA, or an impedance not 4000 to 49999 mOhm.
    InvalidCurrentOrImpedance,
    /// 23: the frequency of the settings, or of `set_frequency`, is outside 50 to 300 Hz (tracking)
    /// or 25 to 1024 Hz (other modes). For a frame's see [`InvalidFrequency`](Error::InvalidFrequency).
    InvalidDriveFrequency,
    /// 24: the buffer is shorter than the item or the page; no byte of it was written.
    BufferTooShort,
    /// 25: a frame of an image that is to be merged names a snippet that its own image does not have.
    MissingSnippet,
    /// 28: no sequence of this number is loaded: the last image that was uploaded has fewer, its
    /// upload was not completed, or there was none.
    MissingSequence,
}

impl Error {
    /// The number by which the C functions tell this error.
    ///
    /// ```
    /// # use yambelugo::Error;
    /// assert_eq!((Error::EmptySnippet.number(), Error::I2c(4).number()), (9, 17));
    /// ```
    pub const fn number(self) -> u8 {
        match self {
            Error::InvalidTimebase => 1,
            Error::InvalidAmplitude => 2,
            Error::InvalidSnippetId => 3,
            Error::InvalidLoopCount => 4,
            Error::InvalidFrequency => 5,
            Error::TooManySnippets => 6,
            Error::TooManySequences => 7,
            Error::WaveformMemoryFull => 8,
            Error::EmptySnippet => 9,
            Error::EmptySequence => 10,
            Error::InvalidValue => 11,
            Error::WrongMode => 12,
            Error::MissingTriggerConfigInEtwmMode => 13,
            Error::NotSupported => 14,
            Error::NotConfigured => 15,
            Error::VariantMismatch => 16,
            Error::I2c(_) => 17,
            Error::NotAnImage => 18,
            Error::OutOfTurn => 19,
            Error::InvalidVoltage => 21,
            Error::InvalidCurrentOrImpedance => 22,
            Error::InvalidDriveFrequency => 23,
            Error::BufferTooShort => 24,
            Error::MissingSnippet => 25,
            Error::MissingSequence => 28,
        }
    }

    /// The error with this number; `code` is the bus's own and counts for 17 only.
    ///
    /// ```
    /// # use yambelugo::Error;
    /// assert_eq!(Error::from_number(17, 4), Some(Error::I2c(4)));
    /// assert_eq!(Error::from_number(0, 0), None);
    /// ```
    pub const fn from_number(number: u8, code: u8) -> Option<Self> {
        Some(match number {
            1 => Error::InvalidTimebase,
            2 => Error::InvalidAmplitude,
            3 => Error::InvalidSnippetId,
            4 => Error::InvalidLoopCount,
            5 => Error::InvalidFrequency,
            6 => Error::TooManySnippets,
            7 => Error::TooManySequences,
            8 => Error::WaveformMemoryFull,
            9 => Error::EmptySnippet,
            10 => Error::EmptySequence,
            11 => Error::InvalidValue,
            12 => Error::WrongMode,
            13 => Error::MissingTriggerConfigInEtwmMode,
            14 => Error::NotSupported,
            15 => Error::NotConfigured,
            16 => Error::VariantMismatch,
            17 => Error::I2c(code),
            18 => Error::NotAnImage,
            19 => Error::OutOfTurn,
            21 => Error::InvalidVoltage,
            22 => Error::InvalidCurrentOrImpedance,
            23 => Error::InvalidDriveFrequency,
            24 => Error::BufferTooShort,
            25 => Error::MissingSnippet,
            28 => Error::MissingSequence,
            _ => return None,
        })
    }
}

impl fmt::Display for Error {
    fn fmt(&self, f: &mut fmt::Formatter) -> fmt::Result {
        f.write_str(match self {
            Error::InvalidTimebase => "the length of a point is not 1 to 8",
            Error::InvalidAmplitude => "the amplitude of a point is above 15",
            Error::InvalidSnippetId => "a snippet number is not 1 to 15, or no frame is begun",
            Error::InvalidLoopCount => "a loop count is above 15",
            Error::InvalidFrequency => "the frequency of a frame is above 511 Hz",
            Error::TooManySnippets => "more than 16 points or 15 snippets",
            Error::TooManySequences => "more than 32 frames or 16 sequences",
            Error::WaveformMemoryFull => "a sequence above 96 bytes or an image above 100",
            Error::EmptySnippet => "no snippet to build from",
            Error::EmptySequence => "no sequence to build from",
            Error::InvalidValue => {
                "a sequence number or a loop count above 15, or an override value below 0 under acceleration"
            }
            Error::WrongMode => "the operation does not fit the mode",
            Error::MissingTriggerConfigInEtwmMode => "no trigger in ETWM mode",
            Error::NotSupported => "not supported",
            Error::NotConfigured => "not configured yet",
            Error::VariantMismatch => "the chip is of another variant",
            Error::I2c(code) => return write!(f, "the bus failed with code {code}"),
            Error::NotAnImage => "the bytes are no image",
            Error::OutOfTurn => "the answer does not fit the pending exchange",
            Error::InvalidVoltage => "a voltage is above 5990 mV",
            Error::InvalidCurrentOrImpedance => {
                "a current is not 29 to 252 mA, or an impedance not 4000 to 49999 mOhm"
            }
            Error::InvalidDriveFrequency => {
                "a frequency is outside 50 to 300 Hz (tracking) or 25 to 1024 Hz (other modes)"
            }
            Error::BufferTooShort => "the buffer is shorter than the item or the page",
            Error::MissingSnippet => "a frame names a snippet that its own image does not have",
            Error::MissingSequence => "no sequence of this number is loaded",
        })
    }
}

impl core::error::Error for Error {}

/// The value in `answer`, or the refusal in it, told as `unit` times its number.
pub(crate) fn told(answer: u32, unit: u32) -> Result<u32, Error> {
    let number = u8::try_from(answer / unit).unwrap_or(0);
    match Error::from_number(number, 0) {
        Some(error) => {
            debug_assert_eq!(answer % unit, 0, "a refusal with a value");
            Err(error)
        }
        None => {
            debug_assert!(answer < unit, "no refusal has this number");
            Ok(answer)
        }
    }
}

#[cfg(test)]
mod tests {
    use super::Error;

    #[test]
    fn numbers_and_errors_are_one_to_one() {
        for number in 0..=255 {
            match Error::from_number(number, 7) {
                Some(error) => assert_eq!(error.number(), number),
                None => assert!(matches!(number, 0 | 20 | 26 | 27 | 29..)),
            }
        }
    }
}
