//! Points of a snippet.

use crate::error::{Error, told};
use crate::ffi;

/// A point of a snippet: a ramp or a step, its length in timebases and its amplitude.
///
/// ```
/// # use yambelugo::{Call, Error, PwlPoint};
/// let point = PwlPoint::ramp(3, 10)?;
/// assert_eq!(point.as_byte(), 0xAA);
/// assert_eq!((point.is_ramp(), point.timebases(), point.amplitude()), (true, 3, 10));
///
/// // Added to a snippet, it is the same as the call `Call::Ramp(3, 10)`.
/// let mut out = [0; 16];
/// let length = yambelugo::snippet(&Call::Point(point).encode(), &mut out)?;
/// assert_eq!(out[..length], [0xAA]);
/// # Ok::<(), Error>(())
/// ```
#[derive(Debug, Clone, Copy, PartialEq, Eq)]
pub struct PwlPoint {
    byte: u8,
}

impl PwlPoint {
    /// A ramp of 1 to 8 timebases to an amplitude of 0 to 15.
    ///
    /// # Errors
    /// `InvalidTimebase`, else `InvalidAmplitude`.
    ///
    /// ```
    /// # use yambelugo::{Error, PwlPoint};
    /// assert_eq!(PwlPoint::ramp(9, 16), Err(Error::InvalidTimebase));
    /// assert_eq!(PwlPoint::ramp(8, 16), Err(Error::InvalidAmplitude));
    /// assert_eq!(PwlPoint::ramp(8, 15).map(PwlPoint::as_byte), Ok(0xFF));
    /// ```
    pub fn ramp(timebases: u8, amplitude: u8) -> Result<Self, Error> {
        Self::new(1, timebases, amplitude)
    }

    /// A step of 1 to 8 timebases to an amplitude of 0 to 15.
    ///
    /// # Errors
    /// `InvalidTimebase`, else `InvalidAmplitude`.
    ///
    /// ```
    /// # use yambelugo::PwlPoint;
    /// assert_eq!(PwlPoint::step(1, 0).map(PwlPoint::as_byte), Ok(0x00));
    /// ```
    pub fn step(timebases: u8, amplitude: u8) -> Result<Self, Error> {
        Self::new(0, timebases, amplitude)
    }

    fn new(ramp: u8, timebases: u8, amplitude: u8) -> Result<Self, Error> {
        let answer = ffi::da728x_point(ramp, timebases, amplitude);
        told(answer.into(), 256).map(|byte| Self::from_byte(byte as u8))
    }

    /// The point with this byte; each byte stands for one.
    pub(crate) const fn from_byte(byte: u8) -> Self {
        Self { byte }
    }

    /// The byte that stands for this point.
    pub const fn as_byte(self) -> u8 {
        self.byte
    }

    /// Whether this is a ramp.
    pub fn is_ramp(self) -> bool {
        ffi::da728x_point_is_ramp(self.byte) != 0
    }

    /// The length, 1 to 8.
    pub fn timebases(self) -> u8 {
        ffi::da728x_point_timebases(self.byte)
    }

    /// The amplitude, 0 to 15.
    pub fn amplitude(self) -> u8 {
        ffi::da728x_point_amplitude(self.byte)
    }
}
