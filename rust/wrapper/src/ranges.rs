//! From a register's value back to the settings that it can have come from.

use crate::{DrivingMode, ffi};
use core::ops::RangeInclusive;

/// The voltages in mV that give this byte of ACTUATOR1 (nominal) or ACTUATOR2 (absolute). Every
/// byte comes from some.
///
/// For a bench that has read a unit's registers: exactly the settings of the range are accepted by
/// [`configure`](crate::DA728x::configure) and converted to the value. That they can have been set
/// does not say that they were. So it is with [`current_settings`] and [`frequency_settings`] too.
///
/// ```
/// # use yambelugo::voltage_settings;
/// assert_eq!(voltage_settings(255), Some(5967..=5990));
/// assert_eq!(voltage_settings(0), Some(0..=23));
/// ```
pub fn voltage_settings(byte: u8) -> Option<RangeInclusive<u16>> {
    range(ffi::da728x_voltage_settings(byte))
}

/// The currents in mA that give this IMAX, the low five bits of ACTUATOR3; none for 32 and above.
///
/// ```
/// # use yambelugo::current_settings;
/// let actuator3 = 0x12;
/// assert_eq!(current_settings(actuator3 & 31), Some(159..=165));
/// assert_eq!(current_settings(0), Some(29..=35));
/// assert_eq!(current_settings(32), None);
/// ```
pub fn current_settings(imax: u8) -> Option<RangeInclusive<u16>> {
    range(ffi::da728x_current_settings(imax))
}

/// The frequencies in Hz that give this period word, 128 × FRQ_LRA_PER_H + the low seven bits of
/// FRQ_LRA_PER_L, under a driving mode.
///
/// A unit that was set up tracks exactly if FREQ_TRACK_EN, bit 3 of TOP_CFG1, is set; the two other
/// modes have the same frequencies.
///
/// ```
/// # use yambelugo::{DrivingMode, frequency_settings};
/// let (high, low) = (34, 59);
/// let word = 128 * high + (low & 127);
/// assert_eq!(frequency_settings(word, DrivingMode::FREQUENCY_TRACK), Some(170..=170));
/// assert_eq!(frequency_settings(733, DrivingMode::WIDEBAND), Some(1022..=1023));
/// assert_eq!(frequency_settings(733, DrivingMode::FREQUENCY_TRACK), None);
/// ```
pub fn frequency_settings(word: u16, mode: DrivingMode) -> Option<RangeInclusive<u16>> {
    range(ffi::da728x_frequency_settings(word, mode as u8))
}

/// 0 is no range: none ends there.
fn range(word: u32) -> Option<RangeInclusive<u16>> {
    let (least, greatest) = (word as u16, (word >> 16) as u16);
    (word != 0).then_some(least..=greatest)
}
