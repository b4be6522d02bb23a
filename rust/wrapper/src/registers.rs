//! The registers: addresses and fields.

use crate::ffi;

/// How many registers have an address: the length of [`register_addresses`].
pub const REGISTERS: usize = 42;

/// Copies the registers' addresses, in the published order, into the front of `out`, as many as
/// fit; the bytes copied.
///
/// ```
/// let mut addresses = [0; yambelugo::REGISTERS];
/// assert_eq!(yambelugo::register_addresses(&mut addresses), 42);
/// assert_eq!((addresses[0], addresses[41]), (0x00, 0xE7));
/// ```
pub fn register_addresses(out: &mut [u8]) -> usize {
    // SAFETY: the pointer and length are a slice that is borrowed mutably.
    unsafe { ffi::da728x_register_addresses(out.as_mut_ptr(), out.len()) }
}

/// The registers that have fields, in four groups by their published order.
///
/// This serves a bench or a debugger that shows what a register holds, and tests; the driver's
/// operations need none of it. The longest list has 33 bytes.
#[derive(Debug, Clone, Copy, PartialEq, Eq)]
pub enum Group {
    /// CHIP_REV to IRQ_MASK1: 33 fields, of which two are read-only.
    Interrupts,
    /// FRQ_LRA_PER_H to TOP_CFG4: 18 fields.
    Actuator,
    /// TOP_INT_CFG1 to SWG_C3: 18 fields.
    Control,
    /// SEQ_CTL2 to IRQ_MASK2: 20 fields, of which one is read-only.
    Trigger,
}

impl Group {
    /// Copies what each named field reads when its register holds `byte` into the front of `out`,
    /// as many as fit; the bytes copied.
    ///
    /// ```
    /// # use yambelugo::Group;
    /// let mut out = [0; 33];
    /// assert_eq!(Group::Interrupts.read(0xBA, &mut out), 33);
    /// assert_eq!(out[..2], [0x0A, 0x0B]); // CHIP_REV_MAJOR, CHIP_REV_MINOR
    /// ```
    pub fn read(self, byte: u8, out: &mut [u8]) -> usize {
        let read: ffi::Read = match self {
            Group::Interrupts => ffi::da728x_read_interrupts,
            Group::Actuator => ffi::da728x_read_actuator,
            Group::Control => ffi::da728x_read_control,
            Group::Trigger => ffi::da728x_read_trigger,
        };
        // SAFETY: the pointer and length are a slice that is borrowed mutably.
        unsafe { read(byte, out.as_mut_ptr(), out.len()) }
    }

    /// For each field that is not read-only, copies what its register holds after the field was
    /// replaced by `value`, when it held `byte` before, into the front of `out`, as many as fit;
    /// the bytes copied. Of `value` as many low bits count as the field has: a flag is set when it
    /// is odd.
    ///
    /// ```
    /// # use yambelugo::Group;
    /// let mut out = [0; 2];
    /// assert_eq!(Group::Trigger.replace(0x21, 0x05, &mut out), 2);
    /// assert_eq!(out, [0x25, 0x51]); // PS_SEQ_ID, PS_SEQ_LOOP of SEQ_CTL2
    /// ```
    pub fn replace(self, byte: u8, value: u8, out: &mut [u8]) -> usize {
        let replace: ffi::Replace = match self {
            Group::Interrupts => ffi::da728x_replace_interrupts,
            Group::Actuator => ffi::da728x_replace_actuator,
            Group::Control => ffi::da728x_replace_control,
            Group::Trigger => ffi::da728x_replace_trigger,
        };
        // SAFETY: the pointer and length are a slice that is borrowed mutably.
        unsafe { replace(byte, value, out.as_mut_ptr(), out.len()) }
    }
}
