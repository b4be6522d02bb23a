//! The driver: each operation is a session of exchanges on a bus that the caller runs.

use crate::config::{ActuatorConfig, DeviceConfig, Variant, WaveformMemoryTimebase};
use crate::error::{Error, told};
use crate::ffi;
use core::fmt;

/// How many bytes a record has.
pub const RECORD: usize = 38;

/// How many bytes a session has.
const SESSION: usize = 280;

/// The most bytes that one exchange sends.
const MOST: usize = 33;

/// Where the record has its count of sequences.
const SEQUENCES: usize = 37;

/// The driver of one chip: a record of its address and variant, of the settings once they are
/// stored, and of how many sequences are loaded.
///
/// An operation starts a [`Session`], which borrows the driver until it is dropped. So one session
/// runs at a time on a driver, and it is this one that gets the settings, after the last exchange
/// of [`DA728x::configure`], and the number of sequences ([`DA728x::sequences`]) of an upload: 0
/// from its start on, that of the image after its last exchange. Every other operation leaves the
/// record as it is, and so does a `configure` that fails. It is neither `Copy` nor `Clone`, so that
/// no copy falls behind. Make one driver for each chip: a second one, by [`DA728x::new`] or from
/// bytes that you kept ([`DA728x::from_bytes`]), sees nothing of the first one's settings and
/// uploads, and sessions of both can run at a time.
///
/// Its arguments are checked when an operation starts; a refused one starts no session.
///
/// ```
/// # use yambelugo::{DA728x, Error, Exchange, Refusal, Variant};
/// # let bus = |exchange: Exchange| exchange.reply(Ok(0xBA));
/// let mut driver = DA728x::new(0x4A, Variant::DA7280).run(bus, &mut [])?.found().unwrap();
/// assert_eq!(driver.enable(), Err(Error::NotConfigured));
/// # Ok::<(), Refusal>(())
/// ```
///
/// Two sessions on one chip do not compile:
///
/// ```compile_fail,E0499
/// # use yambelugo::{DA728x, RECORD};
/// # let mut driver = DA728x::from_bytes([0; RECORD]);
/// let lock = driver.lock_waveform_memory();
/// let status = driver.get_status();
/// lock.pending();
/// ```
#[derive(Debug, PartialEq, Eq)]
pub struct DA728x {
    bytes: [u8; RECORD],
}

impl DA728x {
    /// Reads CHIP_REV; a driver without settings and sequences if it is that of the variant:
    /// [`Session::found`]. `address` is the chip's on the bus, of 7 bits. A chip that still has an
    /// image needs a new upload before it plays.
    ///
    /// ```
    /// # use yambelugo::{DA728x, Error, Reply, Variant};
    /// let mut session = DA728x::new(0x4A, Variant::DA7281);
    /// let exchange = session.pending().unwrap();
    /// assert_eq!((exchange.address(), exchange.bytes()), (0x4A, &[0x00][..]));
    /// assert!(exchange.wanted());
    ///
    /// // The chip is a DA7280.
    /// let refused = session.answer(Reply::Byte(0xBA), &mut []).unwrap_err();
    /// assert_eq!((refused.error, refused.made), (Error::VariantMismatch, 1));
    /// assert_eq!(session.found(), None);
    /// ```
    #[allow(clippy::new_ret_no_self, reason = "the session makes the record")]
    pub fn new(address: u8, variant: Variant) -> Session<'static> {
        let driver = Driver::Unknown(DA728x::from_bytes([0; RECORD]));
        // SAFETY: the pointer and length are those of the session that is borrowed mutably.
        driver.starts(|_, it| unsafe { ffi::da728x_new(address, variant as u8, it, SESSION) })
    }

    /// The record with these bytes, laid out as the C header says; each byte string is one.
    ///
    /// A record that was kept over a reset of the processor says what was set up and loaded when
    /// its bytes were kept, also if an upload was begun since: the chip itself is not asked. Bytes
    /// that an earlier version of this library kept are 37: put a 0 behind them.
    ///
    /// ```
    /// # use yambelugo::{DA728x, Error, Exchange, Refusal, Variant};
    /// # let bus = |exchange: Exchange| exchange.reply(Ok(0xBA));
    /// let driver = DA728x::new(0x4A, Variant::DA7280).run(bus, &mut [])?.found().unwrap();
    /// let kept = *driver.as_bytes();
    /// assert_eq!(kept[..3], [0x4A, 0, 1]); // the address, a DA7280, no settings
    /// assert_eq!(kept[37], 0); // and no sequences
    /// assert_eq!(DA728x::from_bytes(kept), driver);
    /// # Ok::<(), Refusal>(())
    /// ```
    pub const fn from_bytes(bytes: [u8; RECORD]) -> Self {
        Self { bytes }
    }

    /// The record's bytes, laid out as the C header says: [`DA728x::from_bytes`] takes them.
    pub const fn as_bytes(&self) -> &[u8; RECORD] {
        &self.bytes
    }

    /// How many sequences are loaded: those of the image that was uploaded last. It is 0 before the
    /// first upload, and from the start of each until its last exchange is made: so also after one
    /// that failed, or whose session was dropped. [`DA728x::select_sequence`] and
    /// [`DA728x::play_sequence`] take the numbers below it.
    ///
    /// It is the second byte that was uploaded, 0 if there was none; the chip itself is not asked.
    /// Upload again when the chip lost its supply, or when its memory was written by other means.
    /// The sequences of triggers are not held against it.
    ///
    /// ```
    /// # use yambelugo::{DA728x, Error, Exchange, IMAGE, RECORD, Reply};
    /// # let mut driver = DA728x::from_bytes([0; RECORD]);
    /// # let mut image = [0; IMAGE];
    /// # image[..9].copy_from_slice(&[1, 2, 6, 7, 8, 0xAA, 0x00, 0x01, 0x01]);
    /// # let bus = |exchange: Exchange| exchange.reply(Ok(0));
    /// assert_eq!(driver.play_sequence(0, 0), Err(Error::MissingSequence)); // nothing is loaded
    ///
    /// // An image of two sequences.
    /// driver.upload_waveform_memory(&image, true)?.run(bus, &mut [])?;
    /// assert_eq!(driver.sequences(), 2);
    /// driver.play_sequence(1, 0)?.run(bus, &mut [])?;
    /// assert_eq!(driver.play_sequence(2, 0), Err(Error::MissingSequence));
    ///
    /// // The same again, of which the lock, the sixth exchange, fails.
    /// let mut left = 5;
    /// let fails = |exchange: Exchange| {
    ///     if left == 0 {
    ///         return Reply::Failed(7);
    ///     }
    ///     left -= 1;
    ///     exchange.reply(Ok(0))
    /// };
    /// let failed = driver.upload_waveform_memory(&image, true)?.run(fails, &mut []).unwrap_err();
    /// assert_eq!((failed.error, failed.made), (Error::I2c(7), 6));
    /// assert_eq!(driver.sequences(), 0);
    /// assert_eq!(driver.play_sequence(1, 0), Err(Error::MissingSequence));
    /// # Ok::<(), Error>(())
    /// ```
    pub const fn sequences(&self) -> u8 {
        self.bytes[SEQUENCES]
    }

    /// Sets the chip up, in 14 to 25 exchanges; the settings are stored after the last.
    ///
    /// # Errors
    /// The first that holds: `WrongMode` for acceleration or rapid stop when not tracking;
    /// `MissingTriggerConfigInEtwmMode` for no trigger in ETWM mode, `NotSupported` for more than
    /// one on the DA7281; `InvalidVoltage` above 6000 mV; `InvalidCurrentOrImpedance` above 252 mA
    /// or outside 4000 to 49999 mOhm; `InvalidDriveFrequency` outside 50 to 300 Hz when tracking,
    /// else outside 25 to 1024; `InvalidVoltage` above 5990 mV; `InvalidCurrentOrImpedance` below
    /// 29 mA; `InvalidValue` for a trigger's sequence number above 15 in ETWM mode; `NotSupported`
    /// for rapid stop.
    ///
    /// ```
    /// # use yambelugo::*;
    /// # let mut driver = DA728x::from_bytes([0; RECORD]);
    /// # let bus = |exchange: Exchange| exchange.reply(Ok(0xBA));
    /// let actuator = ActuatorConfig {
    ///     actuator_type: ActuatorType::LRA,
    ///     nominal_max_mV: 2500,
    ///     absolute_max_mV: 3500,
    ///     max_current_mA: 165,
    ///     impedance_mOhm: 8000,
    ///     inductance_uH: 50,
    ///     frequency_Hz: 170,
    ///     pid_Kp_Ki: None,
    /// };
    /// let device = DeviceConfig {
    ///     operation_mode: OperationMode::RTWM_MODE,
    ///     driving_mode: DrivingMode::FREQUENCY_TRACK,
    ///     gpi_triggers: [None; 3],
    ///     acceleration: true,
    ///     rapid_stop: false,
    /// };
    /// let failed = driver.configure(actuator, device)?.run(|_| Reply::Failed(7), &mut []);
    /// assert_eq!(failed.unwrap_err().made, 1);
    /// assert_eq!(driver.enable(), Err(Error::NotConfigured));
    ///
    /// assert_eq!(driver.configure(actuator, device)?.run(bus, &mut [])?.made(), 14);
    /// assert_eq!(driver.as_bytes()[3..21], actuator.encode());
    ///
    /// // The first that holds: the frequency is out of range too.
    /// let wideband = DeviceConfig { driving_mode: DrivingMode::WIDEBAND, ..device };
    /// let slow = ActuatorConfig { frequency_Hz: 20, ..actuator };
    /// assert_eq!(driver.configure(slow, wideband), Err(Error::WrongMode));
    ///
    /// // The error names the entry; 5991 to 6000 mV is tested after the frequency.
    /// let high = ActuatorConfig { nominal_max_mV: 5995, ..actuator };
    /// assert_eq!(driver.configure(high, device), Err(Error::InvalidVoltage));
    /// let both = ActuatorConfig { nominal_max_mV: 5995, ..slow };
    /// assert_eq!(driver.configure(both, device), Err(Error::InvalidDriveFrequency));
    /// assert_eq!(driver.as_bytes()[3..21], actuator.encode());
    /// # Ok::<(), Error>(())
    /// ```
    pub fn configure(&mut self, actuator: ActuatorConfig, device: DeviceConfig) -> Started<'_> {
        let mut settings = [0; 34];
        settings[..18].copy_from_slice(&actuator.encode());
        settings[18..].copy_from_slice(&device.encode());
        let (list, list_len) = (settings.as_ptr(), settings.len());
        // SAFETY: each pointer and length is a borrowed array; the mutable one overlaps no other.
        self.begins(|record, session| unsafe {
            ffi::da728x_configure(record, RECORD, list, list_len, session, SESSION)
        })
    }

    /// Reads CHIP_REV: [`Session::chip_rev`].
    ///
    /// ```
    /// # use yambelugo::{DA728x, RECORD, Refusal, Reply};
    /// # let mut driver = DA728x::from_bytes([0; RECORD]);
    /// let session = driver.get_chip_rev().run(|_| Reply::Byte(0xBA), &mut [])?;
    /// assert_eq!((session.chip_rev(), session.made()), (Some(0xBA), 1));
    /// # Ok::<(), Refusal>(())
    /// ```
    pub fn get_chip_rev(&mut self) -> Session<'_> {
        self.starts(plain(ffi::da728x_get_chip_rev))
    }

    /// Reads the three event registers, then writes FF to IRQ_EVENT1, which clears the events:
    /// [`Session::events`].
    ///
    /// ```
    /// # use yambelugo::{DA728x, RECORD, Refusal, Reply};
    /// # let mut driver = DA728x::from_bytes([0; RECORD]);
    /// // Registers 3, 4 and 5 of this chip hold 14, 00 and 80.
    /// let bus = |exchange: yambelugo::Exchange| match exchange.bytes() {
    ///     [0x03] => Reply::Byte(0x14),
    ///     [0x04] => Reply::Byte(0x00),
    ///     [0x05] => Reply::Byte(0x80),
    ///     clear => {
    ///         assert_eq!(clear, [0x03, 0xFF]);
    ///         Reply::Done
    ///     }
    /// };
    /// let events = driver.get_events().run(bus, &mut [])?.events();
    /// // E_SEQ_FAULT and E_SEQ_DONE; no warning; E_SEQ_ID_FAULT.
    /// assert_eq!(events, Some([0x14, 0x00, 0x80]));
    /// # Ok::<(), Refusal>(())
    /// ```
    pub fn get_events(&mut self) -> Session<'_> {
        self.starts(plain(ffi::da728x_get_events))
    }

    /// Reads IRQ_STATUS1: [`Session::status`].
    ///
    /// ```
    /// # use yambelugo::{DA728x, RECORD, Refusal, Reply};
    /// # let mut driver = DA728x::from_bytes([0; RECORD]);
    /// let status = driver.get_status().run(|_| Reply::Byte(0x04), &mut [])?.status();
    /// assert_eq!(status, Some(0x04)); // STA_SEQ_DONE
    /// # Ok::<(), Refusal>(())
    /// ```
    pub fn get_status(&mut self) -> Session<'_> {
        self.starts(plain(ffi::da728x_get_status))
    }

    /// Sets the frequency that the chip drives with; the stored one stays.
    ///
    /// # Errors
    /// `NotConfigured`; `InvalidDriveFrequency` outside 50 to 300 Hz when tracking, else outside 25
    /// to 1024.
    ///
    /// ```
    /// # use yambelugo::{DA728x, Error, RECORD, Reply};
    /// # let mut record = [0; RECORD];
    /// # record[2] = 2;
    /// # let mut driver = DA728x::from_bytes(record);
    /// let mut sent = Vec::new();
    /// driver.set_frequency(170)?.run(
    ///     |exchange| {
    ///         sent.push(exchange.bytes().to_vec());
    ///         Reply::Done
    ///     },
    ///     &mut [],
    /// )?;
    /// assert_eq!(sent, [[0x0A, 34], [0x0B, 59]]);
    /// assert_eq!(driver.set_frequency(301), Err(Error::InvalidDriveFrequency));
    /// # Ok::<(), Error>(())
    /// ```
    ///
    /// A sweep sets it at each tick. The word of a frequency comes from a table: nothing is divided.
    ///
    /// ```
    /// # use yambelugo::{DA728x, DrivingMode, Error, RECORD, Reply};
    /// # let mut record = [0; RECORD];
    /// # (record[2], record[22]) = (2, DrivingMode::WIDEBAND as u8);
    /// # let mut driver = DA728x::from_bytes(record);
    /// let mut words = Vec::new();
    /// for hz in 25..=1024 {
    ///     let mut word = 0;
    ///     driver.set_frequency(hz)?.run(
    ///         |exchange| {
    ///             word = word << 7 | u16::from(exchange.bytes()[1]); // the high part, then the low
    ///             Reply::Done
    ///         },
    ///         &mut [],
    ///     )?;
    ///     words.push(word);
    /// }
    /// assert!((words[0], words[145], words[999]) == (30000, 4411, 732));
    /// assert!(words.is_sorted_by(|shorter, longer| shorter >= longer));
    /// # Ok::<(), Error>(())
    /// ```
    pub fn set_frequency(&mut self, frequency_hz: u16) -> Started<'_> {
        // SAFETY: each pointer and length is a borrowed array; the mutable one overlaps no other.
        self.begins(|record, session| unsafe {
            ffi::da728x_set_frequency(record, RECORD, frequency_hz, session, SESSION)
        })
    }

    /// Sets the amplitude that DRO mode plays, -128 to 127.
    ///
    /// # Errors
    /// `NotConfigured`; `InvalidValue` below 0 under acceleration; `WrongMode` unless in DRO mode.
    ///
    /// ```
    /// # use yambelugo::{DA728x, Error, RECORD};
    /// # let mut record = [0; RECORD];
    /// # (record[2], record[21]) = (2, 1);
    /// # let mut driver = DA728x::from_bytes(record);
    /// let session = driver.set_override_value(-1)?;
    /// assert_eq!(session.pending().unwrap().bytes(), [0x23, 0xFF]);
    /// # Ok::<(), Error>(())
    /// ```
    pub fn set_override_value(&mut self, value: i8) -> Started<'_> {
        // SAFETY: each pointer and length is a borrowed array; the mutable one overlaps no other.
        self.begins(|record, session| unsafe {
            ffi::da728x_set_override_value(record, RECORD, value, session, SESSION)
        })
    }

    /// Sets how long the four timebases of frames are, for all that the chip plays afterwards.
    ///
    /// ```
    /// # use yambelugo::{DA728x, RECORD, Refusal, Reply, WaveformMemoryTimebase};
    /// # let mut driver = DA728x::from_bytes([0; RECORD]);
    /// let mut session = driver.set_timebase(WaveformMemoryTimebase::TIMEBASE_136_544_2176_4352);
    /// session.answer(Reply::Byte(0xF9), &mut [])?;
    /// assert_eq!(session.pending().unwrap().bytes(), [0x24, 0xFD]); // the other bits stay
    /// # Ok::<(), Refusal>(())
    /// ```
    pub fn set_timebase(&mut self, timebase: WaveformMemoryTimebase) -> Session<'_> {
        // SAFETY: each pointer and length is a borrowed array; the mutable one overlaps no other.
        self.starts(|record, session| unsafe {
            ffi::da728x_set_timebase(record, RECORD, timebase as u8, session, SESSION)
        })
    }

    /// Enables the operation mode that is stored; starts no sequence.
    ///
    /// # Errors
    /// `NotConfigured`.
    ///
    /// ```
    /// # use yambelugo::{DA728x, Error, RECORD};
    /// # let mut record = [0; RECORD];
    /// # (record[2], record[21]) = (2, 3);
    /// # let mut driver = DA728x::from_bytes(record);
    /// // A driver that is configured for RTWM_MODE.
    /// assert_eq!(driver.enable()?.pending().unwrap().bytes(), [0x22, 0x03]);
    /// # Ok::<(), Error>(())
    /// ```
    pub fn enable(&mut self) -> Started<'_> {
        self.begins(plain(ffi::da728x_enable))
    }

    /// Makes the chip inactive, which stops what it plays.
    ///
    /// # Errors
    /// `NotConfigured`.
    ///
    /// ```
    /// # use yambelugo::{DA728x, Error, RECORD, Reply};
    /// # let mut record = [0; RECORD];
    /// # record[2] = 2;
    /// # let mut driver = DA728x::from_bytes(record);
    /// let mut session = driver.disable()?;
    /// session.answer(Reply::Byte(0x0B), &mut [])?;
    /// assert_eq!(session.pending().unwrap().bytes(), [0x22, 0x08]); // the other bits stay
    /// # Ok::<(), Error>(())
    /// ```
    pub fn disable(&mut self) -> Started<'_> {
        self.begins(plain(ffi::da728x_disable))
    }

    /// Gives the chip the three drive points of a custom waveform: to SWG_C1, SWG_C2 and SWG_C3,
    /// one write each. They are no [`PwlPoint`](crate::PwlPoint); any bytes are taken, and what a
    /// byte means is the datasheet's (5.7.6, Custom Waveform Operation). Starts nothing, and the
    /// driver does not hold the points: the chip keeps them until they are set anew, also through a
    /// [`DA728x::configure`]. They go out one by one: while the chip drives, if a write fails, or if
    /// the session is dropped half-way, it may have points of two waves. So set them before
    /// [`DA728x::enable`], and after a failure set all three again.
    ///
    /// # Errors
    /// `NotConfigured`; `WrongMode` unless the stored driving mode is CUSTOM_WAVEFORM.
    ///
    /// ```
    /// # use yambelugo::{DA728x, Error, RECORD, Reply};
    /// # let mut record = [0; RECORD];
    /// # (record[2], record[22]) = (2, 2);
    /// # let mut driver = DA728x::from_bytes(record);
    /// // on a driver that was configured for CUSTOM_WAVEFORM
    /// let mut session = driver.set_custom_drive_waveform([0x28, 0x5F, 0x80])?;
    /// for bytes in [[0x25, 0x28], [0x26, 0x5F], [0x27, 0x80]] {
    ///     assert_eq!(session.pending().unwrap().bytes(), bytes);
    ///     session.answer(Reply::Done, &mut [])?;
    /// }
    /// assert!(session.completed());
    ///
    /// # record[22] = 0;
    /// let mut tracking = DA728x::from_bytes(record);
    /// assert_eq!(tracking.set_custom_drive_waveform([0; 3]), Err(Error::WrongMode));
    /// # Ok::<(), Error>(())
    /// ```
    pub fn set_custom_drive_waveform(&mut self, points: [u8; 3]) -> Started<'_> {
        let [a, b, c] = points;
        // SAFETY: each pointer and length is a borrowed array; the mutable one overlaps no other.
        self.begins(|record, session| unsafe {
            ffi::da728x_set_custom_drive_waveform(record, RECORD, a, b, c, session, SESSION)
        })
    }

    /// Lets the waveform memory be written. [`DA728x::upload_waveform_memory`] does so by itself.
    pub fn unlock_waveform_memory(&mut self) -> Session<'_> {
        self.starts(plain(ffi::da728x_unlock_waveform_memory))
    }

    /// Keeps the waveform memory from being written.
    ///
    /// ```
    /// # use yambelugo::{DA728x, RECORD};
    /// # let mut driver = DA728x::from_bytes([0; RECORD]);
    /// assert_eq!(driver.unlock_waveform_memory().pending().unwrap().bytes(), [0x2D, 0x80]);
    /// assert_eq!(driver.lock_waveform_memory().pending().unwrap().bytes(), [0x2D, 0x00]);
    /// ```
    pub fn lock_waveform_memory(&mut self) -> Session<'_> {
        self.starts(plain(ffi::da728x_lock_waveform_memory))
    }

    /// Unlocks the waveform memory, writes these bytes to its front, at most 32 an exchange, and
    /// locks it if asked. The session has a copy of the bytes.
    ///
    /// They go out as they are: [`read_counts`](crate::read_counts) tells whether they are an
    /// image.
    ///
    /// From the start on [`DA728x::sequences`] is 0, and after the last exchange it is that of the
    /// image, its second byte. If the upload fails, or its session is dropped, the memory may have
    /// a part of each image, and no sequence can be selected or played until one is completed.
    ///
    /// Uploading the same bytes again, with the same lock, makes good whatever was cut before, and
    /// however often: once completed, memory and lock are as if nothing had been cut, if nothing
    /// else writes to the memory or locks it in between, and the chip keeps its supply.
    ///
    /// # Errors
    /// `WaveformMemoryFull` for more than 100 bytes; the driver is as before then.
    ///
    /// ```
    /// # use yambelugo::{DA728x, Error, IMAGE, RECORD, Reply};
    /// # let mut driver = DA728x::from_bytes([0; RECORD]);
    /// # let mut image = [0; IMAGE];
    /// # image[..7].copy_from_slice(&[1, 1, 5, 6, 0xAA, 0x00, 0x01]);
    /// let mut session = driver.upload_waveform_memory(&image, true)?;
    /// let mut lengths = Vec::new();
    /// while let Some(exchange) = session.pending() {
    ///     lengths.push(exchange.bytes().len());
    ///     session.answer(Reply::Done, &mut [])?;
    /// }
    /// assert_eq!(lengths, [2, 33, 33, 33, 5, 2]); // unlock, four times a register and bytes, lock
    /// assert_eq!(driver.sequences(), 1);
    ///
    /// // A refused upload leaves what is loaded; one that is begun and dropped does not.
    /// assert_eq!(driver.upload_waveform_memory(&[0; 101], true), Err(Error::WaveformMemoryFull));
    /// assert_eq!(driver.sequences(), 1);
    /// drop(driver.upload_waveform_memory(&image, true)?);
    /// assert_eq!(driver.sequences(), 0);
    ///
    /// // Cut in the second exchange, of which ten bytes came, and uploaded again.
    /// let (mut memory, mut unlocked) = ([0xFF; IMAGE], false);
    /// let mut write = |bytes: &[u8]| {
    ///     for (at, byte) in bytes.iter().enumerate().skip(1) {
    ///         match usize::from(bytes[0]) + at - 1 {
    ///             0x2D => unlocked = *byte >= 0x80, // MEM_CTL2
    ///             register if unlocked => memory[register - 0x84] = *byte,
    ///             _ => {}
    ///         }
    ///     }
    /// };
    /// let mut exchanges = 0;
    /// let cut = driver.upload_waveform_memory(&image, true)?.run(
    ///     |exchange| {
    ///         exchanges += 1;
    ///         if exchanges == 2 {
    ///             write(&exchange.bytes()[..11]);
    ///             return Reply::Failed(7);
    ///         }
    ///         write(exchange.bytes());
    ///         Reply::Done
    ///     },
    ///     &mut [],
    /// );
    /// assert_eq!(cut.unwrap_err().error, Error::I2c(7));
    /// let again = driver.upload_waveform_memory(&image, true)?;
    /// again.run(|exchange| { write(exchange.bytes()); Reply::Done }, &mut [])?;
    /// assert!(memory == image && !unlocked);
    /// assert_eq!(driver.sequences(), 1);
    /// # Ok::<(), Error>(())
    /// ```
    pub fn upload_waveform_memory(&mut self, image: &[u8], lock_after: bool) -> Started<'_> {
        let (list, list_len) = (image.as_ptr(), image.len());
        let lock = lock_after.into();
        // SAFETY: each pointer and length is a borrowed slice; the mutable ones overlap no other.
        self.begins(|record, session| unsafe {
            ffi::da728x_upload_waveform_memory(
                record, RECORD, list, list_len, lock, session, SESSION,
            )
        })
    }

    /// Reads the front of the waveform memory, one byte an exchange, into the buffer that is lent
    /// with each answer: `len` bytes, but at most 100 and at most `buffer_len`, the buffer's
    /// length. [`Session::read_count`] is that number.
    ///
    /// ```
    /// # use yambelugo::{DA728x, RECORD, Refusal, Reply};
    /// # let mut driver = DA728x::from_bytes([0; RECORD]);
    /// // A chip whose memory holds 1, 2, 3 and so on, from register 84.
    /// let bus = |exchange: yambelugo::Exchange| Reply::Byte(exchange.bytes()[0] - 0x83);
    ///
    /// let mut buffer = [0xFF; 4];
    /// let session = driver.read_waveform_memory(3, buffer.len()).run(bus, &mut buffer)?;
    /// assert_eq!((session.read_count(), session.made()), (Some(3), 3));
    /// assert_eq!(buffer, [1, 2, 3, 0xFF]);
    /// # Ok::<(), Refusal>(())
    /// ```
    pub fn read_waveform_memory(&mut self, len: usize, buffer_len: usize) -> Session<'_> {
        // SAFETY: each pointer and length is a borrowed array; the mutable one overlaps no other.
        self.starts(|record, session| unsafe {
            ffi::da728x_read_waveform_memory(record, RECORD, len, buffer_len, session, SESSION)
        })
    }

    /// Selects the sequence to play, 0 for the first of the image, and how often it loops; 0 plays
    /// it once.
    ///
    /// # Errors
    /// `InvalidValue` for a sequence number or a loop count above 15; then `MissingSequence` for a
    /// sequence number that is not below [`DA728x::sequences`], so for every number until an upload
    /// is completed.
    ///
    /// ```
    /// # use yambelugo::{DA728x, Error, RECORD};
    /// # let mut record = [0; RECORD];
    /// # record[37] = 2;
    /// # let mut driver = DA728x::from_bytes(record);
    /// // on a driver with two sequences loaded
    /// let session = driver.select_sequence(1, 2)?;
    /// assert_eq!(session.pending().unwrap().bytes(), [0x28, 0x21]);
    /// assert_eq!(driver.select_sequence(2, 2), Err(Error::MissingSequence));
    /// # Ok::<(), Error>(())
    /// ```
    pub fn select_sequence(&mut self, sequence_id: u8, loops: u8) -> Started<'_> {
        // SAFETY: each pointer and length is a borrowed array; the mutable one overlaps no other.
        self.begins(|record, session| unsafe {
            ffi::da728x_select_sequence(record, RECORD, sequence_id, loops, session, SESSION)
        })
    }

    /// Starts the sequence that is selected; the chip has to be enabled. That the image has it is
    /// not checked: one that was selected before an upload is started too, also where that failed and
    /// the memory may have a part of each image. So select anew after an upload.
    pub fn start_sequence(&mut self) -> Session<'_> {
        self.starts(plain(ffi::da728x_start_sequence))
    }

    /// Selects a sequence and starts it: [`DA728x::select_sequence`], then
    /// [`DA728x::start_sequence`].
    ///
    /// # Errors
    /// `InvalidValue` for a sequence number or a loop count above 15; then `MissingSequence` for a
    /// sequence number that is not below [`DA728x::sequences`], so for every number until an upload
    /// is completed.
    ///
    /// ```
    /// # use yambelugo::{DA728x, Error, RECORD, Reply};
    /// # let mut record = [0; RECORD];
    /// # record[37] = 2;
    /// # let mut driver = DA728x::from_bytes(record);
    /// // on a driver with two sequences loaded
    /// let mut sent = Vec::new();
    /// let bus = |exchange: yambelugo::Exchange| {
    ///     sent.push(exchange.bytes().to_vec());
    ///     if exchange.wanted() { Reply::Byte(0x03) } else { Reply::Done }
    /// };
    /// driver.play_sequence(1, 2)?.run(bus, &mut [])?;
    /// assert_eq!(sent, [vec![0x28, 0x21], vec![0x22], vec![0x22, 0x13]]);
    /// assert_eq!(driver.play_sequence(2, 0), Err(Error::MissingSequence));
    /// assert_eq!(driver.play_sequence(16, 0), Err(Error::InvalidValue));
    /// # Ok::<(), Error>(())
    /// ```
    pub fn play_sequence(&mut self, sequence_id: u8, loops: u8) -> Started<'_> {
        // SAFETY: each pointer and length is a borrowed array; the mutable one overlaps no other.
        self.begins(|record, session| unsafe {
            ffi::da728x_play_sequence(record, RECORD, sequence_id, loops, session, SESSION)
        })
    }

    fn begins(&mut self, start: impl FnOnce(*mut u8, *mut u8) -> u8) -> Started<'_> {
        Driver::Lent(self).begins(start)
    }

    fn starts(&mut self, start: impl FnOnce(*mut u8, *mut u8) -> u8) -> Session<'_> {
        Driver::Lent(self).starts(start)
    }
}

/// A session, or why the operation was refused before its first exchange.
pub type Started<'a> = Result<Session<'a>, Error>;

/// The start of an operation without arguments, on the bytes of a record and of a session.
fn plain(start: ffi::Start) -> impl FnOnce(*mut u8, *mut u8) -> u8 {
    // SAFETY: the caller lends the bytes of a record and of a session, which do not overlap.
    move |record, session| unsafe { start(record, RECORD, session, SESSION) }
}

/// The driver that a session is for.
#[derive(Debug, PartialEq, Eq)]
enum Driver<'a> {
    /// Of a chip that is to be found; it is made by the last answer.
    Unknown(DA728x),
    /// The one that the session was started from.
    Lent(&'a mut DA728x),
}

impl<'a> Driver<'a> {
    /// What a start makes of a session's bytes, unless it is refused.
    fn begins(self, start: impl FnOnce(*mut u8, *mut u8) -> u8) -> Started<'a> {
        let mut session = Session { bytes: [0; SESSION], driver: self };
        let record = session.driver.bytes().as_mut_ptr();
        told(start(record, session.bytes.as_mut_ptr()).into(), 1)?;
        Ok(session)
    }

    /// What a start that is never refused makes of a session's bytes.
    fn starts(self, start: impl FnOnce(*mut u8, *mut u8) -> u8) -> Session<'a> {
        let mut session = Session { bytes: [0; SESSION], driver: self };
        let record = session.driver.bytes().as_mut_ptr();
        let number = start(record, session.bytes.as_mut_ptr());
        debug_assert_eq!(number, 0, "never refused");
        session
    }

    fn bytes(&mut self) -> &mut [u8; RECORD] {
        match self {
            Driver::Unknown(driver) => &mut driver.bytes,
            Driver::Lent(driver) => &mut driver.bytes,
        }
    }
}

/// An operation under way: it hands out one exchange at a time and takes back the bus's answer.
///
/// [`Session::run`] takes it to its end over a bus that blocks. Over a bus that is awaited, the
/// loop is yours: a session has its state in its own bytes and borrows the driver alone, so that a
/// task can hold both across an await. A failed session hands out nothing more, as if it were
/// done: to try again, start the operation anew. `examples/async_bus.rs` has all of it.
///
/// ```
/// # use yambelugo::{Exchange, Refusal, Reply, Session};
/// use embedded_hal_async::i2c::I2c;
///
/// async fn run(i2c: &mut impl I2c, session: &mut Session<'_>) -> Result<(), Refusal> {
///     while let Some(exchange) = session.pending() {
///         let (address, mut byte) = (exchange.address(), [0]);
///         let made = match exchange.wanted() {
///             true => i2c.write_read(address, exchange.bytes(), &mut byte).await,
///             false => i2c.write(address, exchange.bytes()).await,
///         };
///         // Any code stands for a failure of this bus.
///         session.answer(exchange.reply(made.map(|()| byte[0]).map_err(|_| 1)), &mut [])?;
///     }
///     Ok(())
/// }
/// ```
///
/// Where the bus calls back, from an interrupt say, keep the session and answer from there:
///
/// ```
/// # use yambelugo::{DA728x, Exchange, RECORD, Refusal, Session};
/// struct Transfer<'a> {
///     session: Session<'a>,
///     under_way: Option<Exchange>,
/// }
///
/// impl Transfer<'_> {
///     /// Starts the next exchange on the hardware, if there is one.
///     fn start(&mut self) {
///         self.under_way = self.session.pending();
///     }
///
///     /// The hardware is done with the exchange, or failed.
///     fn on_interrupt(&mut self, result: Result<u8, u8>) -> Result<(), Refusal> {
///         let Some(exchange) = self.under_way.take() else { return Ok(()) };
///         self.session.answer(exchange.reply(result), &mut [])?;
///         self.start();
///         Ok(())
///     }
/// }
/// # let mut driver = DA728x::from_bytes([0; RECORD]);
/// # let mut transfer = Transfer { session: driver.start_sequence(), under_way: None };
/// # transfer.start();
/// # while transfer.under_way.is_some() {
/// #     transfer.on_interrupt(Ok(0x03))?;
/// # }
/// # assert!(transfer.session.completed());
/// # Ok::<(), Refusal>(())
/// ```
#[derive(Debug, PartialEq, Eq)]
#[must_use = "nothing is sent until its exchanges are made"]
pub struct Session<'a> {
    bytes: [u8; SESSION],
    driver: Driver<'a>,
}

impl Session<'_> {
    /// Takes the session to its end over a bus that blocks: a function that makes an exchange. The
    /// session that comes back is completed. `buffer` is as in [`Session::answer`].
    ///
    /// A failed session is dropped: to try again, start the operation anew.
    ///
    /// ```
    /// # use yambelugo::{DA728x, Error, Exchange, RECORD, Refusal, Reply};
    /// # fn i2c_write(_: u8, _: &[u8]) -> Result<(), u8> { Ok(()) }
    /// # fn i2c_write_read(_: u8, _: &[u8], _: &mut [u8]) -> Result<(), u8> { Err(7) }
    /// # let mut driver = DA728x::from_bytes([0; RECORD]);
    /// /// The unit's bus, which fails with codes of its own.
    /// fn bus(exchange: Exchange) -> Reply {
    ///     let mut byte = [0];
    ///     let made = match exchange.wanted() {
    ///         true => i2c_write_read(exchange.address(), exchange.bytes(), &mut byte),
    ///         false => i2c_write(exchange.address(), exchange.bytes()),
    ///     };
    ///     exchange.reply(made.map(|()| byte[0]))
    /// }
    ///
    /// let lock = driver.lock_waveform_memory().run(bus, &mut [])?;
    /// assert_eq!((lock.completed(), lock.made()), (true, 1));
    ///
    /// let failed = driver.start_sequence().run(bus, &mut []).unwrap_err();
    /// assert_eq!((failed.error, failed.made), (Error::I2c(7), 1));
    /// # Ok::<(), Refusal>(())
    /// ```
    ///
    /// # Errors
    /// Those of [`Session::answer`]. What was sent stands.
    pub fn run(
        mut self,
        mut bus: impl FnMut(Exchange) -> Reply,
        buffer: &mut [u8],
    ) -> Result<Self, Refusal> {
        while !self.completed() {
            // An ended session refuses any reply.
            let reply = self.pending().map_or(Reply::Done, &mut bus);
            self.answer(reply, buffer)?;
        }
        Ok(self)
    }

    /// The exchange that the bus is to make next; none once the session has ended. Asked again
    /// before an answer, it is the same.
    pub fn pending(&self) -> Option<Exchange> {
        let mut bytes = [0; MOST];
        let (session, session_len) = self.lent();
        // SAFETY: each pointer and length is a borrowed array; the mutable one overlaps no other.
        let answer = unsafe { ffi::da728x_pending(session, session_len, bytes.as_mut_ptr(), MOST) };
        let [len, address, wanted, rest] = answer.to_le_bytes();
        debug_assert!(usize::from(len) <= MOST && wanted <= 1 && rest == 0);
        (len != 0).then_some(Exchange { address, bytes, len, wanted: wanted != 0 })
    }

    /// Takes back what the bus answered to the pending exchange. The last answer to
    /// [`DA728x::configure`] stores the settings in the driver, that to [`DA728x::new`] makes one,
    /// and that to [`DA728x::upload_waveform_memory`] sets [`DA728x::sequences`], which is 0 until
    /// then. An answer to any other operation leaves the driver as it is.
    ///
    /// `buffer` counts for [`DA728x::read_waveform_memory`] only: a buffer of the length that was
    /// said at the start, in which the byte is stored at its own index.
    ///
    /// ```
    /// # use yambelugo::{DA728x, Error, Reply, RECORD};
    /// # let mut driver = DA728x::from_bytes([0; RECORD]);
    /// let mut session = driver.start_sequence();
    /// // It begins by a read: done is no answer to that, and changes nothing.
    /// let refused = session.answer(Reply::Done, &mut []).unwrap_err();
    /// assert_eq!((refused.error, refused.made, refused.ended), (Error::OutOfTurn, 0, false));
    /// assert_eq!(session.answer(Reply::Byte(0x01), &mut []).unwrap().made, 1);
    /// assert_eq!(session.pending().unwrap().bytes(), [0x22, 0x11]);
    /// let failed = session.answer(Reply::Failed(7), &mut []).unwrap_err();
    /// assert_eq!((failed.error, failed.made, failed.ended), (Error::I2c(7), 2, true));
    /// assert!(!session.completed());
    /// ```
    ///
    /// # Errors
    /// `OutOfTurn` for an answer that does not fit the pending exchange, for any once the session
    /// has ended, and for a buffer whose length has changed: nothing changes then. Else the
    /// session ends by `I2c` for a failure, and by `VariantMismatch` for a chip of another variant.
    pub fn answer(&mut self, reply: Reply, buffer: &mut [u8]) -> Result<Turn, Refusal> {
        let (kind, byte) = match reply {
            Reply::Done => (0, 0),
            Reply::Byte(byte) => (1, byte),
            Reply::Failed(code) => (2, code),
        };
        let (record, session) = (self.driver.bytes().as_mut_ptr(), self.bytes.as_mut_ptr());
        let (lent, lent_len) = (buffer.as_mut_ptr(), buffer.len());
        // SAFETY: each pointer and length is a slice that is borrowed mutably, so none overlap.
        let answer = unsafe {
            ffi::da728x_answer(record, RECORD, session, SESSION, kind, byte, lent, lent_len)
        };
        let [number, code, made, ended] = answer.to_le_bytes();
        debug_assert!(matches!(number, 0 | 16 | 17 | 19) && ended <= 1, "as the header says");
        debug_assert!(code == 0 || number == 17, "a code without a failure");
        let ended = ended != 0;
        match Error::from_number(number, code) {
            Some(error) => Err(Refusal { error, made, ended }),
            None => Ok(Turn { made, ended }),
        }
    }

    /// Whether every exchange was made, and none ended the session by an error.
    ///
    /// ```
    /// # use yambelugo::{DA728x, RECORD, Reply};
    /// # let mut driver = DA728x::from_bytes([0; RECORD]);
    /// let mut session = driver.lock_waveform_memory();
    /// assert!(!session.completed());
    /// session.answer(Reply::Failed(1), &mut []).unwrap_err();
    /// assert!(session.pending().is_none() && !session.completed());
    ///
    /// // Nothing to read needs no exchange.
    /// assert!(driver.read_waveform_memory(0, 4).completed());
    /// ```
    pub fn completed(&self) -> bool {
        self.result().1
    }

    /// How many exchanges were made, failed ones included, whether it is completed or not.
    ///
    /// ```
    /// # use yambelugo::{DA728x, RECORD, Reply};
    /// # let mut driver = DA728x::from_bytes([0; RECORD]);
    /// let mut session = driver.start_sequence();
    /// assert_eq!(session.made(), 0);
    /// session.answer(Reply::Byte(0), &mut []).unwrap();
    /// assert_eq!(session.made(), 1);
    /// session.answer(Reply::Failed(1), &mut []).unwrap_err();
    /// assert_eq!((session.made(), session.completed()), (2, false));
    /// ```
    pub fn made(&self) -> u8 {
        self.result().0[3]
    }

    /// The driver that [`DA728x::new`] made, once it is completed. None before, and none for other
    /// operations: theirs is free again.
    ///
    /// ```
    /// # use yambelugo::{DA728x, RECORD, Refusal, Reply, Variant};
    /// let mut session = DA728x::new(0x4A, Variant::DA7280);
    /// session.answer(Reply::Byte(0xBA), &mut [])?;
    /// let mut driver = session.found().unwrap();
    ///
    /// let lock = driver.lock_waveform_memory().run(|_| Reply::Done, &mut [])?;
    /// assert_eq!(lock.found(), None); // `driver` goes on
    /// assert_eq!(DA728x::new(0x4A, Variant::DA7280).found(), None); // nothing was read
    /// # Ok::<(), Refusal>(())
    /// ```
    pub fn found(self) -> Option<DA728x> {
        let completed = self.completed();
        match self.driver {
            Driver::Unknown(driver) => completed.then_some(driver),
            Driver::Lent(_) => None,
        }
    }

    /// The driver as it is now: the settings are stored by the last answer, and the sequences of an
    /// upload are loaded by its last. None for [`DA728x::new`] until it is completed.
    ///
    /// ```
    /// # use yambelugo::{DA728x, RECORD, Refusal, Reply, Variant};
    /// let mut session = DA728x::new(0x4A, Variant::DA7280);
    /// assert_eq!(session.driver(), None);
    /// session.answer(Reply::Byte(0xBA), &mut [])?;
    /// assert_eq!(session.driver().unwrap().as_bytes()[..3], [0x4A, 0, 1]);
    /// # Ok::<(), Refusal>(())
    /// ```
    pub fn driver(&self) -> Option<&DA728x> {
        match &self.driver {
            Driver::Unknown(driver) => self.completed().then_some(driver),
            Driver::Lent(driver) => Some(driver),
        }
    }

    /// What [`DA728x::get_chip_rev`] read, once it is completed. Meaningless for other operations.
    pub fn chip_rev(&self) -> Option<u8> {
        self.value().map(|[byte, ..]| byte)
    }

    /// What [`DA728x::get_status`] read, once it is completed. Meaningless for other operations.
    pub fn status(&self) -> Option<u8> {
        self.value().map(|[byte, ..]| byte)
    }

    /// What [`DA728x::get_events`] read, once it is completed: IRQ_EVENT1, IRQ_EVENT_WARNING_DIAG
    /// and IRQ_EVENT_SEQ_DIAG. Meaningless for other operations.
    ///
    /// ```
    /// # use yambelugo::{DA728x, Reply, RECORD};
    /// # let mut driver = DA728x::from_bytes([0; RECORD]);
    /// let mut session = driver.get_events();
    /// for reply in [Reply::Byte(1), Reply::Byte(2), Reply::Byte(3), Reply::Done] {
    ///     assert_eq!(session.events(), None);
    ///     session.answer(reply, &mut []).unwrap();
    /// }
    /// assert_eq!(session.events(), Some([1, 2, 3]));
    /// ```
    pub fn events(&self) -> Option<[u8; 3]> {
        self.value().map(|[sequence, warning, event]| [event, warning, sequence])
    }

    /// How many bytes [`DA728x::read_waveform_memory`] read, once it is completed. Meaningless for
    /// other operations.
    pub fn read_count(&self) -> Option<usize> {
        self.value().map(|[count, ..]| count.into())
    }

    /// What the operation answers, the low byte first, once it is completed: 0 for those that
    /// answer nothing.
    fn value(&self) -> Option<[u8; 3]> {
        let ([low, middle, high, _], completed) = self.result();
        completed.then_some([low, middle, high])
    }

    /// The four bytes of the result, the low one first, and whether the session is completed.
    fn result(&self) -> ([u8; 4], bool) {
        let (session, session_len) = self.lent();
        // SAFETY: the pointer and length are a borrowed array.
        let answer = unsafe { ffi::da728x_result(session, session_len) };
        let [a, b, c, made, completed, rest @ ..] = answer.to_le_bytes();
        debug_assert!(completed <= 1 && rest == [0; 3], "as the header says");
        debug_assert!(completed == 1 || [a, b, c] == [0; 3], "a value before completion");
        ([a, b, c, made], completed == 1)
    }

    fn lent(&self) -> (*const u8, usize) {
        (self.bytes.as_ptr(), SESSION)
    }
}

/// What the bus is to do: send these bytes to the chip and, if wanted, read one back in the same
/// transaction (a repeated start, no stop in between). A bus calls these `write` and `write_read`.
///
/// ```
/// # use yambelugo::{DA728x, RECORD, Variant};
/// let exchange = DA728x::new(0x4A, Variant::DA7280).pending().unwrap();
/// assert_eq!((exchange.address(), exchange.bytes()), (0x4A, &[0x00][..]));
/// assert!(exchange.wanted()); // so this is a `write_read` of one byte
/// ```
#[derive(Debug, Clone, Copy, PartialEq, Eq)]
pub struct Exchange {
    address: u8,
    bytes: [u8; MOST],
    len: u8,
    wanted: bool,
}

impl Exchange {
    /// The chip's address.
    pub const fn address(&self) -> u8 {
        self.address
    }

    /// The bytes to send, 1 to 33.
    pub fn bytes(&self) -> &[u8] {
        &self.bytes[..usize::from(self.len)]
    }

    /// Whether a byte is then to be read.
    pub const fn wanted(&self) -> bool {
        self.wanted
    }

    /// The reply that fits this exchange: the byte read, if one is wanted, or the bus's own code.
    ///
    /// ```
    /// # use yambelugo::{DA728x, RECORD, Reply};
    /// # let mut driver = DA728x::from_bytes([0; RECORD]);
    /// let reads = driver.get_status().pending().unwrap();
    /// assert_eq!(reads.reply(Ok(0x04)), Reply::Byte(0x04));
    /// let writes = driver.lock_waveform_memory().pending().unwrap();
    /// assert_eq!(writes.reply(Ok(0x04)), Reply::Done);
    /// assert_eq!(writes.reply(Err(7)), Reply::Failed(7));
    /// ```
    pub const fn reply(&self, result: Result<u8, u8>) -> Reply {
        match result {
            Ok(byte) if self.wanted => Reply::Byte(byte),
            Ok(_) => Reply::Done,
            Err(code) => Reply::Failed(code),
        }
    }
}

/// What the bus answered to an exchange; [`Exchange::reply`] makes the one that fits.
#[derive(Debug, Clone, Copy, PartialEq, Eq)]
pub enum Reply {
    /// The bytes were sent; fits where no byte is wanted.
    Done,
    /// The bytes were sent and this one was read; fits where a byte is wanted.
    Byte(u8),
    /// The bus failed with this code of its own; fits always.
    Failed(u8),
}

/// What a session came to by an answer that it took.
#[derive(Debug, Clone, Copy, PartialEq, Eq)]
pub struct Turn {
    /// How many exchanges were made, failed ones included.
    pub made: u8,
    /// Whether the session has ended.
    pub ended: bool,
}

/// Why an answer was refused, or why the session ended by it.
///
/// ```
/// # use yambelugo::{DA728x, Error, RECORD, Refusal, Reply};
/// # let mut driver = DA728x::from_bytes([0; RECORD]);
/// let refusal = driver.get_status().run(|_| Reply::Failed(7), &mut []).unwrap_err();
/// assert_eq!(refusal, Refusal { error: Error::I2c(7), made: 1, ended: true });
/// assert_eq!(refusal.to_string(), "the bus failed with code 7, after 1 exchange");
/// assert_eq!(Error::from(refusal), Error::I2c(7)); // so `?` takes it to an Error
/// ```
#[derive(Debug, Clone, Copy, PartialEq, Eq)]
pub struct Refusal {
    /// The refusal or the failure.
    pub error: Error,
    /// How many exchanges were made, failed ones included.
    pub made: u8,
    /// Whether the session has ended.
    pub ended: bool,
}

impl fmt::Display for Refusal {
    fn fmt(&self, f: &mut fmt::Formatter) -> fmt::Result {
        let plural = if self.made == 1 { "" } else { "s" };
        write!(f, "{}, after {} exchange{plural}", self.error, self.made)
    }
}

impl core::error::Error for Refusal {}

impl From<Refusal> for Error {
    fn from(refusal: Refusal) -> Error {
        refusal.error
    }
}

#[cfg(test)]
mod tests {
    use super::{DA728x, Error, RECORD, Refusal, Reply};

    #[test]
    fn a_session_that_was_run_is_completed() {
        let mut driver = DA728x::from_bytes([0; RECORD]);
        let session = driver.start_sequence().run(|it| it.reply(Ok(3)), &mut []).unwrap();
        assert_eq!((session.completed(), session.made()), (true, 2));
        let again = session.run(|_| panic!("every exchange is made"), &mut []);
        assert_eq!(again.unwrap().made(), 2);
        let failed = driver.start_sequence().run(|it| it.reply(Err(7)), &mut []).unwrap_err();
        assert_eq!(failed, Refusal { error: Error::I2c(7), made: 1, ended: true });
        let refused = driver.start_sequence().run(|_| Reply::Done, &mut []).unwrap_err();
        assert_eq!(refused, Refusal { error: Error::OutOfTurn, made: 0, ended: false });
        assert_eq!(*driver.as_bytes(), [0; RECORD]);
    }

    #[test]
    fn a_session_that_has_failed_cannot_be_run() {
        let mut driver = DA728x::from_bytes([0; RECORD]);
        let mut session = driver.start_sequence();
        assert!(session.answer(Reply::Failed(7), &mut []).is_err());
        let refused = session.run(|_| panic!("no exchange is pending"), &mut []).unwrap_err();
        assert_eq!(refused, Refusal { error: Error::OutOfTurn, made: 1, ended: true });
    }
}
