//! The operations of the driver, run by the library and by the published Rust on the same script.

use crate::bus::{Bus, Exchange, Script, Wire, at_once, kind, unless_silent};
use crate::drive_points;
use crate::lists::MARKER;
use crate::oracle::{matches, number};
use crate::records::{COUNT, Loaded, num_sequences};
use crate::settings::{Settings, published_variant};
use crate::triggers;
use crate::trim::resistance_code;
use da728x::waveform::{self, WaveformMemory};
use embedded_hal_async::i2c::ErrorKind;
use std::cell::RefCell;
use std::panic::{AssertUnwindSafe, catch_unwind};
use std::rc::Rc;
use yambelugo::{DA728x, DrivingMode, Error, IMAGE, RECORD, Session, Started};
use yambelugo::{Variant, WaveformMemoryTimebase};

/// Bytes around a lent buffer, to see that they stay.
const GUARD: usize = 8;

/// More answers than a session takes: it is run to its end, and never dropped before.
pub const NEVER: usize = usize::MAX;

/// An operation on a record.
#[derive(Debug, Clone, PartialEq)]
pub enum Operation {
    Configure(Settings),
    GetChipRev,
    GetEvents,
    GetStatus,
    SetFrequency(u16),
    SetOverrideValue(i8),
    SetTimebase(WaveformMemoryTimebase),
    Enable,
    Disable,
    SetCustomDriveWaveform([u8; 3]),
    UnlockWaveformMemory,
    LockWaveformMemory,
    UploadWaveformMemory(Vec<u8>, bool),
    /// With the length of the buffer.
    ReadWaveformMemory(usize, usize),
    SelectSequence(u8, u8),
    StartSequence,
    PlaySequence(u8, u8),
}

impl Operation {
    /// How many bytes are lent with each answer: some also where they do not count.
    pub fn room(&self) -> usize {
        match self {
            Operation::ReadWaveformMemory(_, room) => *room,
            _ => 5,
        }
    }

    /// Starts it by the library.
    pub fn start<'a>(&self, record: &'a mut DA728x) -> Started<'a> {
        Ok(match self {
            Operation::Configure(it) => return record.configure(it.actuator, it.device),
            Operation::GetChipRev => record.get_chip_rev(),
            Operation::GetEvents => record.get_events(),
            Operation::GetStatus => record.get_status(),
            Operation::SetFrequency(frequency) => return record.set_frequency(*frequency),
            Operation::SetOverrideValue(value) => return record.set_override_value(*value),
            Operation::SetTimebase(timebase) => record.set_timebase(*timebase),
            Operation::Enable => return record.enable(),
            Operation::Disable => return record.disable(),
            Operation::SetCustomDriveWaveform(points) => {
                return record.set_custom_drive_waveform(*points);
            }
            Operation::UnlockWaveformMemory => record.unlock_waveform_memory(),
            Operation::LockWaveformMemory => record.lock_waveform_memory(),
            Operation::UploadWaveformMemory(image, lock) => {
                return record.upload_waveform_memory(image, *lock);
            }
            Operation::ReadWaveformMemory(len, room) => record.read_waveform_memory(*len, *room),
            Operation::SelectSequence(id, loops) => return record.select_sequence(*id, *loops),
            Operation::StartSequence => record.start_sequence(),
            Operation::PlaySequence(id, loops) => return record.play_sequence(*id, *loops),
        })
    }

    /// What it answers, where the bus read these bytes, in its result's low 24 bits: the byte that was asked for; the three of
    /// `get_events`, the first above the others; how many bytes of memory were read, min(len, 100, buffer length).
    pub fn answers(&self, read: &[u8]) -> u32 {
        match (self, read) {
            (Operation::GetChipRev | Operation::GetStatus, [byte]) => (*byte).into(),
            (Operation::GetEvents, [event, warning, sequence]) => {
                u32::from_be_bytes([0, *event, *warning, *sequence])
            }
            (Operation::ReadWaveformMemory(len, room), _) => {
                (*len).min(*room).min(IMAGE).try_into().unwrap()
            }
            (Operation::GetChipRev | Operation::GetStatus | Operation::GetEvents, _) => {
                panic!("{self:?} read {read:02X?}")
            }
            _ => 0,
        }
    }

    /// What it gives besides its success, once the session is completed.
    fn value(&self, session: &Session) -> Option<Value> {
        match self {
            Operation::GetChipRev => session.chip_rev().map(Value::Byte),
            Operation::GetStatus => session.status().map(Value::Byte),
            Operation::GetEvents => session.events().map(Value::Events),
            Operation::ReadWaveformMemory(..) => session.read_count().map(Value::Count),
            _ => session.completed().then_some(Value::Nothing),
        }
    }
}

/// What an operation gives besides its success.
#[derive(Debug, Clone, Copy, PartialEq)]
pub enum Value {
    Nothing,
    Byte(u8),
    Events([u8; 3]),
    Count(usize),
}

/// What an operation gives, or the number of its refusal, with the kind of failure at 17.
pub type Answer = Result<Value, (u8, Option<ErrorKind>)>;

/// What running an operation came to.
#[derive(Debug, Clone, PartialEq)]
pub struct Outcome {
    pub answer: Answer,
    pub made: usize,
    pub log: Vec<Exchange>,
    /// The lent buffer with the bytes around it.
    pub lent: Vec<u8>,
    /// The record after the start and after each answer; none where the start is refused, and none of `new`.
    pub records: Vec<[u8; RECORD]>,
}

impl Outcome {
    /// In place of the answer of a session that was dropped before its end; no refusal has this number.
    pub const DROPPED: Answer = Err((0, None));

    /// With these exchanges, and no byte read into the buffer.
    fn new(answer: Answer, log: Vec<Exchange>, room: usize) -> Self {
        Self { answer, made: log.len(), log, lent: markers(room), records: Vec::new() }
    }

    /// Refused before the first exchange.
    fn refused(number: u8, room: usize) -> Self {
        Self::new(Err((number, None)), Vec::new(), room)
    }

    /// The number of the refusal, 0 where there is none; a failure of the bus is none.
    fn refusal(&self) -> u8 {
        match self.answer {
            Err((number, None)) => number,
            _ => 0,
        }
    }

    /// The lent buffer.
    pub fn buffer(&self) -> &[u8] {
        &self.lent[GUARD..self.lent.len() - GUARD]
    }
}

/// One more than the highest number of the papers.
const NUMBERS: usize = 31;

/// How many outcomes had which number; 0 counts those that succeeded.
#[derive(Default)]
pub struct Tally([usize; NUMBERS]);

impl Tally {
    pub fn count(&mut self, outcome: &Outcome) {
        assert_ne!(outcome.answer, Outcome::DROPPED);
        self.0[outcome.answer.map_or_else(|(number, _)| usize::from(number), |_| 0)] += 1;
    }

    /// The numbers that occurred, each with how often.
    pub fn told(&self) -> Vec<(usize, usize)> {
        self.0.iter().copied().enumerate().filter(|(_, count)| *count > 0).collect()
    }
}

fn markers(room: usize) -> Vec<u8> {
    vec![MARKER; GUARD + room + GUARD]
}

/// Runs what was started by the library (`new` where there is no operation) to its end, or drops it after so many answers; what it came
/// to, and the driver that `new` made.
fn run(
    operation: Option<&Operation>,
    started: Started,
    script: &Script,
    until: usize,
) -> (Outcome, Option<DA728x>) {
    let room = operation.map_or(5, Operation::room);
    let mut session = match started {
        Ok(session) => session,
        Err(error) => return (Outcome::refused(error.number(), room), None),
    };
    let record = |session: &Session| operation.and(session.driver()).map(|it| *it.as_bytes());
    let mut records = Vec::from_iter(record(&session));
    let value = |session: &Session| match operation {
        Some(operation) => operation.value(session),
        None => session.completed().then_some(Value::Nothing),
    };
    let (mut wire, mut lent) = (Wire::new(script), markers(room));
    let (mut made, mut ended) = (0, false);
    let mut failed = None;
    while let Some(exchange) = session.pending() {
        assert!(!ended, "ended but pending");
        assert_eq!(value(&session), None, "a value before the last exchange");
        let found = operation.is_none() && session.driver().is_some();
        assert!(!found, "a record before the last exchange");
        if made == until {
            break;
        }
        let wanted = exchange.wanted().into();
        let reply = wire.exchange(exchange.address(), exchange.bytes(), wanted);
        let answer = session.answer(reply, &mut lent[GUARD..GUARD + room]);
        made += 1;
        let told = match answer {
            Ok(turn) => (turn.made, turn.ended),
            Err(refusal) => {
                failed = Some(refusal.error);
                (refusal.made, refusal.ended)
            }
        };
        assert_eq!(usize::from(told.0), made, "the count");
        assert_eq!(usize::from(session.made()), made, "the count in the result");
        ended = told.1;
        records.extend(record(&session));
    }
    let dropped = session.pending().is_some();
    assert!(ended || dropped || made == 0, "not ended and nothing pending");
    let whole = failed.is_none() && !dropped;
    assert_eq!(value(&session).is_some(), whole, "a value after {failed:?}");
    let answer = match failed {
        None if dropped => Outcome::DROPPED,
        None => Ok(value(&session).unwrap()),
        Some(Error::I2c(code)) => {
            assert_eq!(script.fails.map(|(_, code)| code), Some(code), "the bus's own code");
            Err((17, Some(kind(code))))
        }
        Some(error) => Err((error.number(), None)),
    };
    let found = session.found();
    assert_eq!(found.is_some(), operation.is_none() && answer.is_ok(), "found after {answer:?}");
    (Outcome { answer, made, log: wire.log, lent, records }, found)
}

/// The published driver on a bus that runs scripts, with what it has stored.
pub struct Published {
    driver: da728x::DA728x<Bus>,
    wire: Rc<RefCell<Wire>>,
    pub address: u8,
    pub variant: Variant,
    pub stored: Option<Settings>,
    /// The last upload, which the published driver does not keep: document 02 (CR 10) adds it.
    pub loaded: Loaded,
    /// GPI registers written: those where the published mode bit is the trigger's, and those where it is not.
    pub modes: [usize; 2],
}

impl Published {
    /// What `new` came to on this script, and the driver that it made.
    pub fn new(address: u8, variant: Variant, script: &Script) -> (Outcome, Option<Self>) {
        let wire = Rc::new(RefCell::new(Wire::new(script)));
        let bus = Bus(wire.clone());
        let made = at_once(da728x::DA728x::new(bus, address, published_variant(variant)));
        let (answer, driver) = match made {
            Ok(driver) => (Ok(Value::Nothing), Some(driver)),
            Err(error) => (Err(failure(error)), None),
        };
        let log = std::mem::take(&mut wire.borrow_mut().log);
        let loaded = Loaded::default();
        (
            Outcome::new(answer, log, 5),
            driver.map(|driver| Self {
                driver,
                wire,
                address,
                variant,
                stored: None,
                loaded,
                modes: [0; 2],
            }),
        )
    }

    /// The record in force.
    pub fn record(&self) -> [u8; RECORD] {
        record_bytes(self.address, self.variant, self.stored.as_ref(), self.loaded.sequences())
    }

    /// What an operation comes to on this script, as documents 01 and 02 have it: by the published driver unless it lies outside
    /// the comparison. The number is document 02's (CR 3), which the published one has to match.
    pub fn outcome(&mut self, operation: &Operation, script: &Script) -> Outcome {
        self.outcome_until(operation, script, NEVER)
    }

    /// As `outcome`, where the operation is dropped after so many exchanges unless it has ended.
    pub fn outcome_until(
        &mut self,
        operation: &Operation,
        script: &Script,
        until: usize,
    ) -> Outcome {
        let mut outcome = match (self.outside(operation), operation) {
            (Some(number), _) => Outcome::refused(number, operation.room()),
            (None, Operation::SetCustomDriveWaveform(points)) if self.is_custom() => {
                let (mut log, failure) = drive_points::written(self.address, *points, script);
                let answer = match failure {
                    _ if log.len() > until => Outcome::DROPPED,
                    Some(kind) => Err((17, Some(kind))),
                    None => Ok(Value::Nothing),
                };
                log.truncate(until);
                Outcome::new(answer, log, operation.room())
            }
            (None, _) => {
                let outcome = self.run(operation, script, until);
                self.followed(operation, outcome)
            }
        };
        let published = outcome.refusal();
        let number = self.told(operation, published);
        assert!(matches(published, number), "{operation:?}: {published} told as {number}");
        if published != 0 {
            outcome.answer = Err((number, None));
        } else {
            outcome.records = self.kept(operation, &outcome);
        }
        outcome
    }

    /// The record after the start of an operation that came to this, and after each answer: the last answer of `configure` stores the
    /// settings, and that of an upload counts its sequences, of which there are none from the start on.
    fn kept(&mut self, operation: &Operation, outcome: &Outcome) -> Vec<[u8; RECORD]> {
        if let Operation::UploadWaveformMemory(image, _) = operation {
            self.loaded = Loaded::begun(image);
        }
        let mut records = vec![self.record(); 1 + outcome.made];
        match operation {
            Operation::Configure(settings) if outcome.answer.is_ok() => {
                self.stored = Some(*settings);
            }
            Operation::UploadWaveformMemory(..) if outcome.answer.is_ok() => {
                self.loaded = self.loaded.completed();
            }
            _ => {}
        }
        records[outcome.made] = self.record();
        records
    }

    /// The number that is told where the published driver is not run on the operation.
    fn outside(&self, operation: &Operation) -> Option<u8> {
        match operation {
            Operation::Configure(settings) => {
                let published = settings.outside().then(|| self.checked(&settings.inside()))?;
                Some(published.unwrap_or_else(|| {
                    // None of the published checks refuses them: one of the added ones has to. Which is held to plain values
                    // in the tests of each entry, and of all their combinations.
                    let number = settings.told(self.variant);
                    assert!([11, 14, 21, 22].contains(&number), "{number} for {settings:?}");
                    number
                }))
            }
            Operation::UploadWaveformMemory(image, _) => (image.len() > IMAGE).then_some(8),
            Operation::SelectSequence(id, loops) | Operation::PlaySequence(id, loops) => {
                (*id <= 15 && *loops <= 15 && *id >= self.loaded.sequences()).then_some(28)
            }
            _ => None,
        }
    }

    /// Whether settings for a custom waveform are stored; there the published `set_custom_drive_waveform` has no finished body.
    pub fn is_custom(&self) -> bool {
        let custom = DrivingMode::CUSTOM_WAVEFORM;
        self.stored.is_some_and(|it| it.device.driving_mode == custom)
    }

    /// What the published driver panics with, where it comes to a body that is not finished; it then has made no exchange.
    pub fn unfinished(&mut self, operation: &Operation) -> Option<String> {
        let script = Script::reading(&[0]);
        let run = || self.run(operation, &script, NEVER);
        let panic = catch_unwind(AssertUnwindSafe(run)).err()?;
        assert_eq!(self.wire.borrow().log, []);
        let text = panic.downcast_ref::<&str>().map(|it| it.to_string());
        Some(text.or(panic.downcast_ref::<String>().cloned()).unwrap())
    }

    /// The number by which an operation is told that the published driver refuses with this one, or with none: 0.
    fn told(&self, operation: &Operation, published: u8) -> u8 {
        match operation {
            Operation::Configure(settings) => settings.told(self.variant),
            Operation::SetFrequency(_) if published == 11 => 23,
            _ => published,
        }
    }

    /// What the published checks of `configure` refuse these settings with.
    fn checked(&self, settings: &Settings) -> Option<u8> {
        let script = Script::reading(&[revision(self.variant)]);
        let (_, other) = Self::new(self.address, self.variant, &script);
        let outcome = other.unwrap().run(&Operation::Configure(*settings), &script, NEVER);
        outcome.answer.err().map(|(number, _)| number)
    }

    /// What the published driver makes of an operation, with nothing that the documents add.
    pub fn run(&mut self, operation: &Operation, script: &Script, until: usize) -> Outcome {
        *self.wire.borrow_mut() = Wire::until(script, until);
        let mut lent = markers(operation.room());
        let buffer = &mut lent[GUARD..GUARD + operation.room()];
        let answer = unless_silent(self.call(operation, buffer));
        let answer = answer.map_or(Outcome::DROPPED, |it| it.map_err(failure));
        let log = std::mem::take(&mut self.wire.borrow_mut().log);
        Outcome { lent, ..Outcome::new(answer, log, 0) }
    }

    /// The published outcome with the low two bits of TRIM4 as document 01 has them, and the GPI mode bits as document 02 has them.
    fn followed(&mut self, operation: &Operation, mut outcome: Outcome) -> Outcome {
        if let Operation::Configure(Settings { actuator, device }) = operation {
            for exchange in &mut outcome.log {
                if exchange.bytes[0] == 0x60 {
                    let code = resistance_code(actuator.impedance_mOhm, actuator.inductance_uH);
                    exchange.bytes[1] = exchange.bytes[1] & !3 | code;
                }
                if let Some(differs) = triggers::follow(exchange, &device.gpi_triggers) {
                    self.modes[usize::from(differs)] += 1;
                }
            }
        }
        outcome
    }

    async fn call(
        &mut self,
        operation: &Operation,
        buffer: &mut [u8],
    ) -> Result<Value, da728x::errors::Error> {
        let driver = &mut self.driver;
        match operation {
            Operation::Configure(settings) => {
                let (actuator, device) = settings.published();
                driver.configure(actuator, device).await?;
            }
            Operation::GetChipRev => return Ok(Value::Byte(driver.get_chip_rev().await?.into())),
            Operation::GetEvents => {
                let (event, warning, sequence) = driver.get_events().await?;
                return Ok(Value::Events([event.into(), warning.into(), sequence.into()]));
            }
            Operation::GetStatus => return Ok(Value::Byte(driver.get_status().await?.into())),
            Operation::SetFrequency(frequency) => driver.set_frequency(*frequency).await?,
            Operation::SetOverrideValue(value) => driver.set_override_value(*value).await?,
            Operation::SetTimebase(timebase) => {
                let timebase = match timebase {
                    WaveformMemoryTimebase::TIMEBASE_544_2176_4352_8704 => {
                        waveform::WaveformMemoryTimebase::TIMEBASE_544_2176_4352_8704
                    }
                    WaveformMemoryTimebase::TIMEBASE_136_544_2176_4352 => {
                        waveform::WaveformMemoryTimebase::TIMEBASE_136_544_2176_4352
                    }
                };
                driver.set_timebase(timebase).await?;
            }
            Operation::Enable => driver.enable().await?,
            Operation::Disable => driver.disable().await?,
            Operation::SetCustomDriveWaveform(points) => {
                driver.set_custom_drive_waveform(*points).await?;
            }
            Operation::UnlockWaveformMemory => driver.unlock_waveform_memory().await?,
            Operation::LockWaveformMemory => driver.lock_waveform_memory().await?,
            Operation::UploadWaveformMemory(image, lock) => {
                let mut data = [MARKER; IMAGE];
                data[..image.len()].copy_from_slice(image);
                let snippets = image.first().copied().unwrap_or(0);
                let (len, sequences) = (image.len() as u8, num_sequences(image));
                let memory = WaveformMemory::from_bytes(data, len, snippets, sequences);
                driver.upload_waveform_memory(&memory, *lock).await?;
            }
            Operation::ReadWaveformMemory(len, _) => {
                return Ok(Value::Count(driver.read_waveform_memory(*len, buffer).await?));
            }
            Operation::SelectSequence(id, loops) => driver.select_sequence(*id, *loops).await?,
            Operation::StartSequence => driver.start_sequence().await?,
            Operation::PlaySequence(id, loops) => driver.play_sequence(*id, *loops).await?,
        }
        Ok(Value::Nothing)
    }
}

fn failure(error: da728x::errors::Error) -> (u8, Option<ErrorKind>) {
    match error {
        da728x::errors::Error::I2c(kind) => (number(&error), Some(kind)),
        _ => (number(&error), None),
    }
}

/// The byte that CHIP_REV reads on a variant.
pub fn revision(variant: Variant) -> u8 {
    match variant {
        Variant::DA7280 => 0xBA,
        Variant::DA7281 => 0xCA,
        Variant::DA7282 => 0xDA,
    }
}

/// Compares `new` on this script; its outcome.
pub fn compare_new(address: u8, variant: Variant, script: &Script) -> Outcome {
    let (ours, record) = run(None, Ok(DA728x::new(address, variant)), script, NEVER);
    let (theirs, _) = Published::new(address, variant, script);
    assert_eq!(ours, theirs, "new({address:02X}, {variant:?}) on {script:02X?}");
    if let Some(record) = record {
        assert_eq!(*record.as_bytes(), record_bytes(address, variant, None, 0));
    }
    ours
}

/// The bytes of a record as the header lays them out, with its count of sequences.
pub fn record_bytes(
    address: u8,
    variant: Variant,
    stored: Option<&Settings>,
    sequences: u8,
) -> [u8; RECORD] {
    let mut bytes = [0; RECORD];
    bytes[..3].copy_from_slice(&[address, variant as u8, 1]);
    if let Some(settings) = stored {
        bytes[2] = 2;
        bytes[3..COUNT].copy_from_slice(&settings.encode());
    }
    bytes[COUNT] = sequences;
    bytes
}

/// A driver on each side, with the same settings stored.
pub struct Pair {
    record: DA728x,
    published: Published,
}

impl Pair {
    /// New drivers, without settings.
    pub fn new(address: u8, variant: Variant) -> Self {
        let script = Script::reading(&[revision(variant)]);
        let (ours, record) = run(None, Ok(DA728x::new(address, variant)), &script, NEVER);
        let (theirs, published) = Published::new(address, variant, &script);
        assert_eq!(ours, theirs);
        Self { record: record.unwrap(), published: published.unwrap() }
    }

    /// New drivers with these settings stored.
    pub fn configured(address: u8, variant: Variant, settings: &Settings) -> Self {
        let mut pair = Self::new(address, variant);
        let script = Script::reading(&[0x5A, 0xA5]);
        let outcome = pair.compare(&Operation::Configure(*settings), &script);
        assert_eq!(outcome.answer, Ok(Value::Nothing), "{settings:?}");
        pair
    }

    /// New drivers of a chip with so many sequences, and with these settings if there are some.
    pub fn loaded(
        address: u8,
        variant: Variant,
        settings: Option<&Settings>,
        sequences: u8,
    ) -> Self {
        let mut pair = match settings {
            Some(settings) => Self::configured(address, variant, settings),
            None => Self::new(address, variant),
        };
        let operation = Operation::UploadWaveformMemory(vec![1, sequences], true);
        let outcome = pair.compare(&operation, &Script::reading(&[0]));
        assert_eq!((outcome.answer, pair.sequences()), (Ok(Value::Nothing), sequences));
        pair
    }

    /// How many sequences the record counts.
    pub fn sequences(&self) -> u8 {
        self.record.sequences()
    }

    /// The published driver, to be asked on its own.
    pub fn published(&mut self) -> &mut Published {
        &mut self.published
    }

    /// GPI registers written: those where the published mode bit is the trigger's, and those where it is not.
    pub fn modes(&self) -> [usize; 2] {
        self.published.modes
    }

    /// Compares an operation on this script, all that it leaves, and the record after its start, after each answer and in the end; its
    /// outcome.
    pub fn compare(&mut self, operation: &Operation, script: &Script) -> Outcome {
        self.compare_until(operation, script, NEVER)
    }

    /// As `compare`, where the session is dropped after so many answers unless it has ended.
    pub fn compare_until(
        &mut self,
        operation: &Operation,
        script: &Script,
        until: usize,
    ) -> Outcome {
        let started = operation.start(&mut self.record);
        let (ours, _) = run(Some(operation), started, script, until);
        let Published { stored, loaded, variant, .. } = self.published;
        let theirs = self.published.outcome_until(operation, script, until);
        assert_eq!(
            ours, theirs,
            "{operation:?} on {script:02X?}, {variant:?}, stored {stored:?}, {loaded:?}"
        );

        let wanted = self.published.record();
        assert_eq!(*self.record.as_bytes(), wanted, "the record after {operation:?}");
        assert_eq!(self.record.sequences(), wanted[COUNT]);
        ours
    }
}
