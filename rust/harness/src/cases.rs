//! Every operation that can be started, and its sessions between two answers, through the C functions.

use crate::driver::{Operation, record_bytes, revision};
use crate::lists::MARKER;
use crate::raw::{self, BYTE, DONE, SESSION, word};
use crate::records::{Answered, Stores};
use crate::settings::{DRIVINGS, MEMORY_TIMEBASES, MODES, POLARITIES, Settings, VARIANTS};
use yambelugo::{DrivingMode, OperationMode, RECORD, TriggerConfig, Variant};

/// How many operations [`cases`] has, and how many exchanges they make together.
pub const CASES: usize = 49;
pub const EXCHANGES: usize = 382;

type Start = dyn Fn(&mut [u8]) -> u8;

/// How an operation starts (`new` where there is none), from a copy of the record that is lent with its answers; what its first exchange
/// reads (a later one that plus its number), the length of its read buffer, how many bytes of memory it reads, and what its answers do to
/// the record.
pub struct Case {
    pub name: String,
    pub operation: Option<Operation>,
    pub start: Box<Start>,
    pub record: [u8; RECORD],
    pub read: u8,
    pub room: usize,
    pub reads: usize,
    pub stores: Stores,
}

impl Case {
    /// What it answers, where these bytes were read.
    pub fn answers(&self, read: &[u8]) -> u32 {
        self.operation.as_ref().map_or(0, |it| it.answers(read))
    }
}

/// As many sequences as an image can have.
pub const LOADED: u8 = 16;

/// A stored record, in DRO mode, of a chip with all sequences.
pub fn stored() -> [u8; RECORD] {
    let settings = Settings::plain(OperationMode::DRO_MODE, DrivingMode::FREQUENCY_TRACK);
    record_bytes(0x4A, Variant::DA7282, Some(&settings), LOADED)
}

/// The settings with the most exchanges, 25.
pub fn longest() -> Settings {
    let mut settings = Settings::plain(OperationMode::ETWM_MODE, DrivingMode::CUSTOM_WAVEFORM);
    settings.actuator.pid_Kp_Ki = Some((0x8123, 0xFEDC));
    settings.device.gpi_triggers = [0, 8, 15].map(|sequence_id| {
        let (polarity, mode) = (POLARITIES[usize::from(sequence_id) % 3], MODES[1]);
        Some(TriggerConfig { sequence_id, polarity, mode })
    });
    settings
}

/// The record that an operation is started from: the stored one; for drive points one with settings for a custom waveform.
pub fn record_for(operation: &Operation) -> [u8; RECORD] {
    match operation {
        Operation::SetCustomDriveWaveform(_) => {
            record_bytes(0x4A, Variant::DA7282, Some(&longest()), LOADED)
        }
        _ => stored(),
    }
}

/// Operations that are accepted, each from its record.
pub fn accepted() -> Vec<Operation> {
    let mut operations = vec![
        Operation::Configure(longest()),
        Operation::GetChipRev,
        Operation::GetEvents,
        Operation::GetStatus,
        Operation::SetFrequency(200),
        Operation::SetOverrideValue(-3),
        Operation::SetTimebase(MEMORY_TIMEBASES[0]),
        Operation::SetTimebase(MEMORY_TIMEBASES[1]),
        Operation::Enable,
        Operation::Disable,
        Operation::SetCustomDriveWaveform([0x28, 0x80, 0xFF]),
        Operation::UnlockWaveformMemory,
        Operation::LockWaveformMemory,
        Operation::SelectSequence(15, 7),
        Operation::StartSequence,
        Operation::PlaySequence(1, 15),
    ];
    for driving in DRIVINGS {
        let settings = Settings::plain(OperationMode::RTWM_MODE, driving);
        operations.push(Operation::Configure(settings));
    }
    for len in [0, 1, 31, 32, 33, 64, 65, 96, 97, 100] {
        let image: Vec<u8> = (0..len).map(|at| 255 - 2 * at).collect();
        operations.push(Operation::UploadWaveformMemory(image.clone(), false));
        operations.push(Operation::UploadWaveformMemory(image, true));
    }
    for (len, room) in [(100, 100), (200, 130), (3, 7), (7, 3), (1, 1), (0, 5), (5, 0)] {
        operations.push(Operation::ReadWaveformMemory(len, room));
    }
    operations
}

/// An operation on its record.
pub fn case(operation: Operation) -> Case {
    let record = record_for(&operation);
    let (name, room) = (format!("{operation:?}"), operation.room());
    let reads = match operation {
        Operation::ReadWaveformMemory(len, room) => len.min(100).min(room),
        _ => 0,
    };
    let stores = Stores::by(&operation, &record);
    let started = operation.clone();
    let start = Box::new(move |session: &mut [u8]| {
        let mut record = record;
        raw::start(&started, &mut record, session)
    });
    Case { name, operation: Some(operation), start, record, read: 0x96, room, reads, stores }
}

/// `new` for a variant.
pub fn new(variant: Variant) -> Case {
    Case {
        name: format!("new {variant:?}"),
        operation: None,
        start: Box::new(move |session| raw::new(0x4A, variant as u8, session)),
        record: stored(),
        read: revision(variant),
        room: 2,
        reads: 0,
        stores: Stores::made(0x4A, variant as u8),
    }
}

/// Every operation that can be started, `new` included.
pub fn cases() -> Vec<Case> {
    VARIANTS.into_iter().map(new).chain(accepted().into_iter().map(case)).collect()
}

/// A session between two answers.
#[derive(Clone)]
pub struct Point {
    /// The record lent with each answer; at first what the start left of the case's.
    pub record: Vec<u8>,
    pub session: Vec<u8>,
    pub buffer: Vec<u8>,
    /// What is pending, as it is told.
    pub pending: u32,
    pub made: usize,
    /// The bytes read so far.
    pub read: Vec<u8>,
}

impl Point {
    pub fn begin(case: &Case) -> Self {
        let mut session = vec![MARKER; SESSION];
        assert_eq!((case.start)(&mut session), 0, "{}", case.name);
        let pending = raw::pending(&session, &mut []);
        let (record, buffer) = (case.stores.begun(&case.record), vec![MARKER; case.room]);
        Self { record, session, buffer, pending, made: 0, read: vec![] }
    }

    /// How many bytes are to be sent.
    pub fn sends(&self) -> usize {
        self.pending as usize % 256
    }

    pub fn wanted(&self) -> bool {
        self.pending >> 16 == 1
    }

    pub fn ended(&self) -> bool {
        self.pending == 0
    }

    pub fn answer(&mut self, kind: u8, byte: u8) -> u32 {
        let told = raw::answer(&mut self.record, &mut self.session, kind, byte, &mut self.buffer);
        self.pending = raw::pending(&self.session, &mut []);
        told
    }

    /// Makes the pending exchange, which has to be taken, and to leave the record as it must be.
    pub fn make(&mut self, case: &Case) {
        let (kind, byte) = match self.wanted() {
            true => (BYTE, case.read.wrapping_add(self.made as u8)),
            false => (DONE, 0),
        };
        if kind == BYTE {
            self.read.push(byte);
        }
        let lent = self.record.clone();
        let told = self.answer(kind, byte);
        self.made += 1;
        assert_eq!(told, word(0, 0, self.made, self.ended()), "{}", case.name);
        let wanted = case.stores.after(&lent, Answered::told(told));
        assert_eq!(self.record, wanted, "{}, {lent:02X?}", case.name);
    }
}

/// Visits a session before each of its exchanges and at its end; how many exchanges it has.
pub fn walk(case: &Case, mut visit: impl FnMut(&Point)) -> usize {
    let mut point = Point::begin(case);
    loop {
        visit(&point);
        if point.ended() {
            return point.made;
        }
        point.make(case);
    }
}
