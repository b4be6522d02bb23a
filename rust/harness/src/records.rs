//! What bytes are a record, and what a session makes of the one lent with its start and its answers: from documents 01 and 02 and the
//! header, apart from the library.

use crate::driver::Operation;
use crate::raw::SESSION;
use yambelugo::RECORD;

/// Where a record has its count of sequences, behind the settings.
pub const COUNT: usize = 37;

/// Where a session says what it is for, and where the record is that it carries: for sessions that no start has written.
pub const PURPOSE: usize = 16;
pub const CARRIED: usize = 117;

/// The last upload that was accepted, by which document 02 (CR 10) counts sequences; at first there was none.
#[derive(Clone, Copy, Debug, Default, PartialEq)]
pub struct Loaded {
    /// What its image says.
    named: u8,
    completed: bool,
}

impl Loaded {
    pub fn begun(image: &[u8]) -> Self {
        Self { named: num_sequences(image), completed: false }
    }

    pub fn completed(self) -> Self {
        Self { completed: true, ..self }
    }

    /// The count in the record: the image's where the upload was completed, else 0.
    pub fn sequences(self) -> u8 {
        if self.completed { self.named } else { 0 }
    }
}

/// How many sequences an image has by its own word, byte 1; 0 where there is none.
pub fn num_sequences(image: &[u8]) -> u8 {
    image.get(1).copied().unwrap_or(0)
}

/// How an answer was taken.
#[derive(Clone, Copy, Debug, PartialEq)]
pub enum Answered {
    /// Refused with 19.
    OutOfTurn,
    /// There is more to come, or the session was broken off.
    Short,
    /// The session is completed.
    Completed,
}

impl Answered {
    /// By what `da728x_answer` tells.
    pub fn told(word: u32) -> Self {
        match word.to_le_bytes() {
            [19, ..] => Answered::OutOfTurn,
            [0, _, _, 1] => Answered::Completed,
            _ => Answered::Short,
        }
    }
}

/// What a session does to the record lent with an answer.
#[derive(Clone, Copy, Debug, PartialEq)]
pub enum Stores {
    /// "Any other operation leaves the record as before it began."
    Nothing,
    /// `new` makes this record by the answer that completes it.
    Record([u8; RECORD]),
    /// `configure` stores the settings of this record in one of the same address and variant, whose count stays: "Settings are stored
    /// only after the last."
    Settings([u8; RECORD]),
    /// An upload to this address, of an image with so many sequences: each answer that is taken sets the count of a record of the address,
    /// to this one if it completes the upload, else to 0.
    Sequences(u8, u8),
}

impl Stores {
    /// What `new` does.
    pub fn made(address: u8, variant: u8) -> Self {
        let mut record = [0; RECORD];
        record[..3].copy_from_slice(&[address, variant.min(2), 1]);
        Stores::Record(record)
    }

    /// What `configure` does that is started with these bytes.
    pub fn configured(record: &[u8], settings: &[u8]) -> Self {
        let (address, variant) = chip(record);
        let mut all = [0; RECORD];
        all[..3].copy_from_slice(&[address, variant, 2]);
        let given = settings.len().min(34);
        all[3..3 + given].copy_from_slice(&settings[..given]);
        Stores::Settings(canonical_record(&all))
    }

    /// What an upload does that is started with these bytes.
    pub fn uploaded(record: &[u8], image: &[u8]) -> Self {
        Stores::Sequences(chip(record).0, num_sequences(image))
    }

    /// What an operation does that is started from this record.
    pub fn by(operation: &Operation, record: &[u8]) -> Self {
        match operation {
            Operation::Configure(it) => Stores::configured(record, &it.encode()),
            Operation::UploadWaveformMemory(image, _) => Stores::uploaded(record, image),
            _ => Stores::Nothing,
        }
    }

    /// What a session with these bytes does, whoever has written them.
    pub fn forged(session: &[u8]) -> Self {
        if session.len() != SESSION {
            return Stores::Nothing;
        }
        let carried = canonical_record(&session[CARRIED..CARRIED + RECORD]);
        match session[PURPOSE] {
            1 => Stores::Record(carried),
            2 => Stores::Settings(carried),
            6 => Stores::Sequences(carried[0], carried[COUNT]),
            _ => Stores::Nothing,
        }
    }

    /// The record that was lent with the start, once that has begun the session: an upload sets its count to 0.
    pub fn begun(&self, lent: &[u8]) -> Vec<u8> {
        match self {
            Stores::Sequences(..) => counted(lent, 0),
            _ => lent.to_vec(),
        }
    }

    /// The bytes that were lent with an answer, afterwards.
    pub fn after(&self, lent: &[u8], answered: Answered) -> Vec<u8> {
        let completed = answered == Answered::Completed;
        match self {
            _ if lent.len() != RECORD || answered == Answered::OutOfTurn => lent.to_vec(),
            Stores::Record(made) if completed => made.to_vec(),
            Stores::Settings(next) if completed && chip(lent) == chip(next) => {
                [&next[..COUNT], &lent[COUNT..]].concat()
            }
            Stores::Sequences(address, count) if lent[0] == *address => {
                counted(lent, if completed { *count } else { 0 })
            }
            _ => lent.to_vec(),
        }
    }
}

/// A record with this count; bytes of another length are none, and stay.
pub fn counted(record: &[u8], count: u8) -> Vec<u8> {
    let mut record = record.to_vec();
    if record.len() == RECORD {
        record[COUNT] = count;
    }
    record
}

/// The address and the variant of the record that these bytes are.
pub fn chip(record: &[u8]) -> (u8, u8) {
    if record.len() == RECORD { (record[0], record[1].min(2)) } else { (0, 0) }
}

/// How many sequences the record that these bytes are counts.
pub fn count(record: &[u8]) -> u8 {
    if record.len() == RECORD { record[COUNT] } else { 0 }
}

/// The settings that these bytes are, in the bytes that the library stores.
pub fn canonical(bytes: &[u8]) -> [u8; 34] {
    let mut settings: [u8; 34] = bytes.try_into().unwrap();
    for (at, last) in [(0, 1), (13, 1), (18, 4), (19, 2), (32, 1), (33, 1)] {
        settings[at] = settings[at].min(last);
    }
    if settings[13] == 0 {
        settings[14..18].fill(0);
    }
    for trigger in settings[20..32].chunks_exact_mut(4) {
        match *trigger {
            [0, ..] => trigger.fill(0),
            [_, number, polarity, mode] => {
                trigger.copy_from_slice(&[1, number, polarity.min(2), mode.min(1)]);
            }
            _ => unreachable!(),
        }
    }
    settings
}

/// The record that these bytes are, in the bytes that the library writes.
pub fn canonical_record(bytes: &[u8]) -> [u8; RECORD] {
    let mut record = [0; RECORD];
    let (address, variant) = chip(bytes);
    record[..3].copy_from_slice(&[address, variant, bytes[2].clamp(1, 2)]);
    if record[2] == 2 {
        record[3..COUNT].copy_from_slice(&canonical(&bytes[3..COUNT]));
    }
    record[COUNT] = bytes[COUNT];
    record
}
