//! Uploads on the harness's chip: what stands there after a cut and after a run to its end, as document 02 (CR 14) says it, and the programs
//! that upload: the compiled library, the published Rust, and lists of bare writes, right and wrong ones.

use crate::bus::unless_silent;
use crate::cases::stored;
use crate::chip::{Board, Chip, Line, Plan};
use crate::driver::{Operation, record_bytes};
use crate::lists::MARKER;
use crate::raw::{self, BYTE, DONE, FAILED, SESSION, result_word, word};
use crate::records::{COUNT, num_sequences};
use da728x::waveform::WaveformMemory;
use std::cell::RefCell;
use std::collections::BTreeMap;
use std::mem::swap;
use std::rc::Rc;
use yambelugo::{IMAGE, RECORD, Reply, Variant};

/// How many bytes are sent at a time.
const CHUNK: usize = 32;

/// An image of at most a hundred bytes, and whether the memory is locked behind it.
#[derive(Clone, Debug)]
pub struct Upload {
    pub image: Vec<u8>,
    pub lock: bool,
}

impl Upload {
    /// How many exchanges it makes: the unlock, the chunks, and the lock if it is asked for.
    pub fn exchanges(&self) -> usize {
        1 + self.image.len().div_ceil(CHUNK) + usize::from(self.lock)
    }

    /// How many data bytes an exchange has.
    pub fn data(&self, at: usize) -> usize {
        let chunks = self.image.len().div_ceil(CHUNK);
        if (1..=chunks).contains(&at) { CHUNK.min(self.image.len() - CHUNK * (at - 1)) } else { 1 }
    }

    /// The first bytes of the image over the front of the chip's, and this lock.
    fn laid(&self, start: &Chip, front: usize, unlocked: bool) -> Chip {
        let mut chip = Chip { unlocked, ..*start };
        chip.bytes[..front].copy_from_slice(&self.image[..front]);
        chip
    }

    /// What a run leaves that is cut at this exchange, of which so many data bytes reach the chip.
    pub fn cut(&self, start: &Chip, at: usize, part: usize) -> Chip {
        let len = self.image.len();
        match at {
            0 => Chip { unlocked: start.unlocked || part > 0, ..*start },
            at if at <= len.div_ceil(CHUNK) => self.laid(start, CHUNK * (at - 1) + part, true),
            _ => self.laid(start, len, part == 0),
        }
    }

    /// Whether a chip has a front of the image over the bytes that it had.
    pub fn is_front_of(&self, chip: &Chip, start: &Chip) -> bool {
        let changed = (0..IMAGE).rev().find(|at| chip.bytes[*at] != start.bytes[*at]);
        let front = changed.map_or(0, |at| at + 1);
        self.image.get(..front) == Some(&chip.bytes[..front])
    }

    /// What a run to its end leaves.
    pub fn whole(&self, start: &Chip) -> Chip {
        self.laid(start, self.image.len(), !self.lock)
    }
}

/// Something that uploads.
pub trait Program {
    /// Runs an upload to the chip of this address as far as the board goes; whether it takes it for completed.
    fn run(&mut self, board: &mut Board, address: u8, upload: &Upload) -> bool;

    /// What a run to its end leaves on this chip.
    fn whole(&mut self, chip: Chip, upload: &Upload) -> Chip {
        let mut board = Board::new(chip, Plan::default());
        assert!(self.run(&mut board, chip.address, upload), "{upload:02X?} on {chip:02X?}");
        board.chip
    }
}

// ---- the compiled library

/// The compiled library through its C functions: each run is begun with another record, in other bytes.
pub struct Library {
    records: [[u8; RECORD]; 5],
    runs: usize,
    /// The bytes lent for the next session.
    session: [u8; SESSION],
    /// Whether the next session is begun in the bytes of the last, however far that went.
    pub reuses: bool,
    /// How many answers were refused.
    pub refused: usize,
}

impl Default for Library {
    fn default() -> Self {
        let none = record_bytes(0, Variant::DA7280, None, 4);
        let records = [none, stored(), [MARKER; RECORD], [0; RECORD], [0xFF; RECORD]];
        Self { records, runs: 0, session: [0; SESSION], reuses: false, refused: 0 }
    }
}

impl Program for Library {
    fn run(&mut self, board: &mut Board, address: u8, upload: &Upload) -> bool {
        let mut record = self.records[self.runs % self.records.len()];
        record[0] = address;
        self.runs += 1;
        if !self.reuses {
            self.session = [self.runs as u8; SESSION];
        }
        let session = &mut self.session[..];
        assert_eq!(raw::upload(&mut record, &upload.image, upload.lock.into(), session), 0);
        let mut made = 0;
        let mut failed = false;
        loop {
            let mut bytes = [MARKER; CHUNK + 1];
            let [len, to, wanted, _] = raw::pending(session, &mut bytes).to_le_bytes();
            if len == 0 {
                break;
            }
            assert!(!failed && wanted == 0 && to == address, "exchange {made} of {upload:02X?}");
            let sent = &bytes[..len.into()];
            assert_eq!(sent.len(), 1 + upload.data(made), "exchange {made} of {upload:02X?}");
            board.tries(to, sent, 0, |refused| {
                if refused {
                    let (before, kept) = (session.to_vec(), record);
                    let told = raw::answer(&mut record, session, BYTE, 0x80, &mut []);
                    assert_eq!(told, word(19, 0, made, false));
                    assert!(session == before && record == kept);
                    self.refused += 1;
                }
            });
            let (kind, byte) = match board.make(to, sent, 0) {
                Some(Reply::Failed(code)) => (FAILED, code),
                Some(_) => (DONE, 0),
                None => break,
            };
            failed = kind == FAILED;
            let told = raw::answer(&mut record, session, kind, byte, &mut []);
            made += 1;
            let ends = failed || made == upload.exchanges();
            assert_eq!(told, word(if failed { 17 } else { 0 }, byte, made, ends));
        }
        let completed = made == upload.exchanges() && !failed;
        assert_eq!(raw::result(session), result_word(0, made, completed));
        let count = if completed { num_sequences(&upload.image) } else { 0 };
        assert_eq!(record[COUNT], count, "the sequences that the record counts");
        completed
    }
}

/// What the library's `read_waveform_memory` reads on this chip.
pub fn read_back(chip: &Chip) -> [u8; IMAGE] {
    let mut record = stored();
    record[0] = chip.address;
    let (mut session, mut buffer) = ([MARKER; SESSION], [MARKER; IMAGE]);
    let operation = Operation::ReadWaveformMemory(IMAGE, IMAGE);
    assert_eq!(raw::start(&operation, &mut record, &mut session), 0);
    let mut board = Board::new(*chip, Plan::default());
    for made in 0..IMAGE {
        let mut sent = [MARKER; 1];
        let pending = raw::pending(&session, &mut sent);
        assert_eq!(pending.to_le_bytes(), [1, chip.address, 1, 0]);
        let Some(Reply::Byte(byte)) = board.make(chip.address, &sent, 1) else { panic!("no byte") };
        let told = raw::answer(&mut record, &mut session, BYTE, byte, &mut buffer);
        assert_eq!(told, word(0, 0, made + 1, made + 1 == IMAGE));
    }
    assert_eq!(board.chip, *chip);
    buffer
}

/// Runs any operation of the library as far as the board goes; whether it was begun.
pub fn operate(board: &mut Board, operation: &Operation, record: &mut [u8]) -> bool {
    let (mut session, mut buffer) = ([MARKER; SESSION], vec![MARKER; operation.room()]);
    if raw::start(operation, record, &mut session) != 0 {
        return false;
    }
    loop {
        let mut bytes = [MARKER; CHUNK + 1];
        let [len, to, wanted, _] = raw::pending(&session, &mut bytes).to_le_bytes();
        let (sent, wanted) = (&bytes[..len.into()], wanted.into());
        if sent.is_empty() {
            return true;
        }
        board.tries(to, sent, wanted, |_| {});
        let (kind, byte) = match board.make(to, sent, wanted) {
            Some(Reply::Failed(code)) => (FAILED, code),
            Some(Reply::Byte(byte)) => (BYTE, byte),
            Some(Reply::Done) => (DONE, 0),
            None => return true,
        };
        raw::answer(record, &mut session, kind, byte, &mut buffer);
    }
}

// ---- the published Rust

/// The published Rust: a driver for each address, on a bus whose board is that of the run.
pub struct Published {
    drivers: BTreeMap<u8, da728x::DA728x<Line>>,
    board: Rc<RefCell<Board>>,
}

impl Default for Published {
    fn default() -> Self {
        let none = Chip { address: 0, bytes: [0; IMAGE], unlocked: false };
        let board = Rc::new(RefCell::new(Board::new(none, Plan::default())));
        Self { drivers: BTreeMap::new(), board }
    }
}

impl Published {
    fn driver(&mut self, address: u8) -> &mut da728x::DA728x<Line> {
        self.drivers.entry(address).or_insert_with(|| {
            let new =
                da728x::DA728x::new(Line(self.board.clone()), address, da728x::Variant::DA7280);
            unless_silent(new).expect("the bus answers").expect("a DA7280")
        })
    }
}

impl Program for Published {
    fn run(&mut self, board: &mut Board, address: u8, upload: &Upload) -> bool {
        let (image, mut data) = (&upload.image, [MARKER; IMAGE]);
        data[..image.len()].copy_from_slice(image);
        let snippets = image.first().copied().unwrap_or(0);
        let memory =
            WaveformMemory::from_bytes(data, image.len() as u8, snippets, num_sequences(image));
        self.driver(address);
        swap(&mut *self.board.borrow_mut(), board);
        let upload = self.driver(address).upload_waveform_memory(&memory, upload.lock);
        let completed = unless_silent(upload).is_some_and(|answer| answer.is_ok());
        swap(&mut *self.board.borrow_mut(), board);
        completed
    }
}

// ---- bare writes

/// What is wrong with a list of writes, or with how it is sent.
#[derive(Clone, Copy, Debug, PartialEq)]
pub enum Fault {
    LockBeforeTheLastChunk,
    /// A run resumes behind the chunks that were acknowledged, by whichever chip.
    ResumesBehindAcknowledged,
    /// A run resumes behind the chunks that were made, a failed one among them.
    ResumesBehindMade,
    /// Each chunk goes to the registers behind its own.
    OffByOne,
    GoesOnAfterFailedUnlock,
    /// The lock writes back bit 7 as it is read.
    LockKeepsBit7,
}

/// A list of writes, sent as they stand.
#[derive(Debug)]
pub struct Bare {
    /// Whether it unlocks the memory before it writes to it.
    pub unlocks: bool,
    fault: Option<Fault>,
    /// How many chunks of the upload are behind it, where it resumes.
    behind: usize,
}

impl Bare {
    pub fn new(unlocks: bool) -> Self {
        Self { unlocks, fault: None, behind: 0 }
    }

    pub fn wrong(fault: Fault) -> Self {
        Self { unlocks: true, fault: Some(fault), behind: 0 }
    }

    fn has(&self, fault: Fault) -> bool {
        self.fault == Some(fault)
    }

    pub fn writes(&self, upload: &Upload) -> Vec<Vec<u8>> {
        let first = if self.has(Fault::OffByOne) { 0x85 } else { 0x84 };
        let mut writes = Vec::new();
        if self.unlocks {
            writes.push(vec![0x2D, 0x80]);
        }
        for (at, chunk) in upload.image.chunks(CHUNK).enumerate().skip(self.behind) {
            writes.push([&[first + (CHUNK * at) as u8], chunk].concat());
        }
        if upload.lock {
            let lock = vec![0x2D, if self.has(Fault::LockKeepsBit7) { 0x80 } else { 0 }];
            let early = self.has(Fault::LockBeforeTheLastChunk) && !upload.image.is_empty();
            writes.insert(writes.len() - usize::from(early), lock);
        }
        writes
    }

    /// Counts a chunk that a run which resumes need not send again.
    fn count(&mut self, sent: &[u8], reply: Option<Reply>) {
        let counts = match reply {
            Some(Reply::Done) => {
                self.has(Fault::ResumesBehindAcknowledged) || self.has(Fault::ResumesBehindMade)
            }
            Some(_) => self.has(Fault::ResumesBehindMade),
            None => false,
        };
        self.behind += usize::from(counts && sent[0] != 0x2D);
    }
}

impl Program for Bare {
    fn run(&mut self, board: &mut Board, address: u8, upload: &Upload) -> bool {
        for (at, sent) in self.writes(upload).iter().enumerate() {
            board.tries(address, sent, 0, |_| {});
            let reply = board.make(address, sent, 0);
            self.count(sent, reply);
            let goes_on = self.has(Fault::GoesOnAfterFailedUnlock) && at == 0 && reply.is_some();
            if reply != Some(Reply::Done) && !goes_on {
                return false;
            }
        }
        self.behind = 0;
        true
    }
}
