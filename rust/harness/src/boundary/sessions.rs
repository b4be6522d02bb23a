//! Calls of the functions of sessions, on a pool of them: begun, answered well and badly, and forged.

use super::choices::Choices;
use super::functions::Function::{self, *};
use super::functions::NOTHING;
use super::hands::{Hands, lent, shown};
use super::patterns::Patterns;
use crate::raw::{BYTE, DONE, FAILED, SESSION, ffi, result_word};
use crate::records::{Answered, PURPOSE, Stores, chip, count, counted};
use crate::settings::{Settings, near};
use yambelugo::RECORD;

/// No session makes more exchanges: 25 steps and 100 reads of memory.
const MOST: usize = 125;

/// A longer buffer is not lent.
const LONGEST: usize = 1000;

/// Where a session stands that was begun by a call and altered by nobody else.
#[derive(Clone, Copy, PartialEq)]
enum State {
    Going,
    Completed,
    Broken,
}

#[derive(Clone, Copy)]
struct Begun {
    function: Function,
    address: u8,
    /// What CHIP_REV has to read in `da728x_new`.
    revision: u8,
    /// The length said for the read buffer, and how many bytes of memory are read.
    room: usize,
    reads: usize,
    /// What its answers do to the record.
    stores: Stores,
    state: State,
}

/// An answer: what was pending, and what is handed in.
#[derive(Clone, Copy)]
struct Answer {
    pending: u32,
    kind: u8,
    byte: u8,
    /// The length of the buffer lent with it.
    room: usize,
}

struct Session {
    bytes: Vec<u8>,
    /// Absent once the bytes were forged.
    begun: Option<Begun>,
    /// The record that it was started from, as the start left it.
    record: Vec<u8>,
    /// How many exchanges were made since the bytes were begun or forged, and the bytes that came.
    made: usize,
    read: Vec<u8>,
}

pub struct Sessions {
    sessions: Vec<Session>,
    records: Vec<Vec<u8>>,
}

/// Starts an operation from a record, with further arguments.
macro_rules! start {
    ($name:ident, $record:ident, $session:ident $(, $argument:expr)*) => {
        // SAFETY: each pointer and length is a slice; the mutable one overlaps no other.
        u64::from(unsafe { ffi::$name($record.0, $record.1 $(, $argument)*, $session.0, $session.1) })
    };
}

impl Sessions {
    pub fn new(choices: &mut Choices) -> Self {
        let session = || Session {
            bytes: vec![0; SESSION],
            begun: None,
            record: vec![],
            made: 0,
            read: vec![],
        };
        let mut pools = Self { sessions: Vec::new(), records: vec![vec![0; RECORD]; 8] };
        pools.sessions.resize_with(if choices.is_taped() { 2 } else { 24 }, session);
        pools
    }

    pub fn call(
        &mut self,
        function: Function,
        choices: &mut Choices,
        hands: &mut Hands,
        patterns: &mut Patterns,
    ) {
        let at = choices.below(self.sessions.len());
        if choices.chance(3) {
            self.forge(at, choices);
        }
        match function {
            da728x_pending => {
                let session = self.session(at, choices);
                self.pending(at, &session, choices, hands);
            }
            da728x_answer => self.answer(at, choices, hands),
            da728x_result => self.result(at, choices, hands),
            _ => self.start(at, function, choices, hands, patterns),
        }
    }

    /// Alters some bytes of a session, or all.
    fn forge(&mut self, at: usize, choices: &mut Choices) {
        let session = &mut self.sessions[at];
        if choices.chance(70) {
            choices.forge(&mut session.bytes);
        } else {
            session.bytes = choices.bytes(SESSION);
            // Else most of them have ended, and are for nothing.
            (session.bytes[1], session.bytes[2]) = (1, choices.below(130) as u8);
            session.bytes[PURPOSE] = choices.below(8) as u8;
        }
        (session.begun, session.made) = (None, 0);
    }

    /// The bytes of a session, or for this call some of another number.
    fn session(&self, at: usize, choices: &mut Choices) -> Vec<u8> {
        if choices.chance(94) {
            return self.sessions[at].bytes.clone();
        }
        let mut bytes = self.sessions[at].bytes.clone();
        let len = choices.len();
        let filling = choices.byte();
        bytes.resize(if len == SESSION { SESSION - 1 } else { len }, filling);
        bytes
    }

    /// A record, mostly of the right length.
    fn a_record(&self, choices: &mut Choices) -> Vec<u8> {
        let at = choices.below(self.records.len());
        let mut record = self.records[at].clone();
        match choices.below(12) {
            0..4 => {}
            4..9 => record = any_record(choices),
            9 => choices.forge(&mut record),
            _ => {
                let len = choices.len_near(RECORD);
                record = choices.bytes(len);
            }
        }
        record
    }

    fn start(
        &mut self,
        at: usize,
        function: Function,
        choices: &mut Choices,
        hands: &mut Hands,
        patterns: &mut Patterns,
    ) {
        let session = self.session(at, choices);
        let record = self.a_record(choices);
        let is_record = record.len() == RECORD;
        let stored = is_record && record[2] >= 2;
        let (stores, state) = (Stores::Nothing, State::Going);
        let address = chip(&record).0;
        let mut begun = Begun { function, address, revision: 0, room: 0, reads: 0, stores, state };
        let told = match function {
            da728x_new => new(&mut begun, &session, choices, hands),
            da728x_configure => configure(&mut begun, &record, &session, choices, hands),
            da728x_upload_waveform_memory => {
                let image = patterns.image(choices);
                upload(&mut begun, &record, &image, &session, choices, hands)
            }
            da728x_read_waveform_memory => read(&mut begun, &record, &session, choices, hands),
            da728x_select_sequence | da728x_play_sequence => {
                select(function, &record, &session, choices, hands)
            }
            _ => plain(function, stored, &record, &session, choices, hands),
        };
        hands.tally.count(function, told);
        let slice = match function {
            da728x_new => 0,
            da728x_configure | da728x_upload_waveform_memory => 2,
            _ => 1,
        };
        if told == 0 && session.len() == SESSION {
            let (_, after) = hands.slice(slice);
            let held = &mut self.sessions[at];
            held.bytes.copy_from_slice(after);
            (held.begun, held.made, held.record) = (Some(begun), 0, begun.stores.begun(&record));
            held.read.clear();
        } else {
            hands.assert_rest_stays(function, slice, 0);
        }
    }

    /// What is pending in the bytes of a session.
    fn pending(&self, at: usize, session: &[u8], choices: &mut Choices, hands: &mut Hands) -> u32 {
        let len = choices.len_near(33);
        let bytes = vec![choices.byte(); len];
        let slices = [shown(session), lent(&bytes)];
        let told = hands.call(da728x_pending, choices, slices, |[session, bytes]| {
            // SAFETY: each pointer and length is a slice; the mutable one overlaps no other.
            unsafe { ffi::da728x_pending(session.0, session.1, bytes.0, bytes.1).into() }
        });
        let [sent, address, wanted, rest] = (told as u32).to_le_bytes();
        assert!(sent <= 33 && wanted <= 1 && rest == 0 && told >> 32 == 0, "{told:X} is pending");
        assert!(if sent == 0 { told == 0 } else { (sent == 1) >= (wanted == 1) });
        hands.assert_rest_stays(da728x_pending, 1, sent.into());
        if session.len() != SESSION {
            assert_eq!(told, 0);
        } else if let Some(begun) = self.sessions[at].begun {
            let name = begun.function.name();
            assert_eq!(sent > 0, begun.state == State::Going, "{name}: what is pending");
            assert!(sent == 0 || address == begun.address);
        }
        hands.tally.count(da728x_pending, if told == 0 { NOTHING } else { 0 });
        told as u32
    }

    /// Answers a session: mostly as is pending, else by another kind, or with a buffer of another length.
    fn answer(&mut self, at: usize, choices: &mut Choices, hands: &mut Hands) {
        let session = self.session(at, choices);
        let pending = self.pending(at, &session, choices, hands);
        let fits = if pending >> 16 == 1 { BYTE } else { DONE };
        let kind = match choices.below(20) {
            0..16 => fits,
            16 => BYTE - fits,
            17 => FAILED,
            _ => choices.byte(),
        };
        let room = self.sessions[at].room();
        let room = if choices.chance(90) && room <= LONGEST { room } else { choices.len() };
        let byte = match self.sessions[at].begun {
            Some(begun) if choices.chance(60) => begun.revision,
            _ => choices.byte(),
        };
        let answer = Answer { pending, kind, byte, room };
        self.tell(at, &session, answer, choices, hands);
    }

    /// Hands an answer in, and holds what is told and left to what is known of the session.
    fn tell(
        &mut self,
        at: usize,
        session: &[u8],
        answer: Answer,
        choices: &mut Choices,
        hands: &mut Hands,
    ) {
        let Answer { pending, kind, byte, room } = answer;
        let buffer = choices.bytes(room);
        let own = &self.sessions[at].record;
        let record = match choices.below(10) {
            0..5 => own.clone(),
            // A copy of another time.
            5 => counted(own, choices.byte()),
            _ => self.a_record(choices),
        };
        let slices = [lent(&record), lent(session), lent(&buffer)];
        let told = hands.call(da728x_answer, choices, slices, |[record, session, buffer]| {
            let ((of, of_len), (it, len)) = (record, session);
            // SAFETY: each pointer and length is a slice; they do not overlap.
            unsafe {
                ffi::da728x_answer(of, of_len, it, len, kind, byte, buffer.0, buffer.1).into()
            }
        });
        let [number, code, count, ended] = (told as u32).to_le_bytes();
        assert!(ended <= 1 && told >> 32 == 0, "{told:X} is told");
        assert_eq!(code, if number == 17 { byte } else { 0 }, "the bus's code");
        hands.tally.count(da728x_answer, number.into());
        let stored = stored_at(number, kind, byte, hands);
        self.written(at, session, Answered::told(told as u32), choices, hands);
        if number == 19 {
            hands.assert_rest_stays(da728x_answer, 1, 0);
        } else {
            assert!(pending != 0 && (kind >= FAILED) == (number == 17));
            assert!(number == 17 || (pending >> 16 == 1) == (kind == BYTE));
            hands.tally.exchanges += 1;
        }
        if session.len() != SESSION {
            assert!(number == 19 && count == 0 && ended == 1);
            return;
        }
        let held = &mut self.sessions[at];
        held.bytes.copy_from_slice(hands.slice(1).1);
        if number == 0 && kind == BYTE {
            held.read.push(byte);
        }
        let before = held.made;
        held.moved(number, count.into(), ended == 1);
        if let Some(begun) = held.begun {
            assert_eq!(
                number,
                begun.number(&answer),
                "{} answered by {kind}",
                begun.function.name()
            );
            assert!(stored.is_none_or(|index| begun.reads > 0 && index == before));
        }
    }

    /// Looks at the record that was lent with an answer.
    fn written(
        &mut self,
        at: usize,
        session: &[u8],
        answered: Answered,
        choices: &mut Choices,
        hands: &mut Hands,
    ) {
        let (lent, record) = hands.slice(0);
        let begun = self.sessions[at].begun.filter(|_| session.len() == SESSION);
        let stores = begun.map_or_else(|| Stores::forged(session), |it| it.stores);
        assert!(record == stores.after(lent, answered), "da728x_answer left another record");
        let last = answered == Answered::Completed;
        let (same, fits, none) = (record == lent, record.len() == RECORD, count(record) == 0);
        match stores {
            Stores::Record(_) if !same => hands.tally.made += 1,
            Stores::Settings(_) if !same => hands.tally.stored += 1,
            Stores::Settings(_) if last && fits => hands.tally.spared += 1,
            Stores::Sequences(..) if !same && none => hands.tally.emptied += 1,
            Stores::Sequences(..) if !same => hands.tally.loaded += 1,
            _ => {}
        }
        if !same {
            let (at, record) = (choices.below(self.records.len()), hands.slice(0).1);
            self.records[at].copy_from_slice(record);
        }
    }

    fn result(&mut self, at: usize, choices: &mut Choices, hands: &mut Hands) {
        let session = self.session(at, choices);
        let told = hands.call(da728x_result, choices, [shown(&session)], |[(session, len)]| {
            // SAFETY: the pointer and length are a slice.
            unsafe { ffi::da728x_result(session, len) }
        });
        let (value, completed) = (told & 0xFF_FFFF, told >> 32 == 1);
        assert!(told >> 33 == 0 && (completed || value == 0), "{told:X} is the result");
        let held = &self.sessions[at];
        if session.len() != SESSION {
            assert_eq!(told, 0);
        } else if let Some(begun) = held.begun {
            let completed = begun.state == State::Completed;
            let value = if completed { begun.value(&held.read) } else { 0 };
            let wanted = result_word(value, held.made, completed);
            assert_eq!(told, wanted, "{}: the result", begun.function.name());
        }
        hands.tally.count(da728x_result, if completed { 0 } else { NOTHING });
    }

    /// Answers a session that was begun by what is pending, without a failure: it has to end in time.
    pub fn finish(&mut self, choices: &mut Choices, hands: &mut Hands) {
        let at = choices.below(self.sessions.len());
        let Some(begun) = self.sessions[at].begun else { return };
        if begun.state != State::Going || begun.reads > 0 && begun.room > LONGEST {
            return;
        }
        for _ in 0..begun.most() {
            let session = self.sessions[at].bytes.clone();
            let pending = self.pending(at, &session, choices, hands);
            let kind = if pending >> 16 == 1 { BYTE } else { DONE };
            let answer = Answer { pending, kind, byte: begun.revision, room: begun.room };
            self.tell(at, &session, answer, choices, hands);
            if self.sessions[at].begun.is_some_and(|it| it.state == State::Completed) {
                hands.tally.finished += 1;
                return;
            }
        }
        panic!("{} does not end", begun.function.name());
    }
}

impl Session {
    /// The buffer length that fits, as far as it is known; where the bytes were forged it is guessed.
    fn room(&self) -> usize {
        let forged = || usize::from_le_bytes(self.bytes[8..16].try_into().unwrap());
        self.begun.map_or_else(forged, |begun| begun.room)
    }

    /// Notes an answer that was taken; the count has to be true and the end in time.
    fn moved(&mut self, number: u8, count: usize, ended: bool) {
        let made = usize::from(number != 19);
        self.made += made;
        assert!(self.made <= MOST, "{} exchanges", self.made);
        let Some(begun) = &mut self.begun else { return };
        if made == 1 {
            begun.state = match (number, ended) {
                (0, false) => State::Going,
                (0, true) => State::Completed,
                _ => State::Broken,
            };
        }
        let name = begun.function.name();
        assert_eq!(count, self.made, "{name}: exchanges");
        assert_eq!(ended, begun.state != State::Going, "{name}: the end");
        assert!(self.made <= begun.most(), "{name}: {} exchanges", self.made);
        if begun.state == State::Completed {
            assert!(self.made >= begun.least(), "{name}: {} exchanges", self.made);
        }
    }
}

impl Begun {
    /// The most and the least exchanges of a session in which none fails.
    fn most(&self) -> usize {
        match self.function {
            da728x_set_custom_drive_waveform => 3,
            da728x_read_waveform_memory => self.reads,
            _ => 25,
        }
    }

    fn least(&self) -> usize {
        match self.function {
            da728x_configure => 14,
            da728x_set_custom_drive_waveform => 3,
            da728x_read_waveform_memory => self.reads,
            _ => 1,
        }
    }

    /// What it answers once it is completed, where these bytes came.
    fn value(&self, read: &[u8]) -> u32 {
        match (self.function, read) {
            (da728x_get_chip_rev | da728x_get_status, [byte]) => (*byte).into(),
            (da728x_get_events, [event, warning, sequence]) => {
                u32::from_be_bytes([0, *event, *warning, *sequence])
            }
            (da728x_get_chip_rev | da728x_get_status | da728x_get_events, _) => {
                panic!("{} read {read:02X?}", self.function.name())
            }
            (da728x_read_waveform_memory, _) => self.reads as u32,
            _ => 0,
        }
    }

    /// What has to be told at an answer.
    fn number(&self, answer: &Answer) -> u8 {
        let wanted = answer.pending >> 16 == 1;
        if answer.pending == 0 || self.reads > 0 && answer.room != self.room {
            19
        } else if answer.kind >= FAILED {
            17
        } else if wanted != (answer.kind == BYTE) {
            19
        } else if self.function == da728x_new && answer.byte != self.revision {
            16
        } else {
            0
        }
    }
}

/// Where a byte of memory was stored: at one index of the buffer at most, and only where a byte was taken.
fn stored_at(number: u8, kind: u8, byte: u8, hands: &Hands) -> Option<usize> {
    let (before, after) = hands.slice(2);
    let mut changed = before.iter().zip(after).enumerate().filter(|(_, (old, new))| old != new);
    let (index, (_, new)) = changed.next()?;
    assert!(number == 0 && kind == BYTE && *new == byte, "da728x_answer wrote into the buffer");
    assert!(changed.next().is_none(), "da728x_answer wrote more than a byte into the buffer");
    Some(index)
}

/// A record of settings near the limits, stored or not, with a count near those of images.
fn any_record(choices: &mut Choices) -> Vec<u8> {
    let head =
        [choices.byte(), choices.pick(&[0, 1, 2, 3, 255]), choices.pick(&[2, 2, 2, 3, 255, 0, 1])];
    let count = choices.pick(&[0, 1, 4, 15, 16, 17, 255]);
    [&head[..], &settings(choices)[..], &[count]].concat()
}

/// Settings near the limits; some with codes and flags past the last.
fn settings(choices: &mut Choices) -> [u8; 34] {
    let accepted = choices.chance(30);
    let random = choices.random();
    let settings = if accepted { Settings::accepted(random) } else { Settings::any(random) };
    let mut bytes = settings.encode();
    if choices.chance(10) {
        choices.forge(&mut bytes);
    }
    bytes
}

fn new(begun: &mut Begun, session: &[u8], choices: &mut Choices, hands: &mut Hands) -> u64 {
    let (address, variant) = (choices.byte(), choices.pick(&[0, 1, 2, 3, 255]));
    begun.address = address;
    begun.revision = [0xBA, 0xCA, 0xDA][usize::from(variant.min(2))];
    begun.stores = Stores::made(address, variant);
    hands.call(da728x_new, choices, [lent(session)], |[(it, len)]| {
        // SAFETY: the pointer and length are a slice.
        unsafe { ffi::da728x_new(address, variant, it, len).into() }
    })
}

fn configure(
    begun: &mut Begun,
    record: &[u8],
    session: &[u8],
    choices: &mut Choices,
    hands: &mut Hands,
) -> u64 {
    let settings = match choices.below(10) {
        0 => {
            let len = choices.len_near(34);
            choices.bytes(len)
        }
        1 => {
            let mut settings = settings(choices).to_vec();
            settings.resize(choices.len_near(34), choices.byte());
            settings
        }
        _ => settings(choices).to_vec(),
    };
    begun.stores = Stores::configured(record, &settings);
    let slices = [shown(record), shown(&settings), lent(session)];
    hands.call(da728x_configure, choices, slices, |[record, settings, session]| {
        start!(da728x_configure, record, session, settings.0, settings.1)
    })
}

/// The record is written too, where the upload is begun: its count is 0 then.
fn upload(
    begun: &mut Begun,
    record: &[u8],
    image: &[u8],
    session: &[u8],
    choices: &mut Choices,
    hands: &mut Hands,
) -> u64 {
    let lock = choices.byte();
    begun.stores = Stores::uploaded(record, image);
    let slices = [lent(record), shown(image), lent(session)];
    let told = hands.call(da728x_upload_waveform_memory, choices, slices, |[record, image, it]| {
        start!(da728x_upload_waveform_memory, record, it, image.0, image.1, lock)
    });
    assert_eq!(told == 8, image.len() > 100, "an image of {} bytes", image.len());
    let begins = told == 0 && session.len() == SESSION;
    let wanted = if begins { begun.stores.begun(record) } else { record.to_vec() };
    assert!(hands.slice(0).1 == wanted, "the start of an upload left another record");
    hands.tally.begun += u64::from(wanted != record);
    told
}

fn read(
    begun: &mut Begun,
    record: &[u8],
    session: &[u8],
    choices: &mut Choices,
    hands: &mut Hands,
) -> u64 {
    let len = if choices.chance(50) { choices.below(12) } else { choices.number() };
    let room = if choices.chance(80) { choices.below(130) } else { choices.number() };
    (begun.room, begun.reads) = (room, len.min(room).min(100));
    if begun.reads == 0 {
        begun.state = State::Completed;
    }
    let slices = [shown(record), lent(session)];
    hands.call(da728x_read_waveform_memory, choices, slices, |[record, session]| {
        start!(da728x_read_waveform_memory, record, session, len, room)
    })
}

fn select(
    function: Function,
    record: &[u8],
    session: &[u8],
    choices: &mut Choices,
    hands: &mut Hands,
) -> u64 {
    let limits = [0, 1, 3, 4, 14, 15, 16];
    let (id, loops) = (choices.random().near(&limits), choices.random().near(&limits));
    let slices = [shown(record), lent(session)];
    let told = hands.call(function, choices, slices, |[record, session]| match function {
        da728x_select_sequence => start!(da728x_select_sequence, record, session, id, loops),
        _ => start!(da728x_play_sequence, record, session, id, loops),
    });
    let above = id > 15 || loops > 15;
    assert_eq!(told == 11, above, "sequence {id}, {loops} loops");
    let missing = !above && id >= count(record);
    assert_eq!(told == 28, missing, "sequence {id} of {}", count(record));
    told
}

/// The operations with at most numbers for arguments; 15 is told first where no settings are stored.
fn plain(
    function: Function,
    stored: bool,
    record: &[u8],
    session: &[u8],
    choices: &mut Choices,
    hands: &mut Hands,
) -> u64 {
    let (a, b, c) = (choices.byte(), choices.byte(), choices.byte());
    let hz = if choices.chance(50) {
        near(choices.random(), 50, 300)
    } else {
        near(choices.random(), 25, 1024)
    };
    let slices = [shown(record), lent(session)];
    let told = hands.call(function, choices, slices, |[record, session]| match function {
        da728x_get_chip_rev => start!(da728x_get_chip_rev, record, session),
        da728x_get_events => start!(da728x_get_events, record, session),
        da728x_get_status => start!(da728x_get_status, record, session),
        da728x_set_frequency => start!(da728x_set_frequency, record, session, hz),
        da728x_set_override_value => {
            start!(da728x_set_override_value, record, session, a.cast_signed())
        }
        da728x_set_timebase => start!(da728x_set_timebase, record, session, a),
        da728x_enable => start!(da728x_enable, record, session),
        da728x_disable => start!(da728x_disable, record, session),
        da728x_set_custom_drive_waveform => {
            start!(da728x_set_custom_drive_waveform, record, session, a, b, c)
        }
        da728x_unlock_waveform_memory => start!(da728x_unlock_waveform_memory, record, session),
        da728x_lock_waveform_memory => start!(da728x_lock_waveform_memory, record, session),
        da728x_start_sequence => start!(da728x_start_sequence, record, session),
        _ => unreachable!("{} starts nothing", function.name()),
    });
    assert_eq!(told == 15, !stored && function.listed().contains(&15), "{}", function.name());
    if function == da728x_set_frequency && stored {
        let band = if record[3 + 19] == 0 { 50..=300 } else { 25..=1024 };
        assert_eq!(told == 23, !band.contains(&hz), "{hz} Hz");
    }
    if function == da728x_set_custom_drive_waveform && stored {
        assert_eq!(told == 12, record[3 + 19] < 2, "driving mode {}", record[3 + 19]);
    }
    told
}
