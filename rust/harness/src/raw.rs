//! The C functions of sessions, and the one that merges images, on slices of any length, each lent with markers around it.

use crate::driver::Operation;
use crate::lists::MARKER;
use crate::records::Stores;
use yambelugo::WaveformMemoryTimebase;

/// The wrapper's declarations.
#[allow(dead_code)]
#[path = "../../wrapper/src/ffi.rs"]
pub mod ffi;

/// How many bytes a session has.
pub const SESSION: usize = 280;

/// How many bytes all lists of an image have.
pub const LISTS: usize = 703;

/// The answers' kinds.
pub const DONE: u8 = 0;
pub const BYTE: u8 = 1;
pub const FAILED: u8 = 2;

/// Bytes around a lent slice, to see that they stay.
const GUARD: usize = 16;

/// Lends a copy of these bytes, which then are what is left of it.
fn lend<T>(bytes: &mut [u8], call: impl FnOnce(*mut u8, usize) -> T) -> T {
    let inside = GUARD..GUARD + bytes.len();
    let mut lent = vec![MARKER; bytes.len() + 2 * GUARD];
    lent[inside.clone()].copy_from_slice(bytes);
    let answer = call(lent[inside.clone()].as_mut_ptr(), bytes.len());
    bytes.copy_from_slice(&lent[inside.clone()]);
    let around = lent[..inside.start].iter().chain(&lent[inside.end..]);
    assert!(around.into_iter().all(|byte| *byte == MARKER), "written outside");
    answer
}

/// Lends a copy of these bytes that has to stay.
fn show<T>(bytes: &[u8], call: impl FnOnce(*const u8, usize) -> T) -> T {
    let mut copy = bytes.to_vec();
    let answer = lend(&mut copy, |at, len| call(at, len));
    assert_eq!(copy, bytes, "written where nothing may be");
    answer
}

/// Merges two images, which stay.
pub fn merge(first: &[u8], second: &[u8], image: &mut [u8]) -> u8 {
    show(first, |one, one_len| {
        show(second, |other, other_len| {
            // SAFETY: each pointer and length is a slice; the mutable one overlaps no other.
            lend(image, |to, len| unsafe {
                ffi::da728x_merge(one, one_len, other, other_len, to, len)
            })
        })
    })
}

/// Starts an operation that leaves the record, and whose function has these further arguments.
macro_rules! start {
    ($name:ident, $record:expr, $session:expr $(, $argument:expr)*) => {
        show($record, |record, record_len| {
            lend($session, |session, len| {
                // SAFETY: each pointer and length is a slice; the mutable one overlaps no other.
                unsafe { ffi::$name(record, record_len $(, $argument)*, session, len) }
            })
        })
    };
}

pub fn new(address: u8, variant: u8, session: &mut [u8]) -> u8 {
    // SAFETY: the pointer and length are a slice.
    lend(session, |it, len| unsafe { ffi::da728x_new(address, variant, it, len) })
}

pub fn configure(record: &[u8], settings: &[u8], session: &mut [u8]) -> u8 {
    show(settings, |it, len| start!(da728x_configure, record, session, it, len))
}

pub fn set_timebase(record: &[u8], timebase: u8, session: &mut [u8]) -> u8 {
    start!(da728x_set_timebase, record, session, timebase)
}

/// The count of sequences in the record is 0 once the upload is begun, and no other byte of it changes.
pub fn upload(record: &mut [u8], image: &[u8], lock_after: u8, session: &mut [u8]) -> u8 {
    let (stores, before) = (Stores::uploaded(record, image), record.to_vec());
    let start = ffi::da728x_upload_waveform_memory;
    let told = show(image, |from, from_len| {
        lend(record, |of, of_len| {
            // SAFETY: each pointer and length is a slice; the mutable ones overlap no other.
            lend(session, |it, len| unsafe {
                start(of, of_len, from, from_len, lock_after, it, len)
            })
        })
    });
    let begins = told == 0 && session.len() == SESSION;
    let wanted = if begins { stores.begun(&before) } else { before };
    assert_eq!(record, wanted, "the record after the start of an upload");
    told
}

/// Starts an operation from the bytes of a record, which change by the start of an upload only.
pub fn start(operation: &Operation, record: &mut [u8], session: &mut [u8]) -> u8 {
    match operation {
        Operation::Configure(settings) => configure(record, &settings.encode(), session),
        Operation::GetChipRev => start!(da728x_get_chip_rev, record, session),
        Operation::GetEvents => start!(da728x_get_events, record, session),
        Operation::GetStatus => start!(da728x_get_status, record, session),
        Operation::SetFrequency(hz) => start!(da728x_set_frequency, record, session, *hz),
        Operation::SetOverrideValue(it) => start!(da728x_set_override_value, record, session, *it),
        Operation::SetTimebase(it) => match it {
            WaveformMemoryTimebase::TIMEBASE_544_2176_4352_8704 => set_timebase(record, 0, session),
            WaveformMemoryTimebase::TIMEBASE_136_544_2176_4352 => set_timebase(record, 1, session),
        },
        Operation::Enable => start!(da728x_enable, record, session),
        Operation::Disable => start!(da728x_disable, record, session),
        Operation::SetCustomDriveWaveform([a, b, c]) => {
            start!(da728x_set_custom_drive_waveform, record, session, *a, *b, *c)
        }
        Operation::UnlockWaveformMemory => start!(da728x_unlock_waveform_memory, record, session),
        Operation::LockWaveformMemory => start!(da728x_lock_waveform_memory, record, session),
        Operation::UploadWaveformMemory(image, lock) => {
            upload(record, image, (*lock).into(), session)
        }
        Operation::ReadWaveformMemory(len, room) => {
            start!(da728x_read_waveform_memory, record, session, *len, *room)
        }
        Operation::SelectSequence(id, loops) => {
            start!(da728x_select_sequence, record, session, *id, *loops)
        }
        Operation::StartSequence => start!(da728x_start_sequence, record, session),
        Operation::PlaySequence(id, loops) => {
            start!(da728x_play_sequence, record, session, *id, *loops)
        }
    }
}

/// What is pending, and how it is told.
pub fn pending(session: &[u8], bytes: &mut [u8]) -> u32 {
    show(session, |it, len| {
        // SAFETY: each pointer and length is a slice; the mutable one overlaps no other.
        lend(bytes, |to, to_len| unsafe { ffi::da728x_pending(it, len, to, to_len) })
    })
}

pub fn answer(record: &mut [u8], session: &mut [u8], kind: u8, byte: u8, buffer: &mut [u8]) -> u32 {
    lend(record, |of, of_len| {
        lend(session, |it, len| {
            // SAFETY: each pointer and length is a slice; they do not overlap.
            lend(buffer, |to, to_len| unsafe {
                ffi::da728x_answer(of, of_len, it, len, kind, byte, to, to_len)
            })
        })
    })
}

pub fn result(session: &[u8]) -> u64 {
    // SAFETY: the pointer and length are a slice.
    show(session, |it, len| unsafe { ffi::da728x_result(it, len) })
}

/// How `da728x_answer` tells this.
pub fn word(number: u8, code: u8, made: usize, ended: bool) -> u32 {
    u32::from_le_bytes([number, code, made.try_into().unwrap(), ended.into()])
}

/// How `da728x_result` tells this.
pub fn result_word(value: u32, made: usize, completed: bool) -> u64 {
    assert!(value < 1 << 24 && made < 256);
    u64::from(value) + ((made as u64) << 24) + (u64::from(completed) << 32)
}
