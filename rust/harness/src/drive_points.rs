//! What document 02 (CR 8) makes of custom drive points; the published code has no finished body for them.

use crate::bus::{Exchange, Script, kind};
use embedded_hal_async::i2c::ErrorKind;

/// SWG_C1, SWG_C2 and SWG_C3, in the order in which they are written.
pub const REGISTERS: [u8; 3] = [0x25, 0x26, 0x27];

/// The exchanges on this script, and the failure if there is one: each point is written to its register, one write each, and the
/// write that fails is the last.
pub fn written(
    address: u8,
    points: [u8; 3],
    script: &Script,
) -> (Vec<Exchange>, Option<ErrorKind>) {
    let writes = REGISTERS.iter().zip(points).map(|(it, point)| [*it, point]);
    let mut made: Vec<_> = writes.map(|bytes| Exchange::new(address, &bytes, 0)).collect();
    match script.fails {
        Some((at, code)) if at < made.len() => {
            made.truncate(at + 1);
            (made, Some(kind(code)))
        }
        _ => (made, None),
    }
}
