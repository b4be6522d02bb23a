//! Addresses and fields of all registers, against the published Rust.

use harness::compared;
use harness::registers::{ADDRESSES, Field, GROUPS};

/// More than any list.
const OUT: usize = 64;

const MARKER: u8 = 0xA5;

/// Compares what a list leaves in buffers of every length; the bytes compared in the longest.
fn compare(list: impl Fn(&mut [u8]) -> usize, wanted: &[u8], what: &str) -> usize {
    for room in 0..OUT {
        let mut out = [MARKER; OUT];
        let copied = wanted.len().min(room);
        assert_eq!(list(&mut out[..room]), copied, "{what}, {room} bytes lent");
        assert_eq!(out[..copied], wanted[..copied], "{what}, {room} bytes lent");
        assert!(out[copied..].iter().all(|byte| *byte == MARKER), "{what}, {room} bytes lent");
    }
    wanted.len()
}

#[test]
fn every_address() {
    let wanted: Vec<u8> = ADDRESSES.iter().map(|(_, address)| *address).collect();
    let cases = compare(yambelugo::register_addresses, &wanted, "addresses");
    compared("addresses", cases, 42);
}

/// The named fields of a group in the written order.
fn fields(group: usize) -> impl Iterator<Item = &'static Field> {
    GROUPS[group].1.iter().flat_map(|(_, fields)| fields.iter())
}

#[test]
fn every_field_reads_every_byte() {
    let mut cases = 0;
    for (at, (group, _)) in GROUPS.iter().enumerate() {
        for byte in 0..=255 {
            let wanted: Vec<u8> = fields(at).map(|(_, read, _)| read(byte)).collect();
            let what = format!("{group:?} holding {byte:02X}");
            cases += compare(|out| group.read(byte, out), &wanted, &what);
        }
    }
    compared("fields read", cases, 89 * 256);
}

#[test]
fn every_field_replaced_by_every_value() {
    let mut cases = 0;
    for (at, (group, _)) in GROUPS.iter().enumerate() {
        let with: Vec<_> = fields(at).filter_map(|(_, _, with)| *with).collect();
        for byte in 0..=255 {
            for value in 0..=255 {
                let mut out = [MARKER; OUT];
                let mut wanted = [MARKER; OUT];
                for (out, with) in wanted.iter_mut().zip(&with) {
                    *out = with(byte, value);
                }
                assert_eq!(group.replace(byte, value, &mut out), with.len());
                assert_eq!(out, wanted, "{group:?} holding {byte:02X}, {value:02X} put in");
                cases += with.len();
            }
            // Short buffers, for one value of each byte.
            let wanted: Vec<u8> = with.iter().map(|with| with(byte, !byte)).collect();
            let what = format!("{group:?} holding {byte:02X}");
            compare(|out| group.replace(byte, !byte, out), &wanted, &what);
        }
    }
    // The two fields of CHIP_REV and the one of MEM_CTL1 are read-only.
    compared("fields replaced", cases, (89 - 3) * 256 * 256);
}
