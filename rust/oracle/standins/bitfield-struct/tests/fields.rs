//! The stand-in's meaning, on a register with every form that the published source uses.
#![allow(non_snake_case)]

mod inner {
    use bitfield_struct::bitfield;

    /// Bits 0..1 LOW, bit 2 padding, bit 3 FLAG, bits 4..5 READ, bit 6 padding, bit 7 HIDDEN.
    #[bitfield(u8, defmt = true)]
    pub struct Mixed {
        #[bits(2)]
        pub LOW: u8,
        #[bits(1)]
        __: u8,
        /// A flag of one bit.
        pub FLAG: bool,
        #[bits(2, access = RO)]
        pub(crate) READ: u8,
        #[bits(1)]
        __: u8,
        #[bits(1)]
        HIDDEN: u8,
    }

    #[bitfield(u8)]
    pub struct Whole {
        pub ALL: u8,
    }
}

use inner::{Mixed, Whole};

#[test]
fn new_is_zero_and_conversions_keep_every_bit() {
    assert_eq!(u8::from(Mixed::new()), 0);
    for byte in 0..=255 {
        assert_eq!(u8::from(Mixed::from(byte)), byte);
    }
}

#[test]
fn a_field_is_its_own_bits() {
    for byte in 0..=255_u8 {
        let register = Mixed::from(byte);
        assert_eq!(register.LOW(), byte % 4);
        assert_eq!(register.FLAG(), byte / 8 % 2 == 1);
        assert_eq!(register.READ(), byte / 16 % 4);
        assert_eq!(Whole::from(byte).ALL(), byte);
        for value in 0..=255_u8 {
            assert_eq!(u8::from(register.with_LOW(value)), byte / 4 * 4 + value % 4);
            assert_eq!(u8::from(Whole::from(byte).with_ALL(value)), value);
        }
        assert_eq!(u8::from(register.with_FLAG(true)), byte | 8);
        assert_eq!(u8::from(register.with_FLAG(false)), byte & !8);
    }
}

#[test]
fn the_list_has_the_named_fields_in_order() {
    let names: Vec<_> = Mixed::FIELDS.iter().map(|field| field.0).collect();
    assert_eq!(names, ["LOW", "FLAG", "READ", "HIDDEN"]);
    let writable: Vec<_> = Mixed::FIELDS.iter().map(|field| field.2.is_some()).collect();
    assert_eq!(writable, [true, true, false, true]);

    let read: Vec<_> = Mixed::FIELDS.iter().map(|field| field.1(0b1010_1001)).collect();
    assert_eq!(read, [1, 1, 2, 1]);
    let replaced: Vec<_> =
        Mixed::FIELDS.iter().filter_map(|field| field.2.map(|with| with(0, 7))).collect();
    assert_eq!(replaced, [0b0000_0011, 0b0000_1000, 0b1000_0000]);
}
