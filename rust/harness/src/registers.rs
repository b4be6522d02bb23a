//! The published register types in the library's groups, and the published addresses.

use da728x::registers::{self, Register};
use yambelugo::Group;

/// A field's name, what it reads from a byte, and the byte with it replaced unless read-only.
pub type Field = (&'static str, fn(u8) -> u8, Option<fn(u8, u8) -> u8>);

/// A register type's name and its named fields in the written order.
pub type Type = (&'static str, &'static [Field]);

macro_rules! types {
    ($($name:ident)*) => { &[$((stringify!($name), registers::$name::FIELDS)),*] };
}

macro_rules! addresses {
    ($($name:ident)*) => { &[$((stringify!($name), Register::$name as u8)),*] };
}

/// The types of each group in the written order.
pub const GROUPS: [(Group, &[Type]); 4] = [
    (
        Group::Interrupts,
        types!(CHIP_REV IRQ_EVENT1 IRQ_EVENT_WARNING_DIAG IRQ_EVENT_SEQ_DIAG IRQ_STATUS1 IRQ_MASK1),
    ),
    (
        Group::Actuator,
        types!(FRQ_LRA_PER_H FRQ_LRA_PER_L ACTUATOR1 ACTUATOR2 ACTUATOR3 CALIB_V2I_H CALIB_V2I_L
            TOP_CFG1 TOP_CFG2 TOP_CFG4),
    ),
    (
        Group::Control,
        types!(TOP_INT_CFG1 TOP_INT_CFG6_H TOP_INT_CFG6_L TOP_INT_CFG7_H TOP_INT_CFG7_L TOP_INT_CFG8
            TOP_CTL1 TOP_CTL2 SEQ_CTL1 SWG_C1 SWG_C2 SWG_C3),
    ),
    (
        Group::Trigger,
        types!(SEQ_CTL2 GPI_0_CTL GPI_1_CTL GPI_2_CTL MEM_CTL1 MEM_CTL2 FRQ_PHASE_H FRQ_PHASE_L TRIM4
            TOP_CFG5 IRQ_MASK2),
    ),
];

/// The name and address of each register in the written order.
pub const ADDRESSES: &[(&str, u8)] = addresses!(
    CHIP_REV IRQ_EVENT1 IRQ_EVENT_WARNING_DIAG IRQ_EVENT_SEQ_DIAG IRQ_STATUS1 IRQ_MASK1
    FRQ_LRA_PER_H FRQ_LRA_PER_L ACTUATOR1 ACTUATOR2 ACTUATOR3 CALIB_V2I_H CALIB_V2I_L
    TOP_CFG1 TOP_CFG2 TOP_CFG4 TOP_INT_CFG1 TOP_INT_CFG6_H TOP_INT_CFG6_L TOP_INT_CFG7_H
    TOP_INT_CFG7_L TOP_INT_CFG8 TOP_CTL1 TOP_CTL2 SEQ_CTL1 SWG_C1 SWG_C2 SWG_C3 SEQ_CTL2
    GPI_0_CTL GPI_1_CTL GPI_2_CTL MEM_CTL1 MEM_CTL2 POLARITY FRQ_PHASE_H FRQ_PHASE_L TRIM4
    TOP_CFG5 IRQ_MASK2 SNP_MEM_0 SNP_MEM_99
);
