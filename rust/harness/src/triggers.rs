//! What the papers put in the three GPI registers; the published code always sets the mode bit (document 02, CR 4).

use crate::bus::Exchange;
use yambelugo::{TriggerConfig, TriggerMode, TriggerPolarity};

/// GPI_0_CTL, GPI_1_CTL and GPI_2_CTL.
pub const REGISTERS: [u8; 3] = [0x29, 0x2A, 0x2B];

/// The mode bit.
pub const MODE: u8 = 1 << 2;

/// The polarity in bits 0 and 1, the mode in bit 2, the sequence number in bits 3 to 6.
pub fn byte(trigger: &TriggerConfig) -> u8 {
    let polarity = match trigger.polarity {
        TriggerPolarity::Rising => 0,
        TriggerPolarity::Falling => 1,
        TriggerPolarity::Both => 2,
    };
    let mode = match trigger.mode {
        TriggerMode::SingleSequence => 0,
        TriggerMode::MultiSequence => 1,
    };
    polarity + 4 * mode + 8 * trigger.sequence_id
}

/// Puts the papers' byte in the place of the published one, which has to be that byte but for the mode bit, by the register's
/// address and never by the value; whether the two differ. `None` for an exchange with another register.
pub fn follow(exchange: &mut Exchange, triggers: &[Option<TriggerConfig>; 3]) -> Option<bool> {
    let [register, published] = exchange.bytes[..exchange.len] else { return None };
    let place = REGISTERS.iter().position(|it| *it == register)?;
    let trigger = triggers[place].expect("a trigger that is given is written");
    let wanted = byte(&trigger);
    assert_eq!(published & !MODE, wanted & !MODE, "{register:02X} of {trigger:?}");
    assert_eq!(published & MODE, MODE, "the published mode bit is always 1");
    exchange.bytes[1] = wanted;
    Some(published != wanted)
}
