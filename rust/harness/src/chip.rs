//! The chip's hundred bytes and their lock as document 02 (CR 14) describes them, on a bus that can be cut: written from the papers.

use crate::bus::kind;
use embedded_hal_async::i2c::{ErrorKind, ErrorType, I2c};
use std::cell::RefCell;
use std::future::pending;
use std::rc::Rc;
use yambelugo::{IMAGE, Reply};

/// What any register reads that is neither the memory's nor MEM_CTL2: CHIP_REV of a DA7280, whom the published `new` asks.
const REVISION: u8 = 0xBA;

/// The memory of the chip with this address, and whether it is unlocked.
#[derive(Clone, Copy, Debug, PartialEq)]
pub struct Chip {
    pub address: u8,
    pub bytes: [u8; IMAGE],
    pub unlocked: bool,
}

impl Chip {
    /// An exchange of which the first `part` data bytes reach the chip. The first byte sent is a register, which stores nothing; the data
    /// go to that register and those behind it. Bit 7 of MEM_CTL2 is the lock, "0 for locked"; the memory stores "while unlocked and
    /// nothing while locked". A read changes nothing, and neither does an exchange for another address.
    pub fn reached(&mut self, address: u8, sent: &[u8], wanted: usize, part: usize) {
        let Some((first, data)) = sent.split_first() else { return };
        if address != self.address || wanted != 0 {
            return;
        }
        for (at, byte) in data.iter().take(part).enumerate() {
            match usize::from(*first) + at {
                0x2D => self.unlocked = byte & 0x80 != 0,
                register @ 0x84..=0xE7 if self.unlocked => self.bytes[register - 0x84] = *byte,
                _ => {}
            }
        }
    }

    pub fn read(&self, register: u8) -> u8 {
        match register {
            0x2D if self.unlocked => 0x80,
            0x2D => 0,
            0x84..=0xE7 => self.bytes[usize::from(register) - 0x84],
            _ => REVISION,
        }
    }
}

/// An exchange that is tried before it is made: its number in the run, how many of its data bytes reach the chip, and whether the caller
/// then hands back what does not fit (which only a session of the library can be handed).
#[derive(Clone, Copy, Debug)]
pub struct Try {
    pub at: usize,
    pub part: usize,
    pub refused: bool,
}

/// Where a run is cut: the exchange, how many of its data bytes reach the chip, and the code that it fails with; without one no answer comes.
#[derive(Clone, Copy, Debug, PartialEq)]
pub struct Cut {
    pub at: usize,
    pub part: usize,
    pub code: Option<u8>,
}

/// How a run goes on the bus.
#[derive(Clone, Debug, Default)]
pub struct Plan {
    pub tries: Vec<Try>,
    pub cut: Option<Cut>,
}

impl Plan {
    pub fn cut(cut: Cut) -> Self {
        Self { tries: Vec::new(), cut: Some(cut) }
    }
}

/// A chip on a bus that goes by a plan.
#[derive(Clone, Debug)]
pub struct Board {
    pub chip: Chip,
    plan: Plan,
    made: usize,
}

impl Board {
    pub fn new(chip: Chip, plan: Plan) -> Self {
        Self { chip, plan, made: 0 }
    }

    /// Tries the next exchange as planned, and after each try tells whether an answer that does not fit comes back.
    pub fn tries(&mut self, address: u8, sent: &[u8], wanted: usize, mut told: impl FnMut(bool)) {
        for it in self.plan.tries.iter().filter(|it| it.at == self.made) {
            self.chip.reached(address, sent, wanted, it.part);
            told(it.refused);
        }
    }

    /// Makes the next exchange; `None` where no answer comes.
    pub fn make(&mut self, address: u8, sent: &[u8], wanted: usize) -> Option<Reply> {
        let cut = self.plan.cut.filter(|cut| cut.at == self.made);
        self.made += 1;
        self.chip.reached(address, sent, wanted, cut.map_or(sent.len(), |cut| cut.part));
        match cut {
            Some(cut) => cut.code.map(Reply::Failed),
            None if wanted == 0 => Some(Reply::Done),
            None => Some(Reply::Byte(self.chip.read(sent[0]))),
        }
    }
}

/// The bus that the published driver owns.
pub struct Line(pub Rc<RefCell<Board>>);

impl Line {
    async fn exchange(&self, address: u8, sent: &[u8], wanted: usize) -> Result<u8, ErrorKind> {
        let reply = {
            let mut board = self.0.borrow_mut();
            board.tries(address, sent, wanted, |_| {});
            board.make(address, sent, wanted)
        };
        match reply {
            Some(Reply::Failed(code)) => Err(kind(code)),
            Some(Reply::Byte(byte)) => Ok(byte),
            Some(Reply::Done) => Ok(0),
            None => pending().await,
        }
    }
}

impl ErrorType for Line {
    type Error = ErrorKind;
}

impl I2c for Line {
    async fn write(&mut self, address: u8, sent: &[u8]) -> Result<(), ErrorKind> {
        self.exchange(address, sent, 0).await.map(|_| ())
    }

    async fn write_read(
        &mut self,
        address: u8,
        sent: &[u8],
        read: &mut [u8],
    ) -> Result<(), ErrorKind> {
        let byte = self.exchange(address, sent, read.len()).await?;
        read.fill(byte);
        Ok(())
    }
}
