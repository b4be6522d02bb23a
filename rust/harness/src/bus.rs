//! A bus that answers by a script and logs every exchange, for both sides of the comparison.

use embedded_hal_async::i2c::{ErrorKind, ErrorType, I2c, NoAcknowledgeSource};
use std::cell::RefCell;
use std::future::pending;
use std::pin::pin;
use std::rc::Rc;
use std::task::{Context, Poll, Waker};
use yambelugo::Reply;

/// The most bytes that an exchange sends.
pub const MOST: usize = 33;

/// Every kind of failure that the published driver tells apart.
pub const KINDS: [ErrorKind; 7] = [
    ErrorKind::Bus,
    ErrorKind::ArbitrationLoss,
    ErrorKind::NoAcknowledge(NoAcknowledgeSource::Address),
    ErrorKind::NoAcknowledge(NoAcknowledgeSource::Data),
    ErrorKind::NoAcknowledge(NoAcknowledgeSource::Unknown),
    ErrorKind::Overrun,
    ErrorKind::Other,
];

/// The kind that stands for a code of the library's bus.
pub fn kind(code: u8) -> ErrorKind {
    KINDS[usize::from(code) % KINDS.len()]
}

/// What was asked of the bus.
#[derive(Clone, Copy, PartialEq)]
pub struct Exchange {
    pub address: u8,
    pub wanted: usize,
    pub len: usize,
    pub bytes: [u8; MOST],
}

impl Exchange {
    pub fn new(address: u8, sent: &[u8], wanted: usize) -> Self {
        let mut bytes = [0; MOST];
        bytes[..sent.len()].copy_from_slice(sent);
        Self { address, wanted, len: sent.len(), bytes }
    }
}

impl std::fmt::Debug for Exchange {
    fn fmt(&self, f: &mut std::fmt::Formatter) -> std::fmt::Result {
        write!(f, "{:02X}: {:02X?} + {}", self.address, &self.bytes[..self.len], self.wanted)
    }
}

/// How the bus answers: what it reads, in turn and over again, and the exchange that fails with a
/// code.
#[derive(Debug, Clone)]
pub struct Script {
    pub reads: Vec<u8>,
    pub fails: Option<(usize, u8)>,
}

impl Script {
    pub fn reading(reads: &[u8]) -> Self {
        Self { reads: reads.to_vec(), fails: None }
    }
}

/// A bus on which a script runs.
#[derive(Debug)]
pub struct Wire {
    script: Script,
    read: usize,
    /// How many exchanges it makes.
    until: usize,
    pub log: Vec<Exchange>,
}

impl Wire {
    pub fn new(script: &Script) -> Self {
        Self::until(script, usize::MAX)
    }

    /// A bus that makes so many exchanges, and never answers the next.
    pub fn until(script: &Script, until: usize) -> Self {
        Self { script: script.clone(), read: 0, until, log: Vec::new() }
    }

    fn is_silent(&self) -> bool {
        self.log.len() >= self.until
    }

    pub fn exchange(&mut self, address: u8, sent: &[u8], wanted: usize) -> Reply {
        let at = self.log.len();
        self.log.push(Exchange::new(address, sent, wanted));
        if let Some((fails, code)) = self.script.fails
            && fails == at
        {
            return Reply::Failed(code);
        }
        if wanted == 0 {
            return Reply::Done;
        }
        let byte = self.script.reads[self.read % self.script.reads.len()];
        self.read += 1;
        Reply::Byte(byte)
    }
}

/// The bus that the published driver owns.
pub struct Bus(pub Rc<RefCell<Wire>>);

impl Bus {
    async fn exchange(&self, address: u8, sent: &[u8], wanted: usize) -> Reply {
        if self.0.borrow().is_silent() {
            pending::<()>().await;
        }
        self.0.borrow_mut().exchange(address, sent, wanted)
    }
}

impl ErrorType for Bus {
    type Error = ErrorKind;
}

impl I2c for Bus {
    async fn write(&mut self, address: u8, sent: &[u8]) -> Result<(), ErrorKind> {
        match self.exchange(address, sent, 0).await {
            Reply::Failed(code) => Err(kind(code)),
            _ => Ok(()),
        }
    }

    async fn write_read(
        &mut self,
        address: u8,
        sent: &[u8],
        read: &mut [u8],
    ) -> Result<(), ErrorKind> {
        match self.exchange(address, sent, read.len()).await {
            Reply::Failed(code) => return Err(kind(code)),
            Reply::Byte(byte) => read.fill(byte),
            Reply::Done => {}
        }
        Ok(())
    }
}

/// Runs what never has to wait.
pub fn at_once<T>(future: impl Future<Output = T>) -> T {
    unless_silent(future).expect("the bus never waits")
}

/// Runs something until the bus is silent, where it is dropped.
pub fn unless_silent<T>(future: impl Future<Output = T>) -> Option<T> {
    match pin!(future).poll(&mut Context::from_waker(Waker::noop())) {
        Poll::Ready(value) => Some(value),
        Poll::Pending => None,
    }
}
