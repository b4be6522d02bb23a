//! Stand-in for `embedded_hal`: the kinds of failure that the published source names.
#![no_std]

/// Failures of pins.
pub mod digital {
    use core::fmt;

    /// What kind of failure a pin had.
    #[derive(Debug, Clone, Copy, PartialEq, Eq)]
    pub enum ErrorKind {
        Other,
    }

    impl fmt::Display for ErrorKind {
        fn fmt(&self, f: &mut fmt::Formatter) -> fmt::Result {
            fmt::Debug::fmt(self, f)
        }
    }
}

/// Failures of the bus.
pub mod i2c {
    use core::fmt;

    /// A failure that knows its kind.
    pub trait Error: fmt::Debug {
        fn kind(&self) -> ErrorKind;
    }

    /// What kind of failure a bus had.
    #[derive(Debug, Clone, Copy, PartialEq, Eq)]
    pub enum ErrorKind {
        Bus,
        ArbitrationLoss,
        NoAcknowledge(NoAcknowledgeSource),
        Overrun,
        Other,
    }

    /// What was not acknowledged.
    #[derive(Debug, Clone, Copy, PartialEq, Eq)]
    pub enum NoAcknowledgeSource {
        Address,
        Data,
        Unknown,
    }

    impl Error for ErrorKind {
        fn kind(&self) -> ErrorKind {
            *self
        }
    }

    impl fmt::Display for ErrorKind {
        fn fmt(&self, f: &mut fmt::Formatter) -> fmt::Result {
            fmt::Debug::fmt(self, f)
        }
    }

    /// A bus with a type of failure.
    pub trait ErrorType {
        type Error: Error;
    }
}
