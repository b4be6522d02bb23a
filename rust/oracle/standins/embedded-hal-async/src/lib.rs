//! Stand-in for `embedded_hal_async`: the bus calls that the published source makes.
#![no_std]

/// The bus.
pub mod i2c {
    pub use embedded_hal::i2c::{Error, ErrorKind, ErrorType, NoAcknowledgeSource};

    /// A bus that is awaited.
    #[allow(async_fn_in_trait)]
    pub trait I2c: ErrorType {
        async fn write(&mut self, address: u8, write: &[u8]) -> Result<(), Self::Error>;
        async fn write_read(
            &mut self,
            address: u8,
            write: &[u8],
            read: &mut [u8],
        ) -> Result<(), Self::Error>;
    }
}
