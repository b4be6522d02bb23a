//! Document 02, CR 5, in the harness's own words: an item goes into a lent buffer whole, or no byte is written and 24 is told. A
//! buffer shorter than the item is no case of the comparison with the published Rust, which copies a part.

/// The number of `BufferTooShort`.
pub const TOO_SHORT: u8 = 24;

/// How many buffers were compared, and how many the rule judged because they are too short.
#[derive(Debug, Default, Clone, Copy, PartialEq)]
pub struct Judged {
    pub compared: usize,
    pub too_short: usize,
}

impl Judged {
    /// What has to be told of an item of so many bytes, or of its refusal, and to be left in this buffer; `published` writes the item.
    pub fn wanted(
        &mut self,
        item: Result<usize, u8>,
        buffer: &mut [u8],
        published: impl FnOnce(&mut [u8]) -> Result<usize, u8>,
    ) -> Result<usize, u8> {
        if item.is_ok_and(|length| buffer.len() < length) {
            self.too_short += 1;
            return Err(TOO_SHORT);
        }
        self.compared += 1;
        let told = published(buffer);
        assert_eq!(told, item, "an item that has room");
        told
    }

    /// As `wanted`, of an item's bytes.
    pub fn wanted_bytes<'a>(
        &mut self,
        item: Result<&'a [u8], u8>,
        buffer: &mut [u8],
    ) -> Result<usize, u8> {
        self.wanted(item.map(<[u8]>::len), buffer, |buffer| {
            let item = item?;
            buffer[..item.len()].copy_from_slice(item);
            Ok(item.len())
        })
    }

    /// Prints how many there were; they have to be so many.
    pub fn assert_met(self, what: &str, compared: usize, too_short: usize) {
        println!("{what}: {} cases compared, {} too short", self.compared, self.too_short);
        assert_eq!(self, Self { compared, too_short }, "{what}");
    }
}
