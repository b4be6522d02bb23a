//! Not among the published files: the names by which they know each other.

pub mod frame;
pub mod memory;
pub mod sequence;
pub mod snippet;

pub use frame::{Frame, FrameBuilder, Gain, Timebase};
pub use memory::{WaveformMemory, WaveformMemoryBuilder, WaveformMemoryTimebase};
pub use sequence::{Sequence, SequenceBuilder};
pub use snippet::{PwlPoint, Snippet, SnippetBuilder};
