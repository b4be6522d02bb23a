#![doc = include_str!("../README.md")]
#![no_std]
#![deny(missing_docs)]

mod calls;
mod config;
mod driver;
mod error;
mod ffi;
mod image;
mod point;
mod ranges;
mod registers;

pub use calls::{Call, Gain, Timebase, answers, current_len, frame, sequence, snippet};
pub use config::{ActuatorConfig, ActuatorType, DeviceConfig, DrivingMode, OperationMode};
pub use config::{TriggerConfig, TriggerMode, TriggerPolarity, Variant, WaveformMemoryTimebase};
pub use driver::{DA728x, Exchange, RECORD, Refusal, Reply, Session, Started, Turn};
pub use error::Error;
pub use image::{Frame, IMAGE, Lists, NotAssembled, PAGE, assemble, assemble_strict};
pub use image::{merge, page, read_counts, read_frame, read_lists, read_point};
pub use point::PwlPoint;
pub use ranges::{current_settings, frequency_settings, voltage_settings};
pub use registers::{Group, REGISTERS, register_addresses};
