//! Which settings the published Rust takes for a register's value: its `configure` is run for every setting there is, and what it writes
//! is read off the bus.
//!
//! Accepted is what it accepts, less what document 01 refuses beside it: voltages of 5991 to 6000 mV and currents of 0 to 28 mA, for which
//! it writes nonsense (`Settings::outside`).

use crate::bus::{Exchange, Script};
use crate::driver::{NEVER, Operation, Published, revision};
use crate::settings::{DRIVINGS, Settings};
use std::collections::BTreeMap;
use std::ops::RangeInclusive;
use std::sync::OnceLock;
use yambelugo::{DrivingMode, OperationMode, Variant};

/// Where the settings have a voltage, and where the chip has its byte: ACTUATOR1 and ACTUATOR2.
#[derive(Debug, Clone, Copy, PartialEq)]
pub enum Place {
    Nominal,
    Absolute,
}

pub const PLACES: [Place; 2] = [Place::Nominal, Place::Absolute];

/// The bytes of the registers in question.
#[derive(Debug, Clone, Copy, PartialEq)]
pub struct Written {
    pub nominal: u8,
    pub absolute: u8,
    pub imax: u8,
    pub word: u16,
    pub tracks: bool,
}

impl Written {
    /// As they stand in the exchanges of `configure`, which writes each of the registers once.
    pub fn of(log: &[Exchange]) -> Self {
        let byte = |register| {
            let mut writes = log.iter().filter(|it| it.len == 2 && it.bytes[0] == register);
            let byte = writes.next().expect("a write to this register").bytes[1];
            assert_eq!(writes.next(), None, "{register:02X} is written again");
            byte
        };
        let (actuator3, high, low) = (byte(0x0E), byte(0x0A), byte(0x0B));
        assert!(actuator3 < 32 && low < 128, "a bit that belongs to no field");
        Self {
            nominal: byte(0x0C),
            absolute: byte(0x0D),
            imax: actuator3,
            word: 128 * u16::from(high) + u16::from(low),
            tracks: byte(0x13) >> 3 & 1 == 1,
        }
    }

    pub fn voltage(&self, place: Place) -> u8 {
        match place {
            Place::Nominal => self.nominal,
            Place::Absolute => self.absolute,
        }
    }
}

/// For each value that some accepted setting gives, the least and the greatest that do.
type Buckets = BTreeMap<u16, RangeInclusive<u16>>;

/// The settings behind every value.
pub struct Sources {
    voltages: [Buckets; 2],
    currents: Buckets,
    frequencies: [Buckets; 3],
    /// How many settings were tried, and how many of them are accepted.
    pub tried: usize,
    pub accepted: usize,
}

impl Sources {
    /// By the published Rust, which is run once for each setting.
    pub fn published() -> &'static Self {
        static SOURCES: OnceLock<Sources> = OnceLock::new();
        SOURCES.get_or_init(|| {
            let mut all = Run::new();
            let voltages = PLACES.map(|place| {
                all.buckets(
                    DrivingMode::WIDEBAND,
                    |it, voltage| match place {
                        Place::Nominal => it.actuator.nominal_max_mV = voltage,
                        Place::Absolute => it.actuator.absolute_max_mV = voltage,
                    },
                    |written| written.voltage(place).into(),
                )
            });
            let currents = all.buckets(
                DrivingMode::WIDEBAND,
                |it, current| it.actuator.max_current_mA = current,
                |written| written.imax.into(),
            );
            let frequencies = DRIVINGS.map(|mode| {
                all.buckets(
                    mode,
                    |it, frequency| it.actuator.frequency_Hz = frequency,
                    |written| written.word,
                )
            });
            let Run { tried, accepted, .. } = all;
            Self { voltages, currents, frequencies, tried, accepted }
        })
    }

    /// The voltages in mV that give this byte of ACTUATOR1 or ACTUATOR2.
    pub fn voltage(&self, place: Place, byte: u8) -> Option<RangeInclusive<u16>> {
        self.voltages[place as usize].get(&byte.into()).cloned()
    }

    /// The currents in mA that give this IMAX.
    pub fn current(&self, imax: u8) -> Option<RangeInclusive<u16>> {
        self.currents.get(&imax.into()).cloned()
    }

    /// The frequencies in Hz that give this period word under a driving mode.
    pub fn frequency(&self, word: u16, mode: DrivingMode) -> Option<RangeInclusive<u16>> {
        self.frequencies[mode as usize].get(&word).cloned()
    }
}

/// The published driver, run for setting after setting.
struct Run {
    published: Published,
    tried: usize,
    accepted: usize,
}

impl Run {
    fn new() -> Self {
        let script = Script::reading(&[revision(Variant::DA7280)]);
        let (_, published) = Published::new(0x4A, Variant::DA7280, &script);
        Self { published: published.unwrap(), tried: 0, accepted: 0 }
    }

    /// What the published `configure` writes, where the settings are accepted.
    fn written(&mut self, settings: Settings) -> Option<Written> {
        let (operation, script) = (Operation::Configure(settings), Script::reading(&[0]));
        let outcome = self.published.run(&operation, &script, NEVER);
        self.tried += 1;
        if outcome.answer.is_err() || settings.outside() {
            return None;
        }
        self.accepted += 1;
        Some(Written::of(&outcome.log))
    }

    /// Every setting of 0 to 65535 in this place, by the value that it gives. No range has a gap: each of its settings gives the value.
    fn buckets(
        &mut self,
        mode: DrivingMode,
        set: impl Fn(&mut Settings, u16),
        value: impl Fn(&Written) -> u16,
    ) -> Buckets {
        let mut buckets = Buckets::new();
        for setting in 0..=65535 {
            let mut settings = Settings::plain(OperationMode::DRO_MODE, mode);
            set(&mut settings, setting);
            let Some(written) = self.written(settings) else { continue };
            assert_eq!(written.tracks, mode == DrivingMode::FREQUENCY_TRACK);
            let value = value(&written);
            let range = buckets.entry(value).or_insert(setting..=setting);
            assert!(setting - range.end() < 2, "a gap before {setting}, which gives {value}");
            *range = *range.start()..=setting;
        }
        buckets
    }
}
