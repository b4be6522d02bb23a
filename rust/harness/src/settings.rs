//! Settings: random ones near every limit, the published ones, those outside the comparison, and the number by which `configure`
//! tells them, by documents 01 and 02 alone.

use crate::random::Random;
use da728x::config as published;
use yambelugo::{ActuatorConfig, ActuatorType, DeviceConfig, DrivingMode, OperationMode};
use yambelugo::{TriggerConfig, TriggerMode, TriggerPolarity, Variant, WaveformMemoryTimebase};

pub const VARIANTS: [Variant; 3] = [Variant::DA7280, Variant::DA7281, Variant::DA7282];

pub const TYPES: [ActuatorType; 2] = [ActuatorType::LRA, ActuatorType::ERM];

pub const OPERATIONS: [OperationMode; 5] = [
    OperationMode::INACTIVE,
    OperationMode::DRO_MODE,
    OperationMode::PWM_MODE,
    OperationMode::RTWM_MODE,
    OperationMode::ETWM_MODE,
];

pub const DRIVINGS: [DrivingMode; 3] =
    [DrivingMode::FREQUENCY_TRACK, DrivingMode::WIDEBAND, DrivingMode::CUSTOM_WAVEFORM];

pub const POLARITIES: [TriggerPolarity; 3] =
    [TriggerPolarity::Rising, TriggerPolarity::Falling, TriggerPolarity::Both];

pub const MODES: [TriggerMode; 2] = [TriggerMode::SingleSequence, TriggerMode::MultiSequence];

pub const MEMORY_TIMEBASES: [WaveformMemoryTimebase; 2] = [
    WaveformMemoryTimebase::TIMEBASE_544_2176_4352_8704,
    WaveformMemoryTimebase::TIMEBASE_136_544_2176_4352,
];

/// Both halves of the settings.
#[derive(Debug, Clone, Copy, PartialEq)]
pub struct Settings {
    pub actuator: ActuatorConfig,
    pub device: DeviceConfig,
}

impl Settings {
    /// Document 01's examples, in these modes; a trigger is given in ETWM mode.
    pub fn plain(operation_mode: OperationMode, driving_mode: DrivingMode) -> Self {
        let trigger = TriggerConfig {
            sequence_id: 3,
            polarity: TriggerPolarity::Both,
            mode: TriggerMode::SingleSequence,
        };
        let given = (operation_mode == OperationMode::ETWM_MODE).then_some(trigger);
        Self {
            actuator: ActuatorConfig {
                actuator_type: ActuatorType::LRA,
                nominal_max_mV: 2500,
                absolute_max_mV: 3500,
                max_current_mA: 165,
                impedance_mOhm: 8000,
                inductance_uH: 50,
                frequency_Hz: 170,
                pid_Kp_Ki: None,
            },
            device: DeviceConfig {
                operation_mode,
                driving_mode,
                gpi_triggers: [given, None, None],
                acceleration: false,
                rapid_stop: false,
            },
        }
    }

    /// The bytes by which they cross to C.
    pub fn encode(&self) -> [u8; 34] {
        let bytes = [&self.actuator.encode()[..], &self.device.encode()[..]].concat();
        bytes.try_into().unwrap()
    }

    /// Settings that are accepted on every variant.
    pub fn accepted(random: &mut Random) -> Self {
        let driving_mode = random.pick(&DRIVINGS);
        let tracking = driving_mode == DrivingMode::FREQUENCY_TRACK;
        let (low, high) = if tracking { (50, 300) } else { (25, 1024) };
        let mut triggers = [None; 3];
        triggers[random.below(3)] = Some(trigger(random.below(16) as u8, random));
        Self {
            actuator: ActuatorConfig {
                actuator_type: random.pick(&TYPES),
                nominal_max_mV: random.within(0, 5990) as u16,
                absolute_max_mV: random.within(0, 5990) as u16,
                max_current_mA: random.within(29, 252) as u16,
                impedance_mOhm: random.within(4000, 49999) as u16,
                inductance_uH: random.below(400) as u16,
                frequency_Hz: random.within(low, high) as u16,
                pid_Kp_Ki: random.chance(50).then(|| (word(random), word(random))),
            },
            device: DeviceConfig {
                operation_mode: random.pick(&OPERATIONS),
                driving_mode,
                gpi_triggers: triggers,
                acceleration: tracking && random.chance(50),
                rapid_stop: false,
            },
        }
    }

    /// Any settings, mostly near the limits; about half of them are accepted.
    pub fn any(random: &mut Random) -> Self {
        let driving_mode = random.pick(&DRIVINGS);
        let tracking = driving_mode == DrivingMode::FREQUENCY_TRACK;
        // The other mode's band is of interest too.
        let (low, high) = if tracking != random.chance(4) { (50, 300) } else { (25, 1024) };
        let etwm = random.chance(25);
        Self {
            actuator: ActuatorConfig {
                actuator_type: random.pick(&TYPES),
                nominal_max_mV: voltage(random),
                absolute_max_mV: voltage(random),
                max_current_mA: near(random, 29, 252),
                impedance_mOhm: near(random, 4000, 49999),
                inductance_uH: inductance(random),
                frequency_Hz: near(random, low, high),
                pid_Kp_Ki: random.chance(50).then(|| (word(random), word(random))),
            },
            device: DeviceConfig {
                operation_mode: if etwm {
                    OperationMode::ETWM_MODE
                } else {
                    random.pick(&OPERATIONS)
                },
                driving_mode,
                gpi_triggers: [any_trigger(random), any_trigger(random), any_trigger(random)],
                acceleration: random.chance(if tracking { 50 } else { 5 }),
                rapid_stop: random.chance(4),
            },
        }
    }

    /// The number by which `configure` tells these settings, 0 where it accepts them: document 01's checks in its order, with
    /// document 02's numbers (CR 3).
    pub fn told(&self, variant: Variant) -> u8 {
        let Settings { actuator, device } = self;
        let tracking = device.driving_mode == DrivingMode::FREQUENCY_TRACK;
        let etwm = device.operation_mode == OperationMode::ETWM_MODE;
        let given: Vec<_> = device.gpi_triggers.iter().flatten().collect();
        let voltage = actuator.nominal_max_mV.max(actuator.absolute_max_mV);
        let band = if tracking { 50..=300 } else { 25..=1024 };

        if !tracking && (device.acceleration || device.rapid_stop) {
            return 12;
        }
        if etwm && given.is_empty() {
            return 13;
        }
        if etwm && variant == Variant::DA7281 && given.len() > 1 {
            return 14;
        }
        if voltage > 6000 {
            return 21;
        }
        if actuator.max_current_mA > 252 || !(4000..=49999).contains(&actuator.impedance_mOhm) {
            return 22;
        }
        if !band.contains(&actuator.frequency_Hz) {
            return 23;
        }
        // Those that document 01 adds.
        if voltage > 5990 {
            return 21;
        }
        if actuator.max_current_mA < 29 {
            return 22;
        }
        if etwm && given.iter().any(|trigger| trigger.sequence_id > 15) {
            return 11;
        }
        if device.rapid_stop { 14 } else { 0 }
    }

    /// Whether the settings lie outside the comparison: the Rust writes nonsense for these, or stops at a `todo!`, where none of
    /// its own checks refuses them.
    pub fn outside(&self) -> bool {
        let Settings { actuator, device } = self;
        let etwm = device.operation_mode == OperationMode::ETWM_MODE;
        let voltages = [actuator.nominal_max_mV, actuator.absolute_max_mV];
        let mut numbers = device.gpi_triggers.iter().flatten().map(|trigger| trigger.sequence_id);
        voltages.iter().any(|it| (5991..=6000).contains(it))
            || actuator.max_current_mA <= 28
            || etwm && numbers.any(|number| number > 15)
            || device.rapid_stop && device.driving_mode == DrivingMode::FREQUENCY_TRACK
    }

    /// The settings inside the comparison that the published checks judge the same.
    pub fn inside(&self) -> Self {
        let Settings { mut actuator, mut device } = *self;
        for it in [&mut actuator.nominal_max_mV, &mut actuator.absolute_max_mV] {
            if (5991..=6000).contains(it) {
                *it = 5990;
            }
        }
        actuator.max_current_mA = actuator.max_current_mA.max(29);
        for trigger in device.gpi_triggers.iter_mut().flatten() {
            trigger.sequence_id = trigger.sequence_id.min(15);
        }
        if device.driving_mode == DrivingMode::FREQUENCY_TRACK {
            device.rapid_stop = false;
        }
        Settings { actuator, device }
    }

    /// The same for the published driver.
    pub fn published(&self) -> (published::ActuatorConfig, published::DeviceConfig) {
        let Settings { actuator, device } = self;
        let actuator = published::ActuatorConfig {
            actuator_type: match actuator.actuator_type {
                ActuatorType::LRA => published::ActuatorType::LRA,
                ActuatorType::ERM => published::ActuatorType::ERM,
            },
            nominal_max_mV: actuator.nominal_max_mV,
            absolute_max_mV: actuator.absolute_max_mV,
            max_current_mA: actuator.max_current_mA,
            impedance_mOhm: actuator.impedance_mOhm,
            inductance_uH: actuator.inductance_uH,
            frequency_Hz: actuator.frequency_Hz,
            pid_Kp_Ki: actuator.pid_Kp_Ki,
        };
        let device = published::DeviceConfig {
            operation_mode: match device.operation_mode {
                OperationMode::INACTIVE => published::OperationMode::INACTIVE,
                OperationMode::DRO_MODE => published::OperationMode::DRO_MODE,
                OperationMode::PWM_MODE => published::OperationMode::PWM_MODE,
                OperationMode::RTWM_MODE => published::OperationMode::RTWM_MODE,
                OperationMode::ETWM_MODE => published::OperationMode::ETWM_MODE,
            },
            driving_mode: match device.driving_mode {
                DrivingMode::FREQUENCY_TRACK => published::DrivingMode::FREQUENCY_TRACK,
                DrivingMode::WIDEBAND => published::DrivingMode::WIDEBAND,
                DrivingMode::CUSTOM_WAVEFORM => published::DrivingMode::CUSTOM_WAVEFORM,
            },
            gpi_triggers: device.gpi_triggers.map(|it| it.map(published_trigger)),
            acceleration: device.acceleration,
            rapid_stop: device.rapid_stop,
        };
        (actuator, device)
    }
}

fn published_trigger(trigger: TriggerConfig) -> published::TriggerConfig {
    published::TriggerConfig {
        sequence_id: trigger.sequence_id,
        polarity: match trigger.polarity {
            TriggerPolarity::Rising => published::TriggerPolarity::Rising,
            TriggerPolarity::Falling => published::TriggerPolarity::Falling,
            TriggerPolarity::Both => published::TriggerPolarity::Both,
        },
        mode: match trigger.mode {
            TriggerMode::SingleSequence => published::TriggerMode::SingleSequence,
            TriggerMode::MultiSequence => published::TriggerMode::MultiSequence,
        },
    }
}

pub fn published_variant(variant: Variant) -> da728x::Variant {
    match variant {
        Variant::DA7280 => da728x::Variant::DA7280,
        Variant::DA7281 => da728x::Variant::DA7281,
        Variant::DA7282 => da728x::Variant::DA7282,
    }
}

/// A number that is in the range in nine of ten cases, often at its ends, else mostly next to it.
pub fn near(random: &mut Random, low: u16, high: u16) -> u16 {
    match random.below(100) {
        0..60 => random.within(low.into(), high.into()) as u16,
        60..92 => random.pick(&[low, low + 1, low + 2, high - 2, high - 1, high]),
        92..98 => random.pick(&[low - 1, low - 2, high + 1, high + 2]),
        98 => random.pick(&[0, 1, 255, 256, 32767, 32768, 65534, 65535]),
        _ => word(random),
    }
}

/// The limits are 5990 and 6000; 0 is accepted.
fn voltage(random: &mut Random) -> u16 {
    match random.below(100) {
        0..3 => random.within(5991, 6000) as u16,
        3..5 => random.pick(&[6001, 6002, 65535]),
        5..25 => random.pick(&[0, 1, 23, 24, 5966, 5967, 5988, 5989, 5990]),
        _ => near(random, 2, 5988),
    }
}

/// Every step of both codes of TRIM4 is an edge.
fn inductance(random: &mut Random) -> u16 {
    match random.below(100) {
        0..40 => random.below(300) as u16,
        40..60 => random.pick(&[0, 12, 13, 14, 16, 17, 18, 26, 27, 28, 39, 40, 41]),
        60..90 => (13 + 25 * random.within(1, 11) + random.below(3) - 1) as u16,
        _ => word(random),
    }
}

fn word(random: &mut Random) -> u16 {
    random.below(65536) as u16
}

fn trigger(sequence_id: u8, random: &mut Random) -> TriggerConfig {
    TriggerConfig { sequence_id, polarity: random.pick(&POLARITIES), mode: random.pick(&MODES) }
}

fn any_trigger(random: &mut Random) -> Option<TriggerConfig> {
    let number = match random.below(100) {
        0..5 => random.pick(&[16, 17, 31, 32, 128, 255]),
        5..45 => random.pick(&[0, 1, 7, 8, 14, 15]),
        _ => random.below(16) as u8,
    };
    let trigger = trigger(number, random);
    random.chance(45).then_some(trigger)
}
