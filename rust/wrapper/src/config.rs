//! The settings of an actuator and of the chip.

/// The chip of the family.
#[derive(Debug, Clone, Copy, PartialEq, Eq)]
#[repr(u8)]
pub enum Variant {
    /// CHIP_REV reads BA.
    DA7280 = 0,
    /// CHIP_REV reads CA; at most one trigger.
    DA7281 = 1,
    /// CHIP_REV reads DA.
    DA7282 = 2,
}

/// What the actuator is and bears: the words of its datasheet.
///
/// ```
/// # use yambelugo::{ActuatorConfig, ActuatorType};
/// const ACTUATOR: ActuatorConfig = ActuatorConfig {
///     actuator_type: ActuatorType::LRA,
///     nominal_max_mV: 2500,
///     absolute_max_mV: 3500,
///     max_current_mA: 165,
///     impedance_mOhm: 8000,
///     inductance_uH: 50,
///     frequency_Hz: 170,
///     pid_Kp_Ki: None,
/// };
/// # assert_eq!(ACTUATOR.encode()[1..3], [0xC4, 0x09]);
/// ```
#[allow(non_snake_case)]
#[derive(Debug, Clone, Copy, PartialEq, Eq)]
pub struct ActuatorConfig {
    /// The kind of actuator.
    pub actuator_type: ActuatorType,
    /// The nominal voltage, at most 5990 mV.
    pub nominal_max_mV: u16,
    /// The absolute voltage, at most 5990 mV.
    pub absolute_max_mV: u16,
    /// The current, 29 to 252 mA.
    pub max_current_mA: u16,
    /// The impedance, 4000 to 49999 mOhm.
    pub impedance_mOhm: u16,
    /// The inductance in uH.
    pub inductance_uH: u16,
    /// The resonant frequency, 50 to 300 Hz when tracking, else 25 to 1024 Hz.
    pub frequency_Hz: u16,
    /// The PID words Kp and Ki, of which the low 15 bits count.
    pub pid_Kp_Ki: Option<(u16, u16)>,
}

/// The kind of actuator.
#[derive(Debug, Clone, Copy, PartialEq, Eq)]
#[repr(u8)]
pub enum ActuatorType {
    /// A linear resonant actuator.
    LRA = 0,
    /// An eccentric rotating mass.
    ERM = 1,
}

/// The mode of a trigger: bit 2 of its GPI register. What the chip does with it is in the datasheet.
#[derive(Debug, Clone, Copy, PartialEq, Eq)]
#[repr(u8)]
pub enum TriggerMode {
    /// The bit is 0.
    SingleSequence = 0,
    /// The bit is 1.
    MultiSequence = 1,
}

/// The edge that a trigger acts on.
#[derive(Debug, Clone, Copy, PartialEq, Eq)]
#[repr(u8)]
pub enum TriggerPolarity {
    /// The rising edge.
    Rising = 0,
    /// The falling edge.
    Falling = 1,
    /// Both edges.
    Both = 2,
}

/// A trigger, which a pin of the chip gives in ETWM mode. `configure` writes it to the pin's GPI register: the polarity in bits 0
/// and 1, the mode in bit 2, the sequence number in bits 3 to 6.
///
/// ```
/// # use yambelugo::*;
/// # let actuator = ActuatorConfig {
/// #     actuator_type: ActuatorType::LRA,
/// #     nominal_max_mV: 2500,
/// #     absolute_max_mV: 3500,
/// #     max_current_mA: 165,
/// #     impedance_mOhm: 8000,
/// #     inductance_uH: 50,
/// #     frequency_Hz: 170,
/// #     pid_Kp_Ki: None,
/// # };
/// # let mut driver = DA728x::from_bytes([0; RECORD]);
/// /// A button that always starts sequence 5.
/// const BUTTON: TriggerConfig = TriggerConfig {
///     sequence_id: 5,
///     polarity: TriggerPolarity::Rising,
///     mode: TriggerMode::SingleSequence,
/// };
/// let device = DeviceConfig {
///     operation_mode: OperationMode::ETWM_MODE,
///     driving_mode: DrivingMode::FREQUENCY_TRACK,
///     gpi_triggers: [Some(BUTTON), None, None],
///     acceleration: false,
///     rapid_stop: false,
/// };
/// let mut last = Vec::new();
/// let bus = |exchange: Exchange| {
///     last = exchange.bytes().to_vec();
///     exchange.reply(Ok(0))
/// };
/// driver.configure(actuator, device)?.run(bus, &mut [])?;
/// assert_eq!(last, [0x29, 0x28]); // MultiSequence would be 2C
/// # Ok::<(), Box<dyn std::error::Error>>(())
/// ```
#[derive(Debug, Clone, Copy, PartialEq, Eq)]
pub struct TriggerConfig {
    /// The sequence that it plays, 0 to 15. That the image has it is not checked.
    pub sequence_id: u8,
    /// The edge that it acts on.
    pub polarity: TriggerPolarity,
    /// Its mode bit.
    pub mode: TriggerMode,
}

/// How the chip is run.
///
/// ```
/// # use yambelugo::*;
/// /// The falling edge of the second pin plays sequence 3.
/// const ON_A_PIN: DeviceConfig = DeviceConfig {
///     operation_mode: OperationMode::ETWM_MODE,
///     driving_mode: DrivingMode::FREQUENCY_TRACK,
///     gpi_triggers: [
///         None,
///         Some(TriggerConfig {
///             sequence_id: 3,
///             polarity: TriggerPolarity::Falling,
///             mode: TriggerMode::SingleSequence,
///         }),
///         None,
///     ],
///     acceleration: false,
///     rapid_stop: false,
/// };
/// # assert_eq!(ON_A_PIN.encode(), [4, 0, 0, 0, 0, 0, 1, 3, 1, 0, 0, 0, 0, 0, 0, 0]);
/// ```
#[derive(Debug, Clone, Copy, PartialEq, Eq)]
pub struct DeviceConfig {
    /// What the chip plays.
    pub operation_mode: OperationMode,
    /// How it drives the actuator.
    pub driving_mode: DrivingMode,
    /// The triggers of its three pins: in ETWM mode at least one, on the DA7281 at most one. One that is not given is not turned off:
    /// what an earlier `configure` wrote stays in its register.
    pub gpi_triggers: [Option<TriggerConfig>; 3],
    /// Active acceleration, only when tracking.
    pub acceleration: bool,
    /// Rapid stop, which is not supported: it has to be off.
    pub rapid_stop: bool,
}

/// What the chip plays.
#[allow(non_camel_case_types)]
#[derive(Debug, Clone, Copy, PartialEq, Eq)]
#[repr(u8)]
pub enum OperationMode {
    /// Nothing.
    INACTIVE = 0,
    /// The override value.
    DRO_MODE = 1,
    /// What a PWM input gives.
    PWM_MODE = 2,
    /// A sequence of the waveform memory that is started over the bus.
    RTWM_MODE = 3,
    /// A sequence of the waveform memory that a trigger starts.
    ETWM_MODE = 4,
}

/// How the chip drives the actuator.
#[allow(non_camel_case_types)]
#[derive(Debug, Clone, Copy, PartialEq, Eq)]
#[repr(u8)]
pub enum DrivingMode {
    /// At the actuator's resonance, which is tracked.
    FREQUENCY_TRACK = 0,
    /// At a frequency that is set.
    WIDEBAND = 1,
    /// With a waveform that is set
    /// ([`set_custom_drive_waveform`](crate::DA728x::set_custom_drive_waveform)).
    CUSTOM_WAVEFORM = 2,
}

/// How long the four timebases of frames ([`Timebase`](crate::Timebase)) are.
#[allow(non_camel_case_types)]
#[derive(Debug, Clone, Copy, PartialEq, Eq)]
#[repr(u8)]
pub enum WaveformMemoryTimebase {
    /// 5.44, 21.76, 43.52 and 87.04 ms.
    TIMEBASE_544_2176_4352_8704 = 0,
    /// 1.36, 5.44, 21.76 and 43.52 ms.
    TIMEBASE_136_544_2176_4352 = 1,
}

impl ActuatorConfig {
    /// The first 18 bytes of settings, laid out as the C header says; they stand at 3 in a
    /// configured record's bytes.
    pub const fn encode(self) -> [u8; 18] {
        let [n0, n1] = self.nominal_max_mV.to_le_bytes();
        let [a0, a1] = self.absolute_max_mV.to_le_bytes();
        let [c0, c1] = self.max_current_mA.to_le_bytes();
        let [i0, i1] = self.impedance_mOhm.to_le_bytes();
        let [l0, l1] = self.inductance_uH.to_le_bytes();
        let [f0, f1] = self.frequency_Hz.to_le_bytes();
        let (given, kp, ki) = match self.pid_Kp_Ki {
            Some((kp, ki)) => (1, kp, ki),
            None => (0, 0, 0),
        };
        let ([p0, p1], [q0, q1]) = (kp.to_le_bytes(), ki.to_le_bytes());
        let kind = self.actuator_type as u8;
        [kind, n0, n1, a0, a1, c0, c1, i0, i1, l0, l1, f0, f1, given, p0, p1, q0, q1]
    }
}

impl TriggerConfig {
    /// The four bytes of a trigger, or of none.
    const fn encode(trigger: Option<Self>) -> [u8; 4] {
        match trigger {
            Some(it) => [1, it.sequence_id, it.polarity as u8, it.mode as u8],
            None => [0; 4],
        }
    }
}

impl DeviceConfig {
    /// The last 16 bytes of settings, laid out as the C header says; they stand at 21 in a
    /// configured record's bytes.
    pub const fn encode(self) -> [u8; 16] {
        let [first, second, third] = self.gpi_triggers;
        let [a0, a1, a2, a3] = TriggerConfig::encode(first);
        let [b0, b1, b2, b3] = TriggerConfig::encode(second);
        let [c0, c1, c2, c3] = TriggerConfig::encode(third);
        let (operation, driving) = (self.operation_mode as u8, self.driving_mode as u8);
        let (acceleration, stop) = (self.acceleration as u8, self.rapid_stop as u8);
        [operation, driving, a0, a1, a2, a3, b0, b1, b2, b3, c0, c1, c2, c3, acceleration, stop]
    }
}
