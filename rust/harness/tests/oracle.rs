//! The oracle is built as the comparison needs it.

use da728x::config::{ActuatorConfig, ActuatorType, DeviceConfig, DrivingMode, OperationMode};
use da728x::{DA728x, Variant};
use harness::bus::{Bus, Script, Wire, at_once};
use std::cell::RefCell;
use std::rc::Rc;

/// `configure` multiplies 8000 by 1000 in a u16, which panics in a build with overflow checks.
#[test]
fn overflow_checks_are_off() {
    let actuator = ActuatorConfig {
        actuator_type: ActuatorType::LRA,
        nominal_max_mV: 2500,
        absolute_max_mV: 3500,
        max_current_mA: 165,
        impedance_mOhm: 8000,
        inductance_uH: 50,
        frequency_Hz: 170,
        pid_Kp_Ki: None,
    };
    let device = DeviceConfig {
        operation_mode: OperationMode::DRO_MODE,
        driving_mode: DrivingMode::FREQUENCY_TRACK,
        gpi_triggers: [None; 3],
        acceleration: true,
        rapid_stop: false,
    };
    let bus = Bus(Rc::new(RefCell::new(Wire::new(&Script::reading(&[0xBA])))));
    let mut driver = at_once(DA728x::new(bus, 0x4A, Variant::DA7280)).unwrap();
    at_once(driver.configure(actuator, device)).unwrap();
}
