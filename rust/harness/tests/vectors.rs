//! Document 01's checked examples of points, frames, sequences and settings, as written there.

use harness::driver::record_bytes;
use harness::settings::Settings;
use harness::{compared, encoded};
use yambelugo::{Call, DA728x, DrivingMode, Error, Gain, OperationMode, PwlPoint};
use yambelugo::{Reply, Session, Timebase, Variant};

#[test]
fn points() {
    let byte = |point: Result<PwlPoint, Error>| point.map(PwlPoint::as_byte);
    assert_eq!(byte(PwlPoint::ramp(3, 10)), Ok(0xAA));
    assert_eq!(byte(PwlPoint::step(1, 0)), Ok(0x00));
    assert_eq!(byte(PwlPoint::ramp(8, 15)), Ok(0xFF));
    for length in [0, 9] {
        assert_eq!(byte(PwlPoint::ramp(length, 0)).map_err(Error::number), Err(1));
        assert_eq!(byte(PwlPoint::step(length, 16)).map_err(Error::number), Err(1));
    }
}

#[test]
fn frames() {
    let half = [
        Call::FrameNew(3),
        Call::Gain(Gain::Half),
        Call::Timebase(Timebase::Ms43_52),
        Call::LoopCount(2),
        Call::FrequencyHz(300),
    ];
    let rows: [(&[Call], u8, &[u8]); 7] = [
        (&[Call::FrameNew(9)], 0, &[0x01, 0x81]),
        (&[Call::FrameNew(9), Call::LoopCount(0)], 0, &[0x01, 0x81]),
        (&[Call::FrameNew(1)], 0, &[0x01]),
        (&[Call::FrameNew(1), Call::LoopCount(0)], 0, &[0x01, 0x80]),
        (&half, 0, &[0x33, 0x96, 0x2C]),
        (&[Call::FrameNew(1), Call::FrequencyHz(511)], 0, &[0x01, 0x86, 0xFF]),
        (&[Call::FrameNew(1), Call::FrequencyHz(512)], 5, &[0x01]),
    ];
    let mut cases = 0;
    for (calls, answer, bytes) in rows {
        let (list, mut answers, mut out) = (encoded(calls), [0; 5], [0; 3]);
        yambelugo::answers(&list, &mut answers);
        let copied = yambelugo::frame(&list, &mut out).unwrap();
        assert_eq!((answers[calls.len() - 1], &out[..copied]), (answer, bytes), "{calls:?}");
        cases += 1;
    }
    compared("examples of frames", cases, 7);
}

/// A 33rd frame: 8 after 96 bytes, 7 after 95 or fewer if it fits.
#[test]
fn a_33rd_frame() {
    let (one, two) = (Call::FrameNew(1), Call::LoopCount(0));
    // The bytes of the 32 frames, the calls that make the 33rd, and its answer.
    let rows: [(usize, &[Call], u8); 6] = [
        (96, &[one], 8),
        (95, &[one], 7),
        (95, &[one, two], 8),
        (94, &[one, two], 7),
        (94, &[one, Call::FrequencyHz(0)], 8),
        (32, &[one, Call::FrequencyHz(0)], 7),
    ];
    let mut cases = 0;
    for (bytes, last, answer) in rows {
        let (threes, twos) = ((bytes - 32) / 2, (bytes - 32) % 2);
        let mut calls = [one, Call::FrequencyHz(0), Call::AddFrame].repeat(threes);
        calls.extend([one, two, Call::AddFrame].repeat(twos));
        calls.extend([one, Call::AddFrame].repeat(32 - threes - twos));
        calls.extend(last);
        calls.push(Call::AddFrame);

        let (list, mut answers) = (encoded(&calls), vec![0; calls.len()]);
        assert_eq!(yambelugo::current_len(&list), bytes);
        assert_eq!(yambelugo::answers(&list, &mut answers), calls.len());
        assert_eq!(answers.pop(), Some(answer), "after {bytes} bytes");
        assert!(answers.iter().all(|answer| *answer == 0));
        cases += 1;
    }
    compared("33rd frames", cases, 6);
}

/// What a session writes to these registers, where all registers read 0.
fn written<const N: usize>(mut session: Session<'_>, registers: [u8; N]) -> [u8; N] {
    let mut written = [None; 256];
    while let Some(exchange) = session.pending() {
        if let [register, value] = *exchange.bytes() {
            written[usize::from(register)] = Some(value);
        }
        let reply = if exchange.wanted() { Reply::Byte(0) } else { Reply::Done };
        session.answer(reply, &mut []).unwrap();
    }
    registers.map(|register| written[usize::from(register)].expect("a write to this register"))
}

/// 5990 mV gives 255, 2500 gives 106; 29 mA gives 0, 252 gives 31, 165 gives 18; 8000 mOhm at IMAX 18: V2I 109; 170 Hz: parts 34
/// and 59; override -1 sends FF, -128 sends 80; 8 ohms, 50 uH: TRIM4 02; DA7281 with two triggers: 14.
#[test]
fn settings() {
    let plain = Settings::plain(OperationMode::DRO_MODE, DrivingMode::FREQUENCY_TRACK);
    let mut driver = DA728x::from_bytes(record_bytes(0x4A, Variant::DA7281, Some(&plain), 0));
    let mut volts_and_current = |absolute, current| {
        let mut actuator = plain.actuator;
        (actuator.absolute_max_mV, actuator.max_current_mA) = (absolute, current);
        written(driver.configure(actuator, plain.device).unwrap(), [0x0C, 0x0D, 0x0E])
    };
    assert_eq!(volts_and_current(5990, 29), [106, 255, 0]);
    assert_eq!(volts_and_current(2500, 252), [106, 106, 31]);
    assert_eq!(volts_and_current(2500, 165), [106, 106, 18]);

    let session = driver.configure(plain.actuator, plain.device).unwrap();
    assert_eq!(written(session, [0x0F, 0x10, 0x0A, 0x0B, 0x60]), [0, 109, 34, 59, 0x02]);
    assert_eq!(written(driver.set_frequency(170).unwrap(), [0x0A, 0x0B]), [34, 59]);
    assert_eq!(written(driver.set_override_value(-1).unwrap(), [0x23]), [0xFF]);
    assert_eq!(written(driver.set_override_value(-128).unwrap(), [0x23]), [0x80]);

    let mut two = Settings::plain(OperationMode::ETWM_MODE, DrivingMode::WIDEBAND);
    two.device.gpi_triggers[2] = two.device.gpi_triggers[0];
    assert_eq!(driver.configure(two.actuator, two.device), Err(Error::NotSupported));
}
