//! Every point, against the published Rust.

use harness::{compared, oracle};
use yambelugo::PwlPoint;

#[test]
fn every_ramp_and_step() {
    let mut cases = 0;
    for timebases in 0..=255 {
        for amplitude in 0..=255 {
            let made = [PwlPoint::ramp(timebases, amplitude), PwlPoint::step(timebases, amplitude)];
            let wanted = [
                da728x::waveform::PwlPoint::ramp(timebases, amplitude),
                da728x::waveform::PwlPoint::step(timebases, amplitude),
            ];
            for (made, wanted) in made.into_iter().zip(wanted) {
                let made = made.map(PwlPoint::as_byte).map_err(|error| error.number());
                let wanted = wanted.map(|it| it.as_byte()).map_err(|it| oracle::number(&it));
                assert_eq!(made, wanted, "length {timebases}, amplitude {amplitude}");
                cases += 1;
            }
        }
    }
    compared("ramps and steps", cases, 2 * 256 * 256);
}

#[test]
fn every_byte() {
    let mut cases = 0;
    for byte in 0..=255_u8 {
        let wanted = oracle::point(byte);
        let make = if wanted.is_ramp() { PwlPoint::ramp } else { PwlPoint::step };
        let made = make(wanted.timebases(), wanted.amplitude()).unwrap();
        assert_eq!(made.as_byte(), byte);
        assert_eq!(made.is_ramp(), wanted.is_ramp(), "{byte:02X}");
        assert_eq!(made.timebases(), wanted.timebases(), "{byte:02X}");
        assert_eq!(made.amplitude(), wanted.amplitude(), "{byte:02X}");
        cases += 1;
    }
    compared("bytes of points", cases, 256);
}
