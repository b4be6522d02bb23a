//! Images that the library builds, and damaged ones, for whatever takes an image.

use crate::generate::{list, with_noise};
use crate::images::{Lists, added};
use crate::patterns::KINDS;
use crate::random::Random;
use yambelugo::IMAGE;

/// An image that the library builds, and what was added to it.
pub fn built(random: &mut Random) -> ([u8; IMAGE], Lists) {
    loop {
        let generate = random.pick(&[KINDS[0], KINDS[0], KINDS[1], KINDS[2], KINDS[3]]).1;
        let calls = with_noise(generate(random), random);
        let list = list(&calls, random);
        let mut image = [0; IMAGE];
        if yambelugo::assemble(&list, &mut image).is_ok() {
            let mut answers = vec![0; calls.len()];
            yambelugo::answers(&list, &mut answers);
            return (image, added(&calls, &answers));
        }
    }
}

/// This image with another value in so many of its bytes, or in fewer where the same is hit twice.
pub fn damaged(image: &[u8; IMAGE], bytes: usize, random: &mut Random) -> [u8; IMAGE] {
    let mut other = *image;
    for _ in 0..bytes {
        let at = byte_of(image, random);
        other[at] = another(other[at], random);
    }
    other
}

/// A value for a byte that holds another.
fn another(byte: u8, random: &mut Random) -> u8 {
    let value = match random.below(5) {
        0 => byte.wrapping_add(1),
        1 => byte.wrapping_sub(1),
        2 => byte ^ 1 << random.below(8),
        3 => random.byte(),
        _ => random.pick(&[0, 1, 15, 16, 17, 99, 100, 128, 130, 255]),
    };
    if value == byte { !byte } else { value }
}

/// A byte of an image: often in the header, else mostly in the data.
fn byte_of(image: &[u8; IMAGE], random: &mut Random) -> usize {
    let header = 2 + usize::from(image[0]) + usize::from(image[1]);
    let last = usize::from(image[header - 1]);
    match random.below(20) {
        0..8 => random.below(header),
        8..17 => random.within(header, (last + 1).min(99)),
        _ => random.below(IMAGE),
    }
}
