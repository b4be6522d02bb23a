//! Where the choices come from: a seed, or the bytes that a fuzzer tries.

use super::rooms::Place;
use crate::random::Random;

/// Lengths at and next to those that the header names, and a little more.
const LENGTHS: [usize; 20] =
    [0, 1, 2, 3, 4, 5, 32, 33, 34, 37, 38, 39, 42, 99, 100, 101, 279, 280, 281, 600];

/// Numbers that a length or an index may be mistaken for.
const NUMBERS: [usize; 16] = [
    0,
    1,
    2,
    15,
    16,
    32,
    99,
    100,
    101,
    255,
    256,
    1 << 16,
    1 << 32,
    usize::MAX / 2,
    usize::MAX - 1,
    usize::MAX,
];

pub struct Choices<'a> {
    random: Random,
    /// What is left of the fuzzer's bytes.
    tape: Option<&'a [u8]>,
    /// Every slice in a heap block of its own, for a memory checker.
    exact: bool,
}

impl<'a> Choices<'a> {
    pub fn seeded(seed: u64, exact: bool) -> Self {
        Self { random: Random::new(seed), tape: None, exact }
    }

    pub fn taped(tape: &'a [u8]) -> Self {
        Self { random: Random::new(0), tape: Some(tape), exact: true }
    }

    /// Whether the fuzzer's bytes are used up.
    pub fn ended(&self) -> bool {
        self.tape.is_some_and(|tape| tape.is_empty())
    }

    pub fn is_taped(&self) -> bool {
        self.tape.is_some()
    }

    /// For what is made by the harness's generators of random input.
    pub fn random(&mut self) -> &mut Random {
        if self.is_taped() {
            let seed = [self.byte(), self.byte()];
            self.random = Random::new(u16::from_le_bytes(seed).into());
        }
        &mut self.random
    }

    pub fn byte(&mut self) -> u8 {
        match &mut self.tape {
            None => self.random.byte(),
            Some(tape) => match tape.split_first() {
                Some((first, rest)) => {
                    *tape = rest;
                    *first
                }
                None => 0,
            },
        }
    }

    pub fn below(&mut self, bound: usize) -> usize {
        if !self.is_taped() {
            return self.random.below(bound);
        }
        let low = usize::from(self.byte());
        if bound <= 256 { low % bound } else { (256 * usize::from(self.byte()) + low) % bound }
    }

    pub fn chance(&mut self, percent: usize) -> bool {
        self.below(100) < percent
    }

    pub fn pick<T: Copy>(&mut self, from: &[T]) -> T {
        from[self.below(from.len())]
    }

    pub fn len(&mut self) -> usize {
        match self.below(20) {
            0..13 => self.pick(&LENGTHS),
            13..18 => self.below(48),
            18 => self.below(700),
            _ => self.below(5000),
        }
    }

    /// This length in most cases.
    pub fn len_near(&mut self, usual: usize) -> usize {
        match self.below(20) {
            0..16 => usual,
            16 => usual + 1,
            17 => usual.saturating_sub(1),
            _ => self.len(),
        }
    }

    /// A length or an index as a number, also a huge one.
    pub fn number(&mut self) -> usize {
        match self.below(10) {
            0 => self.pick(&NUMBERS),
            1 => usize::from_le_bytes(std::array::from_fn(|_| self.byte())),
            2 | 3 => self.below(40),
            _ => self.below(3),
        }
    }

    pub fn bytes(&mut self, len: usize) -> Vec<u8> {
        match self.below(8) {
            0 => vec![0; len],
            1 => vec![255; len],
            _ => {
                let mut bytes = vec![0; len];
                self.fill(&mut bytes);
                bytes
            }
        }
    }

    pub fn fill(&mut self, bytes: &mut [u8]) {
        if self.is_taped() {
            return bytes.iter_mut().for_each(|byte| *byte = self.byte());
        }
        for word in bytes.chunks_mut(8) {
            let random = self.random.below(usize::MAX).to_le_bytes();
            word.copy_from_slice(&random[..word.len()]);
        }
    }

    /// Alters some bytes, mostly to ones near a limit.
    pub fn forge(&mut self, bytes: &mut [u8]) {
        for _ in 0..1 + self.below(6) {
            if bytes.is_empty() {
                return;
            }
            let front = bytes.len().min(17);
            let at = if self.chance(50) { self.below(front) } else { self.below(bytes.len()) };
            bytes[at] = match self.below(3) {
                0 => self.byte(),
                1 => bytes[at] ^ 1 << self.below(8),
                _ => self.pick(&[0, 1, 2, 5, 25, 26, 99, 100, 101, 124, 125, 126, 254, 255]),
            };
        }
    }

    pub fn place(&mut self, len: usize) -> Place {
        if len == 0 && self.chance(50) {
            return Place::Null;
        }
        if self.exact {
            return Place::Exact;
        }
        match self.below(8) {
            0..3 => Place::Marked(self.below(8)),
            3..5 => Place::BeforeFence,
            5 => Place::BehindFence,
            _ => Place::Exact,
        }
    }
}
