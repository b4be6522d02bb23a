//! Makes a call: lends its slices, and looks at what is left of them and around them.

use super::choices::Choices;
use super::functions::{Function, Tally};
use super::rooms::Room;

/// A slice of a call: one that has to stay, or one that may be written.
pub struct Slice<'a> {
    bytes: &'a [u8],
    stays: bool,
}

pub fn shown(bytes: &[u8]) -> Slice<'_> {
    Slice { bytes, stays: true }
}

pub fn lent(bytes: &[u8]) -> Slice<'_> {
    Slice { bytes, stays: false }
}

/// A fault that is put into each call of a function, to see that it is noticed.
#[derive(Clone, Copy, Debug)]
pub struct Fault {
    pub function: Function,
    pub kind: FaultKind,
}

#[derive(Clone, Copy, Debug)]
pub enum FaultKind {
    /// Another byte before, at the front of, at the end of, or behind the slice of this number.
    Before(usize),
    Front(usize),
    End(usize),
    Behind(usize),
    /// Another answer.
    Answer(u64),
}

#[derive(Default)]
pub struct Hands {
    rooms: [Room; 3],
    pub tally: Tally,
    pub fault: Option<Fault>,
    /// Prints each call before it is made.
    pub trace: bool,
    /// How many faults were put in.
    pub faults: u64,
}

impl Hands {
    /// Lends the slices and runs the call: markers and slices that are only shown have to stay.
    pub fn call<const N: usize>(
        &mut self,
        function: Function,
        choices: &mut Choices,
        slices: [Slice; N],
        run: impl FnOnce([(*mut u8, usize); N]) -> u64,
    ) -> u64 {
        let mut at = [(std::ptr::null_mut(), 0); N];
        for ((slice, room), at) in slices.iter().zip(&mut self.rooms).zip(&mut at) {
            let place = choices.place(slice.bytes.len());
            *at = (room.lend(slice.bytes, place), slice.bytes.len());
            if self.trace {
                eprintln!(
                    "{} {} {place:?} {:02X?}",
                    function.name(),
                    slice.bytes.len(),
                    slice.bytes
                );
            }
        }
        let mut told = run(at);
        if let Some(fault) = self.fault.filter(|fault| fault.function == function) {
            self.put_in(fault.kind, N, &mut told);
        }
        for (slice, room) in slices.iter().zip(&self.rooms) {
            assert!(room.is_whole(), "{} wrote outside a slice", function.name());
            if slice.stays {
                assert!(room.before() == room.after(), "{} wrote a const slice", function.name());
            }
        }
        told
    }

    /// Puts a fault into a call with so many slices, where it can be.
    fn put_in(&mut self, kind: FaultKind, slices: usize, told: &mut u64) {
        let mut damage = |slice: usize, at: fn(isize) -> Option<isize>| {
            let room = self.rooms[..slices].get_mut(slice);
            room.is_some_and(|room| {
                at(room.before().len() as isize).is_some_and(|at| room.damage(at))
            })
        };
        let done = match kind {
            FaultKind::Before(slice) => damage(slice, |_| Some(-1)),
            FaultKind::Front(slice) => damage(slice, |len| (len > 0).then_some(0)),
            FaultKind::End(slice) => damage(slice, |len| (len > 0).then_some(len - 1)),
            FaultKind::Behind(slice) => damage(slice, Some),
            FaultKind::Answer(other) => std::mem::replace(told, other) != other,
        };
        self.faults += u64::from(done);
    }

    /// What a slice held before the last call, and what is left of it.
    pub fn slice(&self, number: usize) -> (&[u8], &[u8]) {
        (self.rooms[number].before(), self.rooms[number].after())
    }

    /// Only so many bytes at the front of a slice may have changed.
    pub fn assert_rest_stays(&self, function: Function, number: usize, front: usize) {
        let (before, after) = self.slice(number);
        let front = front.min(before.len());
        assert!(before[front..] == after[front..], "{} wrote too much", function.name());
    }
}
