//! The exported functions, with what the header lists for each.

/// Counts where there is nothing to tell: no such point or frame, a session that has ended, one that is not completed, a value that comes
/// from no setting.
pub const NOTHING: u64 = 31;

/// Added to a refusal of `build` or of the buffer, where those of calls are told too.
pub const OF_BUILD: u64 = 32;

/// Columns of a tally: done, the refusals 1 to 30, nothing to tell, and the refusals again for `build` and the buffer.
pub const OUTCOMES: usize = 64;

macro_rules! functions {
    ($($name:ident: $($number:expr),*;)*) => {
        #[allow(non_camel_case_types)]
        #[derive(Clone, Copy, Debug, PartialEq)]
        pub enum Function { $($name),* }

        /// Each function, its name, and every number that it can tell: 0 where it is done.
        pub const FUNCTIONS: [(Function, &str, &[u64]); 50] =
            [$((Function::$name, stringify!($name), &[$($number),*])),*];
    };
}

functions! {
    da728x_point: 0, 1, 2;
    da728x_point_is_ramp: 0;
    da728x_point_timebases: 0;
    da728x_point_amplitude: 0;
    da728x_snippet: 0, 9, 24;
    da728x_frame: 0, 3, 24;
    da728x_sequence: 0, 10, 24;
    da728x_current_len: 0;
    da728x_answers: 0;
    da728x_assemble_strict: 0, 1, 2, 3, 4, 5, 6, 7, 8, 9, 10, 14, OF_BUILD + 8, OF_BUILD + 9, OF_BUILD + 10,
        OF_BUILD + 24;
    da728x_assemble: 0, 8, 9, 10, 24;
    da728x_read_counts: 0, 18;
    da728x_read_point: 0, 18, NOTHING;
    da728x_read_frame: 0, 18, NOTHING;
    da728x_read_lists: 0, 18, 24;
    da728x_page: 0, 18, 24;
    da728x_merge: 0, 6, 7, 8, 18, 24, 25;
    da728x_register_addresses: 0;
    da728x_read_interrupts: 0;
    da728x_read_actuator: 0;
    da728x_read_control: 0;
    da728x_read_trigger: 0;
    da728x_replace_interrupts: 0;
    da728x_replace_actuator: 0;
    da728x_replace_control: 0;
    da728x_replace_trigger: 0;
    da728x_new: 0;
    da728x_configure: 0, 11, 12, 13, 14, 21, 22, 23;
    da728x_get_chip_rev: 0;
    da728x_get_events: 0;
    da728x_get_status: 0;
    da728x_set_frequency: 0, 15, 23;
    da728x_set_override_value: 0, 11, 12, 15;
    da728x_set_timebase: 0;
    da728x_enable: 0, 15;
    da728x_disable: 0, 15;
    da728x_set_custom_drive_waveform: 0, 12, 15;
    da728x_unlock_waveform_memory: 0;
    da728x_lock_waveform_memory: 0;
    da728x_upload_waveform_memory: 0, 8;
    da728x_read_waveform_memory: 0;
    da728x_select_sequence: 0, 11, 28;
    da728x_start_sequence: 0;
    da728x_play_sequence: 0, 11, 28;
    da728x_pending: 0, NOTHING;
    da728x_answer: 0, 16, 17, 19;
    da728x_result: 0, NOTHING;
    da728x_voltage_settings: 0;
    da728x_current_settings: 0, NOTHING;
    da728x_frequency_settings: 0, NOTHING;
}

impl Function {
    pub fn name(self) -> &'static str {
        FUNCTIONS[self as usize].1
    }

    pub fn listed(self) -> &'static [u64] {
        FUNCTIONS[self as usize].2
    }
}

/// What a builder call answers, by its code; other codes are no call, as 0 is, and neither is a gain or a timebase above 3.
const CALLS: [&[u8]; 15] = [
    &[14],
    &[0],
    &[0, 1, 2, 6],
    &[0, 1, 2, 6],
    &[0, 6],
    &[0, 3],
    &[0],
    &[0, 3],
    &[0, 3],
    &[0, 3, 4],
    &[0, 3, 5],
    &[0],
    &[0, 3, 7, 8],
    &[0, 6, 9],
    &[0, 7, 10],
];

/// How many calls were made, by function and outcome, and what builder calls answered.
pub struct Tally {
    functions: [[u64; OUTCOMES]; FUNCTIONS.len()],
    calls: [[u64; OUTCOMES]; CALLS.len()],
    /// Exchanges, and sessions that were answered properly until they ended.
    pub exchanges: u64,
    pub finished: u64,
    /// Records that were made, and those that settings were stored in; and records that stayed at the last answer of `configure`.
    pub made: u64,
    pub stored: u64,
    pub spared: u64,
    /// Counts of sequences that changed: to 0 by the start of an upload, to 0 by an answer to one, and to what was uploaded.
    pub begun: u64,
    pub emptied: u64,
    pub loaded: u64,
}

impl Tally {
    pub fn new() -> Self {
        Self {
            functions: [[0; OUTCOMES]; FUNCTIONS.len()],
            calls: [[0; OUTCOMES]; CALLS.len()],
            exchanges: 0,
            finished: 0,
            made: 0,
            stored: 0,
            spared: 0,
            begun: 0,
            emptied: 0,
            loaded: 0,
        }
    }

    /// Counts what a function told; it has to be listed.
    pub fn count(&mut self, function: Function, told: u64) {
        let name = function.name();
        assert!(function.listed().contains(&told), "{name} tells {told}, which is not listed");
        self.functions[function as usize][told as usize] += 1;
    }

    /// Counts what a record of 1 to 4 bytes answered; it has to be listed.
    pub fn count_call(&mut self, record: &[u8], told: u8) {
        let code = match record {
            [7 | 8, 4..=255, _, _] => 0,
            [code @ 0..15, _, _, _] => usize::from(*code),
            _ => 0,
        };
        assert!(CALLS[code].contains(&told), "{record:?} answers {told}, which is not listed");
        self.calls[code][usize::from(told)] += 1;
    }

    pub fn calls(&self) -> u64 {
        self.functions.as_flattened().iter().sum()
    }

    pub fn of(&self, function: Function) -> u64 {
        self.functions[function as usize].iter().sum()
    }

    /// Every function was called and told all that is listed for it, and so did the builder calls.
    pub fn assert_all_seen(&self) {
        for (function, name, listed) in FUNCTIONS {
            for told in listed {
                let seen = self.functions[function as usize][*told as usize];
                assert!(seen > 0, "{name}: {told} was not seen");
            }
        }
        for (code, listed) in CALLS.iter().enumerate() {
            for told in *listed {
                let seen = self.calls[code][usize::from(*told)];
                assert!(seen > 0, "builder call {code}: {told} was not seen");
            }
        }
        assert!(self.finished > 0 && self.exchanges > 0, "no session ended");
        assert!(self.made > 0 && self.stored > 0 && self.spared > 0, "no record was written");
        let counts = [self.begun, self.emptied, self.loaded];
        assert!(counts.iter().all(|it| *it > 0), "counts of sequences: {counts:?}");
    }

    /// The tally as lines of text.
    pub fn lines(&self) -> Vec<String> {
        let row = |seen: &[u64; OUTCOMES]| {
            let outcomes = seen.iter().enumerate().filter(|(_, seen)| **seen > 0);
            let outcomes = outcomes.map(|(told, seen)| match told {
                0 => format!("done {seen}"),
                _ if told as u64 == NOTHING => format!("nothing {seen}"),
                _ if told as u64 > NOTHING => {
                    format!("at place 0 {}: {seen}", told as u64 - OF_BUILD)
                }
                _ => format!("{told}: {seen}"),
            });
            outcomes.collect::<Vec<_>>().join(", ")
        };
        let functions = FUNCTIONS.iter().map(|(function, name, _)| {
            let seen = &self.functions[*function as usize];
            format!("{name:34} {:>9}  {}", self.of(*function), row(seen))
        });
        let calls = self.calls.iter().enumerate().filter(|(_, seen)| seen.iter().sum::<u64>() > 0);
        let calls = calls.map(|(code, seen)| match code {
            0 => format!("records that are no builder call: {}", row(seen)),
            _ => format!("builder call {code}: {}", row(seen)),
        });
        functions.chain(calls).collect()
    }
}

impl Default for Tally {
    fn default() -> Self {
        Self::new()
    }
}
