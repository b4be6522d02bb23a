//! The C functions as `include/da728x.h` declares them.

/// Runs calls and encodes what they build.
pub type Build = unsafe extern "C" fn(*const u8, usize, out: *mut u8, out_len: usize) -> u32;

/// Reads the fields of a group.
pub type Read = unsafe extern "C" fn(byte: u8, out: *mut u8, out_len: usize) -> usize;

/// Replaces the fields of a group.
pub type Replace = unsafe extern "C" fn(byte: u8, value: u8, out: *mut u8, out_len: usize) -> usize;

/// Starts an operation without arguments.
pub type Start = unsafe extern "C" fn(*const u8, usize, session: *mut u8, session_len: usize) -> u8;

// SAFETY: the header declares these types; the functions on numbers return on every input.
unsafe extern "C" {
    pub safe fn da728x_point(ramp: u8, timebases: u8, amplitude: u8) -> u16;
    pub safe fn da728x_point_is_ramp(byte: u8) -> u8;
    pub safe fn da728x_point_timebases(byte: u8) -> u8;
    pub safe fn da728x_point_amplitude(byte: u8) -> u8;

    pub fn da728x_snippet(calls: *const u8, calls_len: usize, out: *mut u8, out_len: usize) -> u32;
    pub fn da728x_frame(calls: *const u8, calls_len: usize, out: *mut u8, out_len: usize) -> u32;
    pub fn da728x_sequence(calls: *const u8, calls_len: usize, out: *mut u8, out_len: usize)
    -> u32;
    pub fn da728x_current_len(calls: *const u8, calls_len: usize) -> usize;
    pub fn da728x_answers(
        calls: *const u8,
        calls_len: usize,
        answers: *mut u8,
        answers_len: usize,
    ) -> usize;

    pub fn da728x_assemble_strict(
        calls: *const u8,
        calls_len: usize,
        image: *mut u8,
        image_len: usize,
    ) -> u32;
    pub fn da728x_assemble(
        calls: *const u8,
        calls_len: usize,
        image: *mut u8,
        image_len: usize,
    ) -> u8;
    pub fn da728x_read_counts(image: *const u8, image_len: usize) -> u32;
    pub fn da728x_read_point(
        image: *const u8,
        image_len: usize,
        snippet: usize,
        point: usize,
    ) -> u32;
    pub fn da728x_read_frame(
        image: *const u8,
        image_len: usize,
        sequence: usize,
        frame: usize,
    ) -> u64;
    pub fn da728x_read_lists(
        image: *const u8,
        image_len: usize,
        lists: *mut u8,
        lists_len: usize,
    ) -> u32;
    pub fn da728x_page(image: *const u8, image_len: usize, out: *mut u8, out_len: usize) -> u32;
    pub fn da728x_merge(
        first: *const u8,
        first_len: usize,
        second: *const u8,
        second_len: usize,
        image: *mut u8,
        image_len: usize,
    ) -> u8;

    pub fn da728x_register_addresses(out: *mut u8, out_len: usize) -> usize;
    pub fn da728x_read_interrupts(byte: u8, out: *mut u8, out_len: usize) -> usize;
    pub fn da728x_read_actuator(byte: u8, out: *mut u8, out_len: usize) -> usize;
    pub fn da728x_read_control(byte: u8, out: *mut u8, out_len: usize) -> usize;
    pub fn da728x_read_trigger(byte: u8, out: *mut u8, out_len: usize) -> usize;
    pub fn da728x_replace_interrupts(byte: u8, value: u8, out: *mut u8, out_len: usize) -> usize;
    pub fn da728x_replace_actuator(byte: u8, value: u8, out: *mut u8, out_len: usize) -> usize;
    pub fn da728x_replace_control(byte: u8, value: u8, out: *mut u8, out_len: usize) -> usize;
    pub fn da728x_replace_trigger(byte: u8, value: u8, out: *mut u8, out_len: usize) -> usize;

    pub fn da728x_new(address: u8, variant: u8, session: *mut u8, session_len: usize) -> u8;
    pub fn da728x_configure(
        record: *const u8,
        record_len: usize,
        settings: *const u8,
        settings_len: usize,
        session: *mut u8,
        session_len: usize,
    ) -> u8;
    pub fn da728x_get_chip_rev(
        record: *const u8,
        record_len: usize,
        session: *mut u8,
        session_len: usize,
    ) -> u8;
    pub fn da728x_get_events(
        record: *const u8,
        record_len: usize,
        session: *mut u8,
        session_len: usize,
    ) -> u8;
    pub fn da728x_get_status(
        record: *const u8,
        record_len: usize,
        session: *mut u8,
        session_len: usize,
    ) -> u8;
    pub fn da728x_set_frequency(
        record: *const u8,
        record_len: usize,
        frequency_hz: u16,
        session: *mut u8,
        session_len: usize,
    ) -> u8;
    pub fn da728x_set_override_value(
        record: *const u8,
        record_len: usize,
        value: i8,
        session: *mut u8,
        session_len: usize,
    ) -> u8;
    pub fn da728x_set_timebase(
        record: *const u8,
        record_len: usize,
        timebase: u8,
        session: *mut u8,
        session_len: usize,
    ) -> u8;
    pub fn da728x_enable(
        record: *const u8,
        record_len: usize,
        session: *mut u8,
        session_len: usize,
    ) -> u8;
    pub fn da728x_disable(
        record: *const u8,
        record_len: usize,
        session: *mut u8,
        session_len: usize,
    ) -> u8;
    pub fn da728x_set_custom_drive_waveform(
        record: *const u8,
        record_len: usize,
        a: u8,
        b: u8,
        c: u8,
        session: *mut u8,
        session_len: usize,
    ) -> u8;
    pub fn da728x_unlock_waveform_memory(
        record: *const u8,
        record_len: usize,
        session: *mut u8,
        session_len: usize,
    ) -> u8;
    pub fn da728x_lock_waveform_memory(
        record: *const u8,
        record_len: usize,
        session: *mut u8,
        session_len: usize,
    ) -> u8;
    pub fn da728x_upload_waveform_memory(
        record: *mut u8,
        record_len: usize,
        image: *const u8,
        image_len: usize,
        lock_after: u8,
        session: *mut u8,
        session_len: usize,
    ) -> u8;
    pub fn da728x_read_waveform_memory(
        record: *const u8,
        record_len: usize,
        len: usize,
        buffer_len: usize,
        session: *mut u8,
        session_len: usize,
    ) -> u8;
    pub fn da728x_select_sequence(
        record: *const u8,
        record_len: usize,
        sequence_id: u8,
        loops: u8,
        session: *mut u8,
        session_len: usize,
    ) -> u8;
    pub fn da728x_start_sequence(
        record: *const u8,
        record_len: usize,
        session: *mut u8,
        session_len: usize,
    ) -> u8;
    pub fn da728x_play_sequence(
        record: *const u8,
        record_len: usize,
        sequence_id: u8,
        loops: u8,
        session: *mut u8,
        session_len: usize,
    ) -> u8;
    pub fn da728x_pending(
        session: *const u8,
        session_len: usize,
        bytes: *mut u8,
        bytes_len: usize,
    ) -> u32;
    pub fn da728x_answer(
        record: *mut u8,
        record_len: usize,
        session: *mut u8,
        session_len: usize,
        kind: u8,
        byte: u8,
        buffer: *mut u8,
        buffer_len: usize,
    ) -> u32;
    pub fn da728x_result(session: *const u8, session_len: usize) -> u64;

    pub safe fn da728x_voltage_settings(byte: u8) -> u32;
    pub safe fn da728x_current_settings(imax: u8) -> u32;
    pub safe fn da728x_frequency_settings(word: u16, driving_mode: u8) -> u32;
}
