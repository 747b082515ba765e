//! The exported functions of the crate `desk`.

extern "C" {
    fn desk_open(m: *mut u8, m_len: usize, roster: *const u8, roster_len: usize) -> u8;
    fn desk_event(m: *mut u8, m_len: usize, event: *const u8, event_len: usize) -> u8;
    #[cfg(feature = "loading")]
    fn desk_load_limits(m: *mut u8, m_len: usize, file: *const u8, file_len: usize) -> u8;
    fn desk_run(
        m: *mut u8,
        m_len: usize,
        events: *const u8,
        events_len: usize,
        answers: *mut u8,
        answers_len: usize,
    ) -> usize;
    fn desk_instrument_position(
        m: *const u8,
        m_len: usize,
        account: u16,
        instrument: u16,
        report: *mut i64,
    ) -> u8;
    fn desk_group_position(
        m: *const u8,
        m_len: usize,
        account: u16,
        group: u16,
        report: *mut i64,
    ) -> u8;
}

/// Answers a run of events: how many answers were written.
pub fn run(memory: &mut [u8], events: &[u8], answers: &mut [u8]) -> usize {
    unsafe {
        desk_run(
            memory.as_mut_ptr(),
            memory.len(),
            events.as_ptr(),
            events.len(),
            answers.as_mut_ptr(),
            answers.len(),
        )
    }
}

/// The functions of a desk that answer one question at a time. The readers get memory that they could write, so that a write by
/// one of them is seen and not undefined.
#[derive(Clone, Copy)]
pub struct Calls {
    pub open: fn(&mut [u8], &[u8]) -> u8,
    pub event: fn(&mut [u8], &[u8]) -> u8,
    #[cfg(feature = "loading")]
    pub load_limits: fn(&mut [u8], &[u8]) -> u8,
    pub instrument_position: fn(&mut [u8], u16, u16, &mut [i64; 3]) -> u8,
    pub group_position: fn(&mut [u8], u16, u16, &mut [i64; 2]) -> u8,
}

/// The proved functions.
pub const PROVED: Calls = Calls {
    open: |memory, roster| unsafe {
        desk_open(
            memory.as_mut_ptr(),
            memory.len(),
            roster.as_ptr(),
            roster.len(),
        )
    },
    event: |memory, event| unsafe {
        desk_event(
            memory.as_mut_ptr(),
            memory.len(),
            event.as_ptr(),
            event.len(),
        )
    },
    #[cfg(feature = "loading")]
    load_limits: |memory, file| unsafe {
        desk_load_limits(memory.as_mut_ptr(), memory.len(), file.as_ptr(), file.len())
    },
    instrument_position: |memory, account, instrument, report| unsafe {
        desk_instrument_position(
            memory.as_mut_ptr(),
            memory.len(),
            account,
            instrument,
            report.as_mut_ptr(),
        )
    },
    group_position: |memory, account, group, report| unsafe {
        desk_group_position(
            memory.as_mut_ptr(),
            memory.len(),
            account,
            group,
            report.as_mut_ptr(),
        )
    },
};
