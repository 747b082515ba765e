//! The proved gate and the two C gates, behind safe functions.

use std::ffi::c_void;

use wire::EVENT_LENGTH;

/// The length of a desk's lent memory.
const MEMORY: usize = 65_536;

extern "C" {
    fn desk_open(m: *mut u8, m_len: usize, roster: *const u8, roster_len: usize) -> u8;
    fn desk_event(m: *mut u8, m_len: usize, event: *const u8, event_len: usize) -> u8;
    fn desk_run(
        m: *mut u8,
        m_len: usize,
        events: *const u8,
        events_len: usize,
        answers: *mut u8,
        answers_len: usize,
    ) -> usize;

    fn trusting_new() -> *mut c_void;
    fn trusting_open(desk: *mut c_void, roster: *const u8, length: usize) -> u8;
    fn trusting_run(desk: *mut c_void, events: *const u8, length: usize, answers: *mut u8)
        -> usize;

    fn checking_new() -> *mut c_void;
    fn checking_open(desk: *mut c_void, roster: *const u8, length: usize) -> u8;
    fn checking_event(desk: *mut c_void, event: *const u8, length: usize) -> u8;

    fn free(desk: *mut c_void);
}

/// A gate that answers many events in a call.
pub trait Run {
    /// Answers as many events as there is room for answers.
    fn run(&mut self, events: &[u8], answers: &mut [u8]);
}

/// A gate that answers one event in a call.
pub trait Single {
    fn event(&mut self, event: &[u8]) -> u8;
}

/// The proved gate.
pub struct Proved(Vec<u8>);

impl Proved {
    /// An open desk.
    pub fn open(roster: &[u8]) -> Proved {
        let mut memory = vec![0; MEMORY];
        let answer = unsafe {
            desk_open(
                memory.as_mut_ptr(),
                memory.len(),
                roster.as_ptr(),
                roster.len(),
            )
        };
        assert_eq!(answer, 0, "the roster is accepted");
        Proved(memory)
    }
}

impl Run for Proved {
    fn run(&mut self, events: &[u8], answers: &mut [u8]) {
        let count = unsafe {
            desk_run(
                self.0.as_mut_ptr(),
                self.0.len(),
                events.as_ptr(),
                events.len(),
                answers.as_mut_ptr(),
                answers.len(),
            )
        };
        assert_eq!(count, answers.len(), "every event is answered");
    }
}

impl Single for Proved {
    fn event(&mut self, event: &[u8]) -> u8 {
        unsafe {
            desk_event(
                self.0.as_mut_ptr(),
                self.0.len(),
                event.as_ptr(),
                event.len(),
            )
        }
    }
}

/// The C gate that trusts its state.
pub struct Trusting(*mut c_void);

impl Trusting {
    /// An open desk.
    pub fn open(roster: &[u8]) -> Trusting {
        let desk = unsafe { trusting_new() };
        assert!(!desk.is_null(), "there is memory");
        let answer = unsafe { trusting_open(desk, roster.as_ptr(), roster.len()) };
        assert_eq!(answer, 0, "the roster is accepted");
        Trusting(desk)
    }
}

impl Run for Trusting {
    fn run(&mut self, events: &[u8], answers: &mut [u8]) {
        assert_eq!(events.len(), answers.len() * EVENT_LENGTH);
        unsafe { trusting_run(self.0, events.as_ptr(), events.len(), answers.as_mut_ptr()) };
    }
}

impl Drop for Trusting {
    fn drop(&mut self) {
        unsafe { free(self.0) }
    }
}

/// The C gate that checks its state before every event.
pub struct Checking(*mut c_void);

impl Checking {
    /// An open desk.
    pub fn open(roster: &[u8]) -> Checking {
        let desk = unsafe { checking_new() };
        assert!(!desk.is_null(), "there is memory");
        let answer = unsafe { checking_open(desk, roster.as_ptr(), roster.len()) };
        assert_eq!(answer, 0, "the roster is accepted");
        Checking(desk)
    }
}

impl Single for Checking {
    fn event(&mut self, event: &[u8]) -> u8 {
        unsafe { checking_event(self.0, event.as_ptr(), event.len()) }
    }
}

impl Drop for Checking {
    fn drop(&mut self) {
        unsafe { free(self.0) }
    }
}
