//! CPU time, which other load on the machine lengthens less than time on the wall.

use std::time::Duration;

const CLOCK_THREAD_CPUTIME_ID: i32 = 3;
const RUSAGE_CHILDREN: i32 = -1;

#[repr(C)]
#[derive(Default)]
struct Timespec {
    seconds: u64,
    nanoseconds: u64,
}

#[repr(C)]
#[derive(Default)]
struct Timeval {
    seconds: u64,
    microseconds: u64,
}

#[repr(C)]
#[derive(Default)]
struct Usage {
    user: Timeval,
    system: Timeval,
    others: [i64; 14],
}

extern "C" {
    fn clock_gettime(clock: i32, time: *mut Timespec) -> i32;
    fn getrusage(who: i32, usage: *mut Usage) -> i32;
}

/// The CPU time of this thread.
pub fn thread() -> Duration {
    let mut time = Timespec::default();
    let result = unsafe { clock_gettime(CLOCK_THREAD_CPUTIME_ID, &mut time) };
    assert_eq!(result, 0, "the system has this clock");
    Duration::from_secs(time.seconds) + Duration::from_nanos(time.nanoseconds)
}

/// The CPU time, user and system, of all child processes that have ended.
pub fn children() -> Duration {
    let mut usage = Usage::default();
    let result = unsafe { getrusage(RUSAGE_CHILDREN, &mut usage) };
    assert_eq!(result, 0, "the system counts CPU time");
    let of = |time: Timeval| {
        Duration::from_secs(time.seconds) + Duration::from_micros(time.microseconds)
    };
    of(usage.user) + of(usage.system)
}
