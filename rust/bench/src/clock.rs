//! The time that this thread, or the processes that it waited for, have had a processor for, so that other work on the machine is not counted.

use std::time::Duration;

#[repr(C)]
struct Timespec {
    seconds: i64,
    nanoseconds: i64,
}

#[repr(C)]
struct Timeval {
    seconds: i64,
    microseconds: i64,
}

impl Timeval {
    fn duration(&self) -> Duration {
        Duration::new(self.seconds as u64, 1000 * self.microseconds as u32)
    }
}

#[repr(C)]
struct Rusage {
    user: Timeval,
    system: Timeval,
    others: [i64; 14],
}

const CLOCK_THREAD_CPUTIME_ID: i32 = 3;
const RUSAGE_CHILDREN: i32 = -1;

extern "C" {
    fn clock_gettime(clock: i32, time: *mut Timespec) -> i32;
    fn getrusage(whose: i32, usage: *mut Rusage) -> i32;
}

pub fn now() -> Duration {
    let mut time = Timespec { seconds: 0, nanoseconds: 0 };
    // SAFETY: on 64-bit Linux a timespec is these two numbers, and the pointer is to one.
    let status = unsafe { clock_gettime(CLOCK_THREAD_CPUTIME_ID, &mut time) };
    assert_eq!(status, 0, "the thread has a clock");
    Duration::new(time.seconds as u64, time.nanoseconds as u32)
}

/// The time of all processes that were started here and waited for, in their own code and in the system's.
pub fn of_children() -> Duration {
    let none = || Timeval { seconds: 0, microseconds: 0 };
    let mut usage = Rusage { user: none(), system: none(), others: [0; 14] };
    // SAFETY: on 64-bit Linux a rusage is two timevals of two numbers each and fourteen more numbers, and the pointer is to one.
    let status = unsafe { getrusage(RUSAGE_CHILDREN, &mut usage) };
    assert_eq!(status, 0, "there is a count of the children's time");
    usage.user.duration() + usage.system.duration()
}
