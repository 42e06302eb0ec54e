//! Processor time of this process, user and system together. On a machine that others use too it says more than the clock.

use std::mem::MaybeUninit;
use std::time::Duration;

#[repr(C)]
struct Time {
    seconds: i64,
    microseconds: i64,
}

#[repr(C)]
struct Usage {
    user: Time,
    system: Time,
    rest: [i64; 14],
}

extern "C" {
    fn getrusage(who: i32, usage: *mut Usage) -> i32;
}

const THIS_PROCESS: i32 = 0;

pub fn time() -> Duration {
    let mut usage = MaybeUninit::<Usage>::zeroed();
    // All bits zero is a value of the struct, and the call fills it in.
    let usage = unsafe {
        assert_eq!(getrusage(THIS_PROCESS, usage.as_mut_ptr()), 0);
        usage.assume_init()
    };
    let one = |t: &Time| Duration::from_secs(t.seconds as u64) + Duration::from_micros(t.microseconds as u64);
    one(&usage.user) + one(&usage.system)
}
