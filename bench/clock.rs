//! Processor time, in seconds: what other programs take on the same machine is not in it.

#[derive(Clone, Copy)]
#[repr(C)]
struct Time {
    seconds: i64,
    part: i64,
}

extern "C" {
    fn clock_gettime(clock: i32, time: *mut Time) -> i32;
    fn getrusage(who: i32, usage: *mut [Time; 9]) -> i32;
}

const fn zero() -> Time {
    Time { seconds: 0, part: 0 }
}

/// Of this thread, so far.
pub fn own() -> f64 {
    const THREAD: i32 = 3;
    let mut time = zero();
    assert_eq!(unsafe { clock_gettime(THREAD, &mut time) }, 0);
    time.seconds as f64 + time.part as f64 * 1e-9
}

/// Of all programs run from here, so far: user and system time, which stand first in the record.
pub fn children() -> f64 {
    const CHILDREN: i32 = -1;
    let mut usage = [zero(); 9];
    assert_eq!(unsafe { getrusage(CHILDREN, &mut usage) }, 0);
    usage[..2].iter().map(|t| t.seconds as f64 + t.part as f64 * 1e-6).sum()
}
