//! The clock of the plain Rust programs.

#[repr(C)]
struct Timespec {
    seconds: i64,
    nanos: i64,
}

extern "C" {
    fn clock_gettime(clock: i32, time: *mut Timespec) -> i32;
}

/// The processor time of this thread, in nanoseconds.
pub fn cpu_nanos() -> u64 {
    let mut time = Timespec { seconds: 0, nanos: 0 };
    // 3 is CLOCK_THREAD_CPUTIME_ID.
    unsafe { clock_gettime(3, &mut time) };
    time.seconds as u64 * 1_000_000_000 + time.nanos as u64
}
