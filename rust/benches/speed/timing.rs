//! Time, and the middle one of several passes.
use std::mem::MaybeUninit;
use std::time::Duration;

/// How often everything is measured.
pub const PASSES: usize = 5;

#[repr(C)]
struct Timespec {
    seconds: i64,
    nanoseconds: i64,
}

/// The processor time of the calling thread, as Linux numbers its clocks.
const THREAD_CPUTIME: i32 = 3;

/// What the system tells of finished processes: the times of their own work and of the system's for them, in seconds and millionths, and more.
#[repr(C)]
struct Usage {
    own: [i64; 2],
    systems: [i64; 2],
    more: [i64; 14],
}

const CHILDREN: i32 = -1;

extern "C" {
    fn clock_gettime(clock: i32, time: *mut Timespec) -> i32;
    fn getrusage(whose: i32, usage: *mut Usage) -> i32;
}

/// The processor time, in seconds, of all programs that were started from here and have ended.
pub fn programs_seconds() -> f64 {
    let mut usage = MaybeUninit::uninit();
    // SAFETY: the call fills in the usage if it answers 0.
    let usage: Usage = unsafe {
        assert_eq!(getrusage(CHILDREN, usage.as_mut_ptr()), 0);
        usage.assume_init()
    };
    let in_seconds = |[seconds, millionths]: [i64; 2]| seconds as f64 + millionths as f64 / 1e6;
    in_seconds(usage.own) + in_seconds(usage.systems)
}

/// The time for which this thread has had a processor: other work on the machine disturbs it less than a clock on the wall.
fn processor_time() -> Duration {
    let mut time = MaybeUninit::uninit();
    // SAFETY: the call fills in the time if it answers 0.
    let time: Timespec = unsafe {
        assert_eq!(clock_gettime(THREAD_CPUTIME, time.as_mut_ptr()), 0);
        time.assume_init()
    };
    Duration::new(time.seconds as u64, time.nanoseconds as u32)
}

/// The processor time in seconds that the work takes.
pub fn seconds(work: impl FnOnce()) -> f64 {
    let started = processor_time();
    work();
    (processor_time() - started).as_secs_f64().max(1e-9)
}

/// The middle one of the numbers.
pub fn median(mut numbers: Vec<f64>) -> f64 {
    numbers.sort_by(f64::total_cmp);
    numbers[numbers.len() / 2]
}

/// The middle time of several passes, in seconds.
pub fn median_seconds(mut work: impl FnMut()) -> f64 {
    median((0..PASSES).map(|_| seconds(&mut work)).collect())
}

/// How many millions of bytes a second.
pub fn speed(bytes: usize, seconds: f64) -> f64 {
    bytes as f64 / 1e6 / seconds
}
