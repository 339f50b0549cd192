//! The processor time that this thread has used.

#[repr(C)]
struct Moment {
    seconds: i64,
    nanoseconds: i64,
}

/// CLOCK_THREAD_CPUTIME_ID on Linux.
const THREAD_TIME: i32 = 3;

unsafe extern "C" {
    fn clock_gettime(clock: i32, moment: *mut Moment) -> i32;
}

/// In nanoseconds, from some beginning.
fn now() -> u64 {
    let mut moment = Moment { seconds: 0, nanoseconds: 0 };
    let status = unsafe { clock_gettime(THREAD_TIME, &mut moment) };
    assert!(status == 0, "no clock of the thread's time");
    moment.seconds as u64 * 1_000_000_000 + moment.nanoseconds as u64
}

/// What `work` gives, and how many nanoseconds it took.
pub fn timed<T>(work: impl FnOnce() -> T) -> (T, u64) {
    let begin = now();
    let result = work();
    (result, now() - begin)
}
