//! The processor's time of this thread: a call is longer than a turn on a busy machine, so that a clock on the wall
//! would count others' work.
use std::hint::black_box;

#[repr(C)]
struct Timespec {
    seconds: i64,
    nanoseconds: i64,
}

extern "C" {
    fn clock_gettime(clock: i32, time: *mut Timespec) -> i32;
}

/// CLOCK_THREAD_CPUTIME_ID.
const OWN_TIME: i32 = 3;

fn now() -> f64 {
    let mut time = Timespec { seconds: 0, nanoseconds: 0 };
    assert_eq!(unsafe { clock_gettime(OWN_TIME, &mut time) }, 0);
    time.seconds as f64 * 1e3 + time.nanoseconds as f64 / 1e6
}

pub fn millis<T>(call: impl FnOnce() -> T) -> f64 {
    let start = now();
    black_box(call());
    now() - start
}

/// The best of some runs, of times that are taken in turn.
pub fn best<const N: usize>(runs: usize, mut run: impl FnMut() -> [f64; N]) -> [f64; N] {
    let mut best = [f64::MAX; N];
    for _ in 0..runs {
        best.iter_mut().zip(run()).for_each(|(best, took)| *best = best.min(took));
    }
    best
}
