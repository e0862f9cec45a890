//! A look-out: a call that does not end, and one that touches what it may not, are told with their round.
use std::sync::atomic::{AtomicU64, Ordering::Relaxed};
use std::time::Duration;

static SEED: AtomicU64 = AtomicU64::new(0);
static ROUND: AtomicU64 = AtomicU64::new(0);
static CALLS: AtomicU64 = AtomicU64::new(0);

/// Seconds of the processor that no call here takes, under valgrind neither. A clock on the wall would count others'
/// work.
const LONGEST: i64 = 20;

#[repr(C)]
struct Timespec {
    seconds: i64,
    nanoseconds: i64,
}

extern "C" {
    fn signal(number: i32, handler: extern "C" fn(i32)) -> usize;
    fn _exit(status: i32) -> !;
    fn clock_gettime(clock: i32, time: *mut Timespec) -> i32;
}

/// SIGILL, SIGABRT, SIGBUS, SIGFPE, SIGSEGV.
const FAULTS: [i32; 5] = [4, 6, 7, 8, 11];

/// CLOCK_PROCESS_CPUTIME_ID.
const OWN_TIME: i32 = 2;

fn seconds() -> i64 {
    let mut time = Timespec { seconds: 0, nanoseconds: 0 };
    assert_eq!(unsafe { clock_gettime(OWN_TIME, &mut time) }, 0);
    time.seconds
}

fn told(what: &str) -> ! {
    let (seed, round, call) = (SEED.load(Relaxed), ROUND.load(Relaxed), CALLS.load(Relaxed));
    eprintln!("fuzz: {what} at call {call}, in round {round} of seed {seed}");
    unsafe { _exit(1) }
}

extern "C" fn fault(number: i32) {
    told(&format!("signal {number}"));
}

pub fn begin(seed: u64) {
    SEED.store(seed, Relaxed);
    for number in FAULTS {
        unsafe { signal(number, fault) };
    }
    std::thread::spawn(look_out);
}

fn look_out() {
    let (mut calls, mut since) = (0, seconds());
    loop {
        std::thread::sleep(Duration::from_secs(1));
        if calls != CALLS.load(Relaxed) {
            (calls, since) = (CALLS.load(Relaxed), seconds());
        } else if seconds() - since > LONGEST {
            told("no end");
        }
    }
}

pub fn round(number: u64) {
    ROUND.store(number, Relaxed);
}

/// Another call begins.
pub fn moved() {
    CALLS.fetch_add(1, Relaxed);
}
