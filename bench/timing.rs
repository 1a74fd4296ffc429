//! Timing calls side by side.
//!
//! A time is the processor time of the thread. So it does not count the turns of other programs, but they may still
//! slow it down through what they share with it.

use std::hint::black_box;
use std::time::Duration;

/// Each time is the best of this many rounds, and a round lasts at least so long.
pub const ROUNDS: usize = 7;
const SHORTEST: Duration = Duration::from_millis(20);

/// A time as Linux gives it on 64-bit machines.
#[repr(C)]
struct Time {
    seconds: i64,
    nanoseconds: i64,
}

extern "C" {
    fn clock_gettime(clock: i32, time: *mut Time) -> i32;
}

/// Linux's number of the clock that counts the thread's processor time.
const THREAD_TIME: i32 = 3;

/// The processor time that the thread has used.
fn used() -> Duration {
    let mut time = Time {
        seconds: 0,
        nanoseconds: 0,
    };
    let result = unsafe { clock_gettime(THREAD_TIME, &mut time) };
    assert_eq!(result, 0, "there is such a clock");
    Duration::new(time.seconds as u64, time.nanoseconds as u32)
}

/// The best time of one call of each. A round goes through all of them, so that other work on the machine slows none of
/// them alone.
pub fn best<const N: usize>(mut calls: [&mut dyn FnMut(); N]) -> [Duration; N] {
    let mut best = [Duration::MAX; N];
    let mut times = [1; N];
    for _ in 0..ROUNDS {
        for (at, call) in calls.iter_mut().enumerate() {
            let mut took = timed(times[at], call);
            while took < SHORTEST {
                times[at] *= 2;
                took = timed(times[at], call);
            }
            best[at] = best[at].min(took / times[at]);
        }
    }
    best
}

/// The time of so many calls.
fn timed(times: u32, call: &mut dyn FnMut()) -> Duration {
    let began = used();
    for _ in 0..times {
        call();
    }
    used() - began
}

/// The time of one call of each, for calls that take seconds.
pub fn once<const N: usize>(calls: [&mut dyn FnMut(); N]) -> [Duration; N] {
    calls.map(|call| timed(1, call))
}

/// Takes what a call gives, so that the call is made.
pub fn keep<T>(given: T) {
    black_box(given);
}

pub fn micros(time: Duration) -> f64 {
    time.as_secs_f64() * 1e6
}

/// Millions of bytes a second.
pub fn rate(bytes: usize, time: Duration) -> f64 {
    bytes as f64 / 1e6 / time.as_secs_f64()
}

/// The library's time over another's: above 1 the library is slower.
pub fn ratio(library: Duration, other: Duration) -> f64 {
    library.as_secs_f64() / other.as_secs_f64()
}
