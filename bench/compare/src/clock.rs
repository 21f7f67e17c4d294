//! Taking times: the thread's processor time, taken in turn, so that a busy machine troubles it little and all sides
//! alike.

use std::hint::black_box;
use std::time::Duration;

use reader::Format;

use crate::checks::Check;

/// The C library's `struct timespec` on 64-bit Linux.
#[repr(C)]
struct Timespec {
    seconds: i64,
    nanoseconds: i64,
}

extern "C" {
    fn clock_gettime(clock: i32, time: *mut Timespec) -> i32;
}

/// `CLOCK_THREAD_CPUTIME_ID` on Linux.
const THREAD_TIME: i32 = 3;

/// The processor time this thread has used. The standard library has no such clock, but links the one of C.
pub fn thread_time() -> Duration {
    let mut time = Timespec { seconds: 0, nanoseconds: 0 };
    // SAFETY: the call writes one timespec, which lives here.
    let status = unsafe { clock_gettime(THREAD_TIME, &mut time) };
    assert_eq!(status, 0, "the thread's clock can be read");
    Duration::new(time.seconds as u64, time.nanoseconds as u32)
}

/// What some work took, and its answer.
pub fn time_of<T>(work: impl FnOnce() -> T) -> (Duration, T) {
    let start = thread_time();
    let answer = black_box(work());
    (thread_time() - start, answer)
}

/// One side's check of an image in its format.
pub type Job<'a> = (Check, Format, &'a [u8]);

/// The times of each job, one of each in turn, after one run unmeasured; sorted.
pub fn times(jobs: &[Job], runs: usize) -> Vec<Vec<Duration>> {
    let mut times = vec![Vec::with_capacity(runs); jobs.len()];
    for run in 0..=runs {
        for (&(check, format, image), times) in jobs.iter().zip(&mut times) {
            let (time, answer) = time_of(|| check(format, black_box(image)));
            assert!(answer.is_ok(), "only accepted cards are timed");
            if run > 0 {
                times.push(time);
            }
        }
    }
    times.iter_mut().for_each(|times| times.sort());
    times
}

/// The median of some times and the quartiles around it.
#[derive(Clone, Copy, Debug)]
pub struct Spread {
    pub low: Duration,
    pub median: Duration,
    pub high: Duration,
}

impl Spread {
    pub fn of(sorted: &[Duration]) -> Spread {
        let [low, median, high] = [1, 2, 3].map(|quarter| sorted[sorted.len() * quarter / 4]);
        Spread { low, median, high }
    }

    /// Median over median.
    pub fn over(&self, other: &Spread) -> f64 {
        self.median.as_secs_f64() / other.median.as_secs_f64()
    }
}

/// The time of one entry in nanoseconds, once the time of a card without entries is taken off.
pub fn per_entry(time: Duration, fresh: Duration, entries: usize) -> f64 {
    time.saturating_sub(fresh).as_nanos() as f64 / entries as f64
}
