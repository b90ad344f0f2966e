//! Times of one call or of a list of them, each on a new copy of the same start.

use std::hint::black_box;
use std::time::{Duration, Instant};

/// Least and median, in nanoseconds.
#[derive(Clone, Copy)]
pub struct Time {
    pub least: f64,
    pub median: f64,
}

/// When a run began.
trait Begun {
    fn now() -> Self;
    /// The nanoseconds since then that count for the least time, and those that count for the median.
    fn passed(&self) -> [u64; 2];
}

impl Begun for Instant {
    fn now() -> Instant {
        Instant::now()
    }
    fn passed(&self) -> [u64; 2] {
        [self.elapsed().as_nanos() as u64; 2]
    }
}

/// .. by two clocks. The median is taken of this thread's own time: what others do meanwhile is not in it, and 0.2 microseconds that a look
/// at it takes are. Now and then it is far too small, which a median bears and a least time does not.
struct Both {
    thread: i64,
    wall: Instant,
}

impl Begun for Both {
    fn now() -> Both {
        Both { thread: thread_time(), wall: Instant::now() }
    }
    fn passed(&self) -> [u64; 2] {
        let wall = self.wall.elapsed().as_nanos() as u64;
        [wall, (thread_time() - self.thread) as u64]
    }
}

unsafe extern "C" {
    /// The C library's. The time is in seconds and nanoseconds.
    fn clock_gettime(clock: i32, time: &mut [i64; 2]) -> i32;
}

/// The nanoseconds for which this thread had a processor.
fn thread_time() -> i64 {
    const CLOCK_THREAD_CPUTIME_ID: i32 = 3;
    let mut time = [0; 2];
    // SAFETY: there is room for both numbers.
    assert_eq!(unsafe { clock_gettime(CLOCK_THREAD_CPUTIME_ID, &mut time) }, 0);
    time[0] * 1_000_000_000 + time[1]
}

/// One turn after the other: at least one run in each, and more for as long as `span`. The copy is made just before each run, and is not
/// timed; what the run gives is used.
pub struct Runs(Vec<[u64; 2]>);

impl Runs {
    pub fn new() -> Runs {
        Runs(Vec::new())
    }

    pub fn add<T, R>(&mut self, span: Duration, copy: impl FnMut() -> T, run: impl FnMut(&mut T) -> R) {
        self.add_by::<Instant, T, R>(span, copy, run);
    }

    /// .. of runs so long that others may have the processor in between.
    pub fn add_long<T, R>(&mut self, span: Duration, copy: impl FnMut() -> T, run: impl FnMut(&mut T) -> R) {
        self.add_by::<Both, T, R>(span, copy, run);
    }

    fn add_by<B: Begun, T, R>(&mut self, span: Duration, mut copy: impl FnMut() -> T, mut run: impl FnMut(&mut T) -> R) {
        let begun = Instant::now();
        loop {
            let mut start = black_box(copy());
            let t = B::now();
            let given = black_box(run(&mut start));
            self.0.push(t.passed());
            black_box((&start, given));
            if span <= begun.elapsed() {
                return;
            }
        }
    }

    pub fn time(&self) -> Time {
        let sorted = |clock: usize| {
            let mut all: Vec<u64> = self.0.iter().map(|passed| passed[clock]).collect();
            all.sort_unstable();
            all
        };
        let (least, counted) = (sorted(0)[0], sorted(1));
        Time { least: least as f64, median: counted[counted.len() / 2] as f64 }
    }
}
