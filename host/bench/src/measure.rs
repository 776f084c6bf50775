//! Ways to do the same work, timed in turns, so that a drift of the machine hits all alike.
//!
//! The clock is the thread's own time on the processor: what others run meanwhile is not counted.
use std::ffi::{c_int, c_long};
use std::time::Duration;

/// How often each way is timed, beside the first turn, which is thrown away.
pub const RUNS: usize = 51;
/// A run repeats the work until it lasts so long.
const AT_LEAST: Duration = Duration::from_millis(4);

/// One way to do the work: `run` does it so many times and says how long that took.
pub struct Way<'a> {
    name: &'static str,
    run: Box<dyn FnMut(u32) -> Duration + 'a>,
}

/// What a way took for the work done once, in nanoseconds: the median and the quartiles of its runs.
pub struct Taken {
    pub name: &'static str,
    pub low: f64,
    pub median: f64,
    pub high: f64,
}

impl<'a> Way<'a> {
    pub fn new(name: &'static str, mut once: impl FnMut() + 'a) -> Self {
        let run = move |times| {
            let start = thread_time();
            (0..times).for_each(|_| once());
            thread_time() - start
        };
        Self { name, run: Box::new(run) }
    }

    /// How many repeats last long enough.
    fn repeats(&mut self) -> u32 {
        let mut times = 1;
        loop {
            let taken = (self.run)(times);
            if taken >= AT_LEAST {
                return times;
            }
            let missing = AT_LEAST.as_nanos() / taken.as_nanos().max(1) + 1;
            times *= missing.clamp(2, 1000) as u32;
        }
    }
}

/// Times each way `RUNS` times, in turns that begin with another way each time.
pub fn measured(mut ways: Vec<Way>) -> Vec<Taken> {
    let repeats: Vec<u32> = ways.iter_mut().map(Way::repeats).collect();
    let mut samples = vec![Vec::new(); ways.len()];
    for turn in 0..=RUNS {
        for step in 0..ways.len() {
            let at = (turn + step) % ways.len();
            let taken = (ways[at].run)(repeats[at]);
            if turn > 0 {
                samples[at].push(taken.as_nanos() as f64 / f64::from(repeats[at]));
            }
        }
    }
    ways.iter().zip(samples).map(|(way, samples)| summed(way.name, samples)).collect()
}

fn summed(name: &'static str, mut samples: Vec<f64>) -> Taken {
    samples.sort_by(f64::total_cmp);
    let at = |quarter: usize| samples[(samples.len() - 1) * quarter / 4];
    Taken { name, low: at(1), median: at(2), high: at(3) }
}

#[repr(C)]
struct Timespec {
    seconds: c_long,
    nanos: c_long,
}

extern "C" {
    fn clock_gettime(clock: c_int, time: *mut Timespec) -> c_int;
}

/// CLOCK_THREAD_CPUTIME_ID
const THREAD: c_int = 3;

/// How long this thread has run.
fn thread_time() -> Duration {
    let mut time = Timespec { seconds: 0, nanos: 0 };
    // SAFETY: `time` is the C library's struct on a 64-bit Linux, exclusively borrowed.
    let said = unsafe { clock_gettime(THREAD, &mut time) };
    assert_eq!(said, 0, "a thread's own clock");
    Duration::new(time.seconds as u64, time.nanos as u32)
}
