//! How long calls take.

use std::time::Duration;

/// Makes so many calls.
pub type Run<'a> = Box<dyn FnMut(u32) + 'a>;

/// How long a sample lasts at least, how many there are of each, and of those that last longer than is usual.
const SAMPLE: Duration = Duration::from_millis(3);
const SAMPLES: usize = 100;
const LONG: Duration = Duration::from_millis(50);
const LONG_SAMPLES: usize = 5;

/// Nanoseconds of one call of each: the least of its samples, which are taken in turn, so that what else the machine does meets all alike.
pub fn least(mut runs: Vec<Run>) -> Vec<f64> {
    let mut all: Vec<(u32, Duration)> = runs.iter_mut().map(calibrate).collect();
    for turn in 1..SAMPLES {
        for (run, (times, least)) in runs.iter_mut().zip(&mut all) {
            if *least < LONG || turn < LONG_SAMPLES {
                *least = time(run, *times).min(*least);
            }
        }
    }
    let each = |(times, least): &(u32, Duration)| least.as_nanos() as f64 / f64::from(*times);
    all.iter().map(each).collect()
}

/// How many calls make a sample, and how long these took.
fn calibrate(run: &mut Run) -> (u32, Duration) {
    let mut times = 1;
    loop {
        let took = time(run, times);
        if took >= SAMPLE {
            return (times, took);
        }
        times *= 2;
    }
}

fn time(run: &mut Run, times: u32) -> Duration {
    let start = at_work();
    run(times);
    at_work() - start
}

#[repr(C)]
#[derive(Default)]
struct Timespec {
    seconds: i64,
    nanoseconds: i64,
}

/// Linux's number for the clock of a thread.
const THREAD: i32 = 3;

unsafe extern "C" {
    fn clock_gettime(clock: i32, time: &mut Timespec) -> i32;
}

/// How long this thread was at work: not while it waited for others.
fn at_work() -> Duration {
    let mut time = Timespec::default();
    // SAFETY: the struct is the C library's, and it is borrowed for the call.
    unsafe { clock_gettime(THREAD, &mut time) };
    Duration::new(time.seconds as u64, time.nanoseconds as u32)
}
