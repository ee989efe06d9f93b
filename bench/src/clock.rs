//! Times of contestants that take turns. The time is the thread's own on the processor, so that a machine with other work on it
//! measures the same thing.

use std::hint::black_box;

#[repr(C)]
struct Timespec {
    seconds: i64,
    nanoseconds: i64,
}

const CLOCK_THREAD_CPUTIME_ID: i32 = 3;

extern "C" {
    fn clock_gettime(clock: i32, time: *mut Timespec) -> i32;
}

/// Seconds on the processor so far.
fn now() -> f64 {
    let mut time = Timespec { seconds: 0, nanoseconds: 0 };
    unsafe { clock_gettime(CLOCK_THREAD_CPUTIME_ID, &mut time) };
    time.seconds as f64 + time.nanoseconds as f64 * 1e-9
}

/// Seconds that so many calls take.
fn time_of(call: &mut dyn FnMut(), calls: usize) -> f64 {
    let start = now();
    for _ in 0..calls {
        black_box(&mut *call)();
    }
    now() - start
}

/// How long a round lets each contestant run, the most rounds, and about how many seconds a row may take; at least three rounds are run.
#[derive(Clone, Copy)]
pub struct Pace {
    pub slice: f64,
    pub rounds: usize,
    pub spend: f64,
}

/// Contestants in the order in which they entered.
#[derive(Default)]
pub struct Contest<'a> {
    calls: Vec<Box<dyn FnMut() + 'a>>,
}

impl<'a> Contest<'a> {
    /// The contestant's number, which is that of its time. Its answer is wanted, as far as the compiler knows.
    pub fn enter<T>(&mut self, mut call: impl FnMut() -> T + 'a) -> usize {
        self.calls.push(Box::new(move || {
            black_box(call());
        }));
        self.calls.len() - 1
    }

    /// The median seconds of one call of each contestant. In every round each runs in turn for about one slice.
    pub fn run(mut self, pace: Pace) -> Vec<f64> {
        let once: Vec<f64> =
            self.calls.iter_mut().map(|call| time_of(call, 1).min(time_of(call, 1)).max(1e-7)).collect();
        let batches: Vec<usize> = once.iter().map(|time| ((pace.slice / time) as usize).max(1)).collect();
        let round: f64 = once.iter().zip(&batches).map(|(time, batch)| time * *batch as f64).sum();
        let rounds = ((pace.spend / round) as usize).clamp(3, pace.rounds);
        let mut times = vec![Vec::with_capacity(rounds); self.calls.len()];
        for _ in 0..rounds {
            for (k, call) in self.calls.iter_mut().enumerate() {
                times[k].push(time_of(call, batches[k]) / batches[k] as f64);
            }
        }
        times.iter_mut().map(|of_one| median(of_one)).collect()
    }
}

fn median(times: &mut [f64]) -> f64 {
    times.sort_by(f64::total_cmp);
    times[times.len() / 2]
}

/// Seconds of a single call, for what is too long to repeat.
pub fn once(call: &mut dyn FnMut()) -> f64 {
    time_of(call, 1)
}
