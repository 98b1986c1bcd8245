//! Times of two sides: each sample of the one stands beside a sample of the other, so that both see the same machine.

use crate::side::Side;
use std::fmt;
use std::hint::black_box;
use std::sync::OnceLock;
use std::time::{Duration, Instant};

/// Copies of the state on which an operation that changes it is done once each; they fit the nearest cache.
const COPIES: usize = 16;
const SAMPLES: usize = 151;
/// What a sample should take: much less than a turn of the scheduler, so that on a busy machine most samples are whole.
const SAMPLE: Duration = Duration::from_micros(100);

/// A median with its quartiles.
#[derive(Clone, Copy)]
pub struct Spread {
    pub low: f64,
    pub median: f64,
    pub high: f64,
}

impl Spread {
    pub fn of(mut samples: Vec<f64>) -> Spread {
        samples.sort_by(f64::total_cmp);
        let at = |part: f64| samples[((samples.len() - 1) as f64 * part).round() as usize];
        Spread {
            low: at(0.25),
            median: at(0.5),
            high: at(0.75),
        }
    }
}

impl fmt::Display for Spread {
    fn fmt(&self, out: &mut fmt::Formatter) -> fmt::Result {
        let digits = match self.median {
            m if m < 10.0 => 2,
            m if m < 100.0 => 1,
            _ => 0,
        };
        let text = format!(
            "{:.digits$} ({:.digits$}-{:.digits$})",
            self.median, self.low, self.high
        );
        out.pad(&text)
    }
}

/// The same work on two sides, in nanoseconds, and how many times the second side's time the first takes.
pub struct Timed {
    pub first: Spread,
    pub second: Spread,
    pub ratio: Spread,
}

impl Timed {
    /// Takes samples in turn; the sides take turns in coming first, too.
    pub fn in_turn(
        samples: usize,
        mut first: impl FnMut() -> f64,
        mut second: impl FnMut() -> f64,
    ) -> Timed {
        let (mut firsts, mut seconds) = (Vec::new(), Vec::new());
        for sample in 0..samples {
            if sample % 2 == 0 {
                firsts.push(first());
                seconds.push(second());
            } else {
                seconds.push(second());
                firsts.push(first());
            }
        }
        let ratios = firsts.iter().zip(&seconds).map(|(f, s)| f / s).collect();
        Timed {
            first: Spread::of(firsts),
            second: Spread::of(seconds),
            ratio: Spread::of(ratios),
        }
    }
}

/// What reading the clock twice takes.
fn clock() -> Duration {
    static CLOCK: OnceLock<Duration> = OnceLock::new();
    *CLOCK.get_or_init(|| {
        let mut times: Vec<Duration> = (0..1001).map(|_| Instant::now().elapsed()).collect();
        times.sort();
        times[500]
    })
}

/// How often the work is done to fill a sample.
fn often_enough(mut work: impl FnMut(usize) -> Duration) -> usize {
    let mut count = 1;
    while work(count) < SAMPLE {
        count *= 2;
    }
    count
}

/// An operation that leaves the state as it is, over and over on one state.
fn steady<S: Side, A>(state: &mut S, count: usize, op: &mut impl FnMut(&mut S) -> A) -> Duration {
    let began = Instant::now();
    for _ in 0..count {
        black_box(op(black_box(state)));
    }
    began.elapsed()
}

/// An operation that changes the state, once on each copy; the copies are restored while the clock stands.
fn restored<S: Side>(start: &S, count: usize, op: &mut impl FnMut(&mut S) -> u32) -> Duration {
    let clock = clock();
    let mut copies = vec![start.clone(); COPIES];
    let mut total = Duration::ZERO;
    for _ in 0..count {
        for copy in &mut copies {
            copy.clone_from(black_box(start));
        }
        let began = Instant::now();
        for copy in &mut copies {
            black_box(op(black_box(copy)));
        }
        total += began.elapsed().saturating_sub(clock);
    }
    total
}

fn nanoseconds(time: Duration, count: usize) -> f64 {
    time.as_nanos() as f64 / count as f64
}

/// Two sides on the same work, which leaves their states as they are.
pub fn time_steady<F: Side, S: Side, A>(
    (mut first, mut second): (F, S),
    mut first_op: impl FnMut(&mut F) -> A,
    mut second_op: impl FnMut(&mut S) -> A,
) -> Timed {
    let count = often_enough(|count| steady(&mut second, count, &mut second_op));
    Timed::in_turn(
        SAMPLES,
        || nanoseconds(steady(&mut first, count, &mut first_op), count),
        || nanoseconds(steady(&mut second, count, &mut second_op), count),
    )
}

/// Two sides on the same work, which changes their states.
pub fn time_restored<F: Side, S: Side>(
    (first, second): (F, S),
    mut first_op: impl FnMut(&mut F) -> u32,
    mut second_op: impl FnMut(&mut S) -> u32,
) -> Timed {
    let count = often_enough(|count| restored(&second, count, &mut second_op));
    Timed::in_turn(
        SAMPLES,
        || nanoseconds(restored(&first, count, &mut first_op), count * COPIES),
        || nanoseconds(restored(&second, count, &mut second_op), count * COPIES),
    )
}
