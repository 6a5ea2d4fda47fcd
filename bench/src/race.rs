//! Times of calls, one against another: every round times each of them once, so that whatever disturbs the machine disturbs all alike, and each one's least time counts.

use std::time::{Duration, Instant};

/// A call is repeated so often that one timing takes this long, beside which reading the clock is nothing.
const TIMING: Duration = Duration::from_micros(60);

const ROUNDS: usize = 600;

pub struct Racer<'a> {
    call: Box<dyn FnMut() + 'a>,
    repeats: u32,
    least: Duration,
}

impl<'a> Racer<'a> {
    pub fn new(call: impl FnMut() + 'a) -> Racer<'a> {
        Racer {
            call: Box::new(call),
            repeats: 1,
            least: Duration::MAX,
        }
    }

    /// How long all repeats take. One call goes before them, so that the lists are as near as they will be.
    fn timing(&mut self) -> Duration {
        (self.call)();
        let start = Instant::now();
        for _ in 0..self.repeats {
            (self.call)();
        }
        start.elapsed()
    }

    /// By the least of three timings, of which a disturbance seldom lengthens all.
    fn choose_repeats(&mut self) {
        while [self.timing(), self.timing(), self.timing()].iter().min() < Some(&TIMING) {
            self.repeats *= 2;
        }
    }

    /// The least time of one call, in nanoseconds.
    fn nanoseconds(&self) -> f64 {
        self.least.as_nanos() as f64 / f64::from(self.repeats)
    }
}

/// The least time of a call of each, in nanoseconds.
pub fn race(mut racers: Vec<Racer>) -> Vec<f64> {
    racers.iter_mut().for_each(Racer::choose_repeats);
    for _ in 0..ROUNDS {
        for racer in &mut racers {
            racer.least = racer.least.min(racer.timing());
        }
    }
    racers.iter().map(Racer::nanoseconds).collect()
}
