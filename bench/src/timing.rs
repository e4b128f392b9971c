//! The time of a call, as the best of many batches. The sides' batches take turns, so that a busy machine slows them
//! alike.

use crate::clock;
use std::time::{Duration, Instant};

/// A batch is short, so that some of them run undisturbed, and long against the clock's own cost, of some 0.3 µs.
const BATCH: Duration = Duration::from_micros(150);
const BATCHES: usize = 1500;
/// One call may take longer than a batch; then there are fewer of them, but not fewer than these.
const FEWEST: usize = 15;
const LONGEST: Duration = Duration::from_secs(1);

pub struct Side<'a> {
    pub name: &'static str,
    run: Box<dyn FnMut(u32) + 'a>,
}

impl<'a> Side<'a> {
    pub fn new(name: &'static str, mut once: impl FnMut() + 'a) -> Self {
        let run = Box::new(move |times| {
            for _ in 0..times {
                once();
            }
        });
        Side { name, run }
    }

    pub fn run(&mut self, calls: u32) {
        (self.run)(calls);
    }

    fn time(&mut self, calls: u32) -> Duration {
        let start = clock::now();
        self.run(calls);
        clock::now() - start
    }

    /// How many calls make a batch; it also warms the caches.
    fn calls(&mut self) -> u32 {
        let mut calls = 1;
        while self.time(calls) < BATCH && calls < 1 << 20 {
            calls *= 2;
        }
        calls
    }
}

/// The nanoseconds of one call of each side.
pub fn race(sides: &mut [Side]) -> Vec<f64> {
    let calls: Vec<u32> = sides.iter_mut().map(Side::calls).collect();
    let mut best = vec![f64::INFINITY; sides.len()];
    let start = Instant::now();
    for batch in 0..BATCHES {
        if batch >= FEWEST && start.elapsed() > LONGEST {
            break;
        }
        for ((side, calls), best) in sides.iter_mut().zip(&calls).zip(&mut best) {
            let time = side.time(*calls).as_nanos() as f64 / f64::from(*calls);
            *best = time.min(*best);
        }
    }
    best
}
