//! Times of a row: each library in turn, and of each the least.

use crate::row::{Row, Run};
use std::hint::black_box;
use std::time::{Duration, Instant};

/// How long one run of a library is to take.
const RUN: Duration = Duration::from_millis(20);
const MOST_TIMES: f64 = 5e6;

/// The nanoseconds that each library takes for a piece of the row's work.
pub fn nanoseconds(row: &Row, rounds: u32) -> Vec<f64> {
    let plans: Vec<Plan> = row.runs.iter().map(|run| Plan::of(run)).collect();
    let mut least = vec![f64::INFINITY; plans.len()];
    for _ in 0..rounds {
        for ((plan, run), least) in plans.iter().zip(&row.runs).zip(&mut least) {
            *least = least.min(plan.each(run));
        }
    }
    least.iter().map(|each| each / row.pieces as f64).collect()
}

/// How many times a run does its work, and what it takes before the first.
struct Plan {
    times: u64,
    before: f64,
}

impl Plan {
    fn of(run: &Run) -> Plan {
        let before = (0..3).map(|_| elapsed(run, 0)).fold(f64::INFINITY, f64::min);
        let mut plan = Plan { times: 1, before };
        // The first guess stands on one time, the second on the first.
        for _ in 0..2 {
            let each = plan.each(run).max(1.0);
            let wanted = (RUN.as_nanos() as f64).max(2.0 * before) / each;
            plan.times = wanted.clamp(1.0, MOST_TIMES) as u64;
        }
        plan
    }

    /// The nanoseconds of one time.
    fn each(&self, run: &Run) -> f64 {
        (elapsed(run, self.times) - self.before) / self.times as f64
    }
}

fn elapsed(run: &Run, times: u64) -> f64 {
    let begin = Instant::now();
    black_box(run.bench_measured(times));
    begin.elapsed().as_nanos() as f64
}
