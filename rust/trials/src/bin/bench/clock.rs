//! Time.

use std::hint::black_box;
use std::time::{Duration, Instant};

use relay::earlier;

/// What the core is timed beside.
pub const OTHER: &str = if earlier::IS_GIVEN { "earlier" } else { "model" };

/// How the core and another are timed.
pub struct Clock {
    /// The runs, of which the best counts.
    pub runs: usize,
}

/// The times of the best runs; the other's only where it was asked.
pub struct Times {
    core: Duration,
    other: Option<Duration>,
}

/// The calls of one run: enough for the clock's own grain not to show, and so few that many runs are
/// not interrupted by other programs.
const CALLS: u32 = 100;

impl Clock {
    /// Times the core and, by turns with it, the earlier library or, where none is given, the model.
    /// All answer a number, which must be the same.
    pub fn time(
        &self,
        core: impl FnMut() -> u8,
        earlier: impl FnMut() -> u8,
        model: impl FnMut() -> u8,
    ) -> Times {
        if earlier::IS_GIVEN {
            self.by_turns(core, earlier)
        } else {
            self.by_turns(core, model)
        }
    }

    /// The same where the earlier library may not know what is asked: then the core is timed alone.
    pub fn time_if(
        &self,
        known: bool,
        core: impl FnMut() -> u8,
        earlier: impl FnMut() -> u8,
        model: impl FnMut() -> u8,
    ) -> Times {
        if earlier::IS_GIVEN && !known {
            self.alone(core)
        } else {
            self.time(core, earlier, model)
        }
    }

    /// The best times of calls that take turns, one call a run.
    pub fn best<const N: usize>(&self, mut calls: [&mut dyn FnMut(); N]) -> [Duration; N] {
        let mut best = [Duration::MAX; N];
        for _ in 0..self.runs {
            for (best, call) in best.iter_mut().zip(&mut calls) {
                let start = Instant::now();
                call();
                *best = start.elapsed().min(*best);
            }
        }
        best
    }

    /// Times the core and another by turns. Both answer a number, which must be the same.
    pub fn by_turns(&self, mut core: impl FnMut() -> u8, mut other: impl FnMut() -> u8) -> Times {
        assert_eq!(core(), other(), "the core and what it is timed beside differ");
        let mut best = [Duration::MAX; 2];
        for _ in 0..self.runs {
            best[0] = best[0].min(run(&mut core));
            best[1] = best[1].min(run(&mut other));
        }
        Times { core: best[0], other: Some(best[1]) }
    }

    fn alone(&self, mut core: impl FnMut() -> u8) -> Times {
        let best = (0..self.runs).map(|_| run(&mut core)).min();
        Times { core: best.unwrap_or(Duration::MAX), other: None }
    }
}

/// The time of a run.
fn run(call: &mut impl FnMut() -> u8) -> Duration {
    let start = Instant::now();
    for _ in 0..CALLS {
        black_box(call());
    }
    start.elapsed()
}

impl Times {
    /// A call of the core, one of the other, and their ratio, as columns of a table.
    pub fn columns(&self) -> String {
        format!("{} | {}", digits(microseconds(self.core)), self.beside())
    }

    /// The other's call and the ratio alone.
    pub fn beside(&self) -> String {
        match self.other.map(microseconds) {
            Some(other) => format!("{} | {:.2}", digits(other), microseconds(self.core) / other),
            None => "– | –".to_string(),
        }
    }
}

/// The time of a call, by that of a run.
fn microseconds(run: Duration) -> f64 {
    run.as_secs_f64() * 1e6 / f64::from(CALLS)
}

/// Microseconds, with nanoseconds where there is nothing before the point.
fn digits(time: f64) -> String {
    format!("{time:.*}", if time < 1.0 { 3 } else { 2 })
}
