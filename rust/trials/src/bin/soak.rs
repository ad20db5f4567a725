//! Compares core and model for as long as it is told, on inputs that no run before had.
//!
//!     cargo run --release --bin soak -- SECONDS [SEED]
//!
//! It prints the seed that it starts from; a failure names the seed that it failed with.

use std::env;
use std::process::ExitCode;
use std::time::{Duration, Instant, SystemTime, UNIX_EPOCH};

use trials::tally::Tally;
use trials::TRIALS;

/// How long a trial runs before the next one has its turn.
const TURN: Duration = Duration::from_millis(100);

fn main() -> ExitCode {
    let mut args = env::args().skip(1).map(|arg| arg.parse::<u64>().ok());
    let (Some(Some(seconds)), seed) = (args.next(), args.next()) else {
        eprintln!("usage: soak SECONDS [SEED]");
        return ExitCode::from(2);
    };
    assert!(relay::layout_matches(), "the library's structs are not laid out as this program's");
    soak(Duration::from_secs(seconds), seed.flatten().unwrap_or_else(seed_of_now));
    ExitCode::SUCCESS
}

fn soak(time: Duration, first_seed: u64) {
    println!("from the seed {first_seed}");
    let end = Instant::now() + time;
    let mut trials = TRIALS.map(|trial| (trial, first_seed, Tally::default()));
    while Instant::now() < end {
        for (trial, seed, tally) in &mut trials {
            let turn_end = Instant::now() + TURN;
            while Instant::now() < turn_end {
                trial.run_seeds(*seed..*seed + 1, tally);
                *seed += 1;
            }
        }
    }
    println!("no difference");
    for (trial, seed, tally) in &trials {
        println!("{}, {} rounds: {tally}", trial.name, seed - first_seed);
    }
}

/// The time of day, far away from the seeds of the tests.
fn seed_of_now() -> u64 {
    let now = SystemTime::now().duration_since(UNIX_EPOCH).expect("a clock after 1970");
    now.as_micros() as u64
}
