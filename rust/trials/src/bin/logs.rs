//! Writes day logs, and what a program must print that replays them, by the model.
//!
//!     cargo run --bin logs -- FOLDER COUNT
//!
//! FOLDER then has the logs 0.log, 1.log and so on, the same in every run, some of them damaged and
//! some of them long, and for each of them the text 0.txt, 1.txt and so on.

use std::path::Path;
use std::process::ExitCode;
use std::{env, fs, io};

use model::replay;
use trials::inputs::logs;
use trials::rng::Rng;

fn main() -> ExitCode {
    let args: Vec<String> = env::args().skip(1).collect();
    let [folder, count] = args.as_slice() else { return usage() };
    let Ok(count) = count.parse() else { return usage() };
    for seed in 0..count {
        if let Err(error) = write(Path::new(folder), seed) {
            eprintln!("logs: {folder}: {error}");
            return ExitCode::FAILURE;
        }
    }
    ExitCode::SUCCESS
}

fn usage() -> ExitCode {
    eprintln!("usage: logs FOLDER COUNT");
    ExitCode::from(2)
}

/// Writes the log of a seed and its text.
fn write(folder: &Path, seed: u64) -> io::Result<()> {
    let log = log(seed);
    let (table, fault) = replay::replay(&log);
    fs::write(folder.join(format!("{seed}.log")), &log)?;
    fs::write(folder.join(format!("{seed}.txt")), replay::printed(&table, fault))
}

/// Each second log is damaged; each fifth is longer than what a program reads at once.
fn log(seed: u64) -> Vec<u8> {
    let mut rng = Rng::new(seed);
    let lines = if seed % 5 == 0 { 2_000 } else { rng.pick(&[0, 1, 3, 30, 200, 200]) };
    let mut log = logs::day(&mut rng, lines);
    if seed % 2 == 1 {
        logs::damage(&mut rng, &mut log);
    }
    log
}
