//! Core and model on many inputs, the same in every run. Each number that a function can give is
//! reached, and no other is given.

use trials::tally::Tally;
use trials::{Trial, TRIALS};

fn run(name: &str, rounds: u64) {
    let trial: &Trial = TRIALS.iter().find(|t| t.name == name).expect("a trial of that name");
    assert!(relay::layout_matches());
    let mut tally = Tally::default();
    trial.run_seeds(0..rounds, &mut tally);
    println!("{name}: {tally}");
    assert_eq!(tally.missing(trial.numbers), [], "never given by '{name}': {tally}");
    assert_eq!(tally.unexpected(trial.numbers), [], "not to be given by '{name}': {tally}");
    assert!(!tally.is_one_sided(), "always decided in one way by '{name}': {tally}");
}

#[test]
fn read() {
    run("read", 100_000);
}

#[test]
fn write() {
    run("write", 100_000);
}

#[test]
fn feed() {
    run("feed", 10_000);
}

#[test]
fn same_name() {
    run("same name", 100_000);
}

#[test]
fn matches() {
    run("match", 50_000);
}

#[test]
fn greater_key() {
    run("greater key", 100_000);
}

#[test]
fn merge() {
    run("merge", 50_000);
}

#[test]
fn banned() {
    run("banned", 30_000);
}

#[test]
fn register() {
    run("register", 10_000);
}

#[test]
fn log() {
    run("log", 50_000);
}

#[test]
fn read_log() {
    run("read log", 3_000);
}

#[test]
fn take() {
    run("take", 60_000);
}

#[test]
fn take_many() {
    run("take many", 200);
}

#[test]
fn replay() {
    run("replay", 1_000);
}

#[test]
fn demand_3() {
    run("demand 3", 2_000);
}
