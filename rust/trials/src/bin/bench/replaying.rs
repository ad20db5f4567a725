//! A day log read and replayed: by the core, and by the earlier library or, where none is given that
//! reads logs, by the model.

use std::hint::black_box;
use std::time::Duration;

use model::journal;
use relay::{earlier, Answer, RecordRead, Table};
use trials::convert::core_table;

use crate::clock::Clock;

/// What the core is timed beside.
pub const OTHER: &str = if earlier::HAS_LOG_READER { "earlier" } else { "model" };

/// The records of the log that is timed.
pub const RECORDS: usize = 1_000;

/// Reads a record of a log.
type Read = fn(&[u8], usize) -> RecordRead;

/// Takes a line.
type Take = fn(&mut Table, u32, &[u8], &mut [u8]) -> Answer;

/// Reading the log alone, as columns of a table.
pub fn reading(clock: &Clock, log: &[u8]) -> String {
    let read: [fn(&[u8]) -> usize; 2] = [
        |log| read_all(relay::read_record, log),
        if earlier::HAS_LOG_READER {
            |log| read_all(earlier::read_record, log)
        } else {
            read_all_by_model
        },
    ];
    for read in read {
        assert_eq!(read(log), RECORDS, "these are not the records");
    }
    let [core, other] = read;
    columns(clock.best([&mut || _ = black_box(core(log)), &mut || _ = black_box(other(log))]))
}

/// Replaying it, from an empty table on, as columns of a table.
pub fn replaying(clock: &Clock, log: &[u8]) -> String {
    let replay: [fn(&[u8]) -> Table; 2] = [
        |log| replay_all(relay::read_record, relay::take, log),
        if earlier::HAS_LOG_READER {
            |log| replay_all(earlier::read_record, earlier::take, log)
        } else {
            |log| core_table(&model::replay::replay(log).0)
        },
    ];
    let [core, other] = replay;
    assert!(core(log) == other(log) && core(log) == Table::replay(log).0, "the tables differ");
    columns(clock.best([&mut || _ = black_box(core(log)), &mut || _ = black_box(other(log))]))
}

/// The time of a record by the core, by the other, their ratio, and the core's records a second.
fn columns([core, other]: [Duration; 2]) -> String {
    let each = |time: Duration| time.as_secs_f64() * 1e6 / RECORDS as f64;
    let ratio = each(core) / each(other);
    format!("{:.3} | {:.3} | {ratio:.2} | {:.0}", each(core), each(other), 1e6 / each(core))
}

/// Reads every record of a log with a library, and answers how many there are.
fn read_all(read: Read, log: &[u8]) -> usize {
    let (mut count, mut at) = (0, 0);
    loop {
        let record = read(log, at);
        if !record.found {
            return count;
        }
        count += 1;
        at = record.line.end;
    }
}

fn read_all_by_model(log: &[u8]) -> usize {
    let (mut count, mut at) = (0, 0);
    while let Some(Ok(record)) = journal::read_record(log, at) {
        count += 1;
        at += journal::HEAD + record.line.len();
    }
    count
}

/// Replays a log that has no fault with a library.
fn replay_all(read: Read, take: Take, log: &[u8]) -> Table {
    let mut table = Table::before_replay();
    let mut out = [0; 512];
    let mut at = 0;
    loop {
        let record = read(log, at);
        if !record.found {
            return table;
        }
        take(&mut table, record.link, record.line.of(log), &mut out);
        at = record.line.end;
    }
}
