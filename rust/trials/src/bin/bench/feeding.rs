//! Bytes made into lines: by the core, by the splitter, and by the earlier library or, where none is
//! given that has a feeder, by the model.

use std::hint::black_box;
use std::time::Duration;

use relay::{earlier, Fed, Feeder, Table};
use trials::convert::core_table;

use crate::cases::{self, LINK};
use crate::clock::Clock;
use crate::splitter::Splitter;

/// What the core is timed beside, apart from the splitter.
pub const OTHER: &str = if earlier::HAS_FEEDER { "earlier" } else { "model" };

/// What is handed each line, and nothing in the place of one that is too long.
type Sink<'a> = &'a mut dyn FnMut(Option<&[u8]>);

/// Makes the bytes of chunks into lines.
type Way = fn(&[&[u8]], Sink);

/// The lines of some bytes made by each way, and how long that takes beside taking them: speeds and
/// ratios, as columns of a table.
pub fn columns(clock: &Clock, lines: &[Vec<u8>], size: usize) -> String {
    let bytes = lines.concat();
    let chunks: Vec<&[u8]> = bytes.chunks(size).collect();
    let ways: [Way; 3] =
        [by_core, by_memchr, if earlier::HAS_FEEDER { by_earlier } else { by_model }];
    for way in ways {
        assert_eq!(made(way, &chunks), lines, "these are not the lines");
    }
    let make = |way: Way| way(&chunks, &mut |line| _ = black_box(line));
    let [few, many] = [cases::small(), cases::full()].map(|cases| core_table(&cases[0].table));
    let times = clock.best([
        &mut || make(ways[0]),
        &mut || make(ways[1]),
        &mut || make(ways[2]),
        &mut || take(&few, lines),
        &mut || take(&many, lines),
    ]);
    let speed = |time: Duration| bytes.len() as f64 / time.as_secs_f64() / 1e6;
    let ratio = |time: Duration| times[0].as_secs_f64() / time.as_secs_f64();
    let [core, memchr, other, few, many] = times;
    format!(
        "{:.0} | {:.0} | {:.2} | {:.0} | {:.2} | {:.1} % | {:.1} %",
        speed(core),
        speed(memchr),
        ratio(memchr),
        speed(other),
        ratio(other),
        100.0 * ratio(few),
        100.0 * ratio(many)
    )
}

/// The lines that a way makes.
fn made(way: Way, chunks: &[&[u8]]) -> Vec<Vec<u8>> {
    let mut lines = Vec::new();
    way(chunks, &mut |line| lines.push(line.expect("none is too long").to_vec()));
    lines
}

fn by_core(chunks: &[&[u8]], sink: Sink) {
    by_library(relay::feed, chunks, sink);
}

fn by_earlier(chunks: &[&[u8]], sink: Sink) {
    by_library(earlier::feed, chunks, sink);
}

fn by_library(feed: impl Fn(&Feeder, &[u8]) -> Fed, chunks: &[&[u8]], sink: Sink) {
    let mut feeder = Feeder::empty();
    for &chunk in chunks {
        let mut rest = chunk;
        loop {
            let fed = feed(&feeder, rest);
            feeder = fed.state;
            rest = &rest[fed.used..];
            match (fed.number, fed.len) {
                (relay::ACCEPTED, 0) => break,
                (relay::ACCEPTED, _) => sink(Some(fed.line())),
                _ => sink(None),
            }
        }
    }
}

fn by_memchr(chunks: &[&[u8]], sink: Sink) {
    let mut splitter = Splitter::default();
    for chunk in chunks {
        splitter.split(chunk, sink);
    }
}

fn by_model(chunks: &[&[u8]], sink: Sink) {
    let mut feeder = model::Feeder::EMPTY;
    for &chunk in chunks {
        let mut rest = chunk;
        while let Some(event) = model_next(&mut feeder, &mut rest) {
            sink(event.as_deref().ok());
        }
    }
}

fn model_next(feeder: &mut model::Feeder, rest: &mut &[u8]) -> Option<model::feeder::Event> {
    let fed = feeder.feed(rest).expect("bytes reach it");
    *rest = &rest[fed.used..];
    fed.event
}

/// Takes the lines, one after the other, from a table on.
fn take(start: &Table, lines: &[Vec<u8>]) {
    let mut table = *start;
    let mut out = [0; 512];
    for line in lines {
        black_box(relay::take(&mut table, LINK, line, &mut out));
    }
}
