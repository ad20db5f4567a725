//! Day logs: whole ones, some cut anywhere, some with a byte that is wrong.

use model::journal::{self, HEAD};
use model::line::LINE;
use model::refusal::number_of;
use model::replay::START;

use super::lines;
use crate::rng::Rng;
use crate::TAKING;

/// The record of a line of at most 512 bytes on a link up to 31.
pub fn record(link: u32, line: &[u8]) -> Vec<u8> {
    let mut room = [0; HEAD + LINE];
    let size = journal::write_record(link, line, &mut room).expect("such a line is logged");
    room[..size].to_vec()
}

/// A log of a few lines, which may hold any bytes.
pub fn log(rng: &mut Rng) -> Vec<u8> {
    let records = (0..rng.below(5)).map(|_| {
        let length = match rng.below(5) {
            0 => rng.pick(&[0, 1, 2, 255, 256, 257, 511, 512]),
            1 => rng.between(0, LINE),
            _ => rng.between(0, 40),
        };
        record(rng.below(32) as u32, &bytes(rng, length))
    });
    records.collect::<Vec<_>>().concat()
}

/// That many bytes: any, or those that records begin with.
fn bytes(rng: &mut Rng, length: usize) -> Vec<u8> {
    if rng.one_in(2) {
        return rng.bytes(length);
    }
    (0..length).map(|_| rng.pick(&[73, 82, 0, 1, 2, 3, 31, 32, 255])).collect()
}

/// The log of a day of so many lines: those that are accepted, from an empty table on, and, unless the
/// number drawn is 0, those that are refused by it. So each number has its days, however seldom it is given.
pub fn day(rng: &mut Rng, lines: usize) -> Vec<u8> {
    let mut table = START;
    let mut log = Vec::new();
    let wanted = rng.pick(TAKING);
    for _ in 0..lines {
        let line = lines::line(rng, &table);
        let link = rng.below(32) as u32;
        let number = number_of(&model::relay::take(&mut table, link, &line, &mut [0; LINE]));
        if line.len() <= LINE && (number == 0 || number == wanted) {
            log.extend(record(link, &line));
        }
    }
    log
}

/// The places where the records of a log begin, up to its first fault.
fn places(log: &[u8]) -> Vec<usize> {
    let mut places = Vec::new();
    let mut at = 0;
    while let Some(Ok(record)) = journal::read_record(log, at) {
        places.push(at);
        at += HEAD + record.line.len();
    }
    places
}

/// Damages a log: mostly another byte in the head of one of its records; else it is cut, a byte is lost
/// or put in, or bytes stand behind it.
pub fn damage(rng: &mut Rng, log: &mut Vec<u8>) {
    let places = places(log);
    if places.is_empty() || rng.one_in(8) {
        let length = rng.between(1, 12);
        log.extend(bytes(rng, length));
        return;
    }
    let place = rng.pick(&places);
    match rng.below(10) {
        0 => log.truncate(rng.below(log.len())),
        1 => log.truncate(place + rng.below(HEAD)),
        2 => drop(log.remove(rng.below(log.len()))),
        3 => log.insert(rng.below(log.len()), rng.byte()),
        4 => log[place + rng.below(2)] ^= 1 << rng.below(8),
        5 => log[place + 2] = rng.pick(&[31, 32, 33, 64, 128, 255]),
        6 => log[place + 3] = rng.pick(&[0, 1, 2, 3, 128, 255]),
        7 => log[place + 4] = rng.byte(),
        8 => log[place + rng.below(HEAD)] = rng.byte(),
        _ => {
            let any = rng.below(log.len());
            log[any] = rng.byte();
        }
    }
}
