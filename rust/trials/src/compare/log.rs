//! The day log: its records written, and read back.

use model::journal;
use model::refusal::number_of;

use crate::convert::core_read;
use crate::inputs::{logs, tables};
use crate::lent::Lent;
use crate::rng::Rng;
use crate::tally::Tally;

/// Writes the record of any bytes: number, size and the whole log buffer.
pub fn log(rng: &mut Rng, tally: &mut Tally) {
    let link = tables::link(rng, u32::MAX);
    let length =
        if rng.one_in(3) { rng.pick(&[0, 1, 255, 256, 511, 512, 513]) } else { rng.below(520) };
    let line = rng.bytes(length);
    let room = match rng.below(6) {
        0 => length + 4,
        1 => length + 5,
        2 => rng.pick(&[0, 1, 4, 5, 516, 517]),
        _ => length + rng.between(5, 600),
    };
    let mut log = Lent::new(rng, room);
    let mut expected_log = log.clone();
    let before = line.clone();
    let answer = relay::log(link, &line, log.room());
    let expected = journal::write_record(link, &line, expected_log.room());
    let told = || format!("link {link}, a line of {length} bytes, room of {room}");
    assert_eq!(answer.number, number_of(&expected), "{}", told());
    assert_eq!(answer.size, expected.unwrap_or(0), "{}", told());
    assert_eq!(log, expected_log, "{}", told());
    assert_eq!(line, before);
    tally.count(answer.number);
}

/// The most bytes of a record.
const RECORD: usize = journal::HEAD + model::line::LINE;

/// Reads a log, whole, cut or damaged, at each of its places and beyond them.
pub fn read_log(rng: &mut Rng, tally: &mut Tally) {
    let mut log = logs::log(rng);
    if rng.one_in(2) {
        logs::damage(rng, &mut log);
    }
    let lent = log.clone();
    let far = [log.len() + RECORD, 1 << 32, 1 << 63, usize::MAX - 4, usize::MAX];
    for at in (0..=log.len() + 6).chain(far) {
        compare_read(&log, at, tally);
    }
    assert_eq!(log, lent);
}

/// Reads at a given place. As many bytes from there as a record has at most give the same answer, but
/// for their places.
pub fn compare_read(log: &[u8], at: usize, tally: &mut Tally) {
    let told = || format!("at {at} of \"{}\"", log.escape_ascii());
    let answer = relay::read_record(log, at);
    let expected = core_read(&journal::read_record(log, at));
    assert_eq!(answer, expected, "{}", told());
    if let Some(rest) = log.get(at..) {
        let piece = &rest[..rest.len().min(RECORD)];
        assert_eq!(moved(relay::read_record(piece, 0), at), expected, "{}", told());
    }
    tally.count(answer.number);
    tally.decide(answer.found);
}

/// The answer with each place in it moved on by so many bytes.
fn moved(mut read: relay::RecordRead, by: usize) -> relay::RecordRead {
    if read.found {
        read.line = relay::Span { start: read.line.start + by, end: read.line.end + by };
    }
    if read.number != relay::ACCEPTED {
        read.place += by;
    }
    read
}
