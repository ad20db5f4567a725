//! Reading and writing.

use model::line;
use model::refusal::number_of;
use model::Table;

use crate::convert::core_message;
use crate::inputs::{lines, messages};
use crate::lent::{output_length, Lent};
use crate::rng::Rng;
use crate::tally::Tally;

/// Reads a line: number, count, and each part by its place in the caller's bytes.
pub fn read(rng: &mut Rng, tally: &mut Tally) {
    let line = lines::line(rng, &Table::EMPTY);
    let before = line.clone();
    let answer = relay::read(&line);
    let expected = line::read(&line);
    let text = line.escape_ascii();
    assert_eq!(answer.number, number_of(&expected), "{text}");
    assert_eq!(answer.count, expected.map_or(0, |m| m.params.len()), "{text}");
    assert_eq!(relay::parts(&line), core_message(&line::parts(&line)), "{text}");
    same_part(relay::prefix(&line), line::prefix(&line));
    same_part(relay::command(&line), line::command(&line));
    for index in (0..17).chain([usize::MAX]) {
        same_part(relay::param(&line, index), line::param(&line, index));
    }
    assert_eq!(line, before);
    tally.count(answer.number);
}

/// Two parts of one slice that are the same part: empty ones are told apart by their place too.
pub fn same_part(ours: &[u8], theirs: &[u8]) {
    assert_eq!((ours.as_ptr(), ours.len()), (theirs.as_ptr(), theirs.len()));
}

/// Writes a message: number, length and the whole output.
pub fn write(rng: &mut Rng, tally: &mut Tally) {
    let (text, parts) = messages::message(rng);
    let before = text.clone();
    let length = output_length(rng);
    let mut out = Lent::new(rng, length);
    let mut expected_out = out.clone();
    let answer = relay::write(&text, &core_message(&parts), out.room());
    let expected = line::write(&text, &parts, expected_out.room());
    let told = || format!("{} {parts:?}", text.escape_ascii());
    assert_eq!(answer.number, number_of(&expected), "{}", told());
    assert_eq!(answer.len, expected.unwrap_or(0), "{}", told());
    assert_eq!(out, expected_out, "{}", told());
    assert_eq!(text, before);
    tally.count(answer.number);
}
