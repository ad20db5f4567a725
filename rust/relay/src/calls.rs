// The functions that are alike in every library, called safely: included once for each library,
// after `functions!`, `feeder_functions!` and `log_functions!`.

use crate::ffi::{Bytes, Room};
use crate::layout;
use crate::types::{
    Fed, Feeder, Found, Head, LineRead, Logged, Matched, Message, Record, RecordRead, Text, Written,
};

/// A number of the library's layout of the structs, 0 past the last.
pub fn layout_number(k: usize) -> usize {
    // SAFETY: only numbers go in and come back.
    unsafe { relay_layout(k) }
}

/// Whether the library lays out every struct as this crate does.
pub fn layout_matches() -> bool {
    layout::matches(layout_number)
}

/// Reads a line.
pub fn read(line: &[u8]) -> LineRead {
    // SAFETY: the bytes are lent for the call.
    unsafe { relay_read(Bytes::of(line)) }
}

/// The parts of a line, by their places.
pub fn parts(line: &[u8]) -> Message {
    // SAFETY: the bytes are lent for the call.
    unsafe { relay_parts(Bytes::of(line)) }
}

/// The prefix of a line, or the empty part at its end.
pub fn prefix(line: &[u8]) -> &[u8] {
    parts(line).prefix.of(line)
}

/// The command of a line, or the empty part at its end.
pub fn command(line: &[u8]) -> &[u8] {
    parts(line).command.of(line)
}

/// A parameter of a line, counted from 0, or the empty part at its end.
pub fn param(line: &[u8], index: usize) -> &[u8] {
    match parts(line).params.get(index) {
        Some(span) => span.of(line),
        None => &line[line.len()..],
    }
}

/// Writes a message, whose parts are spans of the text, to the front of the output.
pub fn write(text: &[u8], message: &Message, out: &mut [u8]) -> Written {
    // SAFETY: text and output are lent for the call; the borrows say that they don't overlap.
    unsafe { relay_write(Bytes::of(text), *message, Room::of(out)) }
}

/// The feeder that keeps nothing.
pub fn empty_feeder() -> Feeder {
    // SAFETY: only plain data comes back.
    unsafe { relay_empty_feeder() }
}

/// Feeds bytes, up to and with the first that yields something, else all of them.
pub fn feed(state: &Feeder, bytes: &[u8]) -> Fed {
    // SAFETY: the bytes are lent for the call.
    unsafe { relay_feed(*state, Bytes::of(bytes)) }
}

/// Whether two names are equal.
pub fn same_name(a: &[u8], b: &[u8]) -> bool {
    // SAFETY: the bytes are lent for the call.
    unsafe { relay_same_name(Bytes::of(a), Bytes::of(b)) }
}

/// Whether a mask matches a text. However many stars the mask has, (its length + 1) × (the text's
/// length + 1) steps always reach the answer.
pub fn matches(mask: &[u8], text: &[u8]) -> Matched {
    // SAFETY: the bytes are lent for the call.
    unsafe { relay_match(Bytes::of(mask), Bytes::of(text)) }
}

/// The greater of two keys, the very one that was lent; the first where they are equal.
pub fn greater_key<'a>(first: &'a [u8], second: &'a [u8]) -> &'a [u8] {
    // SAFETY: the bytes are lent for the call.
    let less = unsafe { relay_key_less(Bytes::of(first), Bytes::of(second)) };
    if less {
        second
    } else {
        first
    }
}

/// Writes a record as a text to the front of the output.
pub fn describe(record: &Record, out: &mut [u8]) -> Written {
    // SAFETY: the output is lent for the call.
    unsafe { relay_describe(*record, Room::of(out)) }
}

/// The slot that holds the channel of a name.
pub fn find(head: &Head, name: &[u8]) -> Found {
    // SAFETY: the name is lent for the call.
    unsafe { relay_find(*head, Bytes::of(name)) }
}

/// The words of a refusal's number.
pub fn refusal_text(number: u8) -> Text {
    // SAFETY: only plain data goes in and comes back.
    unsafe { relay_refusal_text(number) }
}

/// Writes the day-log record of a line to the front of the log.
pub fn log(link: u32, line: &[u8], log: &mut [u8]) -> Logged {
    // SAFETY: line and log are lent for the call; the borrows say that they don't overlap.
    unsafe { relay_log(link, Bytes::of(line), Room::of(log)) }
}

/// Reads the record that stands at a place of a day log.
pub fn read_record(log: &[u8], at: usize) -> RecordRead {
    // SAFETY: the log is lent for the call.
    unsafe { relay_read_record(Bytes::of(log), at) }
}
