//! Messages to be written: bytes and the places of the parts in them.

use model::line::{Parts, Span, PARAMS};

use super::lines;
use crate::rng::Rng;

/// Lent bytes and parts of them.
pub fn message(rng: &mut Rng) -> (Vec<u8>, Parts) {
    match rng.below(5) {
        0 => read_message(rng),
        1 => many_params(rng),
        _ => any_message(rng),
    }
}

/// Words of a text, and now and then another part of it.
fn any_message(rng: &mut Rng) -> (Vec<u8>, Parts) {
    let text = text(rng);
    let words = words_in(&text);
    let mut parts = Parts {
        has_prefix: rng.one_in(2),
        prefix: span(rng, &text, &words),
        command: command(rng, &text, &words),
        count: count(rng),
        ..Parts::default()
    };
    for param in &mut parts.params {
        *param = span(rng, &text, &words);
    }
    if rng.one_in(3) {
        widen_last(rng, &text, &mut parts);
    }
    (text, parts)
}

/// The parts of a line as the reader gives them, perhaps with one of them moved.
fn read_message(rng: &mut Rng) -> (Vec<u8>, Parts) {
    let table = super::tables::table(rng);
    let line = lines::line(rng, &table);
    let mut parts = model::line::parts(&line);
    if rng.one_in(3) {
        parts.params[rng.below(PARAMS)] = any_span(rng, line.len());
    }
    if rng.one_in(6) {
        parts.count = count(rng);
    }
    (line, parts)
}

/// About fourteen parameters that are words, behind them one that may start with SPACE or ':', hold
/// SPACEs or be empty, some so long that the line is about as long as it may be; perhaps one of the
/// words moved.
pub fn many_params(rng: &mut Rng) -> (Vec<u8>, Parts) {
    let mut text = [b"Xa:".as_slice(), &lines::ending(rng)].concat();
    if rng.one_in(4) {
        text.resize(rng.between(455, 475), rng.pick(b" :a"));
    }
    let (command, word) = (Span { start: 0, end: 1 }, Span { start: 1, end: 3 });
    let count = rng.pick(&[13, 14, 14, 15, 15, 15, 15, 16]);
    let has_prefix = rng.one_in(2);
    let mut parts = Parts { has_prefix, prefix: word, command, count, params: [word; PARAMS] };
    parts.params[count.min(PARAMS) - 1] = Span { start: 3, end: text.len() };
    if rng.one_in(6) {
        parts.params[rng.below(PARAMS)] = any_span(rng, text.len());
    }
    (text, parts)
}

/// Words, SPACEs and now and then a byte that no part may hold.
fn text(rng: &mut Rng) -> Vec<u8> {
    let length = match rng.below(4) {
        0 => rng.between(490, 530),
        1 => rng.between(100, 700),
        _ => rng.between(0, 40),
    };
    let bytes: &[u8] = match rng.below(4) {
        0 => b"abcX1:  \0\r\n\xff",
        1 => b"abcdefgXYZ",
        _ => b"abcdefgXYZ   :1",
    };
    (0..length).map(|_| rng.pick(bytes)).collect()
}

/// The spans of the text's words.
fn words_in(text: &[u8]) -> Vec<Span> {
    let mut words = Vec::new();
    let mut start = 0;
    for word in text.split(|&b| b == b' ') {
        let end = start + word.len();
        if !word.is_empty() {
            words.push(Span { start, end });
        }
        start = end + 1;
    }
    words
}

/// Mostly a word of the text.
fn span(rng: &mut Rng, text: &[u8], words: &[Span]) -> Span {
    if words.is_empty() || rng.one_in(24) {
        return any_span(rng, text.len());
    }
    rng.pick(words)
}

/// Mostly a word of letters.
fn command(rng: &mut Rng, text: &[u8], words: &[Span]) -> Span {
    let letters = |s: &&Span| text[s.start..s.end].iter().all(u8::is_ascii_alphabetic);
    let words_of_letters: Vec<Span> = words.iter().filter(letters).copied().collect();
    let choices = if rng.one_in(12) { words } else { &words_of_letters };
    span(rng, text, choices)
}

/// Any span, also one that lies outside a text of that length or ends before it starts.
fn any_span(rng: &mut Rng, length: usize) -> Span {
    let place = |rng: &mut Rng| match rng.below(12) {
        0 => usize::MAX,
        1 => length + 1,
        2 => length,
        _ => rng.between(0, length),
    };
    let (a, b) = (place(rng), place(rng));
    if rng.one_in(6) {
        return Span { start: a, end: b };
    }
    Span { start: a.min(b), end: a.max(b) }
}

fn count(rng: &mut Rng) -> usize {
    match rng.below(12) {
        0 => rng.pick(&[16, 17, 255, 256, usize::MAX]),
        1 => rng.pick(&[14, 15]),
        _ => rng.below(5),
    }
}

/// Lets the last parameter be any part of the text: only it may hold a SPACE.
fn widen_last(rng: &mut Rng, text: &[u8], parts: &mut Parts) {
    if let Some(last) = parts.params[..parts.count.min(PARAMS)].last_mut() {
        *last = any_span(rng, text.len());
    }
}
