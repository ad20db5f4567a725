//! Bytes as they come in by a link, and how they are cut.

use model::Table;

use super::lines;
use crate::rng::Rng;

/// The bytes of some lines, of which the last may be unfinished.
pub fn stream(rng: &mut Rng) -> Vec<u8> {
    let mut bytes = Vec::new();
    for _ in 0..rng.below(7) {
        bytes.extend(if rng.one_in(3) { lines::line(rng, &Table::EMPTY) } else { line(rng) });
    }
    if rng.one_in(2) {
        let length = length(rng);
        bytes.extend(text(rng, length));
    }
    if rng.one_in(3) {
        lines::damage(rng, &mut bytes);
    }
    bytes
}

/// Bytes that end as lines do, or nearly so.
fn line(rng: &mut Rng) -> Vec<u8> {
    let end: &[u8] = rng.pick(&[b"\r\n".as_slice(), b"\r\n", b"\n", b"\r\r\n", b"\n\r", b"\n\n"]);
    let length = length(rng).saturating_sub(end.len());
    [&text(rng, length), end].concat()
}

/// How long a line is, its end counted: often about as long as it may be.
fn length(rng: &mut Rng) -> usize {
    match rng.below(6) {
        0..=1 => rng.pick(&[510, 511, 512, 513, 514]),
        2 => rng.between(0, 3),
        3 => rng.between(0, 1600),
        _ => rng.between(0, 60),
    }
}

/// That many bytes: of a line, or those that mean something to the reader, or any.
fn text(rng: &mut Rng, length: usize) -> Vec<u8> {
    match rng.below(6) {
        0 => rng.bytes(length),
        1 => (0..length).map(|_| rng.pick(b"a :\0\r\x80\xff")).collect(),
        2 => vec![rng.pick(b"\0\r\x0b \xff"); length],
        _ => (0..length).map(|_| rng.pick(b"abcXYZ01 :#")).collect(),
    }
}

/// Cuts bytes into pieces, in order: of no byte, of one, of a few, of many.
pub fn cut<'a>(rng: &mut Rng, bytes: &'a [u8]) -> Vec<&'a [u8]> {
    let most = rng.pick(&[1, 30, 200, 700, 2000, 2000]);
    let mut pieces = Vec::new();
    let mut rest = bytes;
    while !rest.is_empty() || rng.one_in(4) {
        let length = match rng.below(8) {
            0 => rng.between(0, 1),
            1 => rng.between(0, 5),
            _ => rng.between(1, most),
        };
        let piece;
        (piece, rest) = rest.split_at(length.min(rest.len()));
        pieces.push(piece);
    }
    pieces
}
