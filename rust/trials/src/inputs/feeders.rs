//! What a feeder keeps: states that bytes reach and others.

use model::line::LINE;
use model::Feeder;

use crate::rng::Rng;

/// A line of which nothing is kept, since it is too long.
pub const DROPPING: Feeder = Feeder { dropping: true, ..Feeder::EMPTY };

/// The state that keeps these bytes, at most 512.
pub fn keeping(bytes: &[u8]) -> Feeder {
    let mut feeder = Feeder { len: bytes.len(), ..Feeder::EMPTY };
    feeder.bytes[..bytes.len()].copy_from_slice(bytes);
    feeder
}

/// A state that bytes reach: often nothing kept, or nearly a whole line.
pub fn feeder(rng: &mut Rng) -> Feeder {
    match rng.below(6) {
        0..=1 => Feeder::EMPTY,
        2 => DROPPING,
        3 => keeping_any(rng, 0),
        4 => keeping_any(rng, LINE - 4),
        _ => keeping(&vec![rng.pick(b"\0\rx"); rng.between(0, LINE)]),
    }
}

/// A state that keeps so many bytes or more, any but LF.
fn keeping_any(rng: &mut Rng, least: usize) -> Feeder {
    let length = rng.between(least, LINE);
    let mut bytes = rng.bytes(length);
    for byte in bytes.iter_mut().filter(|byte| **byte == b'\n') {
        *byte = b'\r';
    }
    keeping(&bytes)
}

/// A state that no bytes reach: one that they do reach with one thing wrong.
pub fn bad_feeder(rng: &mut Rng) -> Feeder {
    let mut bad = keeping_any(rng, 0);
    let anything_but_0 = rng.between(1, 255) as u8;
    match rng.below(6) {
        0 => bad.len = rng.pick(&[513, 514, 1024]),
        1 => bad.len = rng.pick(&[usize::MAX, 1 << 63, 1 << 32, (1 << 32) + bad.len]),
        2 => {
            bad.len = bad.len.max(1);
            bad.bytes[rng.below(bad.len)] = b'\n';
        }
        3 => {
            bad.len = bad.len.min(LINE - 1);
            bad.bytes[rng.between(bad.len, LINE - 1)] = anything_but_0;
        }
        4 => {
            bad = if rng.one_in(2) { bad } else { Feeder::EMPTY };
            bad.len = bad.len.max(1);
            bad.dropping = true;
        }
        _ => {
            bad = DROPPING;
            bad.bytes[rng.below(LINE)] = anything_but_0;
        }
    }
    bad
}

/// The bytes that a feeder's fields have, each of which can be damaged.
pub const FEEDER_BYTES: usize = 521;

/// Changes one byte of a feeder by the bits of `change`: the byte at that place, the fields counted
/// in their order with nothing between them. The last one is a bool, of which there is one other.
pub fn damage_byte(feeder: &mut Feeder, place: usize, change: u8) {
    match place {
        0..=511 => feeder.bytes[place] ^= change,
        512..=519 => feeder.len ^= usize::from(change) << (8 * (place - 512)),
        520 => feeder.dropping = !feeder.dropping,
        _ => panic!("a feeder has no byte {place}"),
    }
}
