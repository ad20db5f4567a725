//! Names, masks and keys.

use model::refusal::number_of;
use model::{channel, mask, names};

use super::lines::same_part;
use crate::inputs::{masks, words};
use crate::rng::Rng;
use crate::tally::Tally;

/// Compares two names: equal ones, nearly equal ones, any bytes.
pub fn same_name(rng: &mut Rng, tally: &mut Tally) {
    let length = rng.between(0, 60);
    let a = if rng.one_in(2) { words::channel_name(rng) } else { rng.bytes(length) };
    let mut b = words::respelled(rng, &a);
    if rng.one_in(3) {
        crate::inputs::lines::damage(rng, &mut b);
    }
    let answer = relay::same_name(&a, &b);
    assert_eq!(answer, names::equal(&a, &b), "{a:?} {b:?}");
    tally.decide(answer);
}

/// Tries a mask on a text.
pub fn matches(rng: &mut Rng, tally: &mut Tally) {
    let (mask, text) = masks::mask_and_text(rng);
    let answer = relay::matches(&mask, &text);
    let expected = mask::matches(&mask, &text);
    let told = || format!("{} {}", mask.escape_ascii(), text.escape_ascii());
    assert_eq!(answer.number, number_of(&expected), "{}", told());
    assert_eq!(answer.yes, expected.unwrap_or(false), "{}", told());
    tally.count(answer.number);
    tally.decide(answer.yes);
}

/// Takes the greater of two keys, which is the very one that was lent.
pub fn greater_key(rng: &mut Rng, tally: &mut Tally) {
    let length = rng.between(0, 30);
    let a = if rng.one_in(2) { words::key(rng) } else { rng.bytes(length) };
    let mut b = if rng.one_in(3) { words::key(rng) } else { a.clone() };
    if rng.one_in(2) {
        crate::inputs::lines::damage(rng, &mut b);
    }
    let answer = relay::greater_key(&a, &b);
    same_part(answer, channel::greater_key(&a, &b));
    tally.decide(answer.as_ptr() == a.as_ptr());
}
