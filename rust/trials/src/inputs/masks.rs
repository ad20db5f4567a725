//! Masks and texts.

use crate::rng::Rng;

/// A mask and a text. Few different bytes, so that they often match for a while.
pub fn mask_and_text(rng: &mut Rng) -> (Vec<u8>, Vec<u8>) {
    let text_length = length(rng);
    let text: Vec<u8> = (0..text_length).map(|_| rng.pick(b"abAB[{")).collect();
    let mask = match rng.below(3) {
        0 => {
            let length = length(rng);
            (0..length).map(|_| rng.pick(b"ab?*")).collect()
        }
        _ => mask_of(rng, &text),
    };
    (mask, text)
}

fn length(rng: &mut Rng) -> usize {
    match rng.below(8) {
        0 => rng.pick(&[511, 512, 513, 514]),
        1 => rng.between(0, 520),
        _ => rng.between(0, 12),
    }
}

/// A mask that mostly matches the text: some bytes in another spelling, some runs as stars.
fn mask_of(rng: &mut Rng, text: &[u8]) -> Vec<u8> {
    let mut mask = Vec::new();
    let mut place = 0;
    while place < text.len() {
        match rng.below(8) {
            0 => mask.push(b'?'),
            1 => {
                mask.push(b'*');
                place += rng.below(4);
                continue;
            }
            2 => mask.push(model::names::fold(text[place])),
            3 if rng.one_in(8) => mask.push(rng.byte()),
            _ => mask.push(text[place]),
        }
        place += 1;
    }
    if rng.one_in(4) {
        mask.push(b'*');
    }
    mask
}
