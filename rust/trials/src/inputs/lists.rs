//! Ban lists and their masks, good and bad.

use model::bans::{self, Masks, LIST, MASK, MASKS, ROOM};
use model::BanList;

use super::words;
use crate::rng::Rng;

/// The number of masks with different folds: more than a list can hold, and so few that two lists
/// often have some in common.
pub const FOLDS: usize = 44;

/// The mask of a number below `FOLDS`. Some begin as others do, some hold bytes that stand between
/// the capitals and the small letters, and some any bytes that a mask may hold.
fn mask_of(number: usize) -> Vec<u8> {
    let others: &[&[u8]] = &[
        b"*",
        b"?",
        b"*!*@spec[1]",
        b"*!*@spec",
        b"a,b",
        b":x",
        b"\x07",
        b"\x80\xff",
        b"\xff",
        b"_a",
        b"^a",
        b"`a",
        b"z",
        b"[",
        b"~",
        b"!",
        b"@+",
        b"\x01\x1f\x7f",
    ];
    match number {
        0 => vec![b'x'; MASK],
        1 => vec![b'x'; MASK - 1],
        2 => [vec![b'x'; MASK - 1], b"y".to_vec()].concat(),
        3 => vec![b'x'],
        _ => match others.get(number - 4) {
            Some(mask) => mask.to_vec(),
            None => format!("*!*@boat-{number}").into_bytes(),
        },
    }
}

/// A mask.
pub fn mask(rng: &mut Rng) -> Vec<u8> {
    let mask = mask_of(rng.below(FOLDS));
    words::respelled(rng, &mask)
}

/// Masks with so many different folds, at most `FOLDS`, in any order.
fn masks(rng: &mut Rng, count: usize) -> Masks {
    let mut numbers: Vec<usize> = (0..FOLDS).collect();
    rng.shuffle(&mut numbers);
    numbers[..count].iter().map(|&n| words::respelled(rng, &mask_of(n))).collect()
}

/// A well-formed list of so many masks.
pub fn list_of(rng: &mut Rng, count: usize) -> BanList {
    let masks = masks(rng, count);
    BanList::of(&bans::add(&Vec::new(), &masks).expect("at most 32"))
}

/// A well-formed list: often empty, often as full as it can be.
pub fn list(rng: &mut Rng) -> BanList {
    let count = match rng.below(3) {
        0 => 0,
        1 => rng.between(1, MASKS),
        _ => rng.between(MASKS - 3, MASKS),
    };
    list_of(rng, count)
}

/// A line's list: mostly a few masks, sometimes so many that some of them must fold together.
pub fn line_list(rng: &mut Rng) -> Vec<u8> {
    let crowd = rng.one_in(6);
    let entries = if crowd { rng.between(30, 80) } else { rng.between(1, 4) };
    let mut list = if rng.one_in(8) { vec![b' '; rng.between(1, 3)] } else { Vec::new() };
    for place in 0..entries {
        if place > 0 {
            list.push(b' ');
        }
        if rng.one_in(40) {
            list.push(b' ');
        }
        list.extend(if crowd { short_mask(rng) } else { mask(rng) });
    }
    if rng.one_in(8) {
        list.extend(vec![b' '; rng.between(1, 3)]);
    }
    list
}

/// A mask of one byte or two; there are 36 of them, in two spellings each.
fn short_mask(rng: &mut Rng) -> Vec<u8> {
    let short = match rng.below(36) {
        n @ 0..=25 => vec![b'a' + n as u8],
        n => vec![b'm', b'a' + (n - 26) as u8],
    };
    words::respelled(rng, &short)
}

/// What is no list of masks in a line: no mask, or one that is too long.
pub fn bad_line_list(rng: &mut Rng) -> Vec<u8> {
    let long = vec![b'x'; rng.pick(&[101, 101, 102, 200, 255, 256, 357])];
    match rng.below(5) {
        0 => Vec::new(),
        1 => vec![b' '; rng.between(1, 4)],
        2 => long,
        3 => [&long, b" ".as_slice(), &mask(rng)].concat(),
        _ => [&mask(rng), b" ".as_slice(), &long].concat(),
    }
}

/// What is no type of a list.
pub fn bad_type(rng: &mut Rng) -> Vec<u8> {
    let bad: &[&[u8]] = &[b"B", b"e", b"bb", b"+b", b"a", b"c", b"be", b"\xe2", b"b\x07"];
    rng.pick(bad).to_vec()
}

/// A text that a mask matches: something in the place of each '*' and '?'.
pub fn text_for(rng: &mut Rng, mask: &[u8]) -> Vec<u8> {
    let mut text = Vec::new();
    for &byte in mask {
        match byte {
            b'*' => {
                let length = rng.pick(&[0, 0, 1, 3, 9]);
                text.extend(rng.bytes(length));
            }
            b'?' => text.push(rng.byte()),
            _ => text.extend(words::respelled(rng, &[byte])),
        }
    }
    text
}

/// Damages a list in what its parts say together, or in a byte. Now and then it stays well formed.
pub fn damage_list(rng: &mut Rng, list: &mut BanList) {
    let count = usize::from(list.room[0]).min(MASKS);
    let room_of = |n: usize| 1 + n * ROOM;
    let [chosen, other] = [(); 2].map(|()| room_of(rng.below(count.max(1))));
    let length = usize::from(list.room[chosen]).clamp(1, MASK);
    match rng.below(9) {
        0 => list.room[0] = rng.pick(&[33, 34, 64, 128, 255]),
        1 => list.room[0] = list.room[0].wrapping_add(rng.pick(&[1, 255])),
        2 => list.room[chosen] = rng.pick(&[0, 1, 99, 100, 101, 128, 255]),
        3 => list.room[chosen + 1 + rng.below(length)] = rng.pick(b" \0\r\n"),
        4 => list.room[rng.between(chosen + length, chosen + MASK)] = rng.byte(),
        5 => list.room[rng.between(room_of(count).min(LIST - 1), LIST - 1)] = rng.byte(),
        6 => swap_rooms(list, chosen, other),
        7 => repeat_room(rng, list, chosen, other),
        _ => list.room[rng.below(LIST)] ^= 1 << rng.below(8),
    }
}

/// Lets two masks change places.
fn swap_rooms(list: &mut BanList, one: usize, other: usize) {
    for place in 0..ROOM {
        list.room.swap(one + place, other + place);
    }
}

/// Puts a mask, in any spelling, in the place of another.
fn repeat_room(rng: &mut Rng, list: &mut BanList, from: usize, to: usize) {
    let mask = words::respelled(rng, &list.room[from + 1..from + ROOM]);
    list.room[to] = list.room[from];
    list.room[to + 1..to + ROOM].copy_from_slice(&mask);
}
