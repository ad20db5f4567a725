//! The words of lines: names, ids, times, keys, limits, good and bad.
//!
//! They come from small sets, so that two inputs often have a word in common.

use model::names::UserId;

use crate::rng::Rng;

/// The number of different users: more than a channel can hold.
pub const USERS: usize = 90;

const SERVERS: [&[u8; 3]; 3] = [b"1AB", b"2CD", b"00Z"];

/// A server id.
pub fn server_id(rng: &mut Rng) -> Vec<u8> {
    rng.pick(&SERVERS).to_vec()
}

/// What is no server id.
pub fn bad_server_id(rng: &mut Rng) -> Vec<u8> {
    let bad: &[&[u8]] = &[b"AAB", b"1ab", b"1A", b"1AB0", b"1A!", b"1ABAAAAAA", b"x"];
    rng.pick(bad).to_vec()
}

/// The user of a number below `USERS`; the order of ids is not that of the numbers.
pub fn user(number: usize) -> UserId {
    let mut id = *b"???A0000?";
    id[..3].copy_from_slice(SERVERS[number % 3]);
    id[3] = b"AZM"[number / 3 % 3];
    id[4 + number / 9 % 4] = b'Z';
    id[8] = b"0123456789ABCDEFGHIJKLMNOPQRSTUVWXYZ"[number / 9];
    id
}

/// A user id.
pub fn user_id(rng: &mut Rng) -> UserId {
    user(rng.below(USERS))
}

/// What is no user id.
pub fn bad_user_id(rng: &mut Rng) -> Vec<u8> {
    let bad: &[&[u8]] =
        &[b"1ABAAAAA", b"1ABAAAAAAA", b"1AB0AAAAA", b"XABAAAAAA", b"1ABAAAAAa", b"1AB", b"@"];
    if rng.one_in(2) {
        return rng.pick(bad).to_vec();
    }
    let mut id = user_id(rng).to_vec();
    let place = rng.below(id.len());
    id[place] = rng.pick(b"/:@[`{aA09\x7f\x80");
    id
}

/// The longest channel name there is.
const LONGEST: &[u8; 50] = b"#the-longest-name-a-channel-can-have-is-of-50-byte";

/// The name of a channel. There are more of them than slots, and some are equal to others.
pub fn channel_name(rng: &mut Rng) -> Vec<u8> {
    let others: &[&[u8]] = &[
        b"#race",
        b"#penalty",
        b"#m[1]\\",
        b"#m{1}|",
        b"#~",
        b"#^",
        b"#\x80\xff",
        b"#:x",
        b"##",
        LONGEST,
    ];
    let name = match rng.below(3) {
        0 => rng.pick(others).to_vec(),
        _ => vec![b'#', b'a' + rng.below(20) as u8],
    };
    respelled(rng, &name)
}

/// The name in another spelling that is equal to it.
pub fn respelled(rng: &mut Rng, name: &[u8]) -> Vec<u8> {
    let capital = |b: u8| match b {
        b'a'..=b'z' => b - 32,
        b'{' => b'[',
        b'}' => b']',
        b'|' => b'\\',
        b'^' => b'~',
        _ => b,
    };
    let small = model::names::fold;
    name.iter().map(|&b| if rng.one_in(2) { capital(b) } else { small(b) }).collect()
}

/// What is no name of a channel.
pub fn bad_channel_name(rng: &mut Rng) -> Vec<u8> {
    let bad: &[&[u8]] = &[b"#", b"&a", b"a", b"#a,b", b"#a\x07", b"+a", b"\x80#"];
    match rng.below(bad.len() + 1) {
        0 => [LONGEST.as_slice(), b"x"].concat(),
        k => bad[k - 1].to_vec(),
    }
}

/// A time, as a number.
pub fn time(rng: &mut Rng) -> u32 {
    rng.pick(&[1, 2, 9, 10, 999, 1000, 1000, 1000, 1001, 4_294_967_294, 4_294_967_295])
}

/// What is no time, or is 0.
pub fn bad_time(rng: &mut Rng) -> Vec<u8> {
    let bad: &[&[u8]] = &[
        b"0",
        b"0",
        b"00",
        b"01",
        b"+1",
        b"-1",
        b"1x",
        b"x",
        b"1.0",
        b"4294967296",
        b"4294967300",
        b"42949672950",
        b"18446744073709551617",
        b"99999999999999999999999999999999999999999999",
    ];
    rng.pick(bad).to_vec()
}

/// A key.
pub fn key(rng: &mut Rng) -> Vec<u8> {
    let keys: &[&[u8]] =
        &[b"buoy", b"buoys", b"Buoy", b"!", b"~", b"x:", b"@+", b"xxxxxxxxxxxxxxxxxxxxxxx"];
    rng.pick(keys).to_vec()
}

/// What is no key.
pub fn bad_key(rng: &mut Rng) -> Vec<u8> {
    let bad: &[&[u8]] =
        &[b"xxxxxxxxxxxxxxxxxxxxxxxx", b"a,b", b":k", b"\x7f", b"\x80", b"a\tb", b"\x01"];
    rng.pick(bad).to_vec()
}

/// A limit.
pub fn limit(rng: &mut Rng) -> u16 {
    rng.pick(&[1, 2, 9, 10, 255, 256, 65_534, 65_535])
}

/// What is no limit.
pub fn bad_limit(rng: &mut Rng) -> Vec<u8> {
    let bad: &[&[u8]] =
        &[b"0", b"01", b"65536", b"65537", b"655350", b"+5", b"5x", b"18446744073709551617"];
    rng.pick(bad).to_vec()
}
