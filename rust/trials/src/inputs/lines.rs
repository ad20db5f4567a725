//! Lines.

use model::channel::LETTERS;
use model::{Record, Table};

use super::{lists, words};
use crate::rng::Rng;

/// A line for a relay with that table: an SJOIN, PART, QUIT or BMASK, perhaps with one thing wrong,
/// or another message, or one of many words, or noise; some damaged after that, some brought to a
/// length near the limit.
pub fn line(rng: &mut Rng, table: &Table) -> Vec<u8> {
    let mut line = match rng.below(17) {
        0..=5 => sjoin(rng),
        6..=7 => part(rng, table),
        8 => quit(rng, table),
        9 => other(rng),
        10 => noise(rng),
        11 => crowd(rng),
        12 => many_words(rng),
        _ => bmask(rng, table),
    };
    if rng.one_in(4) {
        damage(rng, &mut line);
    }
    if rng.one_in(12) {
        stretch(rng, &mut line);
    }
    line
}

/// A line that reads as SJOIN or isn't read.
pub fn join(rng: &mut Rng) -> Vec<u8> {
    loop {
        let line = line(rng, &Table::EMPTY);
        match model::line::read(&line) {
            Ok(message) if !message.command.eq_ignore_ascii_case(b"SJOIN") => {}
            _ => return line,
        }
    }
}

/// The words of an SJOIN after the command.
struct Join {
    source: Vec<u8>,
    time: Vec<u8>,
    name: Vec<u8>,
    letters: Vec<u8>,
    words: Vec<Vec<u8>>,
    list: Vec<u8>,
}

/// An SJOIN, perhaps with one thing wrong.
pub fn sjoin(rng: &mut Rng) -> Vec<u8> {
    let time = words::time(rng).to_string().into_bytes();
    let entries = if rng.one_in(4) { rng.between(1, 44) } else { rng.between(1, 5) };
    let (letters, words) = modes(rng);
    let mut join = Join {
        source: words::server_id(rng),
        time,
        name: words::channel_name(rng),
        letters,
        words,
        list: list(rng, entries),
    };
    if rng.one_in(3) {
        spoil(rng, &mut join);
    }
    join_line(rng, &join)
}

/// An SJOIN of that time, name and users, each with any status, with any modes.
pub fn sjoin_of(rng: &mut Rng, time: u32, name: &[u8], users: &[usize]) -> Vec<u8> {
    let (letters, words) = modes(rng);
    let entries: Vec<Vec<u8>> = users.iter().map(|&n| entry(rng, &words::user(n))).collect();
    let join = Join {
        source: words::server_id(rng),
        time: time.to_string().into_bytes(),
        name: name.to_vec(),
        letters,
        words,
        list: entries.join(&b' '),
    };
    join_line(rng, &join)
}

fn join_line(rng: &mut Rng, join: &Join) -> Vec<u8> {
    let mut params = vec![join.time.clone(), join.name.clone(), join.letters.clone()];
    params.extend(join.words.clone());
    params.push(join.list.clone());
    message(rng, Some(&join.source), b"SJOIN", &params)
}

/// Makes one thing of an SJOIN wrong.
fn spoil(rng: &mut Rng, join: &mut Join) {
    match rng.below(8) {
        0 => join.source = words::bad_server_id(rng),
        1 => join.time = words::bad_time(rng),
        2 => join.name = words::bad_channel_name(rng),
        3 => join.letters = bad_letters(rng, &join.letters),
        4 => spoil_words(rng, &mut join.words),
        5 => join.list = bad_list(rng),
        6 => spoil_key_or_limit(rng, join),
        _ => join.list.insert(0, b':'),
    }
}

/// Letters of modes in some order, and the words that go with k and l.
fn modes(rng: &mut Rng) -> (Vec<u8>, Vec<Vec<u8>>) {
    let mut letters: Vec<u8> = LETTERS.iter().copied().filter(|_| rng.one_in(3)).collect();
    rng.shuffle(&mut letters);
    let mut words = Vec::new();
    for letter in &letters {
        match letter {
            b'k' => words.push(words::key(rng)),
            b'l' => words.push(words::limit(rng).to_string().into_bytes()),
            _ => {}
        }
    }
    letters.insert(0, b'+');
    (letters, words)
}

/// Letters with a thing or more wrong with them, at any place: one is unknown or stands twice, or
/// there is no '+' first.
fn bad_letters(rng: &mut Rng, letters: &[u8]) -> Vec<u8> {
    let mut bad = letters.to_vec();
    for _ in 0..rng.pick(&[1, 1, 2, 3]) {
        let place = rng.between(1, bad.len());
        match rng.below(12) {
            0 => bad[0] = rng.pick(b"-nxk"),
            1 if bad.len() > 1 => drop(bad.remove(0)),
            2..=4 => bad.insert(place, rng.pick(b"aAIo+- \x80")),
            5..=6 => bad.insert(place, rng.pick(LETTERS)),
            _ => {
                let again = bad.get(rng.between(1, bad.len())).copied().unwrap_or(b'n');
                bad.insert(place, again);
            }
        }
    }
    bad
}

fn spoil_words(rng: &mut Rng, words: &mut Vec<Vec<u8>>) {
    match rng.below(4) {
        0 => words.push(words::key(rng)),
        1 => words.extend([words::key(rng), words::key(rng), words::key(rng)]),
        2 => words.reverse(),
        _ => drop(words.pop()),
    }
}

/// Makes the key or the limit bad, or both of them in either order.
fn spoil_key_or_limit(rng: &mut Rng, join: &mut Join) {
    let letters: &[u8] = rng.pick(&[b"+k".as_slice(), b"+nk", b"+l", b"+lt", b"+kl", b"+lk"]);
    let mut words = Vec::new();
    for letter in letters {
        match (letter, rng.one_in(4)) {
            (b'k', true) => words.push(words::key(rng)),
            (b'k', false) => words.push(words::bad_key(rng)),
            (b'l', true) => words.push(words::limit(rng).to_string().into_bytes()),
            (b'l', false) => words.push(words::bad_limit(rng)),
            _ => {}
        }
    }
    join.letters = letters.to_vec();
    join.words = words;
}

/// A list of that many entries, ids in any order and sometimes twice.
fn list(rng: &mut Rng, entries: usize) -> Vec<u8> {
    let mut list = if rng.one_in(8) { vec![b' '; rng.between(1, 3)] } else { Vec::new() };
    for place in 0..entries {
        if place > 0 {
            list.push(b' ');
        }
        if rng.one_in(40) {
            list.push(b' ');
        }
        let id = words::user_id(rng);
        list.extend(entry(rng, &id));
    }
    if rng.one_in(8) {
        list.extend(vec![b' '; rng.between(1, 3)]);
    }
    list
}

/// A user with any status.
fn entry(rng: &mut Rng, id: &[u8]) -> Vec<u8> {
    let status: &[u8] = rng.pick(&[b"".as_slice(), b"", b"+", b"@", b"@+"]);
    [status, id].concat()
}

fn bad_list(rng: &mut Rng) -> Vec<u8> {
    let id = words::user_id(rng);
    match rng.below(8) {
        0 => Vec::new(),
        1 => vec![b' '; rng.between(1, 4)],
        2 => words::bad_user_id(rng),
        3 => [b"+@".as_slice(), &id].concat(),
        4 => [id, words::user_id(rng)].concat(),
        5 => [&id, b",".as_slice(), &words::user_id(rng)].concat(),
        6 => [&id, b" ".as_slice(), &words::bad_user_id(rng)].concat(),
        _ => [b"@@".as_slice(), &id].concat(),
    }
}

/// An SJOIN of as many bare ids as a line holds.
fn crowd(rng: &mut Rng) -> Vec<u8> {
    let entries = rng.between(40, 49);
    let mut numbers: Vec<usize> = (0..words::USERS).collect();
    rng.shuffle(&mut numbers);
    let ids: Vec<_> = numbers[..entries].iter().map(|&n| words::user(n)).collect();
    let name = [b'#', b'a' + rng.below(20) as u8];
    [b":1AB SJOIN 1 ".as_slice(), &name, b" + :", &ids.join(&b' '), b"\r\n"].concat()
}

/// A used slot of a well-formed table, if there is one.
fn used_slot<'a>(rng: &mut Rng, table: &'a Table) -> Option<&'a Record> {
    let used: Vec<&Record> = table.slots.iter().filter(|r| r.count != 0).collect();
    used.get(rng.below(used.len().max(1))).copied()
}

/// A user of a used slot and the slot's name, if a slot of a well-formed table is used.
fn someone_of(rng: &mut Rng, table: &Table) -> Option<(Vec<u8>, Vec<u8>)> {
    let record = used_slot(rng, table)?;
    let member = record.members()[rng.below(record.count)];
    Some((member.id.to_vec(), record.name().to_vec()))
}

/// A PART, mostly of a user who is there, perhaps with one thing wrong.
fn part(rng: &mut Rng, table: &Table) -> Vec<u8> {
    let (mut source, mut name) = someone_of(rng, table)
        .unwrap_or_else(|| (words::user_id(rng).to_vec(), words::channel_name(rng)));
    match rng.below(12) {
        0 => source = words::bad_user_id(rng),
        1 => source = words::user_id(rng).to_vec(),
        2 => name = words::bad_channel_name(rng),
        3 => name = words::channel_name(rng),
        _ => name = words::respelled(rng, &name),
    }
    let mut params = vec![name];
    params.extend(reasons(rng));
    message(rng, Some(&source), b"PART", &params)
}

/// A QUIT, mostly of a user who is somewhere, perhaps with one thing wrong.
fn quit(rng: &mut Rng, table: &Table) -> Vec<u8> {
    let source = match rng.below(8) {
        0 => words::bad_user_id(rng),
        1 => words::user_id(rng).to_vec(),
        _ => someone_of(rng, table).map_or_else(|| words::user_id(rng).to_vec(), |(id, _)| id),
    };
    let params = reasons(rng);
    message(rng, Some(&source), b"QUIT", &params)
}

/// A BMASK, mostly of a channel that is there, at its time or near it, perhaps with one thing wrong.
fn bmask(rng: &mut Rng, table: &Table) -> Vec<u8> {
    let (time, name) = match used_slot(rng, table) {
        Some(record) => (time_near(rng, record.time), words::respelled(rng, record.name())),
        None => (words::time(rng), words::channel_name(rng)),
    };
    let mut source = words::server_id(rng);
    let mut params =
        vec![time.to_string().into_bytes(), name, b"b".to_vec(), lists::line_list(rng)];
    match rng.below(20) {
        0 => source = words::bad_server_id(rng),
        1 => params[0] = words::bad_time(rng),
        2 => params[1] = words::bad_channel_name(rng),
        3 => params[1] = words::channel_name(rng),
        4..=5 => params[2] = lists::bad_type(rng),
        6..=7 => params[3] = lists::bad_line_list(rng),
        8 => drop(params.pop()),
        9 => params.insert(rng.below(5), b"x".to_vec()),
        _ => {}
    }
    message(rng, Some(&source), b"BMASK", &params)
}

/// A time: mostly this one, the one before it or the one after it.
fn time_near(rng: &mut Rng, time: u32) -> u32 {
    match rng.below(6) {
        0 => time.saturating_add(1),
        1 => time.saturating_sub(1).max(1),
        2 => words::time(rng),
        _ => time,
    }
}

/// No reason, one, or too many.
fn reasons(rng: &mut Rng) -> Vec<Vec<u8>> {
    let reasons: &[&[u8]] = &[b"gone", b"gone home", b"", b":", b" ", b":-) bye ", b"\x01\xff"];
    let count = rng.pick(&[0, 0, 1, 1, 1, 2, 3]);
    (0..count).map(|_| rng.pick(reasons).to_vec()).collect()
}

/// A message of another command, or one of the four with any parameters.
fn other(rng: &mut Rng) -> Vec<u8> {
    let commands: &[&[u8]] = &[
        b"PING", b"SJOINS", b"SJOI", b"PARTY", b"QUI", b"X", b"001", b"999", b"12", b"1234", b"A1",
        b"SJOIN", b"PART", b"QUIT", b"BMASK", b"BMASKS", b"BMAS", b"", b"\x80",
    ];
    let params: &[&[u8]] = &[b"a", b"b:", b"#race", b"\x01", b"1"];
    let count = rng.pick(&[0, 1, 2, 3, 13, 14, 15, 16, 17]);
    let params: Vec<_> = (0..count).map(|_| rng.pick(params).to_vec()).collect();
    let prefix: Option<&[u8]> = rng.pick(&[None, Some(b"1AB"), Some(b"1ABAAAAAA"), Some(b"")]);
    let command = rng.pick(commands);
    message(rng, prefix, command, &params)
}

/// A message of about fourteen words, perhaps of many more, and behind them SPACEs, ':' and letters in
/// any order: it is what remains after the fourteenth that tells.
pub fn many_words(rng: &mut Rng) -> Vec<u8> {
    let commands: &[&[u8]] = &[b"PING", b"001", b"SJOIN", b"SJOIN", b"PART", b"QUIT", b"BMASK"];
    let words: &[&[u8]] = &[b"a", b"b:", b"#race", b"x::", b"1"];
    let prefix: &[u8] = rng.pick(&[b"".as_slice(), b":1AB ", b":1ABAAAAAA  "]);
    let command = rng.pick(commands);
    let mut line = [prefix, &cased(rng, command)].concat();
    for _ in 0..rng.pick(&[12, 13, 13, 14, 14, 14, 14, 14, 15, 15, 16, 17, 40, 200]) {
        gap(rng, &mut line);
        line.extend(rng.pick(words));
    }
    if !rng.one_in(6) {
        gap(rng, &mut line);
        line.extend(ending(rng));
    }
    line.extend(b"\r\n");
    line
}

/// No bytes or a few: SPACEs, ':' and letters.
pub fn ending(rng: &mut Rng) -> Vec<u8> {
    let length = rng.below(7);
    (0..length).map(|_| rng.pick(b"  ::ab")).collect()
}

/// A message as a line: the letters of its command in any case, perhaps more SPACEs than it needs, at
/// its end too, perhaps a ':' before the last parameter that it doesn't need.
fn message(rng: &mut Rng, prefix: Option<&[u8]>, command: &[u8], params: &[Vec<u8>]) -> Vec<u8> {
    let mut line = Vec::new();
    if let Some(prefix) = prefix.filter(|_| !rng.one_in(30)) {
        line.push(b':');
        line.extend(prefix);
        gap(rng, &mut line);
    }
    line.extend(cased(rng, command));
    for (index, param) in params.iter().enumerate() {
        gap(rng, &mut line);
        let last = index + 1 == params.len();
        if last && (param.is_empty() || param.contains(&b' ') || rng.one_in(2)) {
            line.push(b':');
        }
        line.extend(param);
    }
    if rng.one_in(16) {
        gap(rng, &mut line);
    }
    line.extend(b"\r\n");
    line
}

fn gap(rng: &mut Rng, line: &mut Vec<u8>) {
    let spaces = if rng.one_in(16) { rng.between(2, 4) } else { 1 };
    line.extend(vec![b' '; spaces]);
}

fn cased(rng: &mut Rng, command: &[u8]) -> Vec<u8> {
    match rng.below(4) {
        0 => command.to_ascii_lowercase(),
        1 => {
            let either = |b: &u8| if rng.one_in(2) { b.to_ascii_lowercase() } else { *b };
            command.iter().map(either).collect()
        }
        _ => command.to_vec(),
    }
}

/// Bytes that mean something to the reader, in any order.
fn noise(rng: &mut Rng) -> Vec<u8> {
    let length = rng.below(12);
    let mut line: Vec<u8> = (0..length).map(|_| rng.pick(b"  ::aX1#\0\r\n\t\xff")).collect();
    if !rng.one_in(4) {
        line.extend(b"\r\n");
    }
    line
}

/// Damages a line as a bad link would: bytes changed, lost, doubled, put in, cut off.
pub fn damage(rng: &mut Rng, line: &mut Vec<u8>) {
    if line.is_empty() {
        return;
    }
    let place = rng.below(line.len());
    match rng.below(8) {
        0 => line[place] ^= 1 << rng.below(8),
        1 => line[place] = rng.byte(),
        2 => line[place] = rng.pick(b" :\0\r\n,@+"),
        3 => drop(line.remove(place)),
        4 => line.insert(place, line[place]),
        5 => line.insert(place, rng.pick(b" :\0\r\n,@+")),
        6 => line.truncate(place),
        _ => line.retain(|&b| b != b' ' || !rng.one_in(4)),
    }
}

/// Brings a line to a length near the limit, mostly by SPACEs before its end.
fn stretch(rng: &mut Rng, line: &mut Vec<u8>) {
    let length = rng.pick(&[510, 511, 512, 512, 513, 514, 700]);
    let filler = rng.pick(b"   x");
    let place = line.len().saturating_sub(2);
    while line.len() < length {
        line.insert(place, filler);
    }
}
