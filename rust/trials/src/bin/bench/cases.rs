//! The tables and lines that are timed.

use std::ops::Range;

use model::bans::{self, Masks};
use model::replay::START;
use model::{BanList, Member, Record, Table, WholeRecord};
use trials::inputs::logs;
use trials::rng::Rng;

/// The link that every line comes by.
pub const LINK: u32 = 3;

/// The links 0, 3 and 5.
const LINKS: u32 = 0b10_1001;

/// The time of every stored channel.
const TIME: u32 = 1_000_000;

/// A line and the table that it is taken with.
pub struct Case {
    /// What it shows.
    pub name: String,
    /// The table.
    pub table: Table,
    /// The line.
    pub line: Vec<u8>,
}

/// The ban list of each channel of a table: so many masks of so many bytes.
#[derive(Clone, Copy)]
pub struct Lists {
    /// The number of masks, at most 32.
    pub masks: usize,
    /// The bytes of each, from 8 to 100.
    pub bytes: usize,
}

/// The lists that are timed.
pub const LISTS: [Lists; 3] =
    [Lists { masks: 0, bytes: 24 }, Lists { masks: 8, bytes: 24 }, Lists { masks: 32, bytes: 100 }];

impl Case {
    /// Whether a library that has no ban lists answers it too.
    pub fn is_without_lists(&self) -> bool {
        !self.line[5..].starts_with(b"BMASK") && self.table.bans == Table::EMPTY.bans
    }

    /// The slot whose list the line changes, by the model.
    pub fn changed_list(&self) -> Option<usize> {
        let mut table = self.table;
        model::relay::take(&mut table, LINK, &self.line, &mut [0; 512]).ok()?;
        (0..table.bans.len()).find(|&slot| table.bans[slot] != self.table.bans[slot])
    }
}

impl Lists {
    /// Masks of such a list, by their numbers: those below `masks` are in it. They differ at their
    /// ends, so that each comparison of two goes through both.
    fn numbered(&self, numbers: Range<usize>) -> Masks {
        let mask = |n: usize| format!("*!*@{}{n:02}", ".".repeat(self.bytes - 6)).into_bytes();
        numbers.map(mask).collect()
    }

    /// The list.
    fn list(&self) -> BanList {
        let masks = bans::add(&Vec::new(), &self.numbered(0..self.masks));
        BanList::of(&masks.expect("at most 32"))
    }

    /// What a row says of it.
    pub fn told(&self) -> String {
        match self.masks {
            0 => "no masks".to_string(),
            masks => format!("{masks} masks of {} bytes", self.bytes),
        }
    }

    /// A table of one channel, or of sixteen, each with the list.
    pub fn table(&self, full_channels: usize) -> Table {
        let mut table = table(full_channels);
        for (slot, list) in table.slots.iter().zip(&mut table.bans) {
            if slot.count != 0 {
                *list = self.list();
            }
        }
        table
    }

    /// A BMASK of the mask that comes last, a new one if there is room for it.
    fn short_line(&self) -> Vec<u8> {
        let number = self.masks.min(bans::MASKS - 1);
        self.line(TIME, number..number + 1)
    }

    /// A BMASK of the first masks, as many of them as a line holds.
    fn long_line(&self, time: u32) -> Vec<u8> {
        let most = (510 - self.line(time, 0..0).len()) / (self.bytes + 1);
        self.line(time, 0..most)
    }

    /// A BMASK of the masks of some numbers.
    fn line(&self, time: u32, numbers: Range<usize>) -> Vec<u8> {
        let start = format!(":1AB BMASK {time} #race b :");
        let masks = self.numbered(numbers);
        [start.as_bytes(), &masks.join(&b' '), b"\r\n"].concat()
    }

    /// The lines that are timed with each list, by name.
    pub fn lines(&self) -> Vec<(&'static str, Vec<u8>)> {
        vec![
            ("SJOIN, equal time, 10 members", join("#race", TIME, 10, false)),
            ("SJOIN, later time, 10 members", join("#race", TIME + 1, 10, false)),
            ("SJOIN, earlier time, 10 members", join("#race", TIME - 1, 10, false)),
            ("PART", part()),
            ("QUIT", quit()),
            ("refused by 11", unknown()),
            ("BMASK of one mask", self.short_line()),
            ("BMASK of a line full of masks", self.long_line(TIME)),
            ("BMASK, later, of a line full of masks", self.long_line(TIME + 1)),
        ]
    }

    /// Texts by name: one that no mask matches, and one that the last of the masks matches.
    pub fn texts(&self) -> [(&'static str, Vec<u8>); 2] {
        let last = self.masks.saturating_sub(1);
        let mask = &self.numbered(last..last + 1)[0];
        let banned = [b"nick!~user@".as_slice(), &mask[4..]].concat();
        [
            ("is banned: no", b"nick!~user@a-host.example".to_vec()),
            ("is banned: by the last", banned),
        ]
    }
}

/// The id of a user by its number: ids ascend with the numbers.
fn id(number: usize) -> [u8; 9] {
    let text = format!("1ABA{number:05}");
    text.as_bytes().try_into().expect("nine bytes")
}

/// A record of the users of some numbers.
pub fn record(name: &[u8], users: Range<usize>) -> Record {
    let mut record = Record { time: TIME, modes: 4 + 32, ..Record::EMPTY };
    record.set_name(name);
    let members: Vec<Member> = users.map(|n| Member { id: id(n), status: n as u8 % 4 }).collect();
    record.set_members(&members);
    record
}

/// A table of so many full channels, then, where there is room, #race with 47 members.
fn table(full_channels: usize) -> Table {
    let mut table = Table { links: LINKS, ..Table::EMPTY };
    for place in 0..full_channels {
        table.slots[place] = record(format!("#full-{place:02}").as_bytes(), 0..64);
    }
    if let Some(slot) = table.slots.get_mut(full_channels) {
        *slot = record(b"#Race", 17..64);
    }
    table
}

/// An SJOIN of the first so many users. Two are operators: more would not fit with 47.
fn join(name: &str, time: u32, members: usize, random_order: bool) -> Vec<u8> {
    let mut users: Vec<usize> = (0..members).collect();
    if random_order {
        Rng::new(7).shuffle(&mut users);
    }
    let mark = |n: usize| if n < 2 { "@" } else { "" };
    let entry = |n: usize| format!("{}{}", mark(n), id(n).escape_ascii());
    let list: Vec<String> = users.into_iter().map(entry).collect();
    format!(":1AB SJOIN {time} {name} +nt :{}\r\n", list.join(" ")).into_bytes()
}

/// The lines that are timed, by name: into #race, into a new channel, and those that aren't joins.
fn lines() -> Vec<(String, Vec<u8>)> {
    let mut lines = Vec::new();
    for (when, time) in [("equal", TIME), ("later", TIME + 1), ("earlier", TIME - 1)] {
        for members in [1, 10, 47] {
            for (order, random) in [("ascending", false), ("random", true)] {
                if members > 1 || !random {
                    let name = format!("SJOIN, {when} time, members: {members}, {order}");
                    lines.push((name, join("#race", time, members, random)));
                }
            }
        }
    }
    lines.extend([
        ("PART".to_string(), part()),
        ("QUIT".to_string(), quit()),
        ("refused by 11".to_string(), unknown()),
        ("refused by 12, fifteen parameters".to_string(), many_params()),
        ("refused by 18, at the last of 47 members".to_string(), bad_join()),
        ("refused by 36, before 47 members".to_string(), bad_limit()),
    ]);
    lines
}

/// An SJOIN of 47 members, as long as a line can nearly be.
pub fn long_line() -> Vec<u8> {
    join("#race", TIME, 47, false)
}

fn part() -> Vec<u8> {
    format!(":{} PART #race :gone home\r\n", text(20)).into_bytes()
}

fn quit() -> Vec<u8> {
    format!(":{} QUIT :gone home\r\n", text(20)).into_bytes()
}

fn unknown() -> Vec<u8> {
    b":1AB PRIVMSG #race :a line of another kind\r\n".to_vec()
}

/// An SJOIN of fifteen parameters, the last behind ':': without it, an earlier library may see more of
/// them, and refuse the line by 10.
pub fn many_params() -> Vec<u8> {
    b":1AB SJOIN a b c d e f g h i j k l m n :and then free text\r\n".to_vec()
}

fn text(user: usize) -> String {
    id(user).escape_ascii().to_string()
}

fn bad_join() -> Vec<u8> {
    let mut line = join("#race", TIME, 47, false);
    let last = line.len() - 3;
    line[last] = b'x';
    line
}

fn bad_limit() -> Vec<u8> {
    let line = join("#race", TIME, 47, false);
    let letters = line.windows(3).position(|part| part == b"+nt").expect("the modes");
    [&line[..letters], b"+l 0", &line[letters + 3..]].concat()
}

fn new_channels(table: &Table) -> impl Iterator<Item = Case> + '_ {
    [1, 47].into_iter().map(|members| {
        let name = format!("SJOIN, new channel, members: {members}");
        Case { name, table: *table, line: join("#new", TIME, members, false) }
    })
}

/// Every line with one channel in the table.
pub fn small() -> Vec<Case> {
    let table = table(0);
    let known = lines().into_iter().map(|(name, line)| Case { name, table, line });
    known.chain(new_channels(&table)).collect()
}

/// Every line with sixteen; a new channel takes the place of one of them.
pub fn full() -> Vec<Case> {
    let table = table(15);
    let known = lines().into_iter().map(|(name, line)| Case { name, table, line });
    let mut with_room = table;
    with_room.slots[15] = Record::EMPTY;
    known.chain(new_channels(&with_room)).collect()
}

/// Lines of every kind in any order, so many bytes of them or a line more.
pub fn day(bytes: usize) -> Vec<Vec<u8>> {
    let kinds = small();
    let mut rng = Rng::new(8);
    let mut lines = Vec::new();
    let mut length = 0;
    while length < bytes {
        let line = kinds[rng.below(kinds.len())].line.clone();
        length += line.len();
        lines.push(line);
    }
    lines
}

/// The log of so many accepted lines of every kind, in any order, for so many channels.
pub fn log(channels: usize, records: usize) -> Vec<u8> {
    let mut rng = Rng::new(9);
    let mut table = START;
    let mut log = Vec::new();
    let mut left = records;
    while left > 0 {
        let line = logged_line(&mut rng, channels);
        if model::relay::take(&mut table, LINK, &line, &mut [0; 512]).is_ok() {
            log.extend(logs::record(LINK, &line));
            left -= 1;
        }
    }
    log
}

/// A line for one of so many channels: mostly an SJOIN of one member or of some, else a PART or a QUIT
/// of some user, or a BMASK of one mask.
fn logged_line(rng: &mut Rng, channels: usize) -> Vec<u8> {
    let name = format!("#race-{:02}", rng.below(channels));
    let user = text(rng.below(64));
    match rng.below(8) {
        0..=1 => join(&name, TIME, rng.between(1, 40), true),
        2..=4 => format!(":1AB SJOIN {TIME} {name} + +{user}\r\n").into_bytes(),
        5 => format!(":{user} PART {name} :gone home\r\n").into_bytes(),
        6 => format!(":{user} QUIT :gone home\r\n").into_bytes(),
        _ => format!(":1AB BMASK {TIME} {name} b *!*@{}\r\n", rng.below(32)).into_bytes(),
    }
}

/// One line with more and more full channels before its own.
pub fn by_channels() -> Vec<Case> {
    let line = join("#race", TIME, 1, false);
    let case =
        |full: usize| Case { name: full.to_string(), table: table(full), line: line.clone() };
    [0, 1, 2, 4, 8, 15].map(case).into()
}

/// Lines of more and more members.
pub fn by_members() -> Vec<Case> {
    let line = |members| join("#race", TIME, members, false);
    let case = |n: usize| Case { name: n.to_string(), table: table(0), line: line(n) };
    [1, 2, 5, 10, 20, 30, 40, 47].map(case).into()
}

/// Two records of 47 members with lists that have no mask in common, by what they show.
pub fn merged() -> Vec<(String, WholeRecord, WholeRecord)> {
    let side = |name, users, masks: Masks| {
        let list = bans::add(&Vec::new(), &masks).expect("at most 32");
        WholeRecord { record: record(name, users), bans: BanList::of(&list) }
    };
    let sides = |each: usize, bytes: usize| {
        let lists = Lists { masks: each, bytes };
        let first = side(b"#a", 0..47, lists.numbered(0..each));
        let second = side(b"#A", 17..64, lists.numbered(each..2 * each));
        (format!("merging 47 members with 47, {} each", lists.told()), first, second)
    };
    vec![sides(0, 24), sides(8, 24), sides(16, 100)]
}

/// A mask and the text that it is tried on.
pub struct Trial {
    /// What it shows.
    pub name: &'static str,
    /// The mask.
    pub mask: Vec<u8>,
    /// The text.
    pub text: Vec<u8>,
}

/// Masks on 512 times 'a': stars few and many, what follows them, and bytes that have to be folded; at
/// the end one as people have them, on a user's text.
pub fn masks() -> Vec<Trial> {
    let on = |byte, name, mask: Vec<u8>| Trial { name, mask, text: vec![byte; 512] };
    let on_a = |name, mask: Vec<u8>| on(b'a', name, mask);
    let star_and = |count| [b"*".as_slice(), &vec![b'a'; count], b"b"].concat();
    let (ones, threes) = (b"*a".repeat(255), b"*aaa".repeat(127));
    vec![
        on_a("`*a*a*a*a*a*`: yes", b"*a*a*a*a*a*".to_vec()),
        on_a("`*a*a*a*a*a*b`: no", b"*a*a*a*a*a*b".to_vec()),
        on_a("512 bytes, no star: yes", vec![b'a'; 512]),
        on_a("512 capitals, no star: yes", vec![b'A'; 512]),
        on_a("`*b`: no", b"*b".to_vec()),
        on_a("`*?b`: no", b"*?b".to_vec()),
        on(b'`', "`*@`, on 512 backticks: no", b"*@".to_vec()),
        on_a("`*`: yes", b"*".to_vec()),
        on_a("128 stars, 3 bytes after each: yes", b"*aaa".repeat(128)),
        on_a("256 stars, a byte after each: yes", b"*a".repeat(256)),
        on_a("128 stars, 3 bytes after each, then `b`: no", [&threes, b"*b".as_slice()].concat()),
        on_a("255 stars, a byte after each, then `b`: no", [&ones, b"b".as_slice()].concat()),
        on_a("a star, 255 bytes, then `b`: no", star_and(255)),
        on_a("a star, 510 bytes, then `b`: no", star_and(510)),
        Trial {
            name: "`*!*@*.example`, on `nick!~user@a-host.example`: yes",
            mask: b"*!*@*.example".to_vec(),
            text: b"nick!~user@a-host.example".to_vec(),
        },
    ]
}
