//! Day logs read back and replayed, as document 02 says it, §5: here the expected answers are the
//! paper's and not the model's. Where each byte of a log is changed they are the model's, and where a
//! log comes in pieces those of the log whole.

use std::fs;

use relay::{
    read_record, records, LogFault, LogRecord, RecordRead, Replayed, Span, Table, BANS, LOG_CUT,
};
use trials::compare::log::compare_read;
use trials::compare::replaying::{compare_replay, printed, replay_pieces};
use trials::inputs::{lines, streams, tables};
use trials::lent::output_length;
use trials::rng::Rng;
use trials::taken::take;
use trials::tally::Tally;

/// A record by document 01: the mark 73 82, the link, the length as two bytes high first, the line.
fn record(link: u8, line: &[u8]) -> Vec<u8> {
    let length = (line.len() as u16).to_be_bytes();
    [&[73, 82, link], length.as_slice(), line].concat()
}

/// The log of texts on a link, CR LF after each.
fn log_of(link: u8, texts: &[&str]) -> Vec<u8> {
    let lines = texts.iter().map(|text| record(link, format!("{text}\r\n").as_bytes()));
    lines.collect::<Vec<_>>().concat()
}

/// The answer where the log ends.
const END: RecordRead =
    RecordRead { line: Span { start: 0, end: 0 }, place: 0, link: 0, number: 0, found: false };

/// The answer of a fault.
fn fault(number: u8, place: usize) -> RecordRead {
    RecordRead { number, place, ..END }
}

/// The answer of a record at a place with a line of that length.
fn found(link: u32, at: usize, length: usize) -> RecordRead {
    let line = Span { start: at + 5, end: at + 5 + length };
    RecordRead { line, link, found: true, ..END }
}

/// What stops a replay, by number and place, and what stood before. What was used are the records that
/// were taken.
fn stopped(log: &[u8], number: u8, place: usize, before: &[u8]) {
    let (table, replayed) = Table::replay(log);
    let told = log.escape_ascii();
    assert_eq!(replayed, Replayed { used: before.len(), place, number }, "{told}");
    let (stood, whole) = Table::replay(before);
    assert_eq!(whole, Replayed { used: before.len(), place: 0, number: 0 }, "{told}");
    assert!(table == stood, "{told}");
}

/// Logs that are one record or a part of one, and the fault: its number and its place.
const FAULTS: [(&[u8], u8, usize); 24] = [
    (&[74], 28, 0),
    (&[72], 28, 0),
    (&[82], 28, 0),
    (&[0], 28, 0),
    (&[82, 73, 0, 0, 0], 28, 0),
    (&[74, 82, 31, 0, 0], 28, 0),
    (&[73, 73], 28, 1),
    (&[73, 83, 31, 0, 0], 28, 1),
    (&[73, 82, 32], 29, 2),
    (&[73, 82, 32, 0, 0], 29, 2),
    (&[73, 82, 255, 0, 1], 29, 2),
    (&[73, 82, 31, 2, 1], 30, 3),
    (&[73, 82, 31, 2, 1, 0, 0], 30, 3),
    (&[73, 82, 0, 255, 255], 30, 3),
    (&[73], 31, 1),
    (&[73, 82], 31, 2),
    (&[73, 82, 31], 31, 3),
    (&[73, 82, 31, 255], 31, 4),
    (&[73, 82, 31, 2], 31, 4),
    (&[73, 82, 31, 2, 0], 31, 5),
    (&[73, 82, 31, 0, 1], 31, 5),
    (&[73, 82, 31, 0, 3, 13, 10], 31, 7),
    // The first byte at fault decides, and with one of these the log's end is no fault.
    (&[74, 83, 32, 2, 1], 28, 0),
    (&[73, 82, 32, 2, 1], 29, 2),
];

/// Each fault by its byte, alone and behind records, which move its place.
#[test]
fn faults_by_their_byte() {
    let before = log_of(31, &[":1AB SJOIN 5 #a + 1ABAAAAAA", ":1AB BMASK 6 #a b x"]);
    for (bytes, number, place) in FAULTS {
        assert_eq!(read_record(bytes, 0), fault(number, place), "{bytes:?}");
        stopped(bytes, number, place, &[]);
        let (log, moved) = ([&before, bytes].concat(), before.len() + place);
        assert_eq!(read_record(&log, before.len()), fault(number, moved), "{bytes:?}");
        stopped(&log, number, moved, &before);
    }
}

/// Every value of each byte of a head, the others being good.
#[test]
fn every_byte_of_a_head() {
    for byte in 0..=255 {
        let first = if byte == 73 { found(7, 0, 1) } else { fault(28, 0) };
        assert_eq!(read_record(&[byte, 82, 7, 0, 1, 10], 0), first, "{byte}");
        let second = if byte == 82 { found(7, 0, 1) } else { fault(28, 1) };
        assert_eq!(read_record(&[73, byte, 7, 0, 1, 10], 0), second, "{byte}");
        let link = if byte <= 31 { found(byte.into(), 0, 1) } else { fault(29, 2) };
        assert_eq!(read_record(&[73, 82, byte, 0, 1, 10], 0), link, "{byte}");
        assert_eq!(
            read_record(&[73, 82, 7, byte], 0),
            fault(31, 4),
            "{byte}: one byte is no length"
        );
    }
}

/// Every length, with and without the bytes that it asks for.
#[test]
fn every_length() {
    let mut log = vec![b'x'; 600];
    for length in 0..=u16::MAX {
        log[..3].copy_from_slice(&[73, 82, 31]);
        log[3..5].copy_from_slice(&length.to_be_bytes());
        let size = 5 + usize::from(length);
        let whole = if length <= 512 { found(31, 0, size - 5) } else { fault(30, 3) };
        assert_eq!(read_record(&log, 0), whole, "{length}");
        let head = match length {
            0 => found(31, 0, 0),
            1..=512 => fault(31, 5),
            _ => fault(30, 3),
        };
        assert_eq!(read_record(&log[..5], 0), head, "{length}");
        if length <= 512 {
            assert_eq!(read_record(&log[..size], 0), whole, "{length}");
            assert_eq!(read_record(&log[..size], size), END, "{length}");
            assert_eq!(read_record(&log[..size - 1], 0), fault(31, size - 1), "{length}");
        }
    }
}

/// Records are read one after the other, whatever their lines hold, up to the end of the log.
#[test]
fn record_after_record() {
    let texts = [b"PING\r\n".as_slice(), b"", b"IR\x00\x00\x01\n", &[73; 512], b"\xff", b"\r\n"];
    let log: Vec<u8> = (0..).zip(texts).flat_map(|(k, line)| record(6 * k, line)).collect();
    let mut at = 0;
    for (link, line) in (0..).step_by(6).zip(texts) {
        let read = read_record(&log, at);
        assert_eq!(read, found(link, at, line.len()));
        assert_eq!(read.line.of(&log), line);
        at = read.line.end;
    }
    assert_eq!(at, log.len());
    let all: Vec<_> = records(&log).map(|record| record.unwrap().line.to_vec()).collect();
    assert_eq!(all, texts);
}

/// The end of the log is at its length and beyond; the empty log is a log of no records.
#[test]
fn the_end_of_the_log() {
    let log = log_of(3, &["PING"]);
    for log in [&[], log.as_slice(), &log[..7], &[74]] {
        for at in [0, 1, 4, 5, 6, 517, 1 << 32] {
            assert_eq!(read_record(log, log.len() + at), END, "{at}");
        }
        for at in [usize::MAX, usize::MAX - 1, usize::MAX - 517, 1 << 63] {
            assert_eq!(read_record(log, at), END, "{at}");
        }
    }
    assert_eq!(records(&[]).next(), None);
}

/// A fault ends the records: behind it nothing says where one begins.
#[test]
fn the_first_fault_ends_the_records() {
    let (ping, quit) = (record(3, b"PING\r\n"), record(4, b"QUIT\r\n"));
    for (bytes, number, place) in FAULTS {
        let log = [ping.as_slice(), &quit, bytes].concat();
        let expected = [
            Ok(LogRecord { place: 0, link: 3, line: b"PING\r\n" }),
            Ok(LogRecord { place: 11, link: 4, line: b"QUIT\r\n" }),
            Err(LogFault { number, place: 22 + place }),
        ];
        assert_eq!(records(&log).take(9).collect::<Vec<_>>(), expected);
    }
}

/// The bytes from a place up to 517 of them decide, whatever stands behind; and where fewer are there
/// and they decide, more behind them change nothing.
#[test]
fn bytes_behind_change_nothing() {
    let behind: [&[u8]; 3] = [&[0; 600], &[73; 600], &record(3, &[b'x'; 512])];
    let whole = record(31, &[b'x'; 512]);
    assert_eq!((whole.len(), read_record(&whole, 0)), (517, found(31, 0, 512)));
    assert_eq!(read_record(&whole[..516], 0), fault(31, 516), "the last of the 517 counts");
    for more in behind {
        assert_eq!(read_record(&[&whole, more].concat(), 0), found(31, 0, 512));
        assert_eq!(read_record(&[more, &whole].concat(), more.len()), found(31, more.len(), 512));
        for (bytes, number, place) in FAULTS.into_iter().filter(|fault| fault.1 != LOG_CUT) {
            let log = [bytes, more].concat();
            assert_eq!(read_record(&log, 0), fault(number, place), "{bytes:?}");
        }
        let short = [&record(9, b"PING\r\n"), more].concat();
        assert_eq!(read_record(&short, 0), found(9, 0, 6));
    }
}

/// The table that a replay begins with has free slots, no masks and all 32 links, and an empty log
/// leaves it so.
#[test]
fn the_empty_log() {
    let (table, replayed) = Table::replay(&[]);
    assert_eq!(replayed, Replayed { used: 0, place: 0, number: 0 });
    let mut expected = Table::empty();
    for link in 0..32 {
        assert_eq!(expected.register(link), 0);
    }
    assert!(table == expected && table == Table::before_replay());
    assert_eq!((table.head.links.set, table.bans), (u32::MAX, [0; BANS]));
    assert_eq!(table.head.slots.map(|slot| slot.count), [0; 16]);
}

/// A line that the relay refuses stops the replay with its number and the place of its record. What
/// stood before is given, and what comes behind isn't looked at.
#[test]
fn the_relays_number_and_the_records_place() {
    let before =
        log_of(0, &[":1AB SJOIN 5 #a +k key :@1ABAAAAAA 1ABAAAAAB", ":1AB BMASK 5 #a b x"]);
    let behind = [log_of(1, &[":1ABAAAAAA QUIT"]), vec![74]].concat();
    for (line, number) in [
        (b"".as_slice(), 5),
        (b"PING", 5),
        (b"PING\n", 5),
        (b"\0\r\n", 6),
        (b"\r\n", 7),
        (b"PING\r\n", 11),
        (b":1AB SJOIN 5 #a\r\n", 12),
        (b":1ABAAAAAA SJOIN 5 #a + 1ABAAAAAA\r\n", 13),
        (b":1AB SJOIN 0 #a + 1ABAAAAAA\r\n", 15),
        (b":1AB SJOIN 5 #a +k a,b 1ABAAAAAA\r\n", 35),
        (b":1ABAAAAAA PART #b\r\n", 19),
        (b":1ABAAAAAC PART #a\r\n", 20),
        (b":1AB BMASK 5 #a e x\r\n", 26),
    ] {
        let refused = record(31, line);
        let log = [before.as_slice(), &refused, &behind].concat();
        stopped(&log, number, before.len(), &before);
        assert_eq!(read_record(&log, before.len()), found(31, before.len(), line.len()));
    }
    stopped(&[record(31, b""), before].concat(), 5, 0, &[]);
}

/// Whichever record comes first stops the replay, the relay's number or the log's.
#[test]
fn the_first_refusal_stops() {
    let good = log_of(2, &[":1AB SJOIN 5 #a + 1ABAAAAAA"]);
    let unknown = log_of(2, &["PING"]);
    stopped(&[good.as_slice(), &unknown, &[74]].concat(), 11, good.len(), &good);
    stopped(&[good.as_slice(), &[74], &unknown].concat(), 28, good.len(), &good);
    let bad_link = record(32, b"PING\r\n");
    stopped(&[good.as_slice(), &bad_link].concat(), 29, good.len() + 2, &good);
    let cut = &good[..good.len() - 1];
    stopped(&[good.as_slice(), cut].concat(), 31, 2 * good.len() - 1, &good);
}

/// Every link is registered, and a line of 512 bytes has room enough.
#[test]
fn links_and_long_lines() {
    let start = b":1ABAAAAAA QUIT :".as_slice();
    let line = [start, &vec![b'x'; 510 - start.len()], b"\r\n"].concat();
    assert_eq!(line.len(), 512);
    let log: Vec<u8> = (0..32).flat_map(|link| record(link, &line)).collect();
    let (table, replayed) = Table::replay(&log);
    assert_eq!(replayed, Replayed { used: 32 * 517, place: 0, number: 0 });
    assert!(table == Table::before_replay());
}

/// A BMASK that is later than its channel goes nowhere, but it is accepted: it is logged, and its
/// replay changes nothing.
#[test]
fn later_masks() {
    let join = ":1AB SJOIN 5 #a + 1ABAAAAAA";
    let log = log_of(3, &[join, ":1AB BMASK 5 #a b x", ":1AB BMASK 6 #a b y"]);
    let (mut day, mut out) = (Table::before_replay(), [7; 512]);
    let mut logged = Vec::new();
    for record in records(&log) {
        let LogRecord { link, line, .. } = record.unwrap();
        let answer = take(&mut day, link, line, &mut out);
        assert_eq!((answer.number, answer.set == 0), (0, line.ends_with(b" y\r\n")));
        logged.extend(relay_record(link, line));
    }
    assert_eq!(logged, log);
    let (table, replayed) = Table::replay(&log);
    assert_eq!(replayed, Replayed { used: log.len(), place: 0, number: 0 });
    assert!(table == day);
    assert_eq!(table.masks(0).collect::<Vec<_>>(), [b"x"]);
}

/// The record of a line by the library.
fn relay_record(link: u32, line: &[u8]) -> Vec<u8> {
    let mut room = [0; 517];
    let logged = relay::log(link, line, &mut room);
    assert_eq!(logged.number, 0);
    room[..logged.size].to_vec()
}

/// What is printed of a log: two lines for each used slot, then number and place of a refusal.
#[test]
fn what_is_printed() {
    let told = |log: &[u8]| {
        let (table, replayed) = Table::replay(log);
        String::from_utf8(printed(&table, &replayed)).unwrap()
    };
    let join = log_of(0, &[":1AB SJOIN 5 #a +lk 7 key :1ABAAAAAB @+1ABAAAAAA"]);
    let text = "5 #a +kl key 7 @+1ABAAAAAA 1ABAAAAAB\n\n";
    assert_eq!(told(&join), text);
    assert_eq!(told(&[join.as_slice(), &[73, 82, 99]].concat()), format!("{text}29 57\n"));
    assert_eq!((told(&[]), told(&[73, 82])), (String::new(), "31 2\n".to_string()));
    let masks = [join, log_of(9, &[":1AB BMASK 5 #a b :b  C a", "PING"])].concat();
    assert_eq!(told(&masks), "5 #a +kl key 7 @+1ABAAAAAA 1ABAAAAAB\na b C\n11 87\n");
}

/// A day and its log: the table at the end, the records of the accepted lines, and what was refused.
struct Day {
    table: Table,
    log: Vec<u8>,
    accepted: usize,
    nowhere: usize,
    numbers: Vec<u8>,
}

/// Any lines, on any links, with outputs of any length; links are registered and dropped between them.
fn any_day(rng: &mut Rng) -> Day {
    let mut model = model::Table { links: tables::links(rng), ..model::Table::EMPTY };
    let mut table = Table::empty();
    table.head.links.set = model.links;
    let mut day = Day { table, log: Vec::new(), accepted: 0, nowhere: 0, numbers: Vec::new() };
    for _ in 0..200 {
        let line = lines::line(rng, &model);
        let link = tables::link(rng, model.links);
        let mut out = vec![0; output_length(rng)];
        let answer = take(&mut day.table, link, &line, &mut out);
        _ = model::relay::take(&mut model, link, &line, &mut out);
        if answer.number == 0 {
            day.log.extend(relay_record(link, &line));
            day.accepted += 1;
            day.nowhere += usize::from(answer.len == 0);
        } else {
            day.numbers.push(answer.number);
        }
        if rng.one_in(4) {
            model.links ^= 1 << rng.below(32);
            relink(&mut day.table, model.links);
        }
    }
    day
}

/// Registers the links of a set and drops the others.
fn relink(table: &mut Table, set: u32) {
    for link in 0..32 {
        let number =
            if set >> link & 1 == 1 { table.register(link) } else { table.unregister(link) };
        assert_eq!(number, 0);
    }
}

/// The log of a day's accepted lines gives the day's slots and lists, whatever was refused between
/// them and however links came and went.
#[test]
fn a_day_replayed() {
    let mut rng = Rng::new(11);
    let (mut accepted, mut nowhere, mut numbers) = (0, 0, Vec::new());
    for _ in 0..60 {
        let day = any_day(&mut rng);
        let (table, replayed) = Table::replay(&day.log);
        assert_eq!(replayed, Replayed { used: day.log.len(), place: 0, number: 0 });
        assert_eq!(records(&day.log).count(), day.accepted);
        assert!(table.head.slots == day.table.head.slots);
        assert!(table.bans == day.table.bans);
        assert_eq!(table.head.links.set, u32::MAX);
        let pieces = streams::cut(&mut rng, &day.log);
        assert!(replay_pieces(&pieces) == (table, 0, 0));
        accepted += day.accepted;
        nowhere += day.nowhere;
        numbers.extend(day.numbers);
    }
    assert!(accepted > 2_000 && nowhere > 100, "{accepted} {nowhere}");
    for number in [2, 3, 4, 5, 11, 12, 18, 19, 20, 22, 26] {
        assert!(numbers.contains(&number), "never refused by {number}");
    }
}

/// The same from logs that stop for each reason, cut at every place and into pieces of nine sizes.
#[test]
fn cut_at_every_place() {
    let before = log_of(5, &[":1AB SJOIN 5 #a +n @1ABAAAAAA", ":1AB BMASK 5 #a b :x y"]);
    let ends = [
        vec![],
        record(5, b""),
        record(5, b"PING\r\n"),
        record(32, b""),
        vec![73, 82, 5, 2, 1],
        vec![73, 81],
        record(5, &[b'x'; 512])[..516].to_vec(),
    ];
    for end in ends {
        let log = [before.as_slice(), &end, &log_of(6, &[":1ABAAAAAA QUIT"])].concat();
        for log in [log.as_slice(), &log[..before.len() + end.len()]] {
            let (table, replayed) = Table::replay(log);
            let expected = (table, replayed.number, replayed.place);
            for place in 0..=log.len() {
                let (first, second) = log.split_at(place);
                assert!(replay_pieces(&[first, second]) == expected, "cut at {place}");
            }
            for size in [1, 2, 3, 5, 7, 100, 516, 517, 518] {
                let pieces: Vec<&[u8]> = log.chunks(size).collect();
                assert!(replay_pieces(&pieces) == expected, "pieces of {size}");
            }
        }
    }
}

/// Each byte of a log changed, one at a time, compared with the model at every place.
#[test]
fn each_byte_of_a_log() {
    let mut rng = Rng::new(12);
    let (mut tally, mut stops) = (Tally::default(), Tally::default());
    let texts = [":1AB SJOIN 5 #a +n @1ABAAAAAA", ":1AB BMASK 5 #a b :x y", ":1ABAAAAAA QUIT"];
    let log = [log_of(0, &texts[..2]), log_of(31, &texts[2..])].concat();
    for place in 0..log.len() {
        for change in [1, 2, 32, 64, 1 << rng.below(8), rng.between(1, 255) as u8] {
            let mut damaged = log.clone();
            damaged[place] ^= change;
            for at in 0..=log.len() {
                compare_read(&damaged, at, &mut tally);
            }
            compare_replay(&damaged, &mut stops);
        }
    }
    assert_eq!(tally.missing(&[0, 28, 29, 30, 31]), []);
    assert_eq!(stops.missing(&[0, 5, 6, 9, 11, 13, 16, 28, 29, 30, 31]), []);
}

/// A file of the repository.
fn file(path: &str) -> String {
    let path = format!("{}/../../{path}", env!("CARGO_MANIFEST_DIR"));
    fs::read_to_string(&path).unwrap_or_else(|error| panic!("{path}: {error}"))
}

/// The example's morning: its log leads to the table that its last answer shows.
#[test]
fn the_morning_replayed() {
    let (mut table, mut out) = (Table::empty(), [0; 512]);
    let mut log = Vec::new();
    let number = |digits: &str| digits.trim_end().parse().expect("a link");
    for line in file("examples/morning.txt").split_inclusive('\n') {
        match (line.as_bytes()[0], line.split_once(' ')) {
            (b'+', _) => assert_eq!(table.register(number(&line[1..])), 0),
            (b'-', _) => assert_eq!(table.unregister(number(&line[1..])), 0),
            (b'0'..=b'9', Some((link, line))) => {
                let (link, line) = (number(link), line.as_bytes());
                let answer = table.take(link, line, &mut out);
                if answer.number == 0 {
                    log.extend(relay_record(link, line));
                }
            }
            _ => {}
        }
    }
    let (after, replayed) = Table::replay(&log);
    let told = String::from_utf8(printed(&after, &replayed)).unwrap();
    let shown = file("examples/morning.out");
    assert!(shown.ends_with(&format!("\n= 0\n{told}.\n")) && told.lines().count() == 4, "{told}");
}
