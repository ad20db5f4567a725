//! The cases of document 01, 'From the water' and 'Errors that look right', and the limits that it
//! names, run on the core alone: here the expected answers are the paper's and not the model's.

use relay::{Answer, Member, Record, Table};
use trials::taken::take;

/// The links of the paper's whole case: 0, 3 and 5.
const LINKS: u32 = 0b10_1001;

/// A table with those links and no channel.
fn start() -> Table {
    let mut table = Table::empty();
    for link in [0, 3, 5] {
        assert_eq!(table.register(link), 0);
    }
    assert_eq!(table.head.links.set, LINKS);
    table
}

/// Takes a text, CR LF after it, from link 3, and answers what goes out or the number.
fn say(table: &mut Table, text: &str) -> Result<String, u8> {
    let before = *table;
    let mut out = [7; 600];
    let Answer { number, place, set, count, len } =
        take(table, 3, format!("{text}\r\n").as_bytes(), &mut out);
    assert_eq!(place != 0, (32..=36).contains(&number), "{text}");
    if number != 0 {
        assert_eq!((set, count, len), (0, 0, 0));
        assert!(*table == before && out == [7; 600]);
        return Err(number);
    }
    assert_eq!((set, count), (0b10_0001, 2));
    assert_eq!((&out[len - 2..len], &out[len..]), (b"\r\n".as_slice(), &[7; 600][len..]));
    Ok(String::from_utf8(out[..len - 2].to_vec()).unwrap())
}

fn members(record: &Record) -> Vec<(String, u8)> {
    let text = |m: &Member| (String::from_utf8(m.id.to_vec()).unwrap(), m.status);
    record.members[..record.count].iter().map(text).collect()
}

/// The record that the whole case begins with.
fn race() -> Table {
    let mut table = start();
    say(&mut table, ":2CD SJOIN 1000 #Race +k buoy @2CDAAAAAA").unwrap();
    table
}

#[test]
fn lines() {
    let number = |text: &[u8]| relay::read(&[text, b"\r\n"].concat()).number;
    let ping = b"PING\r\n";
    assert_eq!((relay::command(ping), relay::read(ping).count), (b"PING".as_slice(), 0));
    let spaced = b":a  X b :\r\n";
    assert_eq!((relay::prefix(spaced), relay::read(spaced).count), (b"a".as_slice(), 2));
    assert_eq!(
        (relay::param(spaced, 0), relay::param(spaced, 1)),
        (b"b".as_slice(), b"".as_slice())
    );
    assert_eq!((number(b""), number(b": X"), number(b"12")), (7, 8, 9));
    assert_eq!((number(&[b'x'; 510]), number(&[b'x'; 511])), (0, 4));
}

/// The case of sixteen parameters, which document 02 turns round, §7: they are read as fifteen.
#[test]
fn fifteen_and_sixteen_parameters() {
    for (line, last) in [
        (b"X a b c d e f g h i j k l m n o\r\n".as_slice(), b"o".as_slice()),
        (b"X a b c d e f g h i j k l m n o p\r\n", b"o p"),
    ] {
        let read = relay::read(line);
        assert_eq!((read.number, read.count), (0, 15));
        assert_eq!((relay::param(line, 13), relay::param(line, 14)), (b"n".as_slice(), last));
    }
}

#[test]
fn names_masks_keys() {
    assert!(relay::same_name(b"#A[", b"#a{") && relay::same_name(b"#~", b"#^"));
    let matches = |mask: &[u8], text: &[u8]| relay::matches(mask, text).yes;
    assert!(matches(b"*", b"") && !matches(b"?", b""));
    assert!(matches(b"a*b*c", b"abxbc") && !matches(b"a*b", b"abc"));
    assert_eq!(relay::greater_key(b"buoy", b"buoys"), b"buoys");
}

#[test]
fn the_whole_case() {
    let mut table = race();
    let said = say(&mut table, ":1AB SJOIN 1200 #race +nt :@1ABAAAAAA 1ABAAAAAB");
    assert_eq!(said.unwrap(), ":1AB SJOIN 1000 #Race + :1ABAAAAAA 1ABAAAAAB");
    let record = table.head.slots[0];
    assert_eq!((record.time, record.modes, &record.key[..5]), (1000, 64, b"buoy\0".as_slice()));
    let expected = [("1ABAAAAAA", 0), ("1ABAAAAAB", 0), ("2CDAAAAAA", 2)];
    assert_eq!(members(&record), expected.map(|(id, status)| (id.to_string(), status)));
}

#[test]
fn keys_at_equal_times() {
    let mut table = race();
    say(&mut table, ":1AB SJOIN 1000 #race +k buoys 1ABAAAAAA").unwrap();
    assert_eq!(
        (&table.head.slots[0].key[..5], table.head.slots[0].key_len),
        (b"buoys".as_slice(), 5)
    );
}

#[test]
fn members_at_their_limit() {
    let ids = |from: usize, to: usize| {
        let ids: Vec<String> = (from..to).map(|n| format!("1ABA{n:05}")).collect();
        format!(":1AB SJOIN 5 #a + :{}", ids.join(" "))
    };
    let mut table = start();
    say(&mut table, &ids(0, 40)).unwrap();
    assert_eq!(say(&mut table, &ids(25, 65)), Err(22));
    say(&mut table, &ids(40, 64)).unwrap();
    assert_eq!(table.head.slots[0].count, 64);
    assert_eq!(say(&mut table, &ids(64, 65)), Err(22));
    say(&mut table, &ids(20, 60)).unwrap();
}

#[test]
fn errors_that_look_right() {
    let mut table = race();
    say(&mut table, ":1AB SJOIN 999 #race + :1ABAAAAAA").unwrap();
    assert_eq!(table.head.slots[0].count, 2, "members were cleared, or 999 is not before 1000");
    assert_eq!((table.head.slots[0].time, table.head.slots[0].key_len), (999, 0));

    let mut table = race();
    say(&mut table, ":1AB SJOIN 1001 #race +k zzz 1ABAAAAAA").unwrap();
    assert_eq!(&table.head.slots[0].key[..5], b"buoy\0", "a later time's key was taken");

    let mut table = start();
    say(&mut table, ":1AB SJOIN 5 #a + :@1ABAAAAAA +1ABAAAAAA 1ABAAAAAA").unwrap();
    assert_eq!(table.head.slots[0].members[0].status, 3, "an id's last status was taken");

    for round in 0..17 {
        say(&mut table, ":1ABAAAAAA PART #A").unwrap();
        assert!(table.head.slots == Table::empty().head.slots, "round {round}");
        say(&mut table, ":1AB SJOIN 5 #a + 1ABAAAAAA").unwrap();
    }
}

#[test]
fn words_at_their_limits() {
    let join = |words: &str| {
        let text = format!(":1AB SJOIN {words} 1ABAAAAAA");
        say(&mut start(), &text).err().unwrap_or(0)
    };
    for (words, number) in [
        ("4294967295 #a +", 0),
        ("4294967296 #a +", 14),
        ("01 #a +", 14),
        ("0 #a +", 15),
        (&format!("1 #{} +", "x".repeat(49)), 0),
        (&format!("1 #{} +", "x".repeat(50)), 16),
        (&format!("1 #a +k {}", "x".repeat(23)), 0),
        (&format!("1 #a +k {}", "x".repeat(24)), 35),
        ("1 #a +l 65535", 0),
        ("1 #a +l 65536", 36),
        ("1 #a +l 01", 36),
        ("1 #a +lk 5 key", 0),
        ("1 #a +kl 5 key", 36),
    ] {
        assert_eq!(join(words), number, "{words}");
    }
}

#[test]
fn all_slots_used() {
    let mut table = start();
    for n in 0..16 {
        say(&mut table, &format!(":1AB SJOIN 5 #{n} + 1ABAAAAAA")).unwrap();
    }
    assert_eq!(say(&mut table, ":1AB SJOIN 5 #16 + 1ABAAAAAA"), Err(21));
    say(&mut table, ":1AB SJOIN 5 #15 + 1ABAAAAAB").unwrap();
    say(&mut table, ":1ABAAAAAA QUIT :gone home").unwrap();
    assert_eq!(table.head.slots.iter().filter(|r| r.count != 0).count(), 1);
    say(&mut table, ":1AB SJOIN 5 #16 + 1ABAAAAAA").unwrap();
    assert_eq!(&table.head.slots[0].name[..4], b"#16\0");
}
