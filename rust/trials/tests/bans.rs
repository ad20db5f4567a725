//! Ban lists as document 02 says it, §2: here the expected answers are the paper's and not the
//! model's. The numbers in brackets are those of the decisions on it.

use relay::{Answer, Banned, Merged, Table, WholeRecord, BANS, LIST};
use trials::taken::take;

/// The links 0, 3 and 5, and the channel #Race of time 1000 with two members.
fn race() -> Table {
    let mut table = Table::empty();
    for link in [0, 3, 5] {
        assert_eq!(table.register(link), 0);
    }
    say(&mut table, ":2CD SJOIN 1000 #Race +k buoy :@2CDAAAAAA +2CDAAAAAB").unwrap();
    table
}

/// The same with masks.
fn race_with(masks: &str) -> Table {
    let mut table = race();
    say(&mut table, &format!(":1AB BMASK 1000 #race b :{masks}")).unwrap();
    table
}

/// Takes a text, CR LF after it, from link 3, and answers what goes out, nothing if it goes nowhere, or
/// the number. A refusal, and a line that goes nowhere, leave everything as it was.
fn say(table: &mut Table, text: &str) -> Result<String, u8> {
    say_bytes(table, text.as_bytes()).map(|said| String::from_utf8(said).unwrap())
}

fn say_bytes(table: &mut Table, text: &[u8]) -> Result<Vec<u8>, u8> {
    let before = *table;
    let mut out = [7; 600];
    let Answer { number, place, set, count, len } =
        take(table, 3, &[text, b"\r\n"].concat(), &mut out);
    assert_eq!(place != 0, (32..=36).contains(&number));
    if number != 0 || len == 0 {
        assert_eq!((set, count, len), (0, 0, 0));
        assert!(*table == before && out == [7; 600], "{}", text.escape_ascii());
        return if number == 0 { Ok(Vec::new()) } else { Err(number) };
    }
    assert_eq!((set, count), (0b10_0001, 2));
    assert_eq!((&out[len - 2..len], &out[len..]), (b"\r\n".as_slice(), &[7; 600][len..]));
    Ok(out[..len - 2].to_vec())
}

/// The masks of the first slot.
fn masks(table: &Table) -> Vec<&[u8]> {
    table.masks(0).collect()
}

/// The same as texts.
fn texts(table: &Table) -> Vec<&str> {
    table.masks(0).map(|mask| std::str::from_utf8(mask).unwrap()).collect()
}

/// Masks of numbers, in their order: m10, m11 and so on.
fn numbered(range: std::ops::Range<u32>) -> String {
    let masks: Vec<String> = range.map(|n| format!("m{n}")).collect();
    masks.join(" ")
}

/// 12: exactly four parameters; 13 to 16 as for SJOIN; 26: type and list; in this order (2.1).
#[test]
fn numbers_of_a_line_by_itself() {
    let long = "x".repeat(101);
    for (line, number) in [
        ("BMASK 00 race c", 12),
        (":1AB BMASK", 12),
        (":1AB BMASK 00 race c", 12),
        (":1AB BMASK 00 race c x y", 12),
        ("BMASK 00 race c :", 13),
        (":2CDAAAAAA BMASK 00 race c :", 13),
        (":1ab BMASK 00 race c :", 13),
        (":1AB BMASK 00 race c :", 14),
        (":1AB BMASK 4294967296 race c :", 14),
        (":1AB BMASK 0 race c :", 15),
        (":1AB BMASK 1 race c :", 16),
        (":1AB BMASK 1 &race c :", 16),
        (":1AB BMASK 1 #none c x", 26),
        (":1AB BMASK 1 #none B x", 26),
        (":1AB BMASK 1 #none bb x", 26),
        (":1AB BMASK 1 #none +b x", 26),
        (":1AB BMASK 1 #none b :", 26),
        (":1AB BMASK 1 #none b :   ", 26),
        (&format!(":1AB BMASK 1 #none b {long}"), 26),
        (&format!(":1AB BMASK 1 #none b :x {long}"), 26),
        (&format!(":1AB BMASK 1 #none b :{long} x"), 26),
        (&format!(":1AB BMASK 1001 #race b :x {long}"), 26),
        (":1AB BMASK 1001 #race c x", 26),
        (":1AB BMASK 1 #none b x", 19),
        (":1AB BMASK 1001 #none b x", 19),
        (":1AB BMASKS 1 #race b x", 11),
        (":1AB BMAS 1 #race b x", 11),
    ] {
        assert_eq!(say(&mut race(), line), Err(number), "{line}");
    }
}

/// 1 to 3 come before the line, and 4 to 9 before its command.
#[test]
fn numbers_before_the_line() {
    let line = b":1AB BMASK 1000 #race b x\r\n";
    let number = |mut table: Table, link, room: usize, line: &[u8]| {
        let before = table;
        let mut out = vec![7; room];
        let number = take(&mut table, link, line, &mut out).number;
        assert!(number == 0 || table == before && out == vec![7; room]);
        number
    };
    let mut ill = race();
    ill.bans[BANS - 1] = 1;
    assert_eq!(number(ill, 32, 511, line), 1);
    assert_eq!(number(race(), 32, 511, line), 2);
    assert_eq!(number(race(), 32, 512, line), 3);
    assert_eq!(number(race(), 4, 512, line), 3);
    assert_eq!(number(race(), 3, 512, &line[..line.len() - 1]), 5);
    assert_eq!(number(race(), 3, 512, b":1AB BMASK 1000 #race b x\0\r\n"), 6);
    assert_eq!(number(race(), 3, 512, line), 0);
}

/// A mask may hold any byte but SPACE, NUL, CR and LF, start with ':', and have 1 to 100 bytes (2.1).
#[test]
fn every_byte_that_a_mask_may_hold() {
    for byte in (1..=255).filter(|b| !b" \r\n".contains(b)) {
        let mut table = race();
        let line = [b":1AB BMASK 1000 #race b :a x".as_slice(), &[byte]].concat();
        assert_eq!(say_bytes(&mut table, &line).as_ref(), Ok(&line), "{byte}");
        assert_eq!(masks(&table), [b"a".as_slice(), &[b'x', byte]], "{byte}");
    }
    let longest = "y".repeat(100);
    let mut table = race_with(&format!(":,\x07: {longest} ,"));
    assert_eq!(texts(&table), [",", ":,\x07:", &longest]);
    assert_eq!(say(&mut table, &format!(":1AB BMASK 1 #race b {longest}y")), Err(26));
    say(&mut table, ":1AB BMASK 1 #race b ::").unwrap();
    assert_eq!(texts(&table), [",", ":", ":,\x07:", &longest]);
}

/// One or more SPACEs part the masks, and SPACEs at either end are passed over (2.2).
#[test]
fn lists_are_parted_by_spaces() {
    for list in ["b a", "a b", " a b", "a b ", "   b    a   ", "a a b A"] {
        assert_eq!(texts(&race_with(list)), ["a", "b"], "{list}");
    }
    assert_eq!(texts(&race_with("a")), ["a"]);
}

/// The masks stand in the order of their folds, as unsigned bytes, a proper beginning first (2.5).
#[test]
fn folded_byte_order() {
    let mut table = race();
    let line = b":1AB BMASK 1000 #race b :z \xff B a ab _ ^ [ \x80 A* ~a ` ! Z{ 9";
    say_bytes(&mut table, line).unwrap();
    let expected: [&[u8]; 15] = [
        b"!", b"9", b"^", b"~a", b"_", b"`", b"a", b"A*", b"ab", b"B", b"z", b"Z{", b"[", b"\x80",
        b"\xff",
    ];
    assert_eq!(masks(&table), expected);
}

/// Equal folds stand once: the stored spelling before the line's, the first in the line before later
/// ones (2.2, 2.4).
#[test]
fn the_first_spelling_is_kept() {
    let mut table = race_with("Boat[1]\\ boat{1}| BOAT[1}\\");
    assert_eq!(texts(&table), ["Boat[1]\\"]);
    let before = table;
    let said = say(&mut table, ":1AB BMASK 1000 #race b :BOAT{1}|  boat[1]\\").unwrap();
    assert_eq!(said, ":1AB BMASK 1000 #race b :BOAT{1}|  boat[1]\\");
    assert!(table == before, "a line whose masks are all there is relayed and changes nothing");
    say(&mut table, ":1AB BMASK 1000 #race b :~ ^").unwrap();
    assert_eq!(texts(&table), ["~", "Boat[1]\\"], "'^' is '~' in another spelling");
}

/// The line goes out as it was read, in the writer's form, and the channel stays (2.4).
#[test]
fn what_goes_out_and_what_stays() {
    for (line, out) in [
        (":1AB bmask 1000 #RACE b x", ":1AB BMASK 1000 #RACE b x"),
        (":1AB BmasK   999  #race  b :x", ":1AB BMASK 999 #race b x"),
        (":9ZZ BMASK 1 #race b : y  X  ", ":9ZZ BMASK 1 #race b : y  X  "),
        (":1AB BMASK 1000 #race b ::x", ":1AB BMASK 1000 #race b ::x"),
    ] {
        let mut table = race();
        assert_eq!(say(&mut table, line).unwrap(), out);
        assert!(table.head == race().head, "{line}");
        assert_ne!(table.masks(0).count(), 0);
    }
}

/// Later than the channel: accepted after 26 and 19, never 27; nothing is changed or written (2.3).
#[test]
fn later_masks_go_nowhere() {
    let mut table = race_with(&numbered(10..42));
    assert_eq!(say(&mut table, ":1AB BMASK 1001 #race b x").unwrap(), "");
    assert_eq!(say(&mut table, ":1AB BMASK 4294967295 #race b x").unwrap(), "");
    assert_eq!(
        say(&mut table, &format!(":1AB BMASK 1001 #race b :{}", numbered(40..50))).unwrap(),
        ""
    );
    assert_eq!(say(&mut table, ":1AB BMASK 1000 #race b x"), Err(27));
    assert_eq!(say(&mut table, ":1AB BMASK 999 #race b x"), Err(27));
    assert_eq!(say(&mut race(), ":1AB BMASK 1001 #race b x").unwrap(), "");
}

/// 27 if over 32 would result, and then none is added; 32 pass, however many the line names (2.2, 2.4).
#[test]
fn a_33rd_mask() {
    let bmask = |masks: String| format!(":1AB BMASK 1000 #race b :{masks}");
    let mut table = race_with(&numbered(10..41));
    assert_eq!(say(&mut table, &bmask(numbered(41..43))), Err(27));
    assert_eq!(say(&mut table, &bmask("x y".into())), Err(27));
    say(&mut table, &bmask("x X x".into())).unwrap();
    assert_eq!(table.masks(0).count(), 32);
    say(&mut table, &bmask(numbered(10..41).to_uppercase())).unwrap();
    assert_eq!(say(&mut table, &bmask("y".into())), Err(27));

    let mut table = race();
    assert_eq!(say(&mut table, &bmask(numbered(10..43))), Err(27));
    say(&mut table, &bmask(format!("{} {}", numbered(10..42), numbered(10..42).to_uppercase())))
        .unwrap();
    assert_eq!(texts(&table).join(" "), numbered(10..42));
}

/// Masks of 100 bytes fill their rooms, and the bytes of the list are those that the header says.
#[test]
fn the_bytes_of_a_list() {
    let longest = "Y".repeat(100);
    let table = race_with(&format!("{longest} ab"));
    let mut list = [0; LIST];
    list[0] = 2;
    list[1..4].copy_from_slice(b"\x02ab");
    list[102] = 100;
    list[103..203].copy_from_slice(longest.as_bytes());
    assert_eq!(table.channel(0).bans.room, list);
    assert!(table.bans[LIST..] == [0; BANS - LIST]);
}

/// An SJOIN with an earlier time empties the list; equal, later and new leave it (2.6).
#[test]
fn joins_and_the_list() {
    for (time, left) in [(999, 0), (1, 0), (1000, 2), (1001, 2)] {
        let mut table = race_with("x y");
        say(&mut table, &format!(":1AB SJOIN {time} #race + 1ABAAAAAA")).unwrap();
        assert_eq!(table.masks(0).count(), left, "{time}");
        assert!(left != 0 || table.bans == [0; BANS]);
    }
    let mut table = race_with("x y");
    say(&mut table, ":1AB SJOIN 999 #other + 1ABAAAAAA").unwrap();
    assert_eq!((table.masks(0).count(), table.masks(1).count()), (2, 0));
    assert_eq!(say(&mut table, ":1AB SJOIN 1 #race +x 1ABAAAAAA"), Err(32));
    assert_eq!(texts(&table), ["x", "y"], "a refused join leaves the list");
}

/// PART and QUIT leave the list until the slot is zeroed; a new channel in it has none (2.6).
#[test]
fn leaving_and_the_list() {
    for leave in ["PART #race", "QUIT"] {
        let mut table = race_with("x y");
        say(&mut table, ":1AB SJOIN 5 #b + 2CDAAAAAB").unwrap();
        say(&mut table, ":1AB BMASK 5 #b b other").unwrap();
        say(&mut table, &format!(":2CDAAAAAA {leave}")).unwrap();
        assert_eq!(texts(&table), ["x", "y"], "{leave}");
        say(&mut table, &format!(":2CDAAAAAB {leave}")).unwrap();
        assert!(table.channel(0) == Table::empty().channel(0), "{leave}");
        assert_eq!(table.masks(1).count(), usize::from(leave != "QUIT"), "{leave}");
        say(&mut table, ":1AB SJOIN 5 #new + 1ABAAAAAA").unwrap();
        assert_eq!((table.head.slots[0].name_len, table.masks(0).count()), (4, 0));
    }
}

/// Each channel has its own list.
#[test]
fn sixteen_lists() {
    let mut table = race();
    for slot in 1..16 {
        say(&mut table, &format!(":1AB SJOIN 5 #{slot} + 1ABAAAAAA")).unwrap();
    }
    for slot in (1..16).rev() {
        say(&mut table, &format!(":1AB BMASK 5 #{slot} b :own-{slot} all")).unwrap();
    }
    say(&mut table, ":1AB BMASK 1000 #race b :own-0 all").unwrap();
    for slot in 0..16 {
        let own = format!("own-{slot}");
        assert!(table.masks(slot).eq([b"all".as_slice(), own.as_bytes()]), "{slot}");
        let name = if slot == 0 { "#race".to_string() } else { format!("#{slot}") };
        for other in 0..16 {
            let banned = table.is_banned(name.as_bytes(), format!("own-{other}").as_bytes());
            assert_eq!(banned, Banned { number: 0, yes: slot == other }, "{slot} {other}");
        }
    }
}

/// Yes exactly if some mask matches the text whole; 1, 16, 19, 23 in this order (2.9).
#[test]
fn texts_that_are_banned() {
    let mut table = race_with("*!*@spec[1] boat?");
    say(&mut table, ":1AB SJOIN 5 #open + 1ABAAAAAA").unwrap();
    let banned = |name: &str, text: &str| {
        let Banned { number, yes } = table.is_banned(name.as_bytes(), text.as_bytes());
        if number == 0 {
            Ok(yes)
        } else {
            assert!(!yes);
            Err(number)
        }
    };
    for (text, yes) in [
        ("joe!~x@SPEC{1}", true),
        ("!@spec[1]", true),
        ("joe!~x@spec[1].example", false),
        ("Boat1", true),
        ("boat", false),
        ("boat11", false),
        ("xboat1", false),
        ("", false),
    ] {
        assert_eq!(banned("#RACE", text), Ok(yes), "{text}");
        assert_eq!(banned("#open", text), Ok(false), "{text}");
    }
    let (rest, long) = ("x".repeat(503), "x".repeat(513));
    for (text, yes) in [(format!("{rest}!@spec{{1}}"), true), (format!("!@spec{{1}}{rest}"), false)]
    {
        assert_eq!((text.len(), banned("#race", &text)), (512, Ok(yes)));
    }
    assert_eq!(banned("#race", &long), Err(23));
    assert_eq!(banned("#open", &long), Err(23));
    assert_eq!(banned("#none", &long), Err(19));
    assert_eq!(banned("#none", ""), Err(19));
    assert_eq!(banned("race", &long), Err(16));
    assert_eq!(banned("", ""), Err(16));
    let mut ill = table;
    ill.bans[15 * LIST] = 1;
    let refused = Banned { number: 1, yes: false };
    assert_eq!(ill.is_banned(b"race", long.as_bytes()), refused);
    assert_eq!(ill.is_banned(b"#race", b"boat1"), refused);
}

/// The empty text is a text: `*` matches it, and only that (2.9).
#[test]
fn the_empty_text() {
    for (mask, yes) in [("*", true), ("**", true), ("?", false), ("*?", false), ("x", false)] {
        assert_eq!(race_with(mask).is_banned(b"#race", b""), Banned { number: 0, yes }, "{mask}");
    }
    assert_eq!(race().is_banned(b"#race", b""), Banned { number: 0, yes: false });
}

/// #Race of that time, with so many members from that one on, and masks.
fn side(time: u32, users: std::ops::Range<u32>, masks: &str) -> WholeRecord {
    let mut table = Table::empty();
    table.register(3);
    for users in [users.start..users.end.min(32), users.start.max(32)..users.end] {
        let ids: Vec<String> = users.map(|n| format!("1ABA{n:05}")).collect();
        if !ids.is_empty() {
            let line = format!(":1AB SJOIN {time} #race + :{}\r\n", ids.join(" "));
            assert_eq!(table.take(3, line.as_bytes(), &mut [0; 512]).number, 0);
        }
    }
    if !masks.is_empty() {
        let line = format!(":1AB BMASK {time} #race b :{masks}\r\n");
        assert_eq!(table.take(3, line.as_bytes(), &mut [0; 512]).number, 0);
    }
    table.channel(0)
}

/// The masks of the merged record, or the number; a refused merge answers the first record as given.
fn merged(first: &WholeRecord, second: &WholeRecord) -> Result<String, u8> {
    let Merged { number, result } = relay::merge(first, second);
    if number != 0 {
        assert!(result == *first);
        return Err(number);
    }
    let masks: Vec<&str> = result.bans.masks().map(|m| std::str::from_utf8(m).unwrap()).collect();
    Ok(masks.join(" "))
}

/// At equal times the lists are united, the first one's spelling kept; else the earlier one's stands
/// (2.7).
#[test]
fn merged_lists() {
    let (a, b) = (side(5, 0..1, "b Boat[1]"), side(5, 1..2, "BOAT{1} a z"));
    assert_eq!(merged(&a, &b).unwrap(), "a b Boat[1] z");
    assert_eq!(merged(&b, &a).unwrap(), "a b BOAT{1} z");
    assert_eq!(merged(&a, &side(6, 1..2, "z")).unwrap(), "b Boat[1]");
    assert_eq!(merged(&side(6, 1..2, "z"), &a).unwrap(), "b Boat[1]");
    assert_eq!(merged(&a, &side(4, 1..2, "")).unwrap(), "");
    assert_eq!(merged(&side(4, 1..2, ""), &a).unwrap(), "");
    assert_eq!(merged(&a, &a).unwrap(), "b Boat[1]");
}

/// 1, 16, 22, 27 in this order; 27 at equal times alone (2.7).
#[test]
fn refused_merges() {
    let full = side(5, 0..64, &numbered(10..42));
    let masks = numbered(10..42);
    assert_eq!(merged(&full, &side(5, 0..64, &masks.to_uppercase())).as_ref(), Ok(&masks));
    assert_eq!(merged(&full, &side(5, 0..1, "m42")), Err(27));
    assert_eq!(merged(&side(5, 0..1, "m42"), &full), Err(27));
    assert_eq!(merged(&full, &side(5, 64..65, "m42")), Err(22));
    assert_eq!(merged(&full, &side(6, 0..1, "m42")).as_ref(), Ok(&masks));
    assert_eq!(merged(&full, &side(4, 0..1, "m42")).as_deref(), Ok("m42"));
    let mut other = side(5, 64..65, "m42");
    other.record.name[1] = b'X';
    assert_eq!(merged(&full, &other), Err(16));
    for place in [0, 5, 90, LIST - 1] {
        let mut ill = other;
        ill.bans.room[place] = 200;
        assert_eq!(merged(&full, &ill), Err(1), "{place}");
        assert_eq!(merged(&ill, &full), Err(1), "{place}");
    }
}

/// Grouping counts with lists: (a b) c is accepted and a (b c) is 27 (2.8).
#[test]
fn merging_is_not_associative() {
    let (a, b, c) = (side(1, 0..1, ""), side(2, 0..1, &numbered(10..42)), side(2, 0..1, "x"));
    let ab = relay::merge(&a, &b).result;
    assert_eq!(merged(&ab, &c).unwrap(), "");
    assert_eq!(merged(&b, &c), Err(27));
}

/// The lists are read and written where they are lent, and nowhere else.
#[test]
fn bytes_beside_the_lists_stay() {
    let table = race_with("x");
    let mut room = vec![0xa5; BANS + 128];
    for place in [0, 1, 63, 128] {
        room.fill(0xa5);
        room[place..][..BANS].copy_from_slice(&table.bans);
        let lists = (&mut room[place..][..BANS]).try_into().expect("so many bytes");
        let line = b":1AB BMASK 1000 #race b y\r\n";
        let taken = relay::process(&table.head, lists, 3, line, &mut [0; 512]);
        assert_eq!((taken.number, taken.len, taken.set, taken.count), (0, 27, 0b10_0001, 2));
        let mut expected = vec![0xa5; BANS + 128];
        expected[place..][..BANS].copy_from_slice(&race_with("x y").bans);
        assert!(room == expected, "{place}");
    }
}
