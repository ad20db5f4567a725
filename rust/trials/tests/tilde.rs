//! '~' and '^' as one letter, as document 02 says it, §4: here the expected answers are the paper's and
//! not the model's. Of the functions that give 1, `relay_describe` judges a record by itself, with one
//! name and no masks, and `relay_feed` a feeder: the letters are nothing to them.

use relay::{Answer, Banned, Merged, Table, WholeRecord};
use trials::taken::take;

/// The links 0, 3 and 5.
fn linked() -> Table {
    let mut table = Table::empty();
    for link in [0, 3, 5] {
        assert_eq!(table.register(link), 0);
    }
    table
}

/// Takes a text, CR LF after it, from link 3, and answers what goes out.
fn say(table: &mut Table, text: &str) -> String {
    let mut out = [0; 512];
    let Answer { number, len, .. } = table.take(3, format!("{text}\r\n").as_bytes(), &mut out);
    assert_eq!(number, 0, "{text}");
    String::from_utf8(out[..len - 2].to_vec()).unwrap()
}

/// A table with a channel of one member for each name.
fn with_channels(names: &[&str]) -> Table {
    let mut table = linked();
    for name in names {
        say(&mut table, &format!(":1AB SJOIN 1000 {name} + 1ABAAAAAA"));
    }
    table
}

/// The channel #race with masks.
fn with_masks(masks: &str) -> Table {
    let mut table = with_channels(&["#race"]);
    say(&mut table, &format!(":1AB BMASK 1000 #race b :{masks}"));
    table
}

/// The masks of the first slot.
fn masks(table: &Table) -> Vec<&str> {
    table.masks(0).map(|mask| std::str::from_utf8(mask).unwrap()).collect()
}

/// The numbers of all that can be done with a table, whatever else is given. Who is refused has the head
/// back as given, and the lists and the lent output are as they were.
fn numbers(table: &Table) -> Vec<u8> {
    let mut numbers = Vec::new();
    for link in [0, 4, 31, 32, u32::MAX] {
        for change in [relay::register, relay::unregister] {
            let done = change(&table.head, &table.bans, link);
            assert!(done.number == 0 || done.head == table.head);
            numbers.push(done.number);
        }
    }
    let long = [b'x'; 600];
    for name in ["#~mark", "#^mark", "#race", "#none", "none"] {
        for text in [b"~".as_slice(), b"", &long] {
            let Banned { number, yes } = table.is_banned(name.as_bytes(), text);
            assert!(number == 0 || !yes);
            numbers.push(number);
        }
    }
    for line in [
        ":1AB SJOIN 1000 #~mark + 1ABAAAAAA",
        ":1AB SJOIN 1 #^mark + 1ABAAAAAB",
        ":1AB SJOIN 0 #race + 1ABAAAAAB",
        ":1AB BMASK 1000 #race b ~",
        ":1AB BMASK 1001 #race b ^",
        ":1ABAAAAAA PART #~mark",
        ":1ABAAAAAA QUIT",
        "PING",
        "",
    ] {
        for (link, room) in [(3, 512), (3, 600), (3, 511), (4, 512), (32, 0)] {
            let mut after = *table;
            let mut out = vec![7; room];
            let line = format!("{line}\r\n");
            let Answer { number, place, set, count, len } =
                take(&mut after, link, line.as_bytes(), &mut out);
            if number != 0 {
                assert_eq!((place, set, count, len), (0, 0, 0, 0));
                assert!(after == *table && out == vec![7; room], "{line}");
            }
            numbers.push(number);
        }
    }
    numbers
}

/// Every function that gives 1 for a table does, and nothing else.
fn assert_ill(table: &Table, what: &str) {
    assert!(numbers(table).iter().all(|&number| number == 1), "{what}");
}

/// No function gives 1.
fn assert_well(table: &Table, what: &str) {
    assert!(numbers(table).iter().all(|&number| number != 1), "{what}");
}

/// The number of a merge, which answers the first record as given where it is refused.
fn merge(first: &WholeRecord, second: &WholeRecord) -> u8 {
    let Merged { number, result } = relay::merge(first, second);
    assert!(number == 0 || result == *first);
    number
}

/// The letters, and no bytes but these, have two spellings each.
#[test]
fn the_pairs() {
    let capitals = b"ABCDEFGHIJKLMNOPQRSTUVWXYZ[\\]~";
    let small = b"abcdefghijklmnopqrstuvwxyz{|}^";
    let pair = |a, b| capitals.iter().zip(small).any(|(&c, &s)| (a, b) == (c, s));
    for a in 0..=255 {
        for b in 0..=255 {
            let alike = a == b || pair(a, b) || pair(b, a);
            assert_eq!(relay::same_name(&[b'#', a], &[b'#', b]), alike, "{a} {b}");
            let any = a == b'*' || a == b'?';
            assert_eq!(relay::matches(&[a], &[b]).yes, alike || any, "{a} {b}");
        }
    }
}

/// Boats on #~mark and #^mark sit together: one slot, under the name as it was first spelled.
#[test]
fn one_channel() {
    for (stored, other) in [("#~Mark", "#^mARK"), ("#^Mark", "#~mARK")] {
        let mut table = with_channels(&[stored]);
        let said = say(&mut table, &format!(":1AB SJOIN 1000 {other} +n @1ABAAAAAB"));
        assert_eq!(said, format!(":1AB SJOIN 1000 {stored} +n @1ABAAAAAB"));
        assert_eq!((table.head.slots[0].count, table.head.slots[1].count), (2, 0));
        let found = |name: &str| relay::find(&table.head, name.as_bytes());
        assert!(found(other).number == 0 && found(other) == found(stored));
        say(&mut table, &format!(":1AB BMASK 1000 {other} b x"));
        assert_eq!(masks(&table), ["x"]);
        assert_eq!(table.is_banned(other.as_bytes(), b"x"), Banned { number: 0, yes: true });
        let parting = format!(":1ABAAAAAA PART {other}");
        assert_eq!(say(&mut table, &parting), parting);
        assert_eq!(table.head.slots[0].count, 1);
        assert_well(&table, stored);
    }
}

/// Two records of the one and the other name merge, under the first one's.
#[test]
fn one_record() {
    let tilde = with_channels(&["#~mark"]).channel(0);
    let caret = with_channels(&["#^mark"]).channel(0);
    assert_eq!((merge(&tilde, &caret), merge(&caret, &tilde)), (0, 0));
    assert_eq!(relay::merge(&tilde, &caret).result.record.name, tilde.record.name);
    assert_eq!(relay::merge(&caret, &tilde).result.record.name, caret.record.name);
    let other = with_channels(&["#_mark"]).channel(0);
    assert_eq!((merge(&tilde, &other), merge(&other, &caret)), (16, 16));
}

/// '~' becomes '^', and '^' stays: both stand before '_', '`' and the letters.
#[test]
fn folded_byte_order() {
    let all = with_masks("~b a _ z ` ^a } ] ~");
    assert_eq!(masks(&all), ["~", "^a", "~b", "_", "`", "a", "z", "}"]);
    assert_eq!(masks(&with_masks("\x7f ~x { ^w ^y")), ["^w", "~x", "^y", "{", "\x7f"]);
}

/// Long masks are compared in blocks, in which every byte has a turn as the one that differs.
#[test]
fn long_masks() {
    for place in 0..40 {
        let mask =
            |b: char, end: &str| format!("{}{b}{}{end}", "x".repeat(place), "y".repeat(39 - place));
        let all = [
            mask('\x7f', "a"),
            mask('_', "a"),
            mask('~', "b"),
            mask('^', "a"),
            mask('@', ""),
            mask('`', ""),
        ];
        let [del, line, tilde, caret, at, tick] = &all;
        assert_eq!(masks(&with_masks(&all.join(" "))), [at, caret, tilde, line, tick, del]);
        let (tilde, caret) = (mask('~', ""), mask('^', ""));
        assert_eq!(masks(&with_masks(&format!("{tilde} {caret}"))), [&tilde]);
        assert_eq!(masks(&with_masks(&format!("{caret} {tilde}"))), [&caret]);
        let mut table = with_masks(&format!("{caret} {}", mask('_', "")));
        table.bans[2 + 101 + place] = b'~';
        assert_ill(&table, "twice");
    }
}

/// Masks that are the same but for these stand once, in the first spelling, and count as one.
#[test]
fn one_mask() {
    assert_eq!(masks(&with_masks("~x ^x")), ["~x"]);
    assert_eq!(masks(&with_masks("^x ~X ~x")), ["^x"]);
    let mut table = with_masks("~~");
    let again = ":1AB BMASK 1000 #race b :^~ ~^ ^^";
    assert_eq!(say(&mut table, again), again);
    assert_eq!(masks(&table), ["~~"]);
    let (mut tildes, mut carets) = (with_channels(&["#race"]), with_channels(&["#race"]));
    for n in 10..42 {
        say(&mut tildes, &format!(":1AB BMASK 1000 #race b ~{n}"));
        say(&mut carets, &format!(":1AB BMASK 1000 #race b ^{n}"));
    }
    assert_eq!(merge(&tildes.channel(0), &carets.channel(0)), 0);
    assert!(relay::merge(&tildes.channel(0), &carets.channel(0)).result == tildes.channel(0));
}

/// A mask of the one bans a text of the other.
#[test]
fn banned_by_either() {
    for (mask, text) in
        [("joe!^*@*", "joe!~joe@boat"), ("joe!~*@*", "JOE!^joe@boat"), ("*~", "^"), ("*^", "~")]
    {
        let asked = with_masks(mask).is_banned(b"#race", text.as_bytes());
        assert_eq!(asked, Banned { number: 0, yes: true }, "{mask} {text}");
    }
    assert_eq!(with_masks("*^").is_banned(b"#race", b"_"), Banned { number: 0, yes: false });
}

/// A table that holds both gets 1 from every function that gives it, whichever slots they are in.
#[test]
fn a_table_with_both() {
    let names: Vec<String> = (0..16).map(|n| format!("#{}mark", char::from(b'a' + n))).collect();
    let names: Vec<&str> = names.iter().map(String::as_str).collect();
    let full = with_channels(&names);
    for (first, second) in [(0, 1), (1, 0), (0, 15), (15, 0), (6, 9), (14, 15)] {
        let mut both = full;
        both.head.slots[first].name[1] = b'~';
        assert_well(&both, "one of them");
        both.head.slots[second].name[1] = b'_';
        assert_well(&both, "a byte that stands beside it");
        both.head.slots[second].name[1] = b'^';
        assert_ill(&both, "both");
        both.head.slots[second].name[5] = b'K';
        assert_ill(&both, "both, in capitals too");
        both.head.slots[second].name[5] = b'l';
        assert_well(&both, "names that differ besides");
    }
}

/// The first byte of a mask of the first slot.
fn mask_start(table: &mut Table, place: usize) -> &mut u8 {
    &mut table.bans[2 + 101 * place]
}

/// A list that is out of the order gets 1 from every function that gives it, in a table or a record: in
/// the order that was, '~' stood behind the letters. One that was out of order no longer is.
#[test]
fn a_list_out_of_order() {
    let good = with_masks("aa bb cc").channel(0);
    for (place, expected, number) in
        [(0, ["~a", "bb", "cc"], 0), (1, ["aa", "~b", "cc"], 1), (2, ["aa", "bb", "~c"], 1)]
    {
        let mut table = with_masks("aa bb cc");
        *mask_start(&mut table, place) = b'~';
        assert_eq!(masks(&table), expected);
        match number {
            0 => assert_well(&table, "in order"),
            _ => assert_ill(&table, "out of order"),
        }
        let list = table.channel(0);
        assert_eq!((merge(&list, &good), merge(&good, &list)), (number, number));
        *mask_start(&mut table, place) = b"abc"[place];
        assert_well(&table, "as it was");
    }
}

/// So does one with two masks that are now equal, in either order.
#[test]
fn a_list_with_one_mask_twice() {
    let good = with_masks("!x _x").channel(0);
    for (first, second) in [(b'^', b'~'), (b'~', b'^'), (b'~', b'~')] {
        let mut table = with_masks("!x _x");
        *mask_start(&mut table, 0) = first;
        assert_well(&table, "before '_'");
        *mask_start(&mut table, 1) = second;
        assert_ill(&table, "twice");
        assert_eq!((merge(&table.channel(0), &good), merge(&good, &table.channel(0))), (1, 1));
        *mask_start(&mut table, 1) = b'_';
        assert_well(&table, "two masks");
    }
}
