//! What is wrong with the modes of an SJOIN, and where, as document 02 says it, §6: here the expected
//! answers are the paper's and not the model's.

use relay::{Answer, Replayed, Table};
use trials::inputs::{lines, logs};
use trials::rng::Rng;
use trials::taken::take;

/// The links 0, 3 and 5.
fn linked() -> Table {
    let mut table = Table::empty();
    for link in [0, 3, 5] {
        assert_eq!(table.register(link), 0);
    }
    table
}

/// Takes a line from link 3, and answers its number and its place. A refusal leaves everything as it
/// was; an accepted line has no place.
fn taken(table: &Table, line: &[u8]) -> (u8, usize) {
    let mut after = *table;
    let mut out = [7; 600];
    let Answer { number, place, set, count, len } = take(&mut after, 3, line, &mut out);
    if number != 0 {
        assert_eq!((set, count, len), (0, 0, 0), "{}", line.escape_ascii());
        assert!(after == *table && out == [7; 600], "{}", line.escape_ascii());
    }
    (number, place)
}

/// The line of a text, CR LF after it, and the place of the '|' in it, which is left out; 0 without
/// one.
fn marked(text: &str) -> (Vec<u8>, usize) {
    let line = format!("{}\r\n", text.replace('|', ""));
    (line.into_bytes(), text.find('|').unwrap_or(0))
}

/// A text has that number, at its mark.
fn gets(number: u8, text: &str) {
    let (line, place) = marked(text);
    assert_eq!(taken(&linked(), &line), (number, place), "{text}");
}

/// Lines with their numbers; a '|' marks the place.
const CASES: [(u8, &str); 56] = [
    // An unknown letter, each time that it stands.
    (32, ":1AB SJOIN 5 #a +|o 1ABAAAAAA"),
    (32, ":1AB SJOIN 5 #a +nt|o 1ABAAAAAA"),
    (32, ":1AB SJOIN 5 #a +|ono 1ABAAAAAA"),
    (32, ":1AB SJOIN 5 #a +|N 1ABAAAAAA"),
    (32, ":1AB SJOIN 5 #a +imnpstkl|b buoy 7 1ABAAAAAA"),
    // A missing '+', whatever stands there; one that comes later is an unknown letter.
    (32, ":1AB SJOIN 5 #a |n 1ABAAAAAA"),
    (32, ":1AB SJOIN 5 #a |nn 1ABAAAAAA"),
    (32, ":1AB SJOIN 5 #a |-n 1ABAAAAAA"),
    (32, ":1AB SJOIN 5 #a |n+ 1ABAAAAAA"),
    (32, ":1AB SJOIN 5 #a |k buoy 1ABAAAAAA"),
    (32, ":1AB SJOIN 5 #a |@1ABAAAAAA 1ABAAAAAB"),
    (32, ":1AB SJOIN 5 #a +|+ 1ABAAAAAA"),
    (32, ":1AB SJOIN 5 #a +n|+t 1ABAAAAAA"),
    // A letter twice, at the second; a third is later.
    (33, ":1AB SJOIN 5 #a +n|n 1ABAAAAAA"),
    (33, ":1AB SJOIN 5 #a +ntsi|n 1ABAAAAAA"),
    (33, ":1AB SJOIN 5 #a +n|nn 1ABAAAAAA"),
    (33, ":1AB SJOIN 5 #a +nt|tn 1ABAAAAAA"),
    // Of these the earlier in the line, and not the lower number.
    (32, ":1AB SJOIN 5 #a +n|on 1ABAAAAAA"),
    (33, ":1AB SJOIN 5 #a +n|no 1ABAAAAAA"),
    (33, ":1AB SJOIN 5 #a +n|n+ 1ABAAAAAA"),
    // k and l twice, with any number of parameters.
    (33, ":1AB SJOIN 5 #a +k|k 1ABAAAAAA"),
    (33, ":1AB SJOIN 5 #a +k|k buoy 1ABAAAAAA"),
    (33, ":1AB SJOIN 5 #a +k|k buoy buoy 1ABAAAAAA"),
    (33, ":1AB SJOIN 5 #a +lk|l 7 buoy 1ABAAAAAA"),
    // A missing parameter, at the line's end: also where the list is taken for it.
    (34, ":1AB SJOIN 5 #a +k 1ABAAAAAA|"),
    (34, ":1AB SJOIN 5 #a +k buoy|"),
    (34, ":1AB SJOIN 5 #a +l 7|"),
    (34, ":1AB SJOIN 5 #a +kl 1ABAAAAAA|"),
    (34, ":1AB SJOIN 5 #a +kl buoy 1ABAAAAAA|"),
    (34, ":1AB SJOIN 5 #a +lk 7 1ABAAAAAA|"),
    (34, ":1AB SJOIN 5 #a +kl a,b x|"),
    (34, ":1AB SJOIN 5 #a +k 1ABAAAAAA   |"),
    (34, ":1AB SJOIN 5 #a +k :1ABAAAAAA  |"),
    (34, ":1AB SJOIN 5 #a +k :|"),
    // Too many, at the first that isn't wanted before the list.
    (34, ":1AB SJOIN 5 #a + |1ABAAAAAA 1ABAAAAAB"),
    (34, ":1AB SJOIN 5 #a +nt |x 1ABAAAAAA"),
    (34, ":1AB SJOIN 5 #a + |x y :1ABAAAAAA"),
    (34, ":1AB SJOIN 5 #a +k buoy |7 1ABAAAAAA"),
    (34, ":1AB SJOIN 5 #a +l 0 |a,b 1ABAAAAAA"),
    (34, ":1AB SJOIN 5 #a + |x :"),
    // A bad key, a bad limit; of both the first in the line.
    (35, ":1AB SJOIN 5 #a +k |a,b 1ABAAAAAA"),
    (35, ":1AB SJOIN 5 #a +k |\x7f 1ABAAAAAA"),
    (35, ":1AB SJOIN 5 #a +k |xxxxxxxxxxxxxxxxxxxxxxxx 1ABAAAAAA"),
    (35, ":1AB SJOIN 5 #a +kl |a,b 0 1ABAAAAAA"),
    (35, ":1AB SJOIN 5 #a +lk 7 |a,b x"),
    (36, ":1AB SJOIN 5 #a +l |0 1ABAAAAAA"),
    (36, ":1AB SJOIN 5 #a +l |07 1ABAAAAAA"),
    (36, ":1AB SJOIN 5 #a +l |65536 1ABAAAAAA"),
    (36, ":1AB SJOIN 5 #a +l |buoy 1ABAAAAAA"),
    (36, ":1AB SJOIN 5 #a +lk |0 a,b 1ABAAAAAA"),
    (36, ":1AB SJOIN 5 #a +kl buoy |0 x"),
    (36, ":1AB SJOIN 5 #a +kl 7 |buoy 1ABAAAAAA"),
    // Every byte of the line counts, each SPACE too.
    (33, ":1AB   sJoIn  4294967295   #race    +n|n  1ABAAAAAA"),
    (34, ":1AB  SJOIN 5  #a  +k   buoy   |7   1ABAAAAAA "),
    (34, ":1AB  SJOIN 5  #a  +kl  buoy   1ABAAAAAA  |"),
    (36, ":1AB  SJOIN 5  #a  +kl  buoy   |0   :1ABAAAAAA"),
];

#[test]
fn numbers_and_places() {
    for (number, text) in CASES {
        gets(number, text);
    }
}

/// What the list holds makes no difference: it is judged after all of these.
#[test]
fn whatever_the_list_holds() {
    for (number, text) in CASES {
        if text.contains(" 1ABAAAAAA") {
            gets(number, &text.replace(" 1ABAAAAAA", " x"));
            gets(number, &text.replace(" 1ABAAAAAA", " @1ABAAAAAA"));
        }
    }
}

/// Number and place are the line's alone: no table that can be taken with changes them, and what comes
/// before them has no place.
#[test]
fn whatever_the_table_holds() {
    let mut full = linked();
    for n in 0..16 {
        let line = format!(":1AB SJOIN 5 #{n} +k buoy 1ABAAAAAB\r\n");
        assert_eq!(taken(&full, line.as_bytes()), (0, 0));
        assert_eq!(take(&mut full, 3, line.as_bytes(), &mut [0; 512]).number, 0);
    }
    let mut ill = full;
    ill.head.slots[7].time = 0;
    for (number, text) in CASES {
        let (line, place) = marked(text);
        assert_eq!(taken(&full, &line), (number, place), "{text}");
        assert_eq!(taken(&ill, &line), (1, 0), "{text}");
        let mut out = [0; 512];
        let mut first = |link, room| take(&mut { full }, link, &line, &mut out[..room]);
        assert_eq!((first(3, 511).number, first(3, 511).place), (2, 0), "{text}");
        assert_eq!((first(4, 512).number, first(4, 512).place), (3, 0), "{text}");
    }
}

/// They stand where 17 stood: after 16 and before 18, and none of those has a place.
#[test]
fn in_the_place_of_17() {
    for (number, text) in [
        (12, ":1AB SJOIN 0 a nn"),
        (12, ":1AB SJOIN 0 a nn 1 2 3 4"),
        (13, "SJOIN 00 a nn x"),
        (14, ":1AB SJOIN 00 a nn x"),
        (15, ":1AB SJOIN 0 a nn x"),
        (16, ":1AB SJOIN 5 a nn x"),
        (33, ":1AB SJOIN 5 #a +n|n x"),
        (18, ":1AB SJOIN 5 #a +n x"),
        (18, ":1AB SJOIN 5 #a +kl buoy 7 :"),
        (0, ":1AB SJOIN 5 #a +kl buoy 7 1ABAAAAAA"),
        (0, ":1AB SJOIN 5 #a +lk 7 buoy 1ABAAAAAA"),
        (0, ":1AB SJOIN 5 #a +imnpst 1ABAAAAAA"),
    ] {
        gets(number, text);
    }
}

/// Every byte that a middle can have, as the first of the modes and behind it.
#[test]
fn every_byte() {
    for byte in (1..=255).filter(|byte| ![b'\r', b'\n', b' '].contains(byte)) {
        let line = |before: &[u8], after: &[u8]| {
            [b":1AB SJOIN 5 #a ", before, &[byte], after, b" 1ABAAAAAA\r\n"].concat()
        };
        let told = |line: Vec<u8>| taken(&linked(), &line);
        let missing = (34, line(b"+", b"").len() - 2);
        let expected = match byte {
            b'i' | b'm' | b'n' | b'p' | b's' | b't' => (0, 0),
            b'k' | b'l' => missing,
            _ => (32, 17),
        };
        assert_eq!(told(line(b"+", b"")), expected, "{byte}");
        // A ':' there begins the list, and three parameters are too few.
        let first = match byte {
            b'+' => (0, 0),
            b':' => (12, 0),
            _ => (32, 16),
        };
        assert_eq!(told(line(b"", b"")), first, "{byte}");
        let twice = if b"imnpstkl".contains(&byte) { (33, 18) } else { (32, 17) };
        assert_eq!(told(line(b"+", &[byte])), twice, "{byte}");
    }
}

/// Each of the eight letters a second time, behind each of those that stand behind it.
#[test]
fn every_letter_twice() {
    for turn in 0..8 {
        let mut letters = b"imnpstkl".to_vec();
        letters.rotate_left(turn);
        for (first, behind) in (0..8).flat_map(|first| (first..8).map(move |k| (first, k))) {
            let mut twice = letters.clone();
            twice.insert(behind + 1, letters[first]);
            let line = [b":1AB SJOIN 5 #a +", twice.as_slice(), b" buoy 7 1ABAAAAAA\r\n"].concat();
            assert_eq!(taken(&linked(), &line), (33, 17 + behind + 1), "{}", line.escape_ascii());
        }
    }
}

/// The longest lines: a place is 510 at most, and a line that is longer has none.
#[test]
fn the_last_places() {
    let start = ":1AB SJOIN 5 #a +k 1ABAAAAAA";
    let filled = |length: usize| format!("{start}{}", " ".repeat(length - start.len()));
    gets(34, &format!("{}|", filled(510)));
    gets(4, &filled(511));
    let start = ":1AB SJOIN 5 #a +l";
    let spaces = |place: usize| " ".repeat(place - start.len());
    gets(36, &format!("{start}{}|0 x", spaces(507)));
    gets(4, &format!("{start}{}0 x", spaces(508)));
}

/// Only an SJOIN has modes.
#[test]
fn other_commands() {
    for (number, text) in [
        (26, ":1AB BMASK 5 #a nn x"),
        (19, ":1ABAAAAAA PART #a +nn"),
        (0, ":1ABAAAAAA QUIT +nn"),
        (11, ":1AB TMODE 5 #a +nn x"),
    ] {
        gets(number, text);
    }
}

/// A replay stops at such a line with its number, and with the place of the record, not of the letter.
#[test]
fn in_a_log() {
    let good = logs::record(3, b":1AB SJOIN 5 #a + 1ABAAAAAA\r\n");
    for (number, text) in CASES {
        let log = [good.clone(), logs::record(31, &marked(text).0)].concat();
        let (table, replayed) = Table::replay(&log);
        let (used, place) = (good.len(), good.len());
        assert_eq!(replayed, Replayed { used, place, number }, "{text}");
        assert!(table == Table::replay(&good).0, "{text}");
    }
}

/// The words of each, and none of 17.
#[test]
fn words() {
    for (number, words) in [
        (17, ""),
        (32, "mode letter unknown, or '+' missing"),
        (33, "mode letter twice"),
        (34, "mode parameter missing, or too many"),
        (35, "bad key: 1 to 23 bytes of 33 to 126, no comma"),
        (36, "bad limit: not 1 to 65535"),
        (37, ""),
    ] {
        assert_eq!(relay::refusal_text(number).as_bytes(), words.as_bytes(), "{number}");
    }
}

/// The parameters of a line that reads as an SJOIN of 4 to 6 of them, by their places.
fn join_params(line: &[u8]) -> Option<Vec<relay::Span>> {
    let parts = relay::parts(line);
    let is_join = parts.command.of(line).eq_ignore_ascii_case(b"SJOIN");
    (is_join && (4..=6).contains(&parts.count)).then(|| parts.params[..parts.count].to_vec())
}

/// Document 01's rule, by which 17 was given: '+' and letters of the eight, each at most once; the
/// parameters of k and l follow in the order of the letters; and then the list.
fn modes_are_good(line: &[u8], params: &[relay::Span]) -> bool {
    let mut words = params[3..params.len() - 1].iter().map(|span| span.of(line));
    let Some(letters) = params[2].of(line).strip_prefix(b"+") else { return false };
    let mut left = b"imnpstkl".to_vec();
    for &letter in letters {
        let Some(place) = left.iter().position(|&l| l == letter) else { return false };
        left.remove(place);
        let suits = match letter {
            b'k' => words.next().is_some_and(is_key),
            b'l' => words.next().is_some_and(is_limit),
            _ => true,
        };
        if !suits {
            return false;
        }
    }
    words.next().is_none()
}

/// 1 to 23 bytes from 33 to 126 without comma; a parameter before the list starts with no ':'.
fn is_key(word: &[u8]) -> bool {
    (1..=23).contains(&word.len()) && word.iter().all(|&b| (33..=126).contains(&b) && b != b',')
}

/// 1 to 65,535 as it is written.
fn is_limit(word: &[u8]) -> bool {
    (1..=65_535).any(|limit: u32| limit.to_string().as_bytes() == word)
}

/// What the number says does begin at the place, and nothing before it is at fault.
fn assert_at_fault(line: &[u8], params: &[relay::Span], number: u8, place: usize) {
    let told = line.escape_ascii();
    let modes = params[2].of(line);
    let wanted = |letter: u8| modes.contains(&letter);
    let first_surplus = 3 + usize::from(wanted(b'k')) + usize::from(wanted(b'l'));
    let list = params.len() - 1;
    let in_modes = |k: usize| {
        let known = |k: usize| b"imnpstkl".contains(&modes[k]);
        let new = |k: usize| !modes[1..k].contains(&modes[k]);
        assert!(k < 1 || modes[0] == b'+', "{told}");
        assert!((1..k).all(|before| known(before) && new(before)), "{told}");
        (known(k), new(k))
    };
    match number {
        32 if place == params[2].start => assert_ne!(modes[0], b'+', "{told}"),
        32 => assert!(!in_modes(place - params[2].start).0, "{told}"),
        33 => assert_eq!(in_modes(place - params[2].start), (true, false), "{told}"),
        34 if list < first_surplus => assert_eq!(place, line.len() - 2, "{told}"),
        34 => assert!(list > first_surplus && place == params[first_surplus].start, "{told}"),
        _ => {
            assert_eq!(list, first_surplus, "{told}");
            let before = if number == 35 { (b'k', b'l') } else { (b'l', b'k') };
            let at = |letter| modes.iter().position(|&l| l == letter);
            let second = at(before.1).is_some_and(|other| Some(other) < at(before.0));
            let word = params[3 + usize::from(second)];
            assert_eq!((at(before.0).is_some(), place), (true, word.start), "{told}");
            let suits = if number == 35 { is_key } else { is_limit };
            assert!(!suits(word.of(line)), "{told}");
            let other = if number == 35 { is_limit } else { is_key };
            assert!(!second || other(params[3].of(line)), "{told}");
        }
    }
}

/// Lines of every kind: one of 32 to 36 is given exactly where 17 was, and its place is over 0 and at
/// most the length less 2; every other answer has no place.
#[test]
fn given_exactly_where_17_was() {
    let table = Table::before_replay();
    let mut given = [0; 256];
    for seed in 0..20_000 {
        let mut rng = Rng::new(seed);
        let mut line = match rng.one_in(4) {
            true => lines::line(&mut rng, &model::Table::EMPTY),
            false => lines::sjoin(&mut rng),
        };
        if rng.one_in(8) {
            lines::damage(&mut rng, &mut line);
        }
        let (number, place) = taken(&table, &line);
        given[usize::from(number)] += 1;
        let params = join_params(&line).filter(|params| {
            // What stands before the modes is good exactly if it is with good modes and a good list.
            let before = &line[..params[2].start];
            taken(&table, &[before, b"+ 1ABAAAAAA\r\n"].concat()).0 == 0
        });
        let params = params.filter(|params| !modes_are_good(&line, params));
        let told = line.escape_ascii();
        assert_eq!((32..=36).contains(&number), params.is_some(), "{number} for {told}");
        match params {
            Some(params) => {
                assert!(place > 0 && place <= line.len() - 2, "{place} in {told}");
                assert_at_fault(&line, &params, number, place);
            }
            None => assert_eq!(place, 0, "{told}"),
        }
    }
    assert!(given[32..=36].iter().all(|&times| times >= 50), "{:?}", &given[..=36]);
    assert!(given[0] >= 1_000 && given[18] >= 50 && given[17] == 0, "{:?}", &given[..=36]);
}
