//! The fifteenth parameter, as document 02 says it, §7: here the expected answers are the paper's and not
//! the model's.

use relay::{Answer, Feeder, LineRead, Message, Replayed, Span, Table, Written};
use trials::inputs::{lines, logs, messages};
use trials::rng::Rng;
use trials::taken::take;

/// A command with fourteen middles behind it.
const FOURTEEN: &str = "X a b c d e f g h i j k l m n";

/// The same with fifteen, sixteen and seventeen.
const MORE: [&str; 3] = [
    "X a b c d e f g h i j k l m n o",
    "X a b c d e f g h i j k l m n o p",
    "X a b c d e f g h i j k l m n o p q",
];

/// The text with CR LF after it.
fn line(text: &str) -> Vec<u8> {
    format!("{text}\r\n").into_bytes()
}

/// The line of a text, and the place of the '|' in it, which is left out.
fn marked(text: &str) -> (Vec<u8>, Option<usize>) {
    (line(&text.replace('|', "")), text.find('|'))
}

/// The parameters of a line that is read.
fn params(line: &[u8]) -> Vec<&[u8]> {
    let LineRead { number, count } = relay::read(line);
    let parts = relay::parts(line);
    assert_eq!((number, parts.count), (0, count), "{}", line.escape_ascii());
    parts.params[..count].iter().map(|span| span.of(line)).collect()
}

/// What stands behind fourteen middles. The fifteenth is all from the '|' on; without one there are
/// fourteen.
const ENDS: [&str; 36] = [
    "",
    " ",
    "     ",
    " |o",
    "    |o",
    " |o p",
    " |o p q r s t u v w x y z",
    " |o   p    q",
    // SPACEs at its end belong to it.
    " |o ",
    " |o     ",
    "  |o p  ",
    // One ':' that it begins with doesn't.
    " :|",
    "   :|",
    " :|o",
    " :|o p",
    " :|o p  ",
    " :| ",
    " :|   ",
    " :| o",
    "  :|  o  p  ",
    // A second one does.
    " :|:",
    " :|::",
    " :|:o",
    " :|: o",
    " :|:o p ",
    " :| :",
    " :| :o",
    // So does any other.
    " |o:",
    " |o:p",
    " |o :",
    " |o :p",
    " |o ::p q",
    " |o : ",
    " |o p :q r",
    " |;",
    " |#race +n :1ABAAAAAA 1ABAAAAAB",
];

#[test]
fn all_that_remains() {
    for end in ENDS {
        let (line, place) = marked(&format!("{FOURTEEN}{end}"));
        let read = relay::read(&line);
        assert_eq!((read.number, read.count), (0, 14 + usize::from(place.is_some())), "{end:?}");
        let parts = relay::parts(&line);
        let span = |start, end| Span { start, end };
        let fourteen: Vec<Span> = (0..14).map(|k| span(2 + 2 * k, 3 + 2 * k)).collect();
        assert_eq!(parts.params[..14], fourteen, "{end:?}");
        // One that is missing is the empty part at the end of the lent bytes, not of the text.
        let fifteenth = place.map_or(span(line.len(), line.len()), |k| span(k, line.len() - 2));
        assert_eq!((parts.count, parts.params[14]), (read.count, fifteenth), "{end:?}");
        assert_eq!(relay::param(&line, 14), fifteenth.of(&line), "{end:?}");
        assert!(relay::param(&line, 15).is_empty(), "{end:?}");
    }
}

/// A prefix, more SPACEs between the middles, and middles that hold ':' make no difference.
#[test]
fn whatever_stands_before() {
    let before = [
        ":1AB X a b c d e f g h i j k l m n",
        ":a   X   a  b c d e f g h i j k l m    n",
        "001 a: b:c d:: #e +f @g , * ? j k l m n:",
        "sjoin 1 2 3 4 5 6 7 8 9 10 11 12 13 14",
    ];
    for (before, end) in before.iter().flat_map(|before| ENDS.map(|end| (before, end))) {
        let (line, place) = marked(&format!("{before}{end}"));
        let params = params(&line);
        match place {
            Some(k) => assert_eq!(params[14], &line[k..line.len() - 2], "{before}{end}"),
            None => assert_eq!(params.len(), 14, "{before}{end}"),
        }
    }
}

/// The case of document 01 that turns round: sixteen parameters are read as fifteen, and so are as many
/// words as a line can have.
#[test]
fn sixteen_parameters() {
    assert_eq!(params(&line(FOURTEEN)).last(), Some(&b"n".as_slice()));
    for (text, fifteenth) in MORE.iter().zip([b"o".as_slice(), b"o p", b"o p q"]) {
        let line = line(text);
        assert_eq!((params(&line).len(), params(&line)[14]), (15, fifteenth), "{text}");
    }
    for count in 15..=254 {
        let line = line(&format!("XY{}", " a".repeat(count)));
        let fifteenth = [b"a".as_slice(), &b" a".repeat(count - 15)].concat();
        assert_eq!((params(&line).len(), params(&line)[14]), (15, &*fifteenth), "{count}");
    }
    assert_eq!(line(&format!("XY{}", " a".repeat(254))).len(), 512);
    assert_eq!(relay::read(&line(&format!("XY{}", " a".repeat(255)))).number, 4);
}

/// A trailing part that is the fourteenth or an earlier one is read as it was, and so are SPACEs behind
/// a middle.
#[test]
fn fourteen_and_fewer() {
    for (text, expected) in [
        ("X a b c d e f g h i j k l m :", vec![""]),
        ("X a b c d e f g h i j k l m ::", vec![":"]),
        ("X a b c d e f g h i j k l m :n o", vec!["n o"]),
        ("X a b c d e f g h i j k l m :n :o ", vec!["n :o "]),
        ("X a b c d e f g h i j k l m n ", vec!["n"]),
        ("X a b c d e f g h i j k l m    n   ", vec!["n"]),
        ("X a b c d e f g h i j k l m", vec![]),
        ("X a b c d e f g h i j k l m   ", vec![]),
    ] {
        let line = line(text);
        let expected: Vec<&[u8]> = expected.iter().map(|text| text.as_bytes()).collect();
        assert_eq!(params(&line)[13..], expected, "{text}");
    }
    for count in 0..14 {
        let words = " a".repeat(count);
        let read = |end: &str| {
            let line = line(&format!("X{words}{end}"));
            let params = params(&line);
            assert!(params.iter().take(count).all(|param| param == b"a"), "{count}{end}");
            (params.len(), params.last().map(|param| param.to_vec()))
        };
        let last = |text: &str| Some(text.as_bytes().to_vec());
        assert_eq!(read("   ").0, count);
        assert_eq!(read(" :"), (count + 1, last("")));
        assert_eq!(
            read(" :b c d e f g h i j k l m n o p q"),
            (count + 1, last("b c d e f g h i j k l m n o p q"))
        );
        assert_eq!(read("  ::b  "), (count + 1, last(":b  ")));
        assert_eq!(read(" b "), (count + 1, last("b")));
    }
}

/// Every byte as the whole fifteenth, as its first and as its last. The writer gives the ':' back where it
/// is needed.
#[test]
fn every_byte() {
    for byte in (1..=255).filter(|byte| ![b'\r', b'\n'].contains(byte)) {
        let read = |end: &[u8]| {
            let line = [FOURTEEN.as_bytes(), b" ", end, b"\r\n"].concat();
            (params(&line).get(14).map(|param| param.to_vec()), written_again(&line))
        };
        let some = |text: &[u8]| Some(text.to_vec());
        let with = |end: &[u8]| [FOURTEEN.as_bytes(), b" ", end, b"\r\n"].concat();
        let (alone, first) = match byte {
            b' ' => ((None, line(FOURTEEN)), (some(b"x"), with(b"x"))),
            b':' => ((some(b""), with(b":")), (some(b"x"), with(b"x"))),
            _ => ((some(&[byte]), with(&[byte])), (some(&[byte, b'x']), with(&[byte, b'x']))),
        };
        assert_eq!(read(&[byte]), alone, "{byte}");
        assert_eq!(read(&[byte, b'x']), first, "{byte}");
        assert_eq!(read(&[b'x', byte]), (some(&[b'x', byte]), with(&[b'x', byte])), "{byte}");
        let behind_colon = match byte {
            b' ' | b':' => with(&[b':', byte]),
            _ => with(&[byte]),
        };
        assert_eq!(read(&[b':', byte]), (some(&[byte]), behind_colon), "{byte}");
    }
}

/// The numbers that the reader had before 10 it still has.
#[test]
fn the_readers_numbers() {
    for text in MORE {
        let number = |bytes: &[u8]| {
            assert_eq!(relay::parts(bytes).count, 0);
            relay::read(bytes).number
        };
        let spaces = " ".repeat(511 - text.len());
        assert_eq!(number(&line(&format!("{text}{spaces}"))), 4, "{text}");
        assert_eq!(relay::read(&line(&format!("{text}{}", &spaces[1..]))).number, 0, "{text}");
        assert_eq!(number(text.as_bytes()), 5, "{text}");
        assert_eq!(number(format!("{text}\n").as_bytes()), 5, "{text}");
        for byte in ["\0", "\r", "\n"] {
            assert_eq!(number(&line(&format!("{text}{byte}"))), 6, "{text}");
            assert_eq!(number(&line(&format!("{text} :{byte} x"))), 6, "{text}");
        }
        assert_eq!(number(&line(&format!(": {text}"))), 8, "{text}");
        assert_eq!(number(&line(&format!("1{text}"))), 9, "{text}");
        assert_eq!(number(&line(&format!(" {text}"))), 9, "{text}");
        assert_eq!(number(&line(&format!(":{}", text.replace(" a", " 12")))), 9, "{text}");
    }
}

/// Writes a message, and answers its number and the line; the rest of the room is as it was.
fn write(text: &[u8], message: &Message) -> Result<Vec<u8>, u8> {
    let mut out = [7; 600];
    let Written { number, len } = relay::write(text, message, &mut out);
    assert!(out[len..] == [7; 600][len..], "{}", text.escape_ascii());
    match number {
        0 => Ok(out[..len].to_vec()),
        _ => Err(number),
    }
}

/// A line that is read, in the writer's form.
fn written_again(line: &[u8]) -> Vec<u8> {
    write(line, &relay::parts(line)).expect("what was read can be written")
}

/// The message of a command and these parameters, and the bytes that it is made of. More of them than
/// there is room for are only counted.
fn message(params: &[&[u8]]) -> (Vec<u8>, Message) {
    let mut text = b"X".to_vec();
    let command = Span { start: 0, end: 1 };
    let mut message = Message { command, count: params.len(), ..Message::default() };
    for (span, param) in message.params.iter_mut().zip(params) {
        *span = Span { start: text.len(), end: text.len() + param.len() };
        text.extend(*param);
    }
    (text, message)
}

/// So many parameters and a last one behind them, written: what stands behind the others.
fn written_last(others: usize, last: &[u8]) -> Result<Vec<u8>, u8> {
    let mut params = vec![b"a".as_slice(); others];
    params.push(last);
    let (text, message) = message(&params);
    let line = write(&text, &message)?;
    let start = [b"X".as_slice(), &b" a".repeat(others), b" "].concat();
    assert_eq!((&line[..start.len()], &line[line.len() - 2..]), (&*start, b"\r\n".as_slice()));
    Ok(line[start.len()..line.len() - 2].to_vec())
}

/// Last parameters as the fifteenth is written, and as an earlier one is.
const LASTS: [(&str, &str, &str); 18] = [
    ("o", "o", "o"),
    ("o:", "o:", "o:"),
    ("o::p", "o::p", "o::p"),
    // A SPACE that isn't the first byte asks for no ':' in the fifteenth.
    ("o p", "o p", ":o p"),
    ("o ", "o ", ":o "),
    ("o   ", "o   ", ":o   "),
    ("o  p q", "o  p q", ":o  p q"),
    ("o :p", "o :p", ":o :p"),
    ("o: :", "o: :", ":o: :"),
    // Empty, or ':' or SPACE first.
    ("", ":", ":"),
    (":", "::", "::"),
    ("::", ":::", ":::"),
    (":o", "::o", "::o"),
    (":o p", "::o p", "::o p"),
    (" ", ": ", ": "),
    ("  ", ":  ", ":  "),
    (" o", ": o", ": o"),
    (" :o ", ": :o ", ": :o "),
];

#[test]
fn the_colon() {
    for (last, fifteenth, earlier) in LASTS {
        let told = |written: &str| Ok(written.as_bytes().to_vec());
        assert_eq!(written_last(14, last.as_bytes()), told(fifteenth), "{last:?}");
        for others in 0..14 {
            assert_eq!(written_last(others, last.as_bytes()), told(earlier), "{others}, {last:?}");
        }
        assert_eq!(written_last(15, last.as_bytes()), Err(24), "{last:?}");
    }
}

/// 24 is for the messages that it was for: a sixteenth parameter; one before the last that is empty, holds
/// a SPACE or starts with ':'; a byte that no line holds.
#[test]
fn messages_that_are_not_written() {
    for (place, count) in
        (0..15).flat_map(|place| (place + 1..=15).map(move |count| (place, count)))
    {
        for (param, number) in [
            (b"".as_slice(), 24),
            (b" ", 24),
            (b"o p", 24),
            (b"o ", 24),
            (b" o", 24),
            (b":", 24),
            (b":o", 24),
            (b"o:", 0),
            (b"o", 0),
        ] {
            let mut params = vec![b"a".as_slice(); count];
            params[place] = param;
            let (text, message) = message(&params);
            let expected = if place + 1 == count { 0 } else { number };
            let given = write(&text, &message).err().unwrap_or(0);
            assert_eq!(given, expected, "{param:?} at {place} of {count}");
        }
        for param in [b"\0".as_slice(), b"o\r", b"o \n", b":\0p", b"o p\r\n"] {
            let mut params = vec![b"a".as_slice(); count];
            params[place] = param;
            let (text, message) = message(&params);
            assert_eq!(write(&text, &message), Err(24), "{param:?} at {place} of {count}");
        }
    }
    for count in [16, 17, 255, 256, usize::MAX] {
        let (text, message) = message(&[b"a".as_slice(); 15]);
        assert_eq!(write(&text, &Message { count, ..message }), Err(24), "{count}");
    }
    let (text, mut message) = message(&[b"a".as_slice(); 15]);
    message.params[14] = Span { start: 3, end: text.len() + 1 };
    assert_eq!(write(&text, &message), Err(24));
    message.params[14] = Span { start: 3, end: 2 };
    assert_eq!(write(&text, &message), Err(24));
}

/// A written line has at most 512 bytes, and a ':' that is left off doesn't count.
#[test]
fn the_longest_that_are_written() {
    // "X", fourteen times " a", SPACE, CR LF.
    let most = 512 - (1 + 28 + 1 + 2);
    for (first, colon) in [(b'o', 0), (b':', 1), (b' ', 1)] {
        let param = |length: usize| [vec![first], vec![b' '; length - 2], vec![b'p']].concat();
        let written = written_last(14, &param(most - colon)).expect("512 bytes");
        assert_eq!(written.len(), most, "{first}");
        assert_eq!(written_last(14, &param(most - colon + 1)), Err(25), "{first}");
    }
    // As the fourteenth it has the ':', and two bytes more.
    let param = |length: usize| [vec![b'o'], vec![b' '; length - 2], vec![b'p']].concat();
    assert_eq!(written_last(13, &param(most + 2 - 1)).map(|written| written.len()), Ok(most + 2));
    assert_eq!(written_last(13, &param(most + 2)), Err(25));
    let (text, message) = message(&[b"a".as_slice(); 15]);
    assert_eq!(relay::write(&text, &message, &mut [0; 511]), Written { number: 2, len: 0 });
}

/// What a message says: prefix, command and parameters.
fn said<'a>(text: &'a [u8], message: &Message) -> (Option<&'a [u8]>, &'a [u8], Vec<&'a [u8]>) {
    let part = |span: Span| span.of(text);
    let prefix = message.has_prefix.then(|| part(message.prefix));
    let params = message.params[..message.count].iter().map(|&span| part(span)).collect();
    (prefix, part(message.command), params)
}

/// Writes a line that is read: never a longer one, it reads as the same message, and written again it is
/// the same.
fn goes_round(line: &[u8]) {
    let told = line.escape_ascii();
    let written = written_again(line);
    assert!(written.len() <= line.len(), "{told}");
    let (message, again) = (relay::parts(line), relay::parts(&written));
    assert_eq!(said(line, &message), said(&written, &again), "{told}");
    assert_eq!(written_again(&written), written, "{told}");
}

#[test]
fn read_and_written_by_hand() {
    for (read, written) in [
        ("", ""),
        ("   ", ""),
        (" o", " o"),
        ("    o", " o"),
        (" o p  ", " o p  "),
        (" :o", " o"),
        ("  :o p", " o p"),
        (" :o p  ", " o p  "),
        (" o :p", " o :p"),
        (" :o :p", " o :p"),
        ("    :", " :"),
        ("  ::", " ::"),
        (" ::o p", " ::o p"),
        (" : ", " : "),
        ("  : o ", " : o "),
    ] {
        let (read, written) = (format!("{FOURTEEN}{read}"), format!("{FOURTEEN}{written}"));
        assert_eq!(written_again(&line(&read)), line(&written), "{read:?}");
        goes_round(&line(&read));
    }
    for end in ENDS {
        goes_round(&marked(&format!("{FOURTEEN}{end}")).0);
        goes_round(&marked(&format!(":a  {FOURTEEN}{end}")).0);
    }
}

/// Lines of every kind: those that are read, and each message that is written.
#[test]
fn read_and_written() {
    let mut counts = [0; 16];
    for seed in 0..30_000 {
        let mut rng = Rng::new(seed);
        let line = match rng.one_in(2) {
            true => lines::many_words(&mut rng),
            false => lines::line(&mut rng, &model::Table::EMPTY),
        };
        let LineRead { number, count } = relay::read(&line);
        assert!(number == 0 || (4..=9).contains(&number), "{number}: {}", line.escape_ascii());
        if number == 0 {
            counts[count] += 1;
            goes_round(&line);
        }
        let (text, message) = match rng.one_in(2) {
            true => messages::many_params(&mut rng),
            false => messages::message(&mut rng),
        };
        let message = trials::convert::core_message(&message);
        if let Ok(line) = write(&text, &message) {
            counts[message.count] += 1;
            assert_eq!(relay::read(&line), LineRead { number: 0, count: message.count });
            let again = relay::parts(&line);
            assert_eq!(said(&line, &again), said(&text, &message), "{}", line.escape_ascii());
            assert_eq!(written_again(&line), line, "{}", line.escape_ascii());
        }
    }
    assert!(counts[13..].iter().all(|&times| times >= 500), "{counts:?}");
}

/// The place behind the word that begins at a place.
fn word_end(body: &[u8], at: usize) -> usize {
    (at..body.len()).find(|&k| body[k] == b' ').unwrap_or(body.len())
}

/// The place behind the SPACEs that begin at a place.
fn spaces_end(body: &[u8], at: usize) -> usize {
    (at..body.len()).find(|&k| body[k] != b' ').unwrap_or(body.len())
}

/// The place behind the command, which is the first word, or the second where the first is a prefix.
fn command_end(body: &[u8]) -> usize {
    let start = if body[0] == b':' { spaces_end(body, word_end(body, 0)) } else { 0 };
    word_end(body, start)
}

/// Document 01's rule for what stands behind the command, however many parameters there are: for each
/// the place of its first byte, and that behind its last.
fn by_document_01(body: &[u8]) -> Vec<Span> {
    let mut params = Vec::new();
    let mut start = spaces_end(body, command_end(body));
    while start < body.len() {
        if body[start] == b':' {
            params.push(Span { start: start + 1, end: body.len() });
            return params;
        }
        let end = word_end(body, start);
        params.push(Span { start, end });
        start = spaces_end(body, end);
    }
    params
}

/// Lines of every kind beside document 01's rule: the first fourteen are what they were, and the fifteenth
/// begins where it began and ends where the text does. So where there are fourteen or fewer nothing is
/// otherwise, and where 10 was given there are fifteen: nothing behind the command has a line refused.
#[test]
fn beside_document_01() {
    let (mut many, mut spaced, mut few) = (0, 0, 0);
    for seed in 0..30_000 {
        let mut rng = Rng::new(seed);
        let mut line = match rng.one_in(2) {
            true => lines::many_words(&mut rng),
            false => lines::line(&mut rng, &model::Table::EMPTY),
        };
        if rng.one_in(8) {
            lines::damage(&mut rng, &mut line);
        }
        let number = relay::read(&line).number;
        let told = line.escape_ascii();
        let body = line.strip_suffix(b"\r\n").filter(|body| (1..=510).contains(&body.len()));
        let Some(body) = body.filter(|body| !body.iter().any(|b| b"\0\r\n".contains(b))) else {
            assert!((4..=7).contains(&number), "{number}: {told}");
            continue;
        };
        let command_alone = [&body[..command_end(body)], b" \r\n"].concat();
        if command_alone.len() <= line.len() {
            assert_eq!(number, relay::read(&command_alone).number, "{told}");
        }
        if number != 0 {
            assert!([8, 9].contains(&number), "{number}: {told}");
            continue;
        }
        let parts = relay::parts(&line);
        let before = by_document_01(body);
        let mut expected = before.clone();
        expected.truncate(15);
        if let Some(fifteenth) = expected.get_mut(14) {
            fifteenth.end = body.len();
        }
        assert_eq!(parts.params[..parts.count], expected, "{told}");
        match before.len() {
            0..=14 => few += 1,
            15 => spaced += usize::from(before != expected),
            _ => many += 1,
        }
    }
    assert!(many >= 1_000 && spaced >= 100 && few >= 1_000, "{many} {spaced} {few}");
}

/// The links 0, 3 and 5.
fn linked() -> Table {
    let mut table = Table::empty();
    for link in [0, 3, 5] {
        assert_eq!(table.register(link), 0);
    }
    table
}

/// A table with two users on #race.
fn race() -> Table {
    let mut table = linked();
    let join = b":1AB SJOIN 5 #race +n :@1ABAAAAAA 1ABAAAAAB\r\n";
    assert_eq!(table.take(3, join, &mut [0; 512]).number, 0);
    table
}

/// Takes a line with so much room, and answers its number. A refusal leaves everything as it was, and has
/// no place here.
fn taken(table: &Table, link: u32, room: usize, line: &[u8]) -> u8 {
    let mut after = *table;
    let mut out = vec![7; room];
    let Answer { number, place, set, count, len } = take(&mut after, link, line, &mut out);
    if number != 0 {
        assert_eq!((place, set, count, len), (0, 0, 0, 0), "{}", line.escape_ascii());
        assert!(after == *table && out == vec![7; room], "{}", line.escape_ascii());
    }
    number
}

/// What 10 was given for: ends behind the fourteenth parameter that have one word or more too many.
const TOO_MANY: [&str; 6] = [" o p", " o :p", " o :", " o   :p q", " o p q r s t", "   o p  "];

/// Where the line had 10, it has 11 if its command is none of the four, else 12, whatever its prefix is and
/// whatever its parameters say. So has one of fourteen or fifteen.
#[test]
fn in_the_place_of_10() {
    let ends = TOO_MANY.iter().chain(&["", " ", " o", " o ", " :", " :o p", " ::"]);
    for (end, prefix) in
        ends.flat_map(|end| ["", ":1AB ", ":1ABAAAAAA ", ":x "].map(|prefix| (end, prefix)))
    {
        for (command, number) in [
            ("PING", 11),
            ("001", 11),
            ("x", 11),
            ("SJOINS", 11),
            ("BMAS", 11),
            ("SJOIN", 12),
            ("sjoin", 12),
            ("PART", 12),
            ("QUIT", 12),
            ("BMASK", 12),
            ("bMaSk", 12),
        ] {
            for words in [
                " a b c d e f g h i j k l m n",
                " 5 #race + 1ABAAAAAA 5 6 7 8 9 10 11 12 13 14",
                " #race 2 3 4 5 6 7 8 9 10 11 12 13 14",
                " 5 #race b x 5 6 7 8 9 10 11 12 13 14",
            ] {
                let line = line(&format!("{prefix}{command}{words}{end}"));
                for table in [linked(), race()] {
                    assert_eq!(taken(&table, 3, 512, &line), number, "{}", line.escape_ascii());
                }
            }
        }
    }
}

/// All that came before 10 comes before 11 and 12.
#[test]
fn what_comes_first() {
    let mut ill = race();
    ill.head.slots[7].time = 5;
    for (end, command) in TOO_MANY.iter().flat_map(|end| ["X", "SJOIN", "QUIT"].map(|c| (end, c))) {
        let text = format!("{}{end}", FOURTEEN.replace('X', command));
        let good = line(&text);
        assert_eq!(taken(&ill, 32, 511, &good), 1, "{text}");
        assert_eq!(taken(&race(), 32, 511, &good), 2, "{text}");
        assert_eq!(taken(&race(), 32, 512, &good), 3, "{text}");
        assert_eq!(taken(&race(), 4, 512, &good), 3, "{text}");
        let long = format!("{text}{}", " ".repeat(511 - text.len()));
        let first = |text: &str| taken(&race(), 3, 512, &line(text));
        assert_eq!(first(&long), 4, "{text}");
        assert_eq!(taken(&race(), 3, 512, text.as_bytes()), 5, "{text}");
        assert_eq!(first(&format!("{text}\0")), 6, "{text}");
        assert_eq!(first(&format!(": {text}")), 8, "{text}");
        assert_eq!(first(&format!("1{text}")), 9, "{text}");
        let last = if command == "X" { 11 } else { 12 };
        assert_eq!((first(&text), first(&long[..510])), (last, last), "{text}");
    }
}

/// Lines that the relay takes have six parameters at most. So they go out as they did, the last one with
/// ':' wherever it holds a SPACE.
#[test]
fn lines_that_are_taken() {
    for (text, out) in [
        (":1ABAAAAAA QUIT :a b c d e f g h i j k l m n o p q", None),
        (":1ABAAAAAA QUIT :a b c d e f g h i j k l m n :o ", None),
        (":1ABAAAAAA PART #race :b c d e f g h i j k l m n o p", None),
        (":1ABAAAAAA PART #race ::b c", None),
        (":1ABAAAAAA QUIT :a", Some(":1ABAAAAAA QUIT a")),
        (":1ABAAAAAA QUIT   :a ", Some(":1ABAAAAAA QUIT :a ")),
        (":1AB BMASK 5 #race b :c d e f g h i j k l m n o p q ", None),
        (":1AB BMASK 5 #race b :c", Some(":1AB BMASK 5 #race b c")),
        (":1AB SJOIN 5 #race +n :1ABAAAAAC", Some(":1AB SJOIN 5 #race +n 1ABAAAAAC")),
        (
            ":1AB SJOIN 5 #race + :1ABAAAAAR 1ABAAAAAQ 1ABAAAAAP 1ABAAAAAO 1ABAAAAAN 1ABAAAAAM \
             1ABAAAAAL 1ABAAAAAK 1ABAAAAAJ 1ABAAAAAI 1ABAAAAAH 1ABAAAAAG",
            Some(
                ":1AB SJOIN 5 #race + :1ABAAAAAG 1ABAAAAAH 1ABAAAAAI 1ABAAAAAJ 1ABAAAAAK 1ABAAAAAL \
                 1ABAAAAAM 1ABAAAAAN 1ABAAAAAO 1ABAAAAAP 1ABAAAAAQ 1ABAAAAAR",
            ),
        ),
    ] {
        let mut room = [7; 512];
        let answer = take(&mut race(), 3, &line(text), &mut room);
        assert_eq!((answer.number, answer.set, answer.count), (0, 0b10_0001, 2), "{text}");
        assert_eq!(room[..answer.len], line(out.unwrap_or(text)), "{text}");
    }
}

/// A list of joins with SJOINs of many words among them, in every order: each of these is refused by 12, and
/// the table is that of the others.
#[test]
fn among_joins() {
    let joins = [
        (line(":1AB SJOIN 5 #race +n :@1ABAAAAAA 1ABAAAAAB"), 0),
        (line(&format!(":1AB {}", MORE[1].replace('X', "SJOIN"))), 12),
        (line(":1AB SJOIN 4 #race +t :1ABAAAAAC"), 0),
        (line(":1AB sjoin 3 #race +n 1ABAAAAAD 5 6 7 8 9 10 11 12 13 14 15 :16"), 12),
    ];
    let after = |order: &[usize]| {
        let mut table = linked();
        for &k in order {
            let (line, number) = &joins[k];
            let answer = take(&mut table, 3, line, &mut [0; 512]);
            assert_eq!((answer.number, answer.place), (*number, 0), "{order:?} {k}");
        }
        table
    };
    let plain = after(&[0, 2]);
    assert!(plain == after(&[2, 0]));
    let orders = (0..256)
        .map(|n| [n % 4, n / 4 % 4, n / 16 % 4, n / 64])
        .filter(|order| (0..4).all(|k| order.contains(&k)));
    assert_eq!(orders.clone().count(), 24);
    for order in orders {
        assert!(after(&order) == plain, "{order:?}");
    }
}

/// A replay stops at such a line with its number and the place of the record.
#[test]
fn in_a_log() {
    let good = logs::record(3, b":1AB SJOIN 5 #race + 1ABAAAAAA\r\n");
    for (end, (command, number)) in
        TOO_MANY.iter().flat_map(|end| [("X", 11), ("SJOIN", 12), ("PART", 12)].map(|c| (end, c)))
    {
        let text = format!("{}{end}", FOURTEEN.replace('X', command));
        let log = [good.clone(), logs::record(31, &line(&text)), good.clone()].concat();
        let (table, replayed) = Table::replay(&log);
        let (used, place) = (good.len(), good.len());
        assert_eq!(replayed, Replayed { used, place, number }, "{text}");
        assert!(table == Table::replay(&good).0, "{text}");
    }
}

/// A feeder yields such lines as they come, however they are cut: words are nothing to it.
#[test]
fn from_a_feeder() {
    let texts: Vec<String> = ENDS
        .iter()
        .chain(&TOO_MANY)
        .map(|end| format!("{FOURTEEN}{end}").replace('|', ""))
        .collect();
    let lines: Vec<Vec<u8>> = texts.iter().map(|text| line(text)).collect();
    for size in [1, 2, 7, 30, 31, 32, 512, 5_000] {
        let mut feeder = Feeder::empty();
        let mut yielded = Vec::new();
        for mut bytes in lines.concat().chunks(size) {
            while let Some(fed) = feeder.next_line(&mut bytes).expect("bytes reach it") {
                assert_eq!(fed.number, 0);
                yielded.push(fed.line().to_vec());
            }
        }
        assert_eq!((yielded, feeder), (lines.clone(), Feeder::empty()), "pieces of {size}");
    }
    let longest = line(&format!("XY{}", " a".repeat(254)));
    let fed = relay::feed(&Feeder::empty(), &longest);
    assert_eq!((fed.number, fed.line(), fed.used), (0, &*longest, 512));
    let fed = relay::feed(&Feeder::empty(), &line(&format!("XY{}", " a".repeat(255))));
    assert_eq!((fed.number, fed.len, fed.used), (4, 0, 513));
}

/// 10 has no words any more; what stands beside it has.
#[test]
fn words() {
    for (number, words) in [
        (9, "command malformed or missing"),
        (10, ""),
        (11, "command not SJOIN, PART, QUIT or BMASK"),
        (12, "too few or too many parameters"),
    ] {
        assert_eq!(relay::refusal_text(number).as_bytes(), words.as_bytes(), "{number}");
    }
}
