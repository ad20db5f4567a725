//! Bytes made into lines, as document 02 says it, §1: here the expected answers are the paper's and
//! not the model's, but where each byte of a state is changed.

use std::fs;

use relay::{Fed, Feeder};
use trials::compare::feeding::compare_feed;
use trials::inputs::feeders::{self, damage_byte, FEEDER_BYTES};
use trials::inputs::streams;
use trials::rng::Rng;
use trials::tally::Tally;

/// What bytes yield: a line, or the number of a refusal.
type Event = Result<Vec<u8>, u8>;

/// All zero.
const EMPTY: Feeder = Feeder { bytes: [0; 512], len: 0, dropping: false };

/// A line that is too long.
const DROPPING: Feeder = Feeder { dropping: true, ..EMPTY };

/// The state that keeps these bytes.
fn keeping(bytes: &[u8]) -> Feeder {
    let mut feeder = Feeder { len: bytes.len(), ..EMPTY };
    feeder.bytes[..bytes.len()].copy_from_slice(bytes);
    feeder
}

/// A line of that many bytes, its CR LF counted.
fn line_of(length: usize) -> Vec<u8> {
    [&vec![b'x'; length - 2], b"\r\n".as_slice()].concat()
}

/// What a call answers that yields nothing.
fn nothing(state: Feeder, used: usize) -> Fed {
    Fed { state, used, line: [0; 512], len: 0, number: 0 }
}

/// What a call answers that yields a line.
fn yielding(line: &[u8], used: usize) -> Fed {
    Fed { line: keeping(line).bytes, len: line.len(), ..nothing(EMPTY, used) }
}

/// What a call answers that yields a refusal.
fn refusing(state: Feeder, used: usize) -> Fed {
    Fed { number: 4, ..nothing(state, used) }
}

/// Feeds pieces one after the other: what they yield, and what is kept at the end.
fn feed_all<'a>(pieces: impl IntoIterator<Item = &'a [u8]>) -> (Vec<Event>, Feeder) {
    let mut feeder = Feeder::empty();
    let mut events = Vec::new();
    for mut bytes in pieces {
        while let Some(fed) = feeder.next_line(&mut bytes).expect("bytes reach it") {
            events.push(if fed.number == 0 { Ok(fed.line().to_vec()) } else { Err(fed.number) });
        }
        assert_eq!(bytes, b"");
    }
    (events, feeder)
}

/// LF ends a line; one without CR before it is yielded without CR, and gets 5 from the reader.
#[test]
fn line_ends() {
    for (line, number) in [
        (b"\n".as_slice(), 5),
        (b"\r\n", 7),
        (b"PING\r\n", 0),
        (b"PING\n", 5),
        (b"PING\r \n", 5),
        (b"PI\0NG\r\n", 6),
        (b"PI\rNG\r\n", 6),
        (b"\r\r\n", 6),
    ] {
        let told = line.escape_ascii();
        assert_eq!(relay::feed(&EMPTY, line), yielding(line, line.len()), "{told}");
        assert_eq!(relay::read(line).number, number, "{told}");
        let kept = &line[..line.len() - 1];
        assert_eq!(relay::feed(&EMPTY, kept), nothing(keeping(kept), kept.len()), "{told}");
        assert_eq!(relay::feed(&keeping(kept), b"\n"), yielding(line, 1), "{told}");
    }
}

/// A call takes the bytes of one line, and leaves those after it to the next call.
#[test]
fn one_line_a_call() {
    assert_eq!(Feeder::empty(), EMPTY);
    let bytes = b"PING\r\n\n\r\nPONG";
    assert_eq!(relay::feed(&EMPTY, bytes), yielding(b"PING\r\n", 6));
    assert_eq!(relay::feed(&EMPTY, &bytes[6..]), yielding(b"\n", 1));
    assert_eq!(relay::feed(&EMPTY, &bytes[7..]), yielding(b"\r\n", 2));
    assert_eq!(relay::feed(&EMPTY, &bytes[9..]), nothing(keeping(b"PONG"), 4));
}

#[test]
fn no_bytes_yield_nothing() {
    for state in [EMPTY, DROPPING, keeping(b"PING\r"), keeping(&[0; 512]), keeping(&[b'x'; 511])] {
        assert_eq!(relay::feed(&state, b""), nothing(state, 0));
    }
}

/// Up to 512 bytes of an unfinished line are kept, and 512 bytes with LF are a line.
#[test]
fn lines_of_512_bytes() {
    for length in [511, 512] {
        let line = line_of(length);
        assert_eq!(relay::feed(&EMPTY, &line), yielding(&line, length));
        assert_eq!(relay::read(&line).number, 0);
    }
    for length in 0..=512 {
        let bytes = vec![b'x'; length];
        assert_eq!(relay::feed(&EMPTY, &bytes), nothing(keeping(&bytes), length));
        assert_eq!(relay::feed(&keeping(&bytes), b""), nothing(keeping(&bytes), 0));
    }
}

/// A 513th byte that is LF yields one refusal, and the line is over.
#[test]
fn lf_as_the_513th_byte() {
    let bytes = [line_of(513), b"PING\r\n".to_vec()].concat();
    assert_eq!(relay::feed(&EMPTY, &bytes), refusing(EMPTY, 513));
    assert_eq!(relay::feed(&keeping(&bytes[..512]), &bytes[512..]), refusing(EMPTY, 1));
    assert_eq!(feed_all([bytes.as_slice()]), (vec![Err(4), Ok(b"PING\r\n".to_vec())], EMPTY));
}

/// Another 513th byte yields one refusal at once; then all is dropped up to and with the LF, without
/// a second one, and the next line is whole.
#[test]
fn any_other_513th_byte() {
    for byte in (0..=255).filter(|&byte| byte != b'\n') {
        let bytes = [[b'x'; 512].as_slice(), &[byte], b"y\nPING\r\n"].concat();
        assert_eq!(relay::feed(&EMPTY, &bytes), refusing(DROPPING, 513), "{byte}");
        assert_eq!(relay::feed(&keeping(&bytes[..512]), &bytes[512..]), refusing(DROPPING, 1));
        assert_eq!(relay::feed(&DROPPING, &[byte]), nothing(DROPPING, 1), "{byte}");
    }
    assert_eq!(relay::feed(&DROPPING, b"\n"), nothing(EMPTY, 1));
    assert_eq!(relay::feed(&DROPPING, b"y\nPING\r\nPONG"), yielding(b"PING\r\n", 8));
    assert_eq!(relay::feed(&DROPPING, b"y\nPING"), nothing(keeping(b"PING"), 6));
    for length in [514, 515, 1025, 1026, 5000] {
        let bytes = [line_of(length), b"PING\r\n".to_vec()].concat();
        let expected = (vec![Err(4), Ok(b"PING\r\n".to_vec())], EMPTY);
        assert_eq!(feed_all([bytes.as_slice()]), expected, "{length}");
        assert_eq!(relay::feed(&DROPPING, &bytes), yielding(b"PING\r\n", length + 6));
    }
}

/// Lines of every kind, and what they yield, by the paper; the last one is unfinished.
fn day() -> (Vec<u8>, Vec<Event>, Feeder) {
    let whole = |line: &[u8]| (line.to_vec(), Ok(line.to_vec()));
    let too_long = |line: Vec<u8>| (line, Err(4));
    let (lines, events): (Vec<Vec<u8>>, Vec<Event>) = [
        whole(b"PING\r\n"),
        whole(b"\n"),
        whole(b"\r\n"),
        too_long(line_of(513)),
        whole(b"PING\n"),
        whole(&line_of(512)),
        too_long([vec![b'\r'; 600], line_of(600)].concat()),
        too_long([vec![0; 512], b"\n".to_vec()].concat()),
        whole(b":a\0b \rX \xff\r\n"),
        too_long(line_of(514)),
        whole(&line_of(511)),
    ]
    .into_iter()
    .unzip();
    let unfinished = b":1AB SJOIN 1 #a\r";
    ([lines.concat(), unfinished.to_vec()].concat(), events, keeping(unfinished))
}

/// What comes of the bytes doesn't depend on the cuts.
#[test]
fn cut_at_every_place() {
    let (bytes, events, kept) = day();
    let expected = (events, kept);
    assert_eq!(feed_all([bytes.as_slice()]), expected);
    assert_eq!(feed_all(bytes.chunks(1)), expected, "one byte at a time");
    for place in 0..=bytes.len() {
        let (first, second) = bytes.split_at(place);
        assert_eq!(feed_all([first, second]), expected, "cut at {place}");
        assert_eq!(feed_all([first, b"", second, b""]), expected, "cut at {place}");
    }
    for size in 2..=600 {
        assert_eq!(feed_all(bytes.chunks(size)), expected, "pieces of {size}");
    }
}

/// Each thing that no bytes leave behind gets 1, and everything is as given.
#[test]
fn states_that_no_bytes_reach() {
    let ping = keeping(b"PING");
    let whole = keeping(&[b'x'; 512]);
    let with = |mut feeder: Feeder, place: usize, byte| {
        feeder.bytes[place] = byte;
        feeder
    };
    for state in [
        Feeder { len: 513, ..whole },
        Feeder { len: 513, ..EMPTY },
        Feeder { len: 514, ..whole },
        Feeder { len: usize::MAX, ..whole },
        Feeder { len: 1 << 32, ..EMPTY },
        Feeder { len: (1 << 32) + 4, ..ping },
        Feeder { len: 1 << 63, ..EMPTY },
        with(ping, 0, b'\n'),
        with(ping, 3, b'\n'),
        with(whole, 511, b'\n'),
        with(ping, 4, b'x'),
        with(ping, 511, 1),
        with(EMPTY, 0, b'\n'),
        with(EMPTY, 256, 0x80),
        Feeder { len: 3, ..ping },
        Feeder { len: 511, ..whole },
        Feeder { dropping: true, ..ping },
        Feeder { dropping: true, ..whole },
        Feeder { len: 1, ..DROPPING },
        Feeder { len: 512, ..DROPPING },
        Feeder { len: 513, ..DROPPING },
        Feeder { len: usize::MAX, ..DROPPING },
        with(DROPPING, 0, b'x'),
        with(DROPPING, 511, 1),
    ] {
        for bytes in [b"".as_slice(), b"\n", b"x", b"PING\r\nPONG\r\n", &[b'x'; 600]] {
            assert_eq!(relay::feed(&state, bytes), Fed { number: 1, ..nothing(state, 0) });
            let (mut feeder, mut rest) = (state, bytes);
            assert_eq!(feeder.next_line(&mut rest), Err(1));
            assert_eq!((feeder, rest), (state, bytes));
        }
    }
}

/// Each byte of a state changed, one at a time, compared with the model.
#[test]
fn each_byte_of_a_state() {
    let mut rng = Rng::new(4);
    let mut tally = Tally::default();
    for start in [
        model::Feeder::EMPTY,
        feeders::DROPPING,
        feeders::keeping(b"\0"),
        feeders::keeping(&[b'x'; 255]),
        feeders::keeping(&[b'\r'; 511]),
        feeders::keeping(&[b'x'; 512]),
    ] {
        let to_lf = start.bytes[0] ^ b'\n';
        for place in 0..FEEDER_BYTES {
            for change in [1, 1 << rng.below(8), to_lf, rng.between(1, 255) as u8] {
                let mut damaged = start;
                damage_byte(&mut damaged, place, change);
                assert_ne!(damaged, start);
                for bytes in [b"".as_slice(), b"\n", b"x\nPING\r\n"] {
                    let mut state = damaged;
                    compare_feed(&mut state, bytes, &mut tally);
                }
            }
        }
    }
    assert_eq!(tally.missing(&[0, 1, 4]), []);
}

/// A file of the repository.
fn file(path: &str) -> Vec<u8> {
    let path = format!("{}/../../{path}", env!("CARGO_MANIFEST_DIR"));
    fs::read(&path).unwrap_or_else(|error| panic!("{path}: {error}"))
}

/// What follows the first so many words of a record, one SPACE after each.
fn after_words(record: &[u8], words: usize) -> Vec<u8> {
    record.splitn(words + 1, |&byte| byte == b' ').last().expect("one at least").to_vec()
}

/// The examples of the RFCs and of TS6: the lines of the records `line LINE`, `take LINK LINE` and
/// `thin LINK LINE`.
fn examples() -> Vec<Vec<u8>> {
    let records = file("crates/vectors/stdin");
    let line = |record: &[u8]| match record.get(..5)? {
        b"line " => Some(after_words(record, 1)),
        b"take " | b"thin " => Some(after_words(record, 2)),
        _ => None,
    };
    records.split_inclusive(|&byte| byte == b'\n').filter_map(line).collect()
}

/// The lines of the morning that a link hands on: those that begin with a digit.
fn morning() -> Vec<Vec<u8>> {
    let input = file("examples/morning.txt");
    let from_link = |line: &&[u8]| line[0].is_ascii_digit();
    let lines = input.split_inclusive(|&byte| byte == b'\n').filter(from_link);
    lines.map(|line| after_words(line, 1)).collect()
}

/// Traffic cut at random yields its lines, each of at most 512 bytes, and 4 for each longer one.
#[test]
fn example_traffic() {
    let mut rng = Rng::new(5);
    for (lines, least, long) in [(examples(), 600, true), (morning(), 10, false)] {
        assert!(lines.len() >= least && lines.iter().any(|line| line.len() > 512) == long);
        let event = |line: &Vec<u8>| if line.len() <= 512 { Ok(line.clone()) } else { Err(4) };
        let expected = (lines.iter().map(event).collect::<Vec<Event>>(), EMPTY);
        let bytes = lines.concat();
        for _ in 0..20 {
            assert_eq!(feed_all(streams::cut(&mut rng, &bytes)), expected);
        }
    }
}
