//! Every short input there is over the bytes that mean something.

use model::line::{Parts, Span};
use model::refusal::number_of;
use model::{line, mask, names, Table};
use trials::compare::feeding::compare_feed;
use trials::compare::taking::compare_take;
use trials::convert::core_message;
use trials::inputs::feeders;
use trials::lent::Lent;
use trials::tally::Tally;

/// Calls `f` with each text of that many of the given bytes.
fn each_text(bytes: &[u8], length: usize, f: &mut dyn FnMut(&[u8])) {
    let mut text = vec![0; length];
    for number in 0..bytes.len().pow(length as u32) {
        let mut digits = number;
        for byte in &mut text {
            *byte = bytes[digits % bytes.len()];
            digits /= bytes.len();
        }
        f(&text);
    }
}

fn compare_read(line: &[u8]) {
    let answer = relay::read(line);
    let expected = line::read(line);
    let told = line.escape_ascii();
    assert_eq!(answer.number, number_of(&expected), "{told}");
    assert_eq!(answer.count, expected.map_or(0, |m| m.params.len()), "{told}");
    assert_eq!(relay::parts(line), core_message(&line::parts(line)), "{told}");
}

fn compare_write(text: &[u8], parts: &Parts) {
    let (mut out, mut expected_out) = ([7; 512], [7; 512]);
    let answer = relay::write(text, &core_message(parts), &mut out);
    let expected = line::write(text, parts, &mut expected_out);
    let told = text.escape_ascii();
    assert_eq!(answer.number, number_of(&expected), "{told}");
    assert_eq!((answer.len, out), (expected.unwrap_or(0), expected_out), "{told}");
}

#[test]
fn lines() {
    for length in 0..7 {
        each_text(b" :a1", length, &mut |text| compare_read(&[text, b"\r\n"].concat()));
    }
    for length in 0..6 {
        each_text(b" :a\0\r\n", length, &mut compare_read);
    }
}

/// What stands behind about fourteen words: the line read, and written again.
#[test]
fn ends_of_many_words() {
    for (words, length) in (12..17).flat_map(|words| (0..8).map(move |length| (words, length))) {
        each_text(b" :a", length, &mut |end| {
            let line = [b"X".as_slice(), &b" b".repeat(words), end, b"\r\n"].concat();
            compare_read(&line);
            compare_write(&line, &line::parts(&line));
        });
    }
}

/// One of about fifteen parameters to be written, the last and one before it.
#[test]
fn last_of_many_parameters() {
    let span = |start, end| Span { start, end };
    for (count, length) in (13..17).flat_map(|count| (0..6).map(move |length| (count, length))) {
        each_text(b" :a\0", length, &mut |last| {
            let text = [b"X", last].concat();
            let mut parts = Parts { command: span(0, 1), count, ..Parts::default() };
            for place in 12..15 {
                parts.params = [span(0, 1); 15];
                parts.params[place] = span(1, text.len());
                compare_write(&text, &parts);
            }
        });
    }
}

#[test]
fn each_byte_in_each_place_of_a_line() {
    for line in [
        b":1AB SJOIN 1 #a + :@1ABAAAAAA +1ABAAAAAB\r\n".as_slice(),
        b":1AB X a b c d e f g h i j k l m n  :o p \r\n",
    ] {
        for (place, byte) in (0..line.len()).flat_map(|place| (0..=255).map(move |b| (place, b))) {
            let mut changed = line.to_vec();
            changed[place] = byte;
            compare_read(&changed);
        }
    }
}

/// The modes of an SJOIN, with good and bad parameters, as many as there can be.
#[test]
fn modes() {
    let start = Table { links: u32::MAX, ..Table::EMPTY };
    let words: [&[u8]; 8] =
        [b"", b" key", b" 5", b" ,", b" key 5", b" 5 key", b" , 0", b" 0   ,  "];
    let mut tally = Tally::default();
    for length in 1..6 {
        each_text(b"+nklx", length, &mut |modes| {
            for words in words {
                let end = b" 1ABAAAAAA\r\n";
                let line = [b":1AB SJOIN 1 #a ", modes, words, end].concat();
                compare_take(&mut { start }, 0, &line, Lent::holding(&[0; 512]), &mut tally);
            }
        });
    }
    let numbers = [0, 32, 33, 34, 35, 36];
    assert_eq!((tally.missing(&numbers), tally.unexpected(&numbers)), (vec![], vec![]));
}

/// Few bytes, fed from the states where they matter.
#[test]
fn fed_bytes() {
    let mut tally = Tally::default();
    let keeping = |length| feeders::keeping(&vec![b'x'; length]);
    for start in [0, 1, 509, 510, 511, 512].map(keeping).into_iter().chain([feeders::DROPPING]) {
        for length in 0..7 {
            each_text(b"a\r\n", length, &mut |bytes| {
                let mut state = start;
                compare_feed(&mut state, bytes, &mut tally);
            });
        }
    }
    assert_eq!((tally.missing(&[0, 4]), tally.unexpected(&[0, 4])), (vec![], vec![]));
}

#[test]
fn names_of_one_byte() {
    for (a, b) in (0..=255).flat_map(|a| (0..=255).map(move |b| (a, b))) {
        assert_eq!(relay::same_name(&[a], &[b]), names::equal(&[a], &[b]), "{a} {b}");
    }
}

#[test]
fn keys_of_two_bytes() {
    let bytes = [0, 33, 127, 128, 255];
    for length in 0..3 {
        each_text(&bytes, length, &mut |a| {
            for other in 0..3 {
                each_text(&bytes, other, &mut |b| {
                    let expected = if a < b { b } else { a };
                    assert_eq!(relay::greater_key(a, b).as_ptr(), expected.as_ptr(), "{a:?} {b:?}");
                });
            }
        });
    }
}

#[test]
fn masks() {
    for length in 0..6 {
        each_text(b"Ab?*", length, &mut |mask| {
            for text_length in 0..6 {
                each_text(b"aB", text_length, &mut |text| {
                    let answer = relay::matches(mask, text);
                    assert_eq!((answer.number, Ok(answer.yes)), (0, mask::matches(mask, text)));
                });
            }
        });
    }
}
