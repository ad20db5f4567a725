//! The modes of an SJOIN and their parameters, `modes [key] [limit]`, and what is wrong with them
//! (document 02, §6).

use std::cmp::Ordering;

use crate::channel::{is_key, LETTERS};
use crate::line::place_in;
use crate::sjoin::decimal;
use crate::{Fault, Record, Refusal};

/// Reads the modes and the words that stand between them and the list, all parts of the line, into a
/// record that has none yet.
pub fn read_modes(
    record: &mut Record,
    line: &[u8],
    letters: &[u8],
    words: &[&[u8]],
) -> Result<(), Fault> {
    if let Some(fault) = earliest(faults(line, letters, words)) {
        return Err(fault);
    }
    for (place, letter) in LETTERS.iter().enumerate() {
        if letters.contains(letter) {
            record.modes |= 1 << place;
        }
    }
    for (letter, word) in wanting(letters).into_iter().zip(words) {
        match letter {
            b'k' => record.set_key(word),
            _ => record.limit = limit(word).expect("it is no fault"),
        }
    }
    Ok(())
}

/// The fault whose place in the line is the earliest: it decides. No two share a place.
fn earliest(mut faults: Vec<Fault>) -> Option<Fault> {
    faults.sort_by_key(|fault| fault.place);
    assert!(faults.windows(2).all(|pair| pair[0].place < pair[1].place), "{faults:?}");
    faults.first().copied()
}

/// All that is wrong, each fault with its place.
fn faults(line: &[u8], letters: &[u8], words: &[&[u8]]) -> Vec<Fault> {
    let first = place_in(line, letters);
    let mut faults = faults_of_words(line, letters, words);
    for k in 0..letters.len() {
        faults
            .extend(fault_of_letter(letters, k).map(|refusal| Fault { refusal, place: first + k }));
    }
    faults
}

/// What is wrong with byte k of the modes: the first is to be '+', each other a letter of the eight
/// that doesn't stand before. An unknown letter is unknown each time.
fn fault_of_letter(letters: &[u8], k: usize) -> Option<Refusal> {
    match (k, letters[k]) {
        (0, b'+') => None,
        (0, _) => Some(Refusal::UnknownMode),
        (_, letter) if !LETTERS.contains(&letter) => Some(Refusal::UnknownMode),
        (_, letter) => letters[1..k].contains(&letter).then_some(Refusal::ModeTwice),
    }
}

/// What is wrong with the words: one is missing, which is told at the line's end before its CR LF; or
/// the first of those that are too many; or, where the number is right, each that doesn't suit its
/// letter.
fn faults_of_words(line: &[u8], letters: &[u8], words: &[&[u8]]) -> Vec<Fault> {
    let at = |refusal, word| Fault { refusal, place: place_in(line, word) };
    let wanting = wanting(letters);
    match words.len().cmp(&wanting.len()) {
        Ordering::Less => {
            vec![Fault { refusal: Refusal::ModeParams, place: line.len() - b"\r\n".len() }]
        }
        Ordering::Greater => vec![at(Refusal::ModeParams, words[wanting.len()])],
        Ordering::Equal => {
            let bad =
                |(letter, &word)| fault_of_word(letter, word).map(|refusal| at(refusal, word));
            wanting.into_iter().zip(words).filter_map(bad).collect()
        }
    }
}

/// What is wrong with the word of a letter.
fn fault_of_word(letter: u8, word: &[u8]) -> Option<Refusal> {
    match letter {
        b'k' => (!is_key(word)).then_some(Refusal::BadKey),
        _ => limit(word).is_none().then_some(Refusal::BadLimit),
    }
}

/// Those of k and l that stand among the letters, in the order of the letters, each once.
fn wanting(letters: &[u8]) -> Vec<u8> {
    let mut wanting: Vec<u8> = b"kl".iter().copied().filter(|l| letters.contains(l)).collect();
    wanting.sort_by_key(|wanted| letters.iter().position(|letter| letter == wanted));
    wanting
}

/// A limit: 1 to 65,535, in decimal without leading zeros.
fn limit(word: &[u8]) -> Option<u16> {
    decimal(word, 65_535).filter(|&number| number != 0).map(|number| number as u16)
}

#[cfg(test)]
mod tests {
    use crate::line;
    use crate::refusal::number_and_place;
    use crate::sjoin::read_join;

    /// The number of a line, CR LF apart, in which a '|' marks the place of the fault; without one it
    /// is 0.
    fn number(marked: &str) -> u8 {
        let line = format!("{}\r\n", marked.replace('|', ""));
        let message = line::read(line.as_bytes()).unwrap();
        let (number, place) = number_and_place(&read_join(line.as_bytes(), &message));
        assert_eq!(place, marked.find('|').unwrap_or(0), "{marked}");
        number
    }

    /// Each line has that number at its mark, with a good list and with a bad one, which would be 18.
    fn all_are(expected: u8, lines: &[&str]) {
        for line in lines {
            assert_eq!(number(line), expected, "{line}");
            assert_eq!(number(&line.replace("1ABAAAAAA", "x")), expected, "{line}");
        }
    }

    #[test]
    fn unknown_letters() {
        all_are(
            32,
            &[
                ":1AB SJOIN 1 #a +|o 1ABAAAAAA",
                ":1AB SJOIN 1 #a +n|o 1ABAAAAAA",
                ":1AB SJOIN 1 #a +|I 1ABAAAAAA",
                ":1AB SJOIN 1 #a +n|: 1ABAAAAAA",
                ":1AB SJOIN 1 #a +imnpstkl|a key 5 1ABAAAAAA",
                // Each time that it stands: the first decides.
                ":1AB SJOIN 1 #a +|xx 1ABAAAAAA",
                ":1AB SJOIN 1 #a +n|xtx 1ABAAAAAA",
                // Before one that is there twice.
                ":1AB SJOIN 1 #a +|xnn 1ABAAAAAA",
                ":1AB SJOIN 1 #a +n|xn 1ABAAAAAA",
                // Before parameters, whatever is wrong with them.
                ":1AB SJOIN 1 #a +|xk 1ABAAAAAA",
                ":1AB SJOIN 1 #a +k|x a,b 1ABAAAAAA",
                ":1AB SJOIN 1 #a +l|x 0 1ABAAAAAA",
                ":1AB SJOIN 1 #a +|x y z 1ABAAAAAA",
            ],
        );
    }

    #[test]
    fn no_plus() {
        all_are(
            32,
            &[
                ":1AB SJOIN 1 #a |n 1ABAAAAAA",
                ":1AB SJOIN 1 #a |nt 1ABAAAAAA",
                ":1AB SJOIN 1 #a |-nt 1ABAAAAAA",
                ":1AB SJOIN 1 #a |nn 1ABAAAAAA",
                ":1AB SJOIN 1 #a |n+ 1ABAAAAAA",
                ":1AB SJOIN 1 #a |x 1ABAAAAAA",
                ":1AB SJOIN 1 #a |k 1ABAAAAAA",
                ":1AB SJOIN 1 #a |k key 1ABAAAAAA",
                ":1AB SJOIN 1 #a |1ABAAAAAA 1ABAAAAAA",
                // A '+' that comes later is an unknown letter.
                ":1AB SJOIN 1 #a +|+ 1ABAAAAAA",
                ":1AB SJOIN 1 #a +|+n 1ABAAAAAA",
                ":1AB SJOIN 1 #a +n|+ 1ABAAAAAA",
                ":1AB SJOIN 1 #a +n|+n 1ABAAAAAA",
            ],
        );
    }

    #[test]
    fn letters_twice() {
        all_are(
            33,
            &[
                ":1AB SJOIN 1 #a +n|n 1ABAAAAAA",
                ":1AB SJOIN 1 #a +nt|n 1ABAAAAAA",
                ":1AB SJOIN 1 #a +nt|tn 1ABAAAAAA",
                ":1AB SJOIN 1 #a +n|nn 1ABAAAAAA",
                ":1AB SJOIN 1 #a +imnpstkl|i key 5 1ABAAAAAA",
                // Before an unknown one.
                ":1AB SJOIN 1 #a +n|nx 1ABAAAAAA",
                ":1AB SJOIN 1 #a +n|n+ 1ABAAAAAA",
                // With one parameter, which is as many as k wants, with two, and with none.
                ":1AB SJOIN 1 #a +k|k key 1ABAAAAAA",
                ":1AB SJOIN 1 #a +k|k key key 1ABAAAAAA",
                ":1AB SJOIN 1 #a +k|k 1ABAAAAAA",
                ":1AB SJOIN 1 #a +kl|k key 5 1ABAAAAAA",
                ":1AB SJOIN 1 #a +l|l a,b 1ABAAAAAA",
            ],
        );
    }

    #[test]
    fn parameters_missing() {
        all_are(
            34,
            &[
                ":1AB SJOIN 1 #a +k 1ABAAAAAA|",
                ":1AB SJOIN 1 #a +l 1ABAAAAAA|",
                ":1AB SJOIN 1 #a +kl 1ABAAAAAA|",
                ":1AB SJOIN 1 #a +kl key 1ABAAAAAA|",
                ":1AB SJOIN 1 #a +lk 5 1ABAAAAAA|",
                // What is there isn't judged.
                ":1AB SJOIN 1 #a +kl a,b 1ABAAAAAA|",
                ":1AB SJOIN 1 #a +lk 0 1ABAAAAAA|",
                // SPACEs at the end count, the line's and the list's.
                ":1AB SJOIN 1 #a +k 1ABAAAAAA   |",
                ":1AB SJOIN 1 #a +k :1ABAAAAAA  |",
                ":1AB SJOIN 1 #a +k :|",
            ],
        );
    }

    #[test]
    fn parameters_too_many() {
        all_are(
            34,
            &[
                ":1AB SJOIN 1 #a + |x 1ABAAAAAA",
                ":1AB SJOIN 1 #a +n |x 1ABAAAAAA",
                ":1AB SJOIN 1 #a + |x y 1ABAAAAAA",
                ":1AB SJOIN 1 #a +k key |x 1ABAAAAAA",
                ":1AB SJOIN 1 #a +l 5 |x 1ABAAAAAA",
                // What would be the key or the limit isn't judged.
                ":1AB SJOIN 1 #a +k a,b |x 1ABAAAAAA",
                ":1AB SJOIN 1 #a +l 0 |x 1ABAAAAAA",
                ":1AB SJOIN 1 #a + |x :",
            ],
        );
    }

    #[test]
    fn bad_keys_and_limits() {
        all_are(
            35,
            &[
                ":1AB SJOIN 1 #a +k |a,b 1ABAAAAAA",
                ":1AB SJOIN 1 #a +k |xxxxxxxxxxxxxxxxxxxxxxxx 1ABAAAAAA",
                ":1AB SJOIN 1 #a +kl |a,b 5 1ABAAAAAA",
                ":1AB SJOIN 1 #a +lk 5 |a,b 1ABAAAAAA",
                ":1AB SJOIN 1 #a +kl |a,b 0 1ABAAAAAA",
            ],
        );
        all_are(
            36,
            &[
                ":1AB SJOIN 1 #a +l |0 1ABAAAAAA",
                ":1AB SJOIN 1 #a +l |05 1ABAAAAAA",
                ":1AB SJOIN 1 #a +l |65536 1ABAAAAAA",
                ":1AB SJOIN 1 #a +l |key 1ABAAAAAA",
                ":1AB SJOIN 1 #a +kl key |0 1ABAAAAAA",
                ":1AB SJOIN 1 #a +lk |0 key 1ABAAAAAA",
                ":1AB SJOIN 1 #a +lk |0 a,b 1ABAAAAAA",
                ":1AB SJOIN 1 #a +tlsk |0 a,b 1ABAAAAAA",
            ],
        );
    }

    /// The place counts from the line's first byte: the prefix, the case of the command, every SPACE.
    #[test]
    fn places_in_the_line() {
        for (line, expected) in [
            (":1AB  SJOIN   1 #a    +n|n    1ABAAAAAA", 33),
            (":1AB sjoin 4294967295 #race    |nt 1ABAAAAAA", 32),
            (":1AB SJOIN 1 #a +k   |a,b    1ABAAAAAA", 35),
            (":1AB SJOIN 1 #a +kl   key   |0   :1ABAAAAAA", 36),
            (":1AB SJOIN 1 #a +k   key   |x   1ABAAAAAA", 34),
            (":1AB   SJOIN 1 #a +k   1ABAAAAAA  |", 34),
        ] {
            assert_eq!(number(line), expected, "{line}");
        }
    }

    /// What comes before 17 in document 01's list comes before these, and what comes after it after.
    #[test]
    fn in_the_place_of_17() {
        for (line, expected) in [
            (":1AB SJOIN 0 a nn", 12),
            (":1AB SJOIN 0 a + 1 2 3 4", 12),
            ("SJOIN 00 a nn x", 13),
            (":1AB SJOIN 00 a nn x", 14),
            (":1AB SJOIN 0 a nn x", 15),
            (":1AB SJOIN 1 a nn x", 16),
            (":1AB SJOIN 1 #a + x", 18),
            (":1AB SJOIN 1 #a +kl key 5 :", 18),
            (":1AB SJOIN 1 #a +kl key 5 1ABAAAAAA", 0),
        ] {
            assert_eq!(number(line), expected, "{line}");
        }
    }
}
