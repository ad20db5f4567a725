//! Masks with many stars (document 02, §3), by answers that follow from a mask's meaning. A matcher that
//! goes back to every star would not come to their end.

use model::names::fold;
use trials::rng::Rng;

/// Whether the core says that the mask matches.
fn is_match(mask: &[u8], text: &[u8]) -> bool {
    let answer = relay::matches(mask, text);
    assert_eq!(answer.number, relay::ACCEPTED);
    answer.yes
}

/// Whether a mask byte other than '*' matches a text byte.
fn takes(m: u8, b: u8) -> bool {
    m == b'?' || fold(m) == fold(b)
}

/// Whether a mask matches, by all the places of the text to which the mask so far can lead.
fn by_places(mask: &[u8], text: &[u8]) -> bool {
    let mut reached = vec![false; text.len() + 1];
    reached[0] = true;
    for &m in mask {
        if m == b'*' {
            for place in 0..text.len() {
                reached[place + 1] |= reached[place];
            }
        } else {
            for place in (0..text.len()).rev() {
                reached[place + 1] = reached[place] && takes(m, text[place]);
            }
            reached[0] = false;
        }
    }
    reached[text.len()]
}

/// The masks that made the box pause, on 512 times 'a'; and on such a text with another end.
#[test]
fn masks_that_crawled() {
    let text = [b'a'; 512];
    assert!(is_match(b"*a*a*a*a*a*", &text));
    assert!(!is_match(b"*a*a*a*a*a*b", &text));
    assert!(!is_match(&[b"*a".repeat(255), b"*b".to_vec()].concat(), &text));
    assert!(!is_match(&[b"*".repeat(511), b"b".to_vec()].concat(), &text));
    let mut other_end = text;
    other_end[511] = b'B';
    assert!(is_match(b"*a*a*a*a*a*b", &other_end));
    assert!(is_match(&[b"*a".repeat(255), b"*b".to_vec()].concat(), &other_end));
}

/// A star at the end takes all that is left, nothing too; the empty mask takes nothing.
#[test]
fn stars_at_the_end() {
    let text = [b'a'; 512];
    for taken in 0..=512 {
        let mask = [&text[..taken.min(511)], b"*"].concat();
        assert!(is_match(&mask, &text[..taken]), "{taken}");
        assert!(is_match(&mask, &text), "{taken}");
        assert_eq!(is_match(b"", &text[..taken]), taken == 0, "{taken}");
    }
}

/// A mask of one byte on a text of one byte.
#[test]
fn every_byte_on_every_byte() {
    for (m, b) in (0..=255).flat_map(|m| (0..=255).map(move |b| (m, b))) {
        assert_eq!(is_match(&[m], &[b]), m == b'*' || takes(m, b), "{m} {b}");
    }
}

/// Long masks of stars and few letters, on long texts of those.
#[test]
fn long_masks_of_many_stars() {
    let mut rng = Rng::new(3);
    let mut matched = 0;
    for _ in 0..2_000 {
        let length = rng.between(0, 512);
        let text: Vec<u8> = (0..length).map(|_| rng.pick(b"aaaaaaaB")).collect();
        let length = rng.between(0, 512.min(2 * text.len()));
        let mut mask: Vec<u8> = (0..length).map(|_| rng.pick(b"aaaA?***b")).collect();
        if rng.one_in(2) {
            mask.retain(|&m| m != b'b');
        }
        let answer = is_match(&mask, &text);
        assert_eq!(answer, by_places(&mask, &text), "{mask:?} {text:?}");
        matched += u32::from(answer);
    }
    assert!((200..1_800).contains(&matched), "{matched} of 2000 match");
}
