//! Masks.

use crate::names::fold;
use crate::Refusal;

/// Mask and text hold at most this many bytes each.
pub const TEXT: usize = 512;

/// Whether the mask matches the text: '?' one byte, '*' any run, the empty one too, every other
/// byte its fold.
pub fn matches(mask: &[u8], text: &[u8]) -> Result<bool, Refusal> {
    if mask.len() > TEXT || text.len() > TEXT {
        return Err(Refusal::LongText);
    }
    Ok(covers(mask, text))
}

/// Goes through mask and text together. Where they part, the last '*' takes one byte more: an
/// earlier one need not, since what stands between the two is matched already, and as far left as
/// can be.
fn covers(mask: &[u8], text: &[u8]) -> bool {
    let (mut m, mut t) = (0, 0);
    let mut last_star = None;
    while t < text.len() {
        if mask.get(m) == Some(&b'*') {
            last_star = Some((m, t));
            m += 1;
        } else if mask.get(m).is_some_and(|&b| b == b'?' || fold(b) == fold(text[t])) {
            m += 1;
            t += 1;
        } else if let Some((star, taken_to)) = last_star {
            last_star = Some((star, taken_to + 1));
            m = star + 1;
            t = taken_to + 1;
        } else {
            return false;
        }
    }
    mask[m..].iter().all(|&b| b == b'*')
}

#[cfg(test)]
mod tests {
    use super::*;

    /// The paper's rule for each byte of a mask, word for word.
    fn by_the_rule(mask: &[u8], text: &[u8]) -> bool {
        match mask.split_first() {
            None => text.is_empty(),
            Some((b'*', rest)) => (0..=text.len()).any(|run| by_the_rule(rest, &text[run..])),
            Some((b'?', rest)) => !text.is_empty() && by_the_rule(rest, &text[1..]),
            Some((&b, rest)) => text.split_first().is_some_and(|(&first, others)| {
                fold(first) == fold(b) && by_the_rule(rest, others)
            }),
        }
    }

    /// Every text of at most `most` of the given bytes.
    fn texts(bytes: &[u8], most: usize) -> Vec<Vec<u8>> {
        let mut all = vec![Vec::new()];
        let mut longest = 0..1;
        for _ in 0..most {
            let start = all.len();
            for shorter in longest {
                for &b in bytes {
                    all.push([all[shorter].as_slice(), &[b]].concat());
                }
            }
            longest = start..all.len();
        }
        all
    }

    #[test]
    fn masks_from_the_water() {
        assert_eq!(matches(b"*", b""), Ok(true));
        assert_eq!(matches(b"?", b""), Ok(false));
        assert_eq!(matches(b"a*b*c", b"abxbc"), Ok(true));
        assert_eq!(matches(b"a*b", b"abc"), Ok(false));
    }

    #[test]
    fn all_short_masks_and_texts() {
        let texts_of_two = texts(b"aB", 6);
        for mask in texts(b"Ab?*", 5) {
            for text in &texts_of_two {
                assert_eq!(covers(&mask, text), by_the_rule(&mask, text), "{mask:?} {text:?}");
            }
        }
    }

    #[test]
    fn limits() {
        assert_eq!(matches(&[b'*'; 512], &[b'a'; 512]), Ok(true));
        assert_eq!(matches(&[b'*'; 513], b""), Err(Refusal::LongText));
        assert_eq!(matches(b"", &[b'a'; 513]), Err(Refusal::LongText));
    }
}
