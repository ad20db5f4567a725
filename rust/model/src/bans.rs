//! Ban lists (document 02, §2).

use crate::names::fold;
use crate::Refusal;

/// The most masks of a list.
pub const MASKS: usize = 32;

/// The most bytes of a mask.
pub const MASK: usize = 100;

/// The bytes of a mask's room: one with its length, and the mask.
pub const ROOM: usize = 1 + MASK;

/// The bytes of a list: one with the number of masks, and their rooms.
pub const LIST: usize = 1 + MASKS * ROOM;

/// A list as a caller holds it.
#[derive(Clone, Copy, PartialEq, Eq)]
pub struct BanList {
    /// The number of masks, then their rooms; unused room is zero.
    pub room: [u8; LIST],
}

/// The masks of a list, one after the other.
pub type Masks = Vec<Vec<u8>>;

impl BanList {
    /// No masks.
    pub const EMPTY: BanList = BanList { room: [0; LIST] };

    /// The list of these masks, at most 32 of at most 100 bytes, as they stand.
    pub fn of(masks: &[Vec<u8>]) -> BanList {
        let mut list = BanList::EMPTY;
        list.room[0] = masks.len() as u8;
        for (room, mask) in list.room[1..].chunks_exact_mut(ROOM).zip(masks) {
            room[0] = mask.len() as u8;
            room[1..=mask.len()].copy_from_slice(mask);
        }
        list
    }

    /// The masks of a list that is well formed: masks in folded byte order make it, and it has
    /// nothing else in it.
    pub fn masks(&self) -> Option<Masks> {
        let count = usize::from(self.room[0]);
        if count > MASKS {
            return None;
        }
        let rooms = self.room[1..].chunks_exact(ROOM).take(count);
        let mask = |room: &[u8]| room[1..].get(..usize::from(room[0])).map(<[u8]>::to_vec);
        let masks = rooms.map(mask).collect::<Option<Masks>>()?;
        let good = masks.iter().all(|m| is_mask(m)) && ascend(&masks);
        (good && BanList::of(&masks) == *self).then_some(masks)
    }

    /// Whether a channel may have this list.
    pub fn is_well_formed(&self) -> bool {
        self.masks().is_some()
    }
}

impl std::fmt::Debug for BanList {
    fn fmt(&self, f: &mut std::fmt::Formatter) -> std::fmt::Result {
        let used = self.room.iter().rposition(|&b| b != 0).map_or(0, |last| last + 1);
        write!(f, "\"{}\"", self.room[..used].escape_ascii())
    }
}

/// 1 to 100 bytes, none of them SPACE, NUL, CR or LF.
pub fn is_mask(mask: &[u8]) -> bool {
    (1..=MASK).contains(&mask.len()) && mask.iter().all(|b| !matches!(b, b' ' | 0 | b'\r' | b'\n'))
}

/// The mask's fold, by which masks are equal and ordered: as unsigned bytes, a proper beginning
/// being smaller.
fn folded(mask: &[u8]) -> Vec<u8> {
    mask.iter().map(|&b| fold(b)).collect()
}

/// In folded byte order, no two with equal folds.
fn ascend(masks: &[Vec<u8>]) -> bool {
    masks.windows(2).all(|two| folded(&two[0]) < folded(&two[1]))
}

/// Adds masks to those of a list, in their order: equal folds once, in the first spelling. Over 32
/// may not result.
pub fn add(masks: &Masks, others: &[Vec<u8>]) -> Result<Masks, Refusal> {
    let mut all = masks.clone();
    for mask in others {
        let fold = folded(mask);
        if let Err(place) = all.binary_search_by(|m| folded(m).cmp(&fold)) {
            all.insert(place, mask.clone());
        }
    }
    if all.len() > MASKS {
        return Err(Refusal::ManyMasks);
    }
    Ok(all)
}

#[cfg(test)]
mod tests {
    use super::*;

    fn masks(texts: &[&[u8]]) -> Masks {
        texts.iter().map(|text| text.to_vec()).collect()
    }

    #[test]
    fn masks_at_their_limits() {
        assert!(!is_mask(b"") && is_mask(b"x") && is_mask(&[b'x'; 100]) && !is_mask(&[b'x'; 101]));
        for byte in 0..=255 {
            let bad = [b' ', 0, b'\r', b'\n'].contains(&byte);
            assert_eq!(is_mask(&[b'a', byte]), !bad, "{byte}");
        }
    }

    #[test]
    fn folded_byte_order() {
        let ordered =
            masks(&[b"!", b"*", b"A", b"a*", b"B", b"^", b"z", b"[", b"{a", b"~a", b"\x80"]);
        let mut sorted = ordered.clone();
        sorted.sort_by_key(|mask| folded(mask));
        assert_eq!(
            sorted,
            masks(&[b"!", b"*", b"^", b"~a", b"A", b"a*", b"B", b"z", b"[", b"{a", b"\x80"])
        );
        assert!(ascend(&sorted) && !ascend(&ordered));
        assert!(!ascend(&masks(&[b"a", b"A"])) && !ascend(&masks(&[b"ab", b"a"])));
        assert!(!ascend(&masks(&[b"^", b"~"])) && !ascend(&masks(&[b"a", b"~"])));
        assert!(ascend(&masks(&[b"a", b"AB"])) && ascend(&masks(&[b"\x7f", b"\x80"])));
    }

    #[test]
    fn equal_folds_stand_once_in_the_first_spelling() {
        let added = add(&masks(&[b"Boat[1]"]), &masks(&[b"x", b"BOAT{1}", b"X", b"a"]));
        assert_eq!(added, Ok(masks(&[b"a", b"Boat[1]", b"x"])));
    }

    #[test]
    fn a_33rd_mask() {
        let numbered =
            |range: std::ops::Range<u8>| -> Masks { range.map(|n| vec![b'm', b'0' + n]).collect() };
        assert_eq!(add(&numbered(0..30), &numbered(28..32)), Ok(numbered(0..32)));
        assert_eq!(add(&numbered(0..32), &numbered(0..32)), Ok(numbered(0..32)));
        assert_eq!(add(&numbered(0..30), &numbered(30..33)), Err(Refusal::ManyMasks));
    }

    #[test]
    fn lists_and_their_bytes() {
        let full: Masks = (0..32).map(|n| vec![b'A' + n; 100]).collect();
        let full = add(&Vec::new(), &full).unwrap();
        assert_eq!(full.len(), 32);
        for list in [masks(&[]), masks(&[b"x"]), masks(&[b"a*", b"B,:\x07\xff"]), full] {
            assert_eq!(BanList::of(&list).masks(), Some(list));
        }
        let two = BanList::of(&masks(&[b"ab", b"c"]));
        assert_eq!(&two.room[..6], b"\x02\x02ab\0\0");
        assert_eq!(&two.room[101..105], b"\0\x01c\0");
        assert_eq!(LIST, 3233);
    }

    #[test]
    fn bytes_that_are_no_list() {
        let good = BanList::of(&masks(&[b"ab", b"c"]));
        let bad = |change: fn(&mut [u8; LIST])| {
            let mut changed = good;
            change(&mut changed.room);
            assert_eq!(changed.masks(), None, "{changed:?}");
        };
        bad(|room| room[0] = 1);
        bad(|room| room[0] = 3);
        bad(|room| room[0] = 33);
        bad(|room| room[0] = 255);
        bad(|room| room[1] = 0);
        bad(|room| room[1] = 1);
        bad(|room| room[1] = 3);
        bad(|room| room[1] = 101);
        bad(|room| room[1] = 255);
        bad(|room| room[3] = b' ');
        bad(|room| room[3] = b'\r');
        bad(|room| room[3] = b'\n');
        bad(|room| room[3] = 0);
        bad(|room| room[4] = 1);
        bad(|room| room[101] = 1);
        bad(|room| room[2] = b'd');
        bad(|room| room[102..105].copy_from_slice(b"\x02AB"));
        bad(|room| room[LIST - 1] = 1);
        assert!(!BanList { room: [0xff; LIST] }.is_well_formed());
    }
}
