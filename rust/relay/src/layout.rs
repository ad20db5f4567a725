//! The layout of the structs, here and in the library.

use std::mem::{offset_of, size_of};

use crate::types::{
    BanList, Banned, Fed, Feeder, Found, Head, LineRead, Links, Logged, Matched, Member, Merged,
    MergedRecord, Message, PlacelessTaken, Record, RecordRead, Registered, Span, Taken, Text,
    WholeRecord, Written,
};

/// The place and the size of each of a struct's fields, then its own size.
macro_rules! numbers {
    ($kind:ty: $($field:ident)+) => {
        [
            $(offset_of!($kind, $field), size_of_field(|value: &$kind| &value.$field),)+
            size_of::<$kind>(),
        ]
        .as_slice()
    };
}

/// The size of the field that the function picks.
fn size_of_field<S, F>(_field: fn(&S) -> &F) -> usize {
    size_of::<F>()
}

/// The numbers of every struct, in the library's order.
fn ours() -> Vec<usize> {
    with_answer(numbers!(Taken: head len place set count number))
}

/// Those of a library that tells no places.
fn without_places() -> Vec<usize> {
    with_answer(numbers!(PlacelessTaken: head len set count number))
}

/// Those of a library that has ban lists, given those of its answer to a line.
fn with_answer(taken: &[usize]) -> Vec<usize> {
    let middle = [
        numbers!(BanList: room),
        numbers!(WholeRecord: record bans),
        numbers!(Merged: number result),
        numbers!(Links: set),
        numbers!(Head: slots links),
        numbers!(Registered: head number),
        taken,
        numbers!(Banned: number yes),
    ]
    .concat();
    [first(), middle, last()].concat()
}

/// Those of a library that has no ban lists; it tells no places either.
fn without_lists() -> Vec<usize> {
    let middle = [
        numbers!(MergedRecord: number result),
        numbers!(Links: set),
        numbers!(Head: slots links),
        numbers!(Registered: head number),
        numbers!(PlacelessTaken: head len set count number),
    ]
    .concat();
    [first(), middle, last()].concat()
}

/// Up to records.
fn first() -> Vec<usize> {
    [
        numbers!(Span: start end),
        numbers!(Message: has_prefix prefix command count params),
        numbers!(LineRead: number count),
        numbers!(Written: number len),
        numbers!(Matched: number yes),
        numbers!(Member: id status),
        numbers!(Record: name name_len time modes key key_len limit members count),
    ]
    .concat()
}

/// From the log on.
fn last() -> Vec<usize> {
    [
        numbers!(Logged: number size),
        numbers!(Found: number slot),
        numbers!(Text: bytes len),
        numbers!(Feeder: bytes len dropping),
        numbers!(Fed: state used line len number),
        numbers!(RecordRead: line place link number found),
    ]
    .concat()
}

/// Whether a library lays out every struct as this crate does, by the numbers that it exports.
pub fn matches(library: impl Fn(usize) -> usize) -> bool {
    let ours = ours();
    library(0) == ours.len() && begins(&ours, library)
}

/// Whether an earlier library lays out as this crate does every struct that it has. It may have no
/// ban lists, may tell no places, and may lack the last structs.
pub fn fits(has_lists: bool, library: impl Fn(usize) -> usize) -> bool {
    match has_lists {
        true => has_places(&library) || begins(&without_places(), library),
        false => begins(&without_lists(), library),
    }
}

/// Whether a library that has ban lists tells places.
pub fn has_places(library: impl Fn(usize) -> usize) -> bool {
    begins(&ours(), library)
}

/// Whether the numbers of a library are the first of ours.
fn begins(ours: &[usize], library: impl Fn(usize) -> usize) -> bool {
    let count = library(0);
    count <= ours.len() && (0..count).all(|k| library(k + 1) == ours[k])
}

#[cfg(test)]
mod tests {
    use super::{fits, has_places, matches, ours, without_lists, without_places};
    use crate::{layout_matches, layout_number};

    /// A library that exports these numbers.
    fn exporting(numbers: Vec<usize>) -> impl Fn(usize) -> usize {
        move |k| match k {
            0 => numbers.len(),
            _ => numbers.get(k - 1).copied().unwrap_or(0),
        }
    }

    #[test]
    fn the_library_has_our_layout() {
        assert!(layout_matches());
        assert_eq!((layout_number(0), ours().len()), (143, 143));
        assert_eq!((layout_number(144), layout_number(usize::MAX)), (0, 0));
    }

    #[test]
    fn fewer_structs_are_no_layout() {
        for count in 0..143 {
            assert!(!matches(exporting(ours()[..count].to_vec())), "{count}");
        }
        assert!(matches(exporting(ours())));
    }

    #[test]
    fn other_layouts_are_noticed() {
        for place in 0..143 {
            let mut other = ours();
            other[place] += 1;
            assert!(!matches(exporting(other)), "{place}");
        }
        assert!(!matches(exporting([ours(), vec![8]].concat())));
        assert!(!matches(exporting(without_places())));
        assert!(!matches(exporting(without_lists())));
    }

    /// The answer to a line, as the header says that it is laid out, with a place and without.
    #[test]
    fn the_answer_to_a_line() {
        let with = [0, 12168, 12168, 8, 12176, 8, 12184, 4, 12188, 4, 12192, 1, 12200];
        let without = [0, 12168, 12168, 8, 12176, 4, 12180, 4, 12184, 1, 12192];
        let times = |all: Vec<usize>, some: &[usize]| {
            all.windows(some.len()).filter(|window| *window == some).count()
        };
        assert_eq!((times(ours(), &with), times(ours(), &without)), (1, 0));
        assert_eq!((times(without_places(), &with), times(without_places(), &without)), (0, 1));
        assert!(has_places(exporting(ours())) && !has_places(exporting(without_places())));
    }

    #[test]
    fn earlier_libraries() {
        for (has_lists, numbers, most) in
            [(true, ours(), 143), (true, without_places(), 141), (false, without_lists(), 128)]
        {
            assert_eq!(numbers.len(), most);
            for count in 0..=most {
                assert!(fits(has_lists, exporting(numbers[..count].to_vec())), "{count}");
            }
            for place in 0..most {
                let mut other = numbers.clone();
                other[place] += 1;
                assert!(!fits(has_lists, exporting(other)), "{place}");
            }
            assert!(!fits(has_lists, exporting([numbers.clone(), vec![8]].concat())));
            assert!(!fits(!has_lists, exporting(numbers)));
        }
    }
}
