// The taking of a line by an earlier library that has ban lists, and tells places or not. Included after
// `list_functions!` and calls.rs.

use std::sync::OnceLock;

use crate::types::{Answer, PlacelessTaken, Table, Taken};

/// The answer to a line, with a place or without: the library's layout says which. Both are far too
/// large for registers, so either is written where the caller has room for it.
#[repr(C)]
#[derive(Clone, Copy)]
union AnyTaken {
    placed: Taken,
    placeless: PlacelessTaken,
}

/// Whether it tells places.
fn has_places() -> bool {
    static PLACES: OnceLock<bool> = OnceLock::new();
    *PLACES.get_or_init(|| layout::has_places(layout_number))
}

/// Takes a line that came in by a link, and keeps the table after it.
pub fn take(table: &mut Table, link: u32, line: &[u8], out: &mut [u8]) -> Answer {
    // SAFETY: lists, line and output are lent for the call; the borrows say that they don't overlap.
    let taken: AnyTaken = unsafe {
        relay_process(table.head, &mut table.bans, Bytes::of(line), Room::of(out), link)
    };
    // SAFETY: it is read as the library's layout says that it was written.
    let (head, answer) = unsafe {
        match has_places() {
            true => (&taken.placed.head, taken.placed.answer()),
            false => (&taken.placeless.head, taken.placeless.answer()),
        }
    };
    if answer.number == crate::ACCEPTED {
        table.head = *head;
    }
    answer
}
