// The taking of a line by the library itself. Included after `list_functions!` and calls.rs.

use crate::types::{Answer, Table, Taken};

/// Takes a line that came in by a link: the head after comes back, the lists are changed where they
/// are.
pub fn process(head: &Head, bans: &mut Bans, link: u32, line: &[u8], out: &mut [u8]) -> Taken {
    // SAFETY: lists, line and output are lent for the call; the borrows say that they don't overlap.
    unsafe { relay_process(*head, bans, Bytes::of(line), Room::of(out), link) }
}

/// Takes a line that came in by a link, and keeps the table after it.
pub fn take(table: &mut Table, link: u32, line: &[u8], out: &mut [u8]) -> Answer {
    let taken = process(&table.head, &mut table.bans, link, line, out);
    if taken.number == crate::ACCEPTED {
        table.head = taken.head;
    }
    taken.answer()
}
