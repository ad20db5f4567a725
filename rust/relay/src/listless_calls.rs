// What the benchmark asks of a library that has no ban lists, called as if it had them: it is asked
// only where they are empty. Included after `listless_functions!` and calls.rs.

use crate::types::{Answer, Bans, MergedRecord, PlacelessTaken, Registered, Table, WholeRecord};

pub use crate::current::is_banned;

/// Two records of one channel merged, their lists left out.
pub fn merge(first: &WholeRecord, second: &WholeRecord) -> MergedRecord {
    // SAFETY: only plain data goes in and comes back.
    unsafe { relay_merge(first.record, second.record) }
}

/// The head with a link registered.
pub fn register(head: &Head, _: &Bans, link: u32) -> Registered {
    // SAFETY: only plain data goes in and comes back.
    unsafe { relay_register(*head, link) }
}

/// Takes a line that came in by a link, and keeps the head after it.
pub fn take(table: &mut Table, link: u32, line: &[u8], out: &mut [u8]) -> Answer {
    // SAFETY: line and output are lent for the call; the borrows say that they don't overlap.
    let taken: PlacelessTaken =
        unsafe { relay_process(table.head, link, Bytes::of(line), Room::of(out)) };
    if taken.number == crate::ACCEPTED {
        table.head = taken.head;
    }
    taken.answer()
}
