//! A line taken, and what comes back kept.

use relay::{Answer, Table};

/// Takes a line and keeps the head that comes back, of a refusal too. `Table::take` keeps the one that
/// was there where the line is refused, so that a wrong one would not show.
pub fn take(table: &mut Table, link: u32, line: &[u8], out: &mut [u8]) -> Answer {
    let taken = relay::process(&table.head, &mut table.bans, link, line, out);
    table.head = taken.head;
    taken.answer()
}
