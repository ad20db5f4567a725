// The functions that take ban lists, called safely: included once for each library that has them,
// after `list_functions!` and calls.rs.

use crate::types::{Banned, Bans, Merged, Registered, WholeRecord};

/// Two records of one channel merged.
pub fn merge(first: &WholeRecord, second: &WholeRecord) -> Merged {
    // SAFETY: only plain data goes in and comes back.
    unsafe { relay_merge(*first, *second) }
}

/// The head with every slot free and no link registered; every byte of the lists is made zero.
pub fn empty_head(bans: &mut Bans) -> Head {
    // SAFETY: the lists are lent for the call.
    unsafe { relay_empty_head(bans) }
}

/// The head with a link registered.
pub fn register(head: &Head, bans: &Bans, link: u32) -> Registered {
    // SAFETY: the lists are lent for the call.
    unsafe { relay_register(*head, bans, link) }
}

/// The head with a link dropped.
pub fn unregister(head: &Head, bans: &Bans, link: u32) -> Registered {
    // SAFETY: the lists are lent for the call.
    unsafe { relay_unregister(*head, bans, link) }
}

/// Whether a text is banned from the channel of a name.
pub fn is_banned(head: &Head, bans: &Bans, name: &[u8], text: &[u8]) -> Banned {
    // SAFETY: lists, name and text are lent for the call.
    unsafe { relay_is_banned(*head, bans, Bytes::of(name), Bytes::of(text)) }
}
