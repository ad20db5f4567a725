//! The functions of `include/relay.h`.

use std::marker::PhantomData;

/// Bytes that a call reads. A slice's pointer is never null.
#[repr(C)]
pub struct Bytes<'a> {
    ptr: *const u8,
    len: usize,
    lent: PhantomData<&'a [u8]>,
}

/// Bytes that a call may write.
#[repr(C)]
pub struct Room<'a> {
    ptr: *mut u8,
    len: usize,
    lent: PhantomData<&'a mut [u8]>,
}

impl<'a> Bytes<'a> {
    pub fn of(bytes: &'a [u8]) -> Bytes<'a> {
        Bytes { ptr: bytes.as_ptr(), len: bytes.len(), lent: PhantomData }
    }
}

impl<'a> Room<'a> {
    pub fn of(room: &'a mut [u8]) -> Room<'a> {
        Room { ptr: room.as_mut_ptr(), len: room.len(), lent: PhantomData }
    }
}

/// Declares the functions of a library in whose symbols the prefix stands before each name, but for
/// those that an earlier library lacks or has otherwise. The build script takes the names from here
/// and from the macros below.
macro_rules! functions {
    ($prefix:expr) => {
        extern "C" {
            #[link_name = concat!($prefix, "relay_read")]
            fn relay_read(line: Bytes) -> LineRead;
            #[link_name = concat!($prefix, "relay_parts")]
            fn relay_parts(line: Bytes) -> Message;
            #[link_name = concat!($prefix, "relay_write")]
            fn relay_write(text: Bytes, message: Message, out: Room) -> Written;
            #[link_name = concat!($prefix, "relay_same_name")]
            fn relay_same_name(a: Bytes, b: Bytes) -> bool;
            #[link_name = concat!($prefix, "relay_match")]
            fn relay_match(mask: Bytes, text: Bytes) -> Matched;
            #[link_name = concat!($prefix, "relay_key_less")]
            fn relay_key_less(a: Bytes, b: Bytes) -> bool;
            #[link_name = concat!($prefix, "relay_describe")]
            fn relay_describe(record: Record, out: Room) -> Written;
            #[link_name = concat!($prefix, "relay_find")]
            fn relay_find(head: Head, name: Bytes) -> Found;
            #[link_name = concat!($prefix, "relay_refusal_text")]
            fn relay_refusal_text(number: u8) -> Text;
            #[link_name = concat!($prefix, "relay_log")]
            fn relay_log(link: u32, line: Bytes, log: Room) -> Logged;
            #[link_name = concat!($prefix, "relay_layout")]
            fn relay_layout(k: usize) -> usize;
        }
    };
}

/// Declares the functions that make bytes into lines, which an earlier library may lack.
macro_rules! feeder_functions {
    ($prefix:expr) => {
        extern "C" {
            #[link_name = concat!($prefix, "relay_empty_feeder")]
            fn relay_empty_feeder() -> Feeder;
            #[link_name = concat!($prefix, "relay_feed")]
            fn relay_feed(state: Feeder, bytes: Bytes) -> Fed;
        }
    };
}

/// Declares the function that reads a day log back, which an earlier library may lack.
macro_rules! log_functions {
    ($prefix:expr) => {
        extern "C" {
            #[link_name = concat!($prefix, "relay_read_record")]
            fn relay_read_record(log: Bytes, at: usize) -> RecordRead;
        }
    };
}

/// Declares the functions that take ban lists. The lists are lent as a plain pointer. A library may
/// have another answer to a line.
macro_rules! list_functions {
    ($prefix:expr, $taken:ty) => {
        extern "C" {
            #[link_name = concat!($prefix, "relay_merge")]
            fn relay_merge(first: WholeRecord, second: WholeRecord) -> Merged;
            #[link_name = concat!($prefix, "relay_empty_head")]
            fn relay_empty_head(bans: &mut Bans) -> Head;
            #[link_name = concat!($prefix, "relay_register")]
            fn relay_register(head: Head, bans: &Bans, link: u32) -> Registered;
            #[link_name = concat!($prefix, "relay_unregister")]
            fn relay_unregister(head: Head, bans: &Bans, link: u32) -> Registered;
            #[link_name = concat!($prefix, "relay_is_banned")]
            fn relay_is_banned(head: Head, bans: &Bans, name: Bytes, text: Bytes) -> Banned;
            #[link_name = concat!($prefix, "relay_process")]
            fn relay_process(
                head: Head,
                bans: &mut Bans,
                line: Bytes,
                out: Room,
                link: u32,
            ) -> $taken;
        }
    };
}

/// Declares those of them that an earlier library has without ban lists, as it has them.
#[cfg(earlier_without_lists)]
macro_rules! listless_functions {
    ($prefix:expr) => {
        extern "C" {
            #[link_name = concat!($prefix, "relay_merge")]
            fn relay_merge(first: Record, second: Record) -> MergedRecord;
            #[link_name = concat!($prefix, "relay_register")]
            fn relay_register(head: Head, link: u32) -> Registered;
            #[link_name = concat!($prefix, "relay_process")]
            fn relay_process(head: Head, link: u32, line: Bytes, out: Room) -> PlacelessTaken;
        }
    };
}
