//! The proved relay core, called safely from Rust.
//!
//! Each function is the one of the same name in `include/relay.h`, where its numbers are explained.
//! Structs are plain data and every value of them is allowed, so nothing here can be called wrongly.
//! Call [`layout_matches`] once before anything else: it compares the structs of this crate with the
//! library's.

#[macro_use]
mod ffi;
mod layout;
mod replaying;
mod types;

pub use replaying::{records, Records};
pub use types::{
    Answer, BanList, Banned, Bans, Fed, Feeder, Found, Head, LineRead, Links, LogFault, LogRecord,
    Logged, Matched, Member, Merged, MergedRecord, Message, Record, RecordRead, Registered,
    Replayed, Span, Table, Taken, Text, WholeRecord, Written, BANS, LIST, MASK, MASKS,
};

/// The number of an answer that is no refusal.
pub const ACCEPTED: u8 = 0;

/// The number of a line over 512 bytes, which a feeder yields in the line's place.
pub const LINE_TOO_LONG: u8 = 4;

/// The number of a day log, or of a piece of one, that ends inside a record.
pub const LOG_CUT: u8 = 31;

/// The library's functions.
mod current {
    functions!("");
    feeder_functions!("");
    log_functions!("");
    list_functions!("", Taken);
    include!("calls.rs");
    include!("list_calls.rs");
    include!("taking.rs");
}

pub use current::{
    command, describe, empty_feeder, empty_head, feed, find, greater_key, is_banned,
    layout_matches, layout_number, log, matches, merge, param, parts, prefix, process, read,
    read_record, refusal_text, register, same_name, take, unregister, write,
};

/// The same functions of an earlier library, for the benchmark: of the one that the variable
/// RELAY_EARLIER_LIB names when this is built. Without it, and where it lacks the feeder, the question
/// of bans or the reader of day logs, they are those of the library itself.
pub mod earlier {
    // Without an earlier library, the functions are declared here as they are above, but for the answer
    // to a line, which is of either kind.
    #![allow(clashing_extern_declarations)]

    /// Whether there is an earlier library.
    pub const IS_GIVEN: bool = !env!("RELAY_EARLIER_PREFIX").is_empty();

    /// Whether there is one that makes bytes into lines.
    pub const HAS_FEEDER: bool = !env!("RELAY_EARLIER_FEEDER_PREFIX").is_empty();

    /// Whether there is one that reads day logs back.
    pub const HAS_LOG_READER: bool = !env!("RELAY_EARLIER_LOG_PREFIX").is_empty();

    /// Whether its tables have ban lists; so it is where there is none.
    pub const HAS_LISTS: bool = cfg!(not(earlier_without_lists));

    functions!(env!("RELAY_EARLIER_PREFIX"));
    feeder_functions!(env!("RELAY_EARLIER_FEEDER_PREFIX"));
    log_functions!(env!("RELAY_EARLIER_LOG_PREFIX"));
    include!("calls.rs");

    #[cfg(not(earlier_without_lists))]
    list_functions!(env!("RELAY_EARLIER_PREFIX"), AnyTaken);
    #[cfg(not(earlier_without_lists))]
    include!("list_calls.rs");
    #[cfg(not(earlier_without_lists))]
    include!("earlier_taking.rs");

    #[cfg(earlier_without_lists)]
    listless_functions!(env!("RELAY_EARLIER_PREFIX"));
    #[cfg(earlier_without_lists)]
    include!("listless_calls.rs");

    /// Whether it lays out as this crate does every struct that its functions have.
    pub fn layout_fits() -> bool {
        layout::fits(HAS_LISTS, layout_number)
    }
}

impl Feeder {
    /// Nothing kept.
    pub fn empty() -> Feeder {
        empty_feeder()
    }

    /// Feeds bytes up to and with the first that yields something, and takes those off the front:
    /// `Some` has a line where its number is 0, else the refusal of one by 4; with `None` the bytes
    /// are used up. A feeder that no bytes reach gets the error 1, and no byte is used.
    ///
    /// ```
    /// # fn main() -> Result<(), u8> {
    /// let mut feeder = relay::Feeder::empty();
    /// let mut lines = Vec::new();
    /// for mut bytes in [b"PING\r".as_slice(), b"\nPART #a\r\nQU", b"IT\n"] {
    ///     while let Some(fed) = feeder.next_line(&mut bytes)? {
    ///         lines.push(fed.line().to_vec());
    ///     }
    /// }
    /// assert_eq!(lines, [b"PING\r\n".as_slice(), b"PART #a\r\n", b"QUIT\n"]);
    /// # Ok(())
    /// # }
    /// ```
    pub fn next_line(&mut self, bytes: &mut &[u8]) -> Result<Option<Fed>, u8> {
        let fed = feed(self, bytes);
        *self = fed.state;
        *bytes = &bytes[fed.used..];
        match fed.number {
            ACCEPTED => Ok((fed.len != 0).then_some(fed)),
            LINE_TOO_LONG => Ok(Some(fed)),
            number => Err(number),
        }
    }
}

impl Table {
    /// Every slot free, no masks, no link registered.
    pub fn empty() -> Table {
        let mut bans = [0; BANS];
        let head = empty_head(&mut bans);
        Table { head, bans }
    }

    /// Registers a link; answers the number of a refusal, or 0.
    pub fn register(&mut self, link: u32) -> u8 {
        self.relink(register(&self.head, &self.bans, link))
    }

    /// Drops a link; answers the number of a refusal, or 0.
    pub fn unregister(&mut self, link: u32) -> u8 {
        self.relink(unregister(&self.head, &self.bans, link))
    }

    fn relink(&mut self, done: Registered) -> u8 {
        if done.number == ACCEPTED {
            self.head = done.head;
        }
        done.number
    }

    /// Whether a text is banned from the channel of a name.
    pub fn is_banned(&self, name: &[u8], text: &[u8]) -> Banned {
        is_banned(&self.head, &self.bans, name, text)
    }

    /// Takes a line that came in by a link, and keeps the table after it.
    pub fn take(&mut self, link: u32, line: &[u8], out: &mut [u8]) -> Answer {
        take(self, link, line, out)
    }
}
