//! The structs of `include/relay.h`, field by field.

/// The most masks of a ban list.
pub const MASKS: usize = 32;

/// The most bytes of a mask.
pub const MASK: usize = 100;

/// The bytes of a ban list: how many masks, then for each a byte with its length and its room.
pub const LIST: usize = 3233;

/// The bytes of the ban lists of a table, one for each slot.
pub const BANS: usize = 51728;

/// The ban lists of a table: that of slot k from byte k * LIST on.
pub type Bans = [u8; BANS];

/// A part of some bytes: from start up to, not including, end.
#[repr(C)]
#[derive(Clone, Copy, Debug, Default, PartialEq, Eq)]
pub struct Span {
    /// The place of its first byte.
    pub start: usize,
    /// The place after its last byte.
    pub end: usize,
}

/// A message as parts of some bytes. The params from `count` on, and the prefix without
/// `has_prefix`, are no parts.
#[repr(C)]
#[derive(Clone, Copy, Debug, Default, PartialEq, Eq)]
pub struct Message {
    /// Whether there is a prefix.
    pub has_prefix: bool,
    /// The prefix, without its ':'.
    pub prefix: Span,
    /// The command.
    pub command: Span,
    /// The number of parameters.
    pub count: usize,
    /// The parameters.
    pub params: [Span; 15],
}

/// The count of parameters of a line, or the number of its refusal.
#[repr(C)]
#[derive(Clone, Copy, Debug, PartialEq, Eq)]
pub struct LineRead {
    /// The number of a refusal, or 0.
    pub number: u8,
    /// The count of parameters.
    pub count: usize,
}

/// How much was written, or the number of a refusal.
#[repr(C)]
#[derive(Clone, Copy, Debug, PartialEq, Eq)]
pub struct Written {
    /// The number of a refusal, or 0.
    pub number: u8,
    /// The length of the line at the front of the output.
    pub len: usize,
}

/// Whether a mask matches, or the number of a refusal.
#[repr(C)]
#[derive(Clone, Copy, Debug, PartialEq, Eq)]
pub struct Matched {
    /// The number of a refusal, or 0.
    pub number: u8,
    /// Whether it matches.
    pub yes: bool,
}

/// The line under way: what is kept of it until its LF comes. Any value can be fed; one that no
/// bytes reach is refused by 1.
#[repr(C)]
#[derive(Clone, Copy, Debug, PartialEq, Eq)]
pub struct Feeder {
    /// The bytes that are kept, none of them LF, then zeros.
    pub bytes: [u8; 512],
    /// The number of bytes that are kept.
    pub len: usize,
    /// Whether the line is too long, and what is left of it is dropped.
    pub dropping: bool,
}

/// What came of bytes that were fed.
#[repr(C)]
#[derive(Clone, Copy, Debug, PartialEq, Eq)]
pub struct Fed {
    /// The feeder after, or as given.
    pub state: Feeder,
    /// How many of the bytes were used.
    pub used: usize,
    /// The line that was yielded, then zeros.
    pub line: [u8; 512],
    /// The length of the line, 0 where none was yielded.
    pub len: usize,
    /// 4 where the refusal of a line was yielded, 1 for a feeder that no bytes reach, or 0.
    pub number: u8,
}

/// A user in a channel.
#[repr(C)]
#[derive(Clone, Copy, Debug, PartialEq, Eq)]
pub struct Member {
    /// The user's id.
    pub id: [u8; 9],
    /// Voice 1 plus operator 2.
    pub status: u8,
}

/// A channel, its ban list apart.
#[repr(C)]
#[derive(Clone, Copy, Debug, PartialEq, Eq)]
pub struct Record {
    /// The name, then zeros.
    pub name: [u8; 50],
    /// The length of the name.
    pub name_len: usize,
    /// The channel's time.
    pub time: u32,
    /// A bit for each mode: i 1, m 2, n 4, p 8, s 16, t 32, k 64, l 128.
    pub modes: u8,
    /// The key, then zeros.
    pub key: [u8; 23],
    /// The length of the key.
    pub key_len: usize,
    /// The limit, 0 where there is none.
    pub limit: u16,
    /// The members, ids ascending, then zeros.
    pub members: [Member; 64],
    /// The number of members; 0 in a free slot.
    pub count: usize,
}

/// The masks of those who are kept off a channel.
#[repr(C)]
#[derive(Clone, Copy, PartialEq, Eq)]
pub struct BanList {
    /// How many masks, then for each a byte with its length and room for 100 bytes; unused room is
    /// zero.
    pub room: [u8; LIST],
}

/// A channel with its ban list.
#[repr(C)]
#[derive(Clone, Copy, Debug, PartialEq, Eq)]
pub struct WholeRecord {
    /// The channel.
    pub record: Record,
    /// Its ban list.
    pub bans: BanList,
}

/// The merged record, or the first as given and the number of a refusal.
#[repr(C)]
#[derive(Clone, Copy, Debug, PartialEq, Eq)]
pub struct Merged {
    /// The number of a refusal, or 0.
    pub number: u8,
    /// The record.
    pub result: WholeRecord,
}

/// The same from a library that has no ban lists.
#[repr(C)]
#[derive(Clone, Copy, Debug, PartialEq, Eq)]
pub struct MergedRecord {
    /// The number of a refusal, or 0.
    pub number: u8,
    /// The record.
    pub result: Record,
}

/// The registered links.
#[repr(C)]
#[derive(Clone, Copy, Debug, PartialEq, Eq)]
pub struct Links {
    /// Link n as the bit n.
    pub set: u32,
}

/// What of a table goes by value; all of it, in a library that has no ban lists.
#[repr(C)]
#[derive(Clone, Copy, Debug, PartialEq, Eq)]
pub struct Head {
    /// The channels; a free slot is all zero.
    pub slots: [Record; 16],
    /// The registered links.
    pub links: Links,
}

/// All that the relay holds.
#[repr(C)]
#[derive(Clone, Copy, Debug, PartialEq, Eq)]
pub struct Table {
    /// The channels and the links.
    pub head: Head,
    /// The ban lists of the channels; that of a free slot is all zero.
    pub bans: Bans,
}

/// The head after, or as given and the number of a refusal.
#[repr(C)]
#[derive(Clone, Copy, Debug, PartialEq, Eq)]
pub struct Registered {
    /// The head.
    pub head: Head,
    /// The number of a refusal, or 0.
    pub number: u8,
}

/// The answer to a line.
#[repr(C)]
#[derive(Clone, Copy, Debug, PartialEq, Eq)]
pub struct Taken {
    /// The head after, or as given.
    pub head: Head,
    /// The length of the line at the front of the output.
    pub len: usize,
    /// The place in the line where what is at fault begins, with the numbers 32 to 36; else 0.
    pub place: usize,
    /// The links that the line goes to.
    pub set: u32,
    /// The number of those links.
    pub count: u32,
    /// The number of a refusal, or 0.
    pub number: u8,
}

/// The same from a library that tells no places.
#[repr(C)]
#[derive(Clone, Copy, Debug, PartialEq, Eq)]
pub struct PlacelessTaken {
    /// The head after, or as given.
    pub head: Head,
    /// The length of the line at the front of the output.
    pub len: usize,
    /// The links that the line goes to.
    pub set: u32,
    /// The number of those links.
    pub count: u32,
    /// The number of a refusal, or 0.
    pub number: u8,
}

/// Whether a text is banned, or the number of a refusal.
#[repr(C)]
#[derive(Clone, Copy, Debug, PartialEq, Eq)]
pub struct Banned {
    /// The number of a refusal, or 0.
    pub number: u8,
    /// Whether it is banned.
    pub yes: bool,
}

/// The answer to a line, the table apart. An accepted line that goes nowhere has zeros.
#[derive(Clone, Copy, Debug, PartialEq, Eq)]
pub struct Answer {
    /// The number of a refusal, or 0.
    pub number: u8,
    /// The place in the line where what is at fault begins, with the numbers 32 to 36; else 0.
    pub place: usize,
    /// The links that the line goes to.
    pub set: u32,
    /// The number of those links.
    pub count: u32,
    /// The length of the line at the front of the output.
    pub len: usize,
}

/// The size of a day-log record, or the number of a refusal.
#[repr(C)]
#[derive(Clone, Copy, Debug, PartialEq, Eq)]
pub struct Logged {
    /// The number of a refusal, or 0.
    pub number: u8,
    /// The size of the record at the front of the log.
    pub size: usize,
}

/// What stands at a place of a day log: a record, the end of the log, or a fault.
#[repr(C)]
#[derive(Clone, Copy, Debug, Default, PartialEq, Eq)]
pub struct RecordRead {
    /// The part of the log that is the record's line; the next record stands at its end.
    pub line: Span,
    /// The place in the log of the first byte at fault, or the log's end where it ends inside a record.
    pub place: usize,
    /// The link that the line came by.
    pub link: u32,
    /// The number of a fault, or 0.
    pub number: u8,
    /// Whether there is a record; without one the number 0 is the end of the log.
    pub found: bool,
}

/// A record of a day log.
#[derive(Clone, Copy, Debug, PartialEq, Eq)]
pub struct LogRecord<'a> {
    /// The place in the log where it begins.
    pub place: usize,
    /// The link that the line came by.
    pub link: u32,
    /// The line as it was received.
    pub line: &'a [u8],
}

/// A fault of a day log.
#[derive(Clone, Copy, Debug, PartialEq, Eq)]
pub struct LogFault {
    /// Its number, 28 to 31.
    pub number: u8,
    /// The place in the log of the first byte at fault, or the log's end where it ends inside a record.
    pub place: usize,
}

/// How far a day log was replayed.
#[derive(Clone, Copy, Debug, PartialEq, Eq)]
pub struct Replayed {
    /// The bytes that were used, which are whole records.
    pub used: usize,
    /// The place, in the bytes given, of what stopped it, or 0: of a fault as [`LogFault`] has it, of a
    /// line that the relay refused the first byte of its record.
    pub place: usize,
    /// The number of what stopped it, or 0.
    pub number: u8,
}

/// The slot that holds a channel, or the number of a refusal.
#[repr(C)]
#[derive(Clone, Copy, Debug, PartialEq, Eq)]
pub struct Found {
    /// The number of a refusal, or 0.
    pub number: u8,
    /// The place of the slot.
    pub slot: usize,
}

/// Words for people.
#[repr(C)]
#[derive(Clone, Copy, Debug, PartialEq, Eq)]
pub struct Text {
    /// The words, then zeros.
    pub bytes: [u8; 48],
    /// The length of the words.
    pub len: usize,
}

impl Taken {
    /// All but the head.
    pub fn answer(&self) -> Answer {
        let Taken { len, place, set, count, number, .. } = *self;
        Answer { number, place, set, count, len }
    }
}

impl PlacelessTaken {
    /// All but the head, and no place.
    pub fn answer(&self) -> Answer {
        let PlacelessTaken { len, set, count, number, .. } = *self;
        Answer { number, place: 0, set, count, len }
    }
}

impl Fed {
    /// The line that was yielded, LF included, or no bytes.
    pub fn line(&self) -> &[u8] {
        &self.line[..self.len]
    }
}

impl BanList {
    /// The masks: whatever the bytes, at most 32 of at most 100 bytes.
    pub fn masks(&self) -> impl Iterator<Item = &[u8]> {
        masks_in(&self.room)
    }
}

impl std::fmt::Debug for BanList {
    fn fmt(&self, f: &mut std::fmt::Formatter) -> std::fmt::Result {
        let used = self.room.iter().rposition(|&b| b != 0).map_or(0, |last| last + 1);
        write!(f, "\"{}\"", self.room[..used].escape_ascii())
    }
}

impl Table {
    /// The masks of the channel in a slot below 16: whatever the bytes, at most 32 of at most 100
    /// bytes.
    pub fn masks(&self, slot: usize) -> impl Iterator<Item = &[u8]> {
        masks_in(self.list(slot))
    }

    /// A copy of the channel in a slot below 16, with its ban list.
    pub fn channel(&self, slot: usize) -> WholeRecord {
        let room = self.list(slot).try_into().expect("so many bytes");
        WholeRecord { record: self.head.slots[slot], bans: BanList { room } }
    }

    fn list(&self, slot: usize) -> &[u8] {
        &self.bans[slot * LIST..(slot + 1) * LIST]
    }
}

/// The masks of a list, of whose lengths only what there is room for counts.
fn masks_in(list: &[u8]) -> impl Iterator<Item = &[u8]> {
    let count = usize::from(list[0]).min(MASKS);
    let rooms = list[1..].chunks_exact(1 + MASK).take(count);
    rooms.map(|room| &room[1..][..usize::from(room[0]).min(MASK)])
}

impl Text {
    /// The words alone.
    pub fn as_bytes(&self) -> &[u8] {
        &self.bytes[..self.len]
    }
}

impl Span {
    /// The bytes of the span, which must lie in those given.
    pub fn of(self, bytes: &[u8]) -> &[u8] {
        &bytes[self.start..self.end]
    }
}
