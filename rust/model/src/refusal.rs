//! The numbers a caller may get.

/// A refusal, in the paper's words and by its number.
#[derive(Clone, Copy, Debug, PartialEq, Eq)]
#[repr(u8)]
pub enum Refusal {
    /// table or record not well formed, the ban lists included; a feeder's state that no bytes reach
    IllFormed = 1,
    /// lent output under 512 bytes (line writer, commands)
    ShortOutput = 2,
    /// link above 31 (commands, registering, dropping, log), or (commands) not registered
    BadLink = 3,
    /// line over 512 bytes (reader, log; the feeder yields it)
    LongLine = 4,
    /// no CR LF at the end
    NoLineEnd = 5,
    /// NUL, CR or LF before it
    ForbiddenByte = 6,
    /// only CR LF
    EmptyLine = 7,
    /// prefix empty
    EmptyPrefix = 8,
    /// command malformed or missing
    BadCommand = 9,
    /// command not one of the three, nor of those added
    UnknownCommand = 11,
    /// parameters not 4 to 6 (SJOIN), 1 to 2 (PART), 0 to 1 (QUIT), 4 (BMASK)
    ParamCount = 12,
    /// prefix missing or not a server id (SJOIN, BMASK), user id (others)
    BadSource = 13,
    /// time malformed or too large
    BadTime = 14,
    /// time is `0`
    ZeroTime = 15,
    /// bad channel name; two records' names differ
    BadName = 16,
    /// bad member list
    BadList = 18,
    /// channel not in the table (PART, BMASK, a text that may be banned)
    NoChannel = 19,
    /// user not in it (PART)
    NoMember = 20,
    /// new name, all 16 slots used
    NoSlot = 21,
    /// more than 64 distinct members would result
    ManyMembers = 22,
    /// mask or text over 512 bytes
    LongText = 23,
    /// message whose written form, length apart, would not read back as it, or whose parts lie
    /// outside the lent bytes
    Unwritable = 24,
    /// written line over 512 bytes; log buffer shorter than the line and 5
    NoRoom = 25,
    /// bad type or mask list (BMASK), after 18
    BadMasks = 26,
    /// a 33rd mask would result (BMASK, merging), after 22
    ManyMasks = 27,
    /// no mark (day log)
    NoMark = 28,
    /// link above 31 (day log)
    BadLogLink = 29,
    /// length over 512, both its bytes being there (day log)
    BadLogLength = 30,
    /// the log ends inside a record, and no byte present is at fault
    LogCut = 31,
    /// unknown mode letter, or no '+' first (SJOIN); with 33 to 36 after 16, before 18
    UnknownMode = 32,
    /// mode letter twice (SJOIN)
    ModeTwice = 33,
    /// mode parameter missing or too many (SJOIN)
    ModeParams = 34,
    /// bad key (SJOIN)
    BadKey = 35,
    /// bad limit (SJOIN)
    BadLimit = 36,
}

impl Refusal {
    /// The paper's number.
    pub fn number(self) -> u8 {
        self as u8
    }
}

/// A refusal, and the place of what is at fault.
#[derive(Clone, Copy, Debug, PartialEq, Eq)]
pub struct Fault {
    /// The refusal.
    pub refusal: Refusal,
    /// Its place, from 0: in the log for one of a day log, in the line for 32 to 36; else 0.
    pub place: usize,
}

impl From<Refusal> for Fault {
    /// A refusal that has no place.
    fn from(refusal: Refusal) -> Fault {
        Fault { refusal, place: 0 }
    }
}

/// The number of an answer: 0 where it was not refused.
pub fn number_of<T, E: Copy + Into<Fault>>(answer: &Result<T, E>) -> u8 {
    number_and_place(answer).0
}

/// The number of an answer and its place: 0 and 0 where it was not refused.
pub fn number_and_place<T, E: Copy + Into<Fault>>(answer: &Result<T, E>) -> (u8, usize) {
    match answer {
        Ok(_) => (0, 0),
        Err(error) => {
            let Fault { refusal, place } = (*error).into();
            (refusal.number(), place)
        }
    }
}
