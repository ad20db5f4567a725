//! A day log read back, record after record, and replayed.

use crate::{read_record, LogFault, LogRecord, Replayed, Table, ACCEPTED};

/// The records of a day log, in order; the first fault is the last of them. See [`records`].
#[derive(Clone, Debug)]
pub struct Records<'a> {
    log: &'a [u8],
    at: usize,
}

/// The records of a day log, in order, up to its end or its first fault.
///
/// ```
/// let log = [b"IR\x03\x00\x06PING\r\n".as_slice(), b"IR\x20"].concat();
/// let mut records = relay::records(&log);
/// let first = relay::LogRecord { place: 0, link: 3, line: b"PING\r\n" };
/// assert_eq!(records.next(), Some(Ok(first)));
/// assert_eq!(records.next(), Some(Err(relay::LogFault { number: 29, place: 13 })));
/// assert_eq!(records.next(), None);
/// ```
pub fn records(log: &[u8]) -> Records<'_> {
    Records { log, at: 0 }
}

impl<'a> Iterator for Records<'a> {
    type Item = Result<LogRecord<'a>, LogFault>;

    fn next(&mut self) -> Option<Self::Item> {
        let place = self.at;
        let read = read_record(self.log, place);
        // Behind a fault nothing says where a record begins.
        self.at = if read.found { read.line.end } else { self.log.len() };
        if read.found {
            let line = read.line.of(self.log);
            return Some(Ok(LogRecord { place, link: read.link, line }));
        }
        let fault = LogFault { number: read.number, place: read.place };
        (read.number != ACCEPTED).then_some(Err(fault))
    }
}

impl Table {
    /// The table that a replay begins with: every slot free, no masks, all 32 links registered.
    pub fn before_replay() -> Table {
        let mut table = Table::empty();
        table.head.links.set = u32::MAX;
        table
    }

    /// The table that a day log leads to, and how far the log was replayed. Where something is
    /// refused, the table is what stood before.
    pub fn replay(log: &[u8]) -> (Table, Replayed) {
        let mut table = Table::before_replay();
        let replayed = table.replay_piece(log);
        (table, replayed)
    }

    /// Takes the line of each record, in order, on the record's link. The first refusal stops it, and
    /// what was taken before stays in the table. In a piece of a log that isn't the last,
    /// [`LOG_CUT`](crate::LOG_CUT) is no fault: what is left over, 516 bytes at most, goes before
    /// the next piece.
    ///
    /// ```
    /// let log = b"IR\x03\x00\x1d:1AB SJOIN 5 #a + 1ABAAAAAA\r\n";
    /// let mut table = relay::Table::before_replay();
    /// let mut rest = Vec::new();
    /// for piece in log.chunks(10) {
    ///     rest.extend(piece);
    ///     let replayed = table.replay_piece(&rest);
    ///     assert!([relay::ACCEPTED, relay::LOG_CUT].contains(&replayed.number));
    ///     rest.drain(..replayed.used);
    /// }
    /// assert!(rest.is_empty() && table == relay::Table::replay(log).0);
    /// ```
    pub fn replay_piece(&mut self, piece: &[u8]) -> Replayed {
        let mut out = [0; 512];
        let mut used = 0;
        loop {
            let read = read_record(piece, used);
            if !read.found {
                return Replayed { used, place: read.place, number: read.number };
            }
            let number = self.take(read.link, read.line.of(piece), &mut out).number;
            if number != ACCEPTED {
                return Replayed { used, place: used, number };
            }
            used = read.line.end;
        }
    }
}
