//! The day log: its records written, and read back (document 02, §5).

use crate::line::LINE;
use crate::table::LINKS;
use crate::{Fault, Refusal};

/// What stands before the line: the mark, the link and the length.
pub const HEAD: usize = 5;

/// Writes the record of a line as received to the front of the lent log buffer, and answers its
/// size: the mark 73 82, the link, the length as two bytes high first, the line.
pub fn write_record(link: u32, line: &[u8], log: &mut [u8]) -> Result<usize, Refusal> {
    if link >= LINKS {
        return Err(Refusal::BadLink);
    }
    if line.len() > LINE {
        return Err(Refusal::LongLine);
    }
    let size = HEAD + line.len();
    if log.len() < size {
        return Err(Refusal::NoRoom);
    }
    log[..2].copy_from_slice(&[73, 82]);
    log[2] = link as u8;
    log[3..5].copy_from_slice(&(line.len() as u16).to_be_bytes());
    log[5..size].copy_from_slice(line);
    Ok(size)
}

/// A record of a log.
#[derive(Clone, Copy, Debug, PartialEq, Eq)]
pub struct LogRecord<'a> {
    /// The place in the log where it begins.
    pub place: usize,
    /// The link that the line came by.
    pub link: u32,
    /// The line as received.
    pub line: &'a [u8],
}

/// Reads the record at a place of a log; there is none at the log's end and beyond.
pub fn read_record(log: &[u8], place: usize) -> Option<Result<LogRecord<'_>, Fault>> {
    let rest = log.get(place..).filter(|rest| !rest.is_empty())?;
    for (k, _) in rest.iter().take(HEAD).enumerate() {
        if let Some(refusal) = fault_at(rest, k) {
            return Some(Err(Fault { refusal, place: place + k }));
        }
    }
    let line = length(rest).and_then(|length| rest.get(HEAD..HEAD + length));
    Some(match line {
        Some(line) => Ok(LogRecord { place, link: rest[2].into(), line }),
        None => Err(Fault { refusal: Refusal::LogCut, place: log.len() }),
    })
}

/// What is wrong with byte k of a record's head, if it is at fault. The length is at fault at its
/// first byte.
fn fault_at(record: &[u8], k: usize) -> Option<Refusal> {
    match k {
        0 => (record[k] != 73).then_some(Refusal::NoMark),
        1 => (record[k] != 82).then_some(Refusal::NoMark),
        2 => (u32::from(record[k]) >= LINKS).then_some(Refusal::BadLogLink),
        3 => length(record).filter(|&length| length > LINE).and(Some(Refusal::BadLogLength)),
        _ => None,
    }
}

/// The length of a record's line, where both its bytes are there.
fn length(record: &[u8]) -> Option<usize> {
    Some(usize::from(u16::from_be_bytes([*record.get(3)?, *record.get(4)?])))
}

#[cfg(test)]
mod tests {
    use super::*;

    #[test]
    fn a_record_of_258_bytes() {
        let mut log = [9; 300];
        assert_eq!(write_record(31, &[1; 258], &mut log), Ok(263));
        assert_eq!(log[..6], [73, 82, 31, 1, 2, 1]);
        assert_eq!(log[262..], [&[1][..], &[9; 37]].concat());
    }

    #[test]
    fn numbers_in_order() {
        let mut log = [9; 517];
        assert_eq!(write_record(32, &[1; 513], &mut []), Err(Refusal::BadLink));
        assert_eq!(write_record(31, &[1; 513], &mut []), Err(Refusal::LongLine));
        assert_eq!(write_record(31, &[1; 512], &mut log[..516]), Err(Refusal::NoRoom));
        assert_eq!(log, [9; 517]);
        assert_eq!(write_record(31, &[1; 512], &mut log), Ok(517));
        assert_eq!(write_record(0, &[], &mut log), Ok(5));
    }

    /// What stands at the first place of a log: the number and the place of a fault, or none.
    fn fault(log: &[u8]) -> Option<(u8, usize)> {
        match read_record(log, 0) {
            Some(Err(fault)) => Some((fault.refusal.number(), fault.place)),
            _ => None,
        }
    }

    #[test]
    fn the_first_byte_at_fault() {
        assert_eq!(read_record(&[], 0), None);
        for (log, number, place) in [
            ([74].as_slice(), 28, 0),
            (&[73, 81], 28, 1),
            (&[82, 73, 32, 2, 1], 28, 0),
            (&[73, 73, 32, 2, 1], 28, 1),
            (&[73, 82, 32], 29, 2),
            (&[73, 82, 255, 2, 1], 29, 2),
            (&[73, 82, 31, 2, 1], 30, 3),
            (&[73, 82, 31, 255, 0, 7], 30, 3),
            (&[73], 31, 1),
            (&[73, 82], 31, 2),
            (&[73, 82, 31], 31, 3),
            (&[73, 82, 31, 255], 31, 4),
            (&[73, 82, 31, 2, 0], 31, 5),
            (&[73, 82, 31, 0, 3, 1, 2], 31, 7),
        ] {
            assert_eq!(fault(log), Some((number, place)), "{log:?}");
        }
    }

    #[test]
    fn records_one_after_the_other() {
        let mut log = [9; 527];
        assert_eq!(write_record(31, &[1; 512], &mut log), Ok(517));
        assert_eq!(write_record(0, &[], &mut log[517..]), Ok(5));
        let record = |place| read_record(&log, place);
        assert_eq!(record(0), Some(Ok(LogRecord { place: 0, link: 31, line: &[1; 512] })));
        assert_eq!(record(517), Some(Ok(LogRecord { place: 517, link: 0, line: &[] })));
        assert_eq!(record(522), Some(Err(Fault { refusal: Refusal::NoMark, place: 522 })));
        assert_eq!((record(527), record(528), record(usize::MAX)), (None, None, None));
    }
}
