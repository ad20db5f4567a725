//! A day log replayed, and what a program prints of it (document 02, §5).

use crate::channel::{K, L};
use crate::journal::{read_record, HEAD};
use crate::line::LINE;
use crate::relay::{list_text, modes_text, take};
use crate::{Fault, Record, Table};

/// What a replay begins with: an empty table with all 32 links registered.
pub const START: Table = Table { links: u32::MAX, ..Table::EMPTY };

/// Takes the line of each record on its link, in order. The first refusal stops it, and has the place
/// that the log gives it or, where the relay refuses a line, the record's. What stood before is still
/// given.
pub fn replay(log: &[u8]) -> (Table, Option<Fault>) {
    let mut table = START;
    let mut at = 0;
    while let Some(read) = read_record(log, at) {
        let record = match read {
            Ok(record) => record,
            Err(fault) => return (table, Some(fault)),
        };
        if let Err(fault) = take(&mut table, record.link, record.line, &mut [0; LINE]) {
            return (table, Some(Fault { place: record.place, ..fault }));
        }
        at += HEAD + record.line.len();
    }
    (table, None)
}

/// What the program prints: each used slot in order, a line of the channel and a line of its masks;
/// a refusal adds a line of number and place.
pub fn printed(table: &Table, fault: Option<Fault>) -> Vec<u8> {
    let mut lines = Vec::new();
    for (record, list) in table.slots.iter().zip(&table.bans).filter(|(r, _)| r.count != 0) {
        lines.push(channel_text(record));
        lines.push(list.masks().expect("it is well formed").join(&b' '));
    }
    if let Some(Fault { refusal, place }) = fault {
        lines.push(format!("{} {place}", refusal.number()).into_bytes());
    }
    lines.iter().flat_map(|line| [line, b"\n".as_slice()].concat()).collect()
}

/// Time, name, modes, key, limit and entries as a relayed SJOIN has them, without ':', one SPACE
/// apart.
fn channel_text(record: &Record) -> Vec<u8> {
    let time = record.time.to_string().into_bytes();
    let mut words = vec![time, record.name().to_vec(), modes_text(record.modes)];
    if record.modes & K != 0 {
        words.push(record.key().to_vec());
    }
    if record.modes & L != 0 {
        words.push(record.limit.to_string().into_bytes());
    }
    words.push(list_text(record, true));
    words.join(&b' ')
}

#[cfg(test)]
mod tests {
    use super::*;
    use crate::journal::write_record;
    use crate::Refusal;

    /// The log of some lines, CR LF after each, all on one link.
    fn log_of(link: u32, lines: &[&str]) -> Vec<u8> {
        let mut log = Vec::new();
        for line in lines {
            let mut room = [0; 517];
            let line = format!("{line}\r\n");
            let size = write_record(link, line.as_bytes(), &mut room).unwrap();
            log.extend(&room[..size]);
        }
        log
    }

    /// What the program prints of a log.
    fn told(log: &[u8]) -> String {
        let (table, fault) = replay(log);
        String::from_utf8(printed(&table, fault)).unwrap()
    }

    #[test]
    fn nothing_of_an_empty_log() {
        assert_eq!(replay(&[]), (START, None));
        assert_eq!(told(&[]), "");
        assert_eq!(told(&[73]), "31 1\n");
    }

    #[test]
    fn a_channel_and_a_fault_behind_it() {
        let mut log = log_of(0, &[":1AB SJOIN 5 #a +lk 7 key :1ABAAAAAB @+1ABAAAAAA"]);
        assert_eq!(log.len(), 55);
        log.extend([73, 82, 99]);
        assert_eq!(told(&log), "5 #a +kl key 7 @+1ABAAAAAA 1ABAAAAAB\n\n29 57\n");
    }

    #[test]
    fn the_relays_number_and_the_records_place() {
        let first = log_of(31, &[":1AB SJOIN 5 #a + @1ABAAAAAA", ":1AB BMASK 5 #a b :x A"]);
        let second = log_of(7, &[":1ABAAAAAA PART #b", ":1ABAAAAAA QUIT"]);
        let (table, fault) = replay(&[first.clone(), second].concat());
        assert_eq!(fault, Some(Fault { refusal: Refusal::NoChannel, place: first.len() }));
        assert_eq!((table, None), replay(&first));
        assert_eq!(told(&first), "5 #a + @1ABAAAAAA\nA x\n");
        // Also where the relay gives a place in the line.
        let twice = log_of(7, &[":1AB SJOIN 5 #a +nn 1ABAAAAAB"]);
        let fault = Fault { refusal: Refusal::ModeTwice, place: first.len() };
        assert_eq!(replay(&[first, twice].concat()), (table, Some(fault)));
    }

    #[test]
    fn slots_in_order() {
        let lines = [
            ":1AB SJOIN 5 #b +n +1ABAAAAAA",
            ":1AB SJOIN 6 #a +it 1ABAAAAAB",
            ":1ABAAAAAA QUIT",
            ":1AB SJOIN 7 #c + 1ABAAAAAC",
        ];
        assert_eq!(told(&log_of(3, &lines)), "7 #c + 1ABAAAAAC\n\n6 #a +it 1ABAAAAAB\n\n");
    }
}
