//! The plain record of many joins, for demand 3.

use std::collections::BTreeMap;

use crate::channel::{K, L};
use crate::{Member, Record};

/// The plain record of good joins, each given as what its line says, in their order.
///
/// It is made by the paper's list, letter by letter and user by user, and not by merging.
pub fn plain_record(lines: &[Record]) -> Record {
    let time = lines.iter().map(|l| l.time).min().expect("one line or more");
    let counting: Vec<&Record> = lines.iter().filter(|l| l.time == time).collect();
    let mut plain = Record { time, ..Record::EMPTY };
    plain.set_name(lines[0].name());
    for bit in (0..8).map(|place| 1 << place) {
        if counting.iter().any(|l| l.modes & bit != 0) {
            plain.modes |= bit;
        }
    }
    if let Some(limit) = counting.iter().filter(|l| l.modes & L != 0).map(|l| l.limit).max() {
        plain.limit = limit;
    }
    if let Some(key) = counting.iter().filter(|l| l.modes & K != 0).map(|l| l.key()).max() {
        plain.set_key(key);
    }
    plain.set_members(&everyone(lines, &counting));
    plain
}

/// Every user id that any line names, once, ascending, with the statuses of the counting lines.
fn everyone(lines: &[Record], counting: &[&Record]) -> Vec<Member> {
    let mut statuses = BTreeMap::new();
    for member in lines.iter().flat_map(Record::members) {
        statuses.insert(member.id, 0);
    }
    for member in counting.iter().flat_map(|l| l.members()) {
        *statuses.entry(member.id).or_insert(0) |= member.status;
    }
    statuses.into_iter().map(|(id, status)| Member { id, status }).collect()
}

#[cfg(test)]
mod tests {
    use super::*;
    use crate::line;
    use crate::sjoin::read_join;

    #[test]
    fn three_lines() {
        let said = |text: &str| {
            let line = format!(":1AB SJOIN {text}\r\n");
            read_join(line.as_bytes(), &line::read(line.as_bytes()).unwrap()).unwrap()
        };
        let lines = [
            said("1000 #Race +ik zzz :@1ABAAAAAC 1ABAAAAAB"),
            said("999 #race +nkl buoy 7 :+1ABAAAAAB 1ABAAAAAA"),
            said("999 #RACE +tkl buoys 5 @1ABAAAAAB"),
        ];
        let expected = said("999 #Race +ntkl buoys 7 :1ABAAAAAA @+1ABAAAAAB 1ABAAAAAC");
        assert_eq!(plain_record(&lines), expected);
    }
}
