//! Taking a line.

use crate::bans;
use crate::bmask;
use crate::channel::{merge_well_formed, K, L, LETTERS, OPERATOR, VOICE};
use crate::line::{self, Message};
use crate::names;
use crate::sjoin;
use crate::{BanList, Fault, Record, Refusal, Table};

/// The answer to an accepted line; all zero where it goes nowhere.
#[derive(Clone, Copy, Debug, Default, PartialEq, Eq)]
pub struct Relayed {
    /// The links it goes to, link n as the bit n.
    pub set: u32,
    /// The number of those links.
    pub count: u32,
    /// The length of the line at the front of the lent output.
    pub len: usize,
}

/// Takes a line from a link: folds it into the table and puts the line to relay at the front of
/// the lent output. A refusal leaves both as they are, and 32 to 36 have their place in the line.
pub fn take(table: &mut Table, link: u32, line: &[u8], out: &mut [u8]) -> Result<Relayed, Fault> {
    if !table.is_well_formed() {
        return Err(Refusal::IllFormed.into());
    }
    if out.len() < line::LINE {
        return Err(Refusal::ShortOutput.into());
    }
    if !table.has_link(link) {
        return Err(Refusal::BadLink.into());
    }
    let message = line::read(line)?;
    let relayed = match message.command.to_ascii_uppercase().as_slice() {
        b"SJOIN" => Some(take_sjoin(table, line, &message)?),
        b"PART" => Some(take_part(table, &message)?),
        b"QUIT" => Some(take_quit(table, &message)?),
        b"BMASK" => take_bmask(table, &message)?,
        _ => return Err(Refusal::UnknownCommand.into()),
    };
    let Some(relayed) = relayed else {
        return Ok(Relayed::default());
    };
    out[..relayed.len()].copy_from_slice(&relayed);
    let set = table.links & !(1 << link);
    Ok(Relayed { set, count: set.count_ones(), len: relayed.len() })
}

/// Folds a join into the slot of its name, or the lowest free one, and answers the line to relay. An
/// earlier time empties the list.
fn take_sjoin(table: &mut Table, line: &[u8], message: &Message) -> Result<Vec<u8>, Fault> {
    let incoming = sjoin::read_join(line, message)?;
    let (slot, result) = match table.slot_of(incoming.name()) {
        Some(slot) => (slot, merge_well_formed(&table.slots[slot], &incoming)?),
        None => (table.free_slot().ok_or(Refusal::NoSlot)?, incoming),
    };
    if incoming.time < table.slots[slot].time {
        table.bans[slot] = BanList::EMPTY;
    }
    table.slots[slot] = result;
    Ok(relayed_join(message.prefix, &incoming, &result))
}

/// The line relayed for an SJOIN: resulting time and stored spelling; for a later incoming time
/// '+' and bare ids, else the incoming modes and statuses.
fn relayed_join(source: Option<&[u8]>, incoming: &Record, result: &Record) -> Vec<u8> {
    let later = incoming.time > result.time;
    let time = result.time.to_string();
    let limit = incoming.limit.to_string();
    let modes = modes_text(if later { 0 } else { incoming.modes });
    let list = list_text(incoming, !later);
    let mut params = vec![time.as_bytes(), result.name(), &modes];
    if !later && incoming.modes & K != 0 {
        params.push(incoming.key());
    }
    if !later && incoming.modes & L != 0 {
        params.push(limit.as_bytes());
    }
    params.push(&list);
    line::form(&Message { prefix: source, command: b"SJOIN", params })
}

/// '+' and the letters in the order i m n p s t k l.
pub fn modes_text(modes: u8) -> Vec<u8> {
    let mut text = vec![b'+'];
    for (place, &letter) in LETTERS.iter().enumerate() {
        if modes & (1 << place) != 0 {
            text.push(letter);
        }
    }
    text
}

/// Ids ascending, each once, parted by one SPACE, with their statuses or bare.
pub fn list_text(record: &Record, with_status: bool) -> Vec<u8> {
    let mut text = Vec::with_capacity(line::LINE);
    for member in record.members() {
        if !text.is_empty() {
            text.push(b' ');
        }
        if with_status && member.status & OPERATOR != 0 {
            text.push(b'@');
        }
        if with_status && member.status & VOICE != 0 {
            text.push(b'+');
        }
        text.extend(member.id);
    }
    text
}

/// The member goes from the channel; the line goes out with its parameters as read.
fn take_part(table: &mut Table, message: &Message) -> Result<Vec<u8>, Refusal> {
    if !(1..=2).contains(&message.params.len()) {
        return Err(Refusal::ParamCount);
    }
    let id = user_of(message)?;
    let name = message.params[0];
    if !names::is_channel_name(name) {
        return Err(Refusal::BadName);
    }
    let slot = table.slot_of(name).ok_or(Refusal::NoChannel)?;
    if !table.remove_member(slot, id) {
        return Err(Refusal::NoMember);
    }
    Ok(as_read(message, b"PART"))
}

/// The user leaves every channel; one in no channel is accepted too.
fn take_quit(table: &mut Table, message: &Message) -> Result<Vec<u8>, Refusal> {
    if message.params.len() > 1 {
        return Err(Refusal::ParamCount);
    }
    let id = user_of(message)?;
    for slot in 0..table.slots.len() {
        table.remove_member(slot, id);
    }
    Ok(as_read(message, b"QUIT"))
}

/// The masks are added to those of the channel, and the line goes out with its parameters as read;
/// one that is later than the channel changes nothing and goes nowhere.
fn take_bmask(table: &mut Table, message: &Message) -> Result<Option<Vec<u8>>, Refusal> {
    let incoming = bmask::read_bmask(message)?;
    let slot = table.slot_of(incoming.name).ok_or(Refusal::NoChannel)?;
    if incoming.time > table.slots[slot].time {
        return Ok(None);
    }
    let masks = table.bans[slot].masks().expect("the table is well formed");
    table.bans[slot] = BanList::of(&bans::add(&masks, &incoming.masks)?);
    Ok(Some(as_read(message, b"BMASK")))
}

fn user_of<'a>(message: &Message<'a>) -> Result<&'a [u8], Refusal> {
    message.prefix.filter(|id| names::is_user_id(id)).ok_or(Refusal::BadSource)
}

/// The message with its command in capitals, in the writer's form.
fn as_read(message: &Message, command: &[u8]) -> Vec<u8> {
    line::form(&Message { prefix: message.prefix, command, params: message.params.clone() })
}

#[cfg(test)]
mod tests {
    use super::*;
    use crate::refusal::number_of;
    use crate::Member;

    const LINK: u32 = 3;

    /// A table with the links 0, 3 and 5 and no channel.
    fn start() -> Table {
        Table { links: 0b101001, ..Table::EMPTY }
    }

    /// Takes a text, CR LF after it, from link 3, and answers what goes out: nothing, if it goes nowhere.
    fn say(table: &mut Table, text: &str) -> Result<String, u8> {
        let before = *table;
        let mut out = [7; 600];
        let line = format!("{text}\r\n");
        match take(table, LINK, line.as_bytes(), &mut out) {
            Ok(Relayed { set: 0, count: 0, len: 0 }) => {
                assert!(*table == before && out == [7; 600]);
                Ok(String::new())
            }
            Ok(Relayed { set, count, len }) => {
                assert_eq!((set, count), (0b100001, 2));
                assert!(len <= line.len() && out[len..].iter().all(|&b| b == 7));
                Ok(String::from_utf8(out[..len - 2].to_vec()).unwrap())
            }
            Err(fault) => {
                assert_eq!(*table, before);
                assert_eq!(out, [7; 600]);
                Err(fault.refusal.number())
            }
        }
    }

    /// The masks of the first slot.
    fn masks(table: &Table) -> Vec<String> {
        let masks = table.bans[0].masks().unwrap();
        masks.into_iter().map(|mask| String::from_utf8(mask).unwrap()).collect()
    }

    fn race() -> Table {
        let mut table = start();
        let record = &mut table.slots[0];
        record.set_name(b"#Race");
        record.time = 1000;
        record.modes = K;
        record.set_key(b"buoy");
        record.set_members(&[Member { id: *b"2CDAAAAAA", status: 2 }]);
        table
    }

    #[test]
    fn the_whole_case_from_the_water() {
        let mut table = race();
        let said = say(&mut table, ":1AB SJOIN 1200 #race +nt :@1ABAAAAAA 1ABAAAAAB");
        assert_eq!(said.unwrap(), ":1AB SJOIN 1000 #Race + :1ABAAAAAA 1ABAAAAAB");
        let mut expected = race();
        expected.slots[0].set_members(&[
            Member { id: *b"1ABAAAAAA", status: 0 },
            Member { id: *b"1ABAAAAAB", status: 0 },
            Member { id: *b"2CDAAAAAA", status: 2 },
        ]);
        assert_eq!(table, expected);
    }

    #[test]
    fn equal_and_earlier_times_go_out_as_they_came() {
        let mut table = race();
        let said = say(&mut table, ":1AB sjoin 1000 #race +tlkn 5 buoys :+2CDAAAAAA @1ABAAAAAA");
        assert_eq!(said.unwrap(), ":1AB SJOIN 1000 #Race +ntkl buoys 5 :@1ABAAAAAA +2CDAAAAAA");
        assert_eq!(table.slots[0].members()[1].status, 3);
        let said = say(&mut table, ":1AB SJOIN 999 #RACE + :2CDAAAAAA");
        assert_eq!(said.unwrap(), ":1AB SJOIN 999 #Race + 2CDAAAAAA");
        let record = table.slots[0];
        assert_eq!((record.time, record.modes, record.limit, record.key()), (999, 0, 0, &[][..]));
        assert!(record.members().iter().all(|m| m.status == 0) && record.count == 2);
        assert!(table.is_well_formed());
    }

    /// An SJOIN of ids made of the numbers in a range.
    fn join_of(range: std::ops::Range<u32>) -> String {
        let ids: Vec<String> = range.map(|n| format!("1ABA{n:05}")).collect();
        format!(":1AB SJOIN 5 #a + :{}", ids.join(" "))
    }

    #[test]
    fn the_65th_member() {
        let mut table = start();
        assert!(say(&mut table, &join_of(0..40)).is_ok());
        assert!(say(&mut table, &join_of(24..63)).is_ok());
        assert_eq!(say(&mut table, &join_of(62..65)), Err(22));
        assert!(say(&mut table, &join_of(60..64)).is_ok());
        assert_eq!(table.slots[0].count, 64);
        assert!(say(&mut table, &join_of(20..60)).is_ok());
        assert_eq!(say(&mut table, &join_of(64..65)), Err(22));
    }

    #[test]
    fn an_emptied_slot_is_used_again() {
        let mut table = start();
        for n in 0..16 {
            assert!(say(&mut table, &format!(":1AB SJOIN 5 #{n} + 1ABAAAAAA")).is_ok());
        }
        assert_eq!(say(&mut table, ":1AB SJOIN 5 #new + 1ABAAAAAA"), Err(21));
        assert_eq!(
            say(&mut table, ":1ABAAAAAA part #4 :gone home").unwrap(),
            ":1ABAAAAAA PART #4 :gone home"
        );
        assert_eq!(table.slots[4], Record::EMPTY);
        assert!(say(&mut table, ":1AB SJOIN 5 #new + 1ABAAAAAA").is_ok());
        assert_eq!(table.slots[4].name(), b"#new");
    }

    #[test]
    fn part_and_quit() {
        let mut table = race();
        assert!(say(&mut table, ":1AB SJOIN 5 #b + :1ABAAAAAA 2CDAAAAAA").is_ok());
        assert_eq!(say(&mut table, ":2CDAAAAAA PART"), Err(12));
        assert_eq!(say(&mut table, ":2CD PART #b"), Err(13));
        assert_eq!(say(&mut table, ":2CDAAAAAA PART b"), Err(16));
        assert_eq!(say(&mut table, ":2CDAAAAAA PART #c"), Err(19));
        assert_eq!(say(&mut table, ":3CDAAAAAA PART #b"), Err(20));
        assert_eq!(say(&mut table, "QUIT"), Err(13));
        assert_eq!(say(&mut table, ":2CDAAAAAA QUIT a b"), Err(12));
        assert_eq!(say(&mut table, ":2CDAAAAAA quit   :").unwrap(), ":2CDAAAAAA QUIT :");
        assert_eq!(table.slots[0], Record::EMPTY);
        assert_eq!(table.slots[1].members(), [Member { id: *b"1ABAAAAAA", status: 0 }]);
        let after = table;
        assert!(say(&mut table, ":2CDAAAAAA QUIT").is_ok());
        assert_eq!(table, after);
        assert!(table.is_well_formed());
    }

    #[test]
    fn masks_are_added() {
        let mut table = race();
        let said = say(&mut table, ":1AB bmask 1000 #RACE b :  b*  Boat[1]  ").unwrap();
        assert_eq!(said, ":1AB BMASK 1000 #RACE b :  b*  Boat[1]  ");
        assert_eq!(masks(&table), ["b*", "Boat[1]"]);
        assert_eq!(
            say(&mut table, ":1AB BMASK 999 #race b :BOAT{1}").unwrap(),
            ":1AB BMASK 999 #race b BOAT{1}"
        );
        assert_eq!(
            say(&mut table, ":1AB BMASK 1 #race b ::a").unwrap(),
            ":1AB BMASK 1 #race b ::a"
        );
        assert_eq!(masks(&table), [":a", "b*", "Boat[1]"]);
        assert_eq!(table.slots, race().slots);
        assert!(table.is_well_formed());
    }

    #[test]
    fn masks_that_are_later_go_nowhere() {
        let mut table = race();
        assert_eq!(say(&mut table, ":1AB BMASK 1001 #race b x").unwrap(), "");
        assert_eq!(say(&mut table, ":1AB BMASK 1001 #race b :"), Err(26));
        assert_eq!(say(&mut table, ":1AB BMASK 1001 #gone b x"), Err(19));
        assert_eq!(say(&mut table, ":1AB BMASK 1001 #gone c x"), Err(26));
        let many = |time: u32, range: std::ops::Range<u32>| {
            let masks: Vec<String> = range.map(|n| format!("m{n}")).collect();
            format!(":1AB BMASK {time} #race b :{}", masks.join(" "))
        };
        assert!(say(&mut table, &many(1000, 10..42)).is_ok());
        assert_eq!(say(&mut table, &many(1000, 40..43)), Err(27));
        assert_eq!(say(&mut table, &many(1001, 40..43)).unwrap(), "");
        assert_ne!(say(&mut table, &many(1000, 40..42)).unwrap(), "");
    }

    #[test]
    fn an_earlier_join_empties_the_list() {
        for (time, left) in [(999, 0), (1000, 1), (1001, 1)] {
            let mut table = race();
            assert!(say(&mut table, ":1AB BMASK 1000 #race b x").is_ok());
            assert!(say(&mut table, &format!(":1AB SJOIN {time} #race + 1ABAAAAAA")).is_ok());
            assert_eq!(masks(&table).len(), left, "{time}");
        }
    }

    #[test]
    fn the_list_goes_with_the_last_member() {
        for leave in ["PART #race", "QUIT"] {
            let mut table = race();
            assert!(say(&mut table, ":1AB SJOIN 1000 #race + 1ABAAAAAA").is_ok());
            assert!(say(&mut table, ":1AB BMASK 1000 #race b x").is_ok());
            assert!(say(&mut table, &format!(":1ABAAAAAA {leave}")).is_ok());
            assert_eq!(masks(&table), ["x"]);
            assert!(say(&mut table, &format!(":2CDAAAAAA {leave}")).is_ok());
            assert_eq!((table.slots[0], table.bans[0]), (Record::EMPTY, BanList::EMPTY));
        }
    }

    #[test]
    fn the_first_numbers_in_order() {
        let mut ill = race();
        ill.slots[0].time = 0;
        let mut out = [0; 512];
        let mut number = |mut table: Table, link, room, line: &[u8]| {
            number_of(&take(&mut table, link, line, &mut out[..room]))
        };
        assert_eq!(number(ill, 32, 511, b""), 1);
        assert_eq!(number(race(), 32, 511, b""), 2);
        assert_eq!(number(race(), 32, 512, b""), 3);
        assert_eq!(number(race(), 4, 512, b""), 3);
        assert_eq!(number(race(), 3, 512, &[0; 513]), 4);
        assert_eq!(number(race(), 3, 512, b"PRIVMSG\r\n"), 11);
        assert_eq!(number(race(), 3, 512, b"001\r\n"), 11);
        assert_eq!(number(race(), 3, 512, b":1AB SJOINS\r\n"), 11);
    }

    #[test]
    fn lines_of_many_words() {
        for words in [" a".repeat(16), " a".repeat(200), format!("{} :", " a".repeat(14))] {
            assert_eq!(say(&mut race(), &format!("PING{words}")), Err(11));
            for command in ["SJOIN", "PART", "QUIT", "BMASK"] {
                assert_eq!(say(&mut race(), &format!("{command}{words}")), Err(12), "{command}");
            }
        }
    }

    #[test]
    fn the_source_alone() {
        let mut table = Table { links: 1 << 31, ..Table::EMPTY };
        let mut out = [0; 512];
        let answer = take(&mut table, 31, b":1ABAAAAAA QUIT\r\n", &mut out);
        assert_eq!(answer, Ok(Relayed { set: 0, count: 0, len: 17 }));
    }
}
