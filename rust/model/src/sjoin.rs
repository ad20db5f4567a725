//! What an SJOIN line says: `:sid SJOIN time name modes [key] [limit] list`.

use crate::channel::{self, Member, OPERATOR, VOICE};
use crate::line::Message;
use crate::modes;
use crate::names;
use crate::{Fault, Record, Refusal};

/// Reads the message of an SJOIN, which stands in that line, as a record of its own.
pub fn read_join(line: &[u8], message: &Message) -> Result<Record, Fault> {
    if !(4..=6).contains(&message.params.len()) {
        return Err(Refusal::ParamCount.into());
    }
    let (time, name) = read_head(message)?;
    let [_, _, letters, ref words @ .., list] = message.params[..] else { unreachable!() };
    let mut record = Record { time, ..Record::EMPTY };
    record.set_name(name);
    modes::read_modes(&mut record, line, letters, words)?;
    let members = read_list(list).ok_or(Refusal::BadList)?;
    record.set_members(&members);
    Ok(record)
}

/// The time and the name of a message of two parameters or more, whose prefix must be a server id:
/// 13 to 16.
pub fn read_head<'a>(message: &Message<'a>) -> Result<(u32, &'a [u8]), Refusal> {
    if !message.prefix.is_some_and(names::is_server_id) {
        return Err(Refusal::BadSource);
    }
    let [time, name, ..] = message.params[..] else { unreachable!() };
    let time = decimal(time, u32::MAX).ok_or(Refusal::BadTime)?;
    if time == 0 {
        return Err(Refusal::ZeroTime);
    }
    if !names::is_channel_name(name) {
        return Err(Refusal::BadName);
    }
    Ok((time, name))
}

/// A number in decimal without leading zeros, at most `most`.
pub fn decimal(text: &[u8], most: u32) -> Option<u32> {
    if text.is_empty() || (text[0] == b'0' && text.len() > 1) {
        return None;
    }
    let mut number = 0;
    for &digit in text {
        if !digit.is_ascii_digit() {
            return None;
        }
        number = number * 10 + u64::from(digit - b'0');
        if number > u64::from(most) {
            return None;
        }
    }
    u32::try_from(number).ok()
}

/// Entries parted by one or more SPACEs, at least one, SPACEs at either end passed over. The
/// answer has each id once, ascending, with all the statuses given to it.
fn read_list(list: &[u8]) -> Option<Vec<Member>> {
    let mut members = Vec::new();
    for entry in list.split(|&b| b == b' ').filter(|entry| !entry.is_empty()) {
        let (status, id) = split_status(entry);
        if !names::is_user_id(id) {
            return None;
        }
        channel::add_member(&mut members, id.try_into().ok()?, status);
    }
    (!members.is_empty()).then_some(members)
}

/// '@+', '@', '+' or nothing, and what follows.
fn split_status(entry: &[u8]) -> (u8, &[u8]) {
    match entry {
        [b'@', b'+', id @ ..] => (OPERATOR + VOICE, id),
        [b'@', id @ ..] => (OPERATOR, id),
        [b'+', id @ ..] => (VOICE, id),
        id => (0, id),
    }
}

#[cfg(test)]
mod tests {
    use super::*;
    use crate::channel::{K, L};
    use crate::line;
    use crate::refusal::number_and_place;

    /// Reads the parameters after `:1AB SJOIN`.
    fn join(params: &str) -> Result<Record, Fault> {
        let line = format!(":1AB SJOIN {params}\r\n");
        read_join(line.as_bytes(), &line::read(line.as_bytes()).unwrap())
    }

    /// The number of parameters, in which a '|' marks the place of the fault; without one it is 0.
    fn refused(params: &str) -> u8 {
        let expected = params.find('|').map_or(0, |place| ":1AB SJOIN ".len() + place);
        let (number, place) = number_and_place(&join(&params.replace('|', "")));
        assert_eq!(place, expected, "{params}");
        number
    }

    #[test]
    fn an_id_given_twice_has_both_statuses() {
        let record = join("1 #a + :@1ABAAAAAB 1ABAAAAAA +1ABAAAAAB 1ABAAAAAB").unwrap();
        assert_eq!(
            record.members(),
            [Member { id: *b"1ABAAAAAA", status: 0 }, Member { id: *b"1ABAAAAAB", status: 3 }]
        );
    }

    #[test]
    fn parameters_in_the_order_of_the_letters() {
        let record = join("1 #a +lk 5 key 1ABAAAAAA").unwrap();
        assert_eq!((record.limit, record.key(), record.modes), (5, b"key".as_slice(), K | L));
        assert_eq!(join("1 #a +kl key 5 1ABAAAAAA"), Ok(record));
        assert_eq!(refused("1 #a +kl 5 |key 1ABAAAAAA"), 36);
        assert_eq!(refused("1 #a +lk |key 5 1ABAAAAAA"), 36);
    }

    #[test]
    fn numbers_in_order() {
        for (params, number) in [
            ("1 #a +", 12),
            ("1 #a + x x x x", 12),
            ("00 #a + x", 14),
            ("01 #a + x", 14),
            ("+1 #a + x", 14),
            ("4294967296 #a + x", 14),
            ("99999999999999999999999999999999999999999999 #a + x", 14),
            ("0 a + x", 15),
            ("1 a + x", 16),
            ("1 &a nt x", 16),
            ("1 #a |nt x", 32),
            ("1 #a |-n x", 32),
            ("1 #a +|N x", 32),
            ("1 #a +n|n x", 33),
            ("1 #a +k key|", 34),
            ("1 #a + |1ABAAAAAA 1ABAAAAAB", 34),
            ("1 #a +l |0 x", 36),
            ("1 #a +l |05 x", 36),
            ("1 #a +l |65536 x", 36),
            ("1 #a +k |a,b x", 35),
            ("1 #a + x", 18),
            ("1 #a + :", 18),
            ("1 #a + :  ", 18),
            ("1 #a + +@1ABAAAAAA", 18),
            ("1 #a + ::1ABAAAAAA", 18),
            ("1 #a + 1ABAAAAAA1ABAAAAAB", 18),
        ] {
            assert_eq!(refused(params), number, "{params}");
        }
    }

    #[test]
    fn limits_pass() {
        assert_eq!(join("4294967295 #a +l 65535 :  1ABAAAAAA ").unwrap().limit, 65_535);
        let name = format!("#{}", "n".repeat(49));
        assert_eq!(join(&format!("1 {name} + 1ABAAAAAA")).unwrap().name(), name.as_bytes());
        assert_eq!(refused(&format!("1 {name}n + 1ABAAAAAA")), 16);
    }

    #[test]
    fn the_source_is_a_server() {
        for line in ["SJOIN 1 #a + 1ABAAAAAA", ":1ABAAAAAA SJOIN 0 #a + 1ABAAAAAA"] {
            let line = format!("{line}\r\n");
            let message = line::read(line.as_bytes()).unwrap();
            assert_eq!(read_join(line.as_bytes(), &message), Err(Refusal::BadSource.into()));
        }
    }
}
