//! Bytes made into lines, however they are cut.

use crate::line::LINE;
use crate::Refusal;

/// What is kept of an unfinished line, as a caller holds it between two calls.
#[derive(Clone, Copy, Debug, PartialEq, Eq)]
pub struct Feeder {
    /// The kept bytes, then zeros.
    pub bytes: [u8; LINE],
    /// The number of kept bytes.
    pub len: usize,
    /// Whether the line is over 512 bytes already, so that none of it is kept.
    pub dropping: bool,
}

/// What bytes yield: a whole line with its LF, or a refusal.
pub type Event = Result<Vec<u8>, Refusal>;

/// What came of bytes that were fed.
#[derive(Clone, Debug, PartialEq, Eq)]
pub struct Fed {
    /// How many of them were used.
    pub used: usize,
    /// What the last of those yielded, if it yielded anything.
    pub event: Option<Event>,
}

impl Feeder {
    /// Nothing kept.
    pub const EMPTY: Feeder = Feeder { bytes: [0; LINE], len: 0, dropping: false };

    /// Feeds bytes up to and with the first that yields something, else all of them.
    pub fn feed(&mut self, bytes: &[u8]) -> Result<Fed, Refusal> {
        let mut line = self.reaching_bytes().ok_or(Refusal::IllFormed)?;
        let mut fed = Fed { used: 0, event: None };
        while fed.event.is_none() && fed.used < bytes.len() {
            fed.event = add(&mut line, bytes[fed.used]);
            fed.used += 1;
        }
        *self = Feeder::of_line(&line);
        Ok(fed)
    }

    /// Bytes that reach the state from the empty one, if any do: those that it keeps, or, where it is
    /// dropping, any that make a line too long. They are tried.
    fn reaching_bytes(&self) -> Option<Vec<u8>> {
        let bytes =
            if self.dropping { vec![b'x'; LINE + 1] } else { self.bytes.get(..self.len)?.to_vec() };
        let mut line = Vec::new();
        for &byte in &bytes {
            add(&mut line, byte);
        }
        (Feeder::of_line(&line) == *self).then_some(bytes)
    }

    /// What is kept of a line under way.
    fn of_line(line: &[u8]) -> Feeder {
        if line.len() > LINE {
            return Feeder { dropping: true, ..Feeder::EMPTY };
        }
        let mut state = Feeder { len: line.len(), ..Feeder::EMPTY };
        state.bytes[..line.len()].copy_from_slice(line);
        state
    }
}

/// Adds a byte to the line under way, all of whose bytes stand here, however many they are. LF ends
/// the line; the 513th byte, LF or not, is the one that is refused, and the line is not yielded then.
fn add(line: &mut Vec<u8>, byte: u8) -> Option<Event> {
    line.push(byte);
    let ends = byte == b'\n';
    let event = match line.len() {
        0..=LINE => ends.then(|| Ok(line.clone())),
        length => (length == LINE + 1).then_some(Err(Refusal::LongLine)),
    };
    if ends {
        line.clear();
    }
    event
}

#[cfg(test)]
mod tests {
    use super::*;

    /// Feeds all of the bytes, call after call, and answers what they yield.
    fn feed_all(state: &mut Feeder, mut bytes: &[u8]) -> Vec<Event> {
        let mut events = Vec::new();
        loop {
            let fed = state.feed(bytes).unwrap();
            bytes = &bytes[fed.used..];
            match fed.event {
                Some(event) => events.push(event),
                None => return events,
            }
        }
    }

    fn keeping(bytes: &[u8]) -> Feeder {
        Feeder::of_line(bytes)
    }

    #[test]
    fn lines_and_what_is_left() {
        let mut state = Feeder::EMPTY;
        let lines = [b"PING\r\n".as_slice(), b"\n", b"\r\n", b"X\0\rY\n"];
        let events = feed_all(&mut state, &[&lines.concat(), b"QUI".as_slice()].concat());
        assert_eq!(events, lines.map(|line| Ok(line.to_vec())));
        assert_eq!(state, keeping(b"QUI"));
        assert_eq!(feed_all(&mut state, b"T\r\n"), [Ok(b"QUIT\r\n".to_vec())]);
        assert_eq!(state, Feeder::EMPTY);
    }

    #[test]
    fn the_513th_byte() {
        let line = |length: usize| [&vec![b'x'; length - 1], b"\n".as_slice()].concat();
        for (length, event) in [
            (511, Ok(line(511))),
            (512, Ok(line(512))),
            (513, Err(Refusal::LongLine)),
            (514, Err(Refusal::LongLine)),
            (2000, Err(Refusal::LongLine)),
        ] {
            let mut state = Feeder::EMPTY;
            let events = feed_all(&mut state, &[line(length), b"NEXT\r\nkept".to_vec()].concat());
            assert_eq!(events, [event, Ok(b"NEXT\r\n".to_vec())], "{length}");
            assert_eq!(state, keeping(b"kept"), "{length}");
        }
    }

    #[test]
    fn one_call_yields_once() {
        let mut state = keeping(&[b'x'; 512]);
        let fed = state.feed(b"yz\nA\nB\n");
        assert_eq!(fed, Ok(Fed { used: 1, event: Some(Err(Refusal::LongLine)) }));
        assert_eq!(state, Feeder { dropping: true, ..Feeder::EMPTY });
        let fed = state.feed(b"z\nA\nB\n");
        assert_eq!(fed, Ok(Fed { used: 4, event: Some(Ok(b"A\n".to_vec())) }));
        assert_eq!(state.feed(b""), Ok(Fed { used: 0, event: None }));
        assert_eq!(state, Feeder::EMPTY);
    }

    #[test]
    fn states_that_no_bytes_reach() {
        let good = keeping(b"PING");
        let bad = |change: fn(&mut Feeder)| {
            let mut changed = good;
            change(&mut changed);
            let before = changed;
            assert_eq!(changed.feed(b"\n"), Err(Refusal::IllFormed), "{before:?}");
            assert_eq!(changed, before);
        };
        bad(|f| f.len = 3);
        bad(|f| f.len = 513);
        bad(|f| f.len = usize::MAX);
        bad(|f| f.bytes[1] = b'\n');
        bad(|f| f.bytes[511] = 1);
        bad(|f| f.dropping = true);
        bad(|f| *f = Feeder { bytes: f.bytes, dropping: true, ..Feeder::EMPTY });
        bad(|f| *f = Feeder { len: 1, dropping: true, ..Feeder::EMPTY });
        assert_eq!(keeping(b"PING\0").feed(b""), Ok(Fed { used: 0, event: None }));
    }
}
