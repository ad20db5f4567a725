//! Day logs replayed.

use model::{replay, Fault};
use relay::{Replayed, Table};

use crate::convert::core_table;
use crate::inputs::{logs, streams};
use crate::rng::Rng;
use crate::tally::Tally;

/// Replays a day's log, damaged now and then, in one go and in pieces: both come to the same.
pub fn replay(rng: &mut Rng, tally: &mut Tally) {
    let lines = rng.pick(&[3, 30, 200, 200]);
    let mut log = logs::day(rng, lines);
    if rng.one_in(2) {
        logs::damage(rng, &mut log);
    }
    let (table, replayed) = compare_replay(&log, tally);
    let pieces = streams::cut(rng, &log);
    let (by_pieces, number, place) = replay_pieces(&pieces);
    let told = || format!("\"{}\" {pieces:?}", log.escape_ascii());
    assert_eq!((number, place), (replayed.number, replayed.place), "{}", told());
    assert!(by_pieces == table, "{}", told());
}

/// Replays a given log with core and model: every byte of the tables, number and place, and what is
/// printed of them.
pub fn compare_replay(log: &[u8], tally: &mut Tally) -> (Table, Replayed) {
    let told = || format!("\"{}\"", log.escape_ascii());
    let lent = log.to_vec();
    let (table, replayed) = Table::replay(&lent);
    let (expected, fault) = replay::replay(log);
    let (number, place) =
        fault.map_or((0, 0), |Fault { refusal, place }| (refusal.number(), place));
    assert_eq!((replayed.number, replayed.place), (number, place), "{}", told());
    assert!(table == core_table(&expected), "{}\n{table:?}", told());
    assert_eq!(printed(&table, &replayed), replay::printed(&expected, fault), "{}", told());
    assert_eq!(lent, log);
    tally.count(number);
    tally.decide(number == relay::ACCEPTED);
    (table, replayed)
}

/// Replays a log as it comes in pieces: the table, and number and place.
pub fn replay_pieces(pieces: &[&[u8]]) -> (Table, u8, usize) {
    let mut table = Table::before_replay();
    let (mut rest, mut passed) = (Vec::new(), 0);
    for piece in pieces {
        rest.extend(*piece);
        let replayed = table.replay_piece(&rest);
        if ![relay::ACCEPTED, relay::LOG_CUT].contains(&replayed.number) {
            return (table, replayed.number, passed + replayed.place);
        }
        rest.drain(..replayed.used);
        passed += replayed.used;
        assert!(rest.len() < 517, "a whole record is left over");
    }
    let replayed = table.replay_piece(&rest);
    let place = if replayed.number == relay::ACCEPTED { 0 } else { passed + replayed.place };
    (table, replayed.number, place)
}

/// What the program prints, by the core's own texts: for each used slot the channel and its masks,
/// then number and place of a refusal.
pub fn printed(table: &Table, replayed: &Replayed) -> Vec<u8> {
    let mut lines = Vec::new();
    for slot in (0..16).filter(|&slot| table.head.slots[slot].count != 0) {
        let mut room = [0; 869];
        let written = relay::describe(&table.head.slots[slot], &mut room);
        assert_eq!(written.number, relay::ACCEPTED);
        lines.push(room[..written.len].to_vec());
        lines.push(table.masks(slot).collect::<Vec<_>>().join(&b' '));
    }
    if replayed.number != relay::ACCEPTED {
        lines.push(format!("{} {}", replayed.number, replayed.place).into_bytes());
    }
    lines.iter().flat_map(|line| [line, b"\n".as_slice()].concat()).collect()
}
