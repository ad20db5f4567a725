//! Taking a line.

use model::refusal::number_and_place;
use model::relay::{take as model_take, Relayed};
use model::Table;

use crate::convert::{core_bans, core_head};
use crate::inputs::{lines, tables};
use crate::lent::{output_length, Lent};
use crate::rng::Rng;
use crate::tally::Tally;

/// Takes one line with any table, some of them damaged.
pub fn take(rng: &mut Rng, tally: &mut Tally) {
    let mut table = tables::table(rng);
    let line = lines::line(rng, &table);
    if rng.one_in(12) {
        tables::damage_table(rng, &mut table);
    }
    let link = tables::link(rng, table.links);
    let length = output_length(rng);
    let out = Lent::new(rng, length);
    compare_take(&mut table, link, &line, out, tally);
}

/// Takes a day's lines one after the other, from an empty table on.
pub fn take_many(rng: &mut Rng, tally: &mut Tally) {
    let mut table = Table { links: tables::links(rng), ..Table::EMPTY };
    for _ in 0..200 {
        let line = lines::line(rng, &table);
        let link = tables::link(rng, table.links);
        let length = output_length(rng);
        let out = Lent::new(rng, length);
        compare_take(&mut table, link, &line, out, tally);
        if rng.one_in(10) {
            table.links ^= 1 << rng.below(32);
        }
    }
}

/// Takes a given line with core and model, and keeps the table after it.
pub fn compare_take(table: &mut Table, link: u32, line: &[u8], out: Lent, tally: &mut Tally) {
    let told = || format!("link {link} \"{}\"", line.escape_ascii());
    let before = *table;
    let lent_line = line.to_vec();
    let lent_lists = Lent::holding(&core_bans(table));
    let (mut lists, mut core_out) = (lent_lists.clone(), out.clone());
    let (head, room) = (core_head(table), core_out.room());
    let answer = relay::process(&head, lists.lists(), link, &lent_line, room);
    let mut model_out = out.clone();
    let expected = model_take(table, link, line, model_out.room());

    let number_and_place = number_and_place(&expected);
    assert_eq!((answer.number, answer.place), number_and_place, "{}\n{before:?}", told());
    let relayed = expected.unwrap_or_default();
    let answered = Relayed { set: answer.set, count: answer.count, len: answer.len };
    assert_eq!(answered, relayed, "{}\n{before:?}", told());
    assert!(answer.head == core_head(table), "{}\n{before:?}\n{:?}", told(), answer.head);
    assert!(lists == Lent::holding(&core_bans(table)), "lists: {}\n{before:?}", told());
    assert_eq!(core_out, model_out, "{}\n{before:?}", told());
    assert_eq!(lent_line, line);
    if answer.number == relay::ACCEPTED {
        tally.decide(answer.len != 0);
    } else {
        assert!(answer.head == head && lists == lent_lists && core_out == out, "{}", told());
    }
    tally.count(answer.number);
}
