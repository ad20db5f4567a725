//! Merging records; registering and dropping links.

use model::refusal::number_of;
use model::{channel, Table, WholeRecord};

use crate::convert::{core_bans, core_head, core_whole};
use crate::inputs::{lists, tables, words};
use crate::lent::Lent;
use crate::rng::Rng;
use crate::tally::Tally;

/// Merges two records, mostly of one channel, some damaged.
pub fn merge(rng: &mut Rng, tally: &mut Tally) {
    let mut first = tables::whole(rng);
    let mut second = second_record(rng, &first);
    match rng.below(12) {
        0 => tables::damage_record(rng, &mut first.record),
        1 => tables::damage_record(rng, &mut second.record),
        2 => lists::damage_list(rng, &mut first.bans),
        3 => lists::damage_list(rng, &mut second.bans),
        4 => first = rng.pick(&[WholeRecord::EMPTY, second]),
        5 => second = rng.pick(&[WholeRecord::EMPTY, first]),
        _ => {}
    }
    compare_merge(&first, &second, tally);
}

/// A record of the same channel, mostly, with few or many users who aren't in the first.
fn second_record(rng: &mut Rng, first: &WholeRecord) -> WholeRecord {
    if rng.one_in(8) {
        return tables::whole(rng);
    }
    let name = words::respelled(rng, first.record.name());
    let count = if rng.one_in(2) { rng.between(1, 6) } else { tables::member_count(rng) };
    let mut second = tables::whole_of(rng, &name, count);
    if rng.one_in(2) {
        second.record.time = first.record.time;
    }
    second
}

/// Merges two given records.
pub fn compare_merge(first: &WholeRecord, second: &WholeRecord, tally: &mut Tally) {
    let answer = relay::merge(&core_whole(first), &core_whole(second));
    let expected = channel::merge(first, second);
    assert_eq!(answer.number, number_of(&expected), "{first:?}\n{second:?}");
    let result = core_whole(&expected.unwrap_or(*first));
    assert_eq!(answer.result, result, "{first:?}\n{second:?}");
    tally.count(answer.number);
}

/// Registers or drops a link, in a table that is damaged now and then.
pub fn register(rng: &mut Rng, tally: &mut Tally) {
    let mut table = tables::table(rng);
    if rng.one_in(3) {
        tables::damage_table(rng, &mut table);
    }
    let set = if rng.one_in(2) { table.links } else { !table.links };
    let link = tables::link(rng, set);
    compare_links(&table, link, tally);
}

/// Registers and drops a given link. The lists are only read.
pub fn compare_links(table: &Table, link: u32, tally: &mut Tally) {
    let head = core_head(table);
    let lent = Lent::holding(&core_bans(table));
    let mut lists = lent.clone();
    let mut after = *table;
    let expected = after.register(link);
    let answer = relay::register(&head, lists.lists(), link);
    assert_eq!(answer.number, number_of(&expected), "link {link}\n{table:?}");
    assert!(answer.head == core_head(&after), "link {link}\n{table:?}");

    let mut after = *table;
    let expected = after.unregister(link);
    let answer = relay::unregister(&head, lists.lists(), link);
    assert_eq!(answer.number, number_of(&expected), "link {link}\n{table:?}");
    assert!(answer.head == core_head(&after), "link {link}\n{table:?}");
    assert!(lists == lent, "link {link}\n{table:?}");
    tally.count(answer.number);
}
