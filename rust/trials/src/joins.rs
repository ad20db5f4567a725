//! Demand 3: many joins, in any order, with repeats and refused ones between them, and merging.

use model::line;
use model::names;
use model::plain::plain_record;
use model::refusal::number_and_place;
use model::sjoin::read_join;
use model::{BanList, Record, Table, WholeRecord};

use crate::convert::{core_table, core_whole};
use crate::inputs::{lines, tables, words};
use crate::lent::output_length;
use crate::rng::Rng;
use crate::tally::Tally;

/// One join: a line with its link and the length of its lent output.
#[derive(Clone, Debug)]
struct Join {
    line: Vec<u8>,
    link: u32,
    room: usize,
}

/// What the good joins of a trial keep to: one channel, and at most 64 users.
struct Premises {
    name: Vec<u8>,
    users: Vec<usize>,
}

/// Folds two lists, each from its own empty table; then the first one's good lines in another order
/// with repeats; then merges the two records.
pub fn trial(rng: &mut Rng, tally: &mut Tally) {
    let premises = premises(rng);
    let start = Table { links: tables::links(rng), ..Table::EMPTY };
    let first = list(rng, &premises, &start);
    let after_first = fold(&first, &start, tally);

    let again = in_another_order(rng, &premises, &first, &start);
    let after_again = fold(&again, &start, tally);
    assert!(same_but_spelling(&after_first, &after_again), "{first:?}\n{again:?}");

    let other_start = Table { links: tables::links(rng), ..Table::EMPTY };
    let second = list(rng, &premises, &other_start);
    let after_second = fold(&second, &other_start, tally);
    let mut both = good_lines(&first, &start);
    let seconds = good_lines(&second, &other_start);
    if !both.is_empty() && !seconds.is_empty() {
        both.extend(seconds);
        let merged = relay::merge(&after_first.channel(0), &after_second.channel(0));
        assert_eq!(merged.number, relay::ACCEPTED, "{first:?}\n{second:?}");
        let plain = WholeRecord { record: plain_record(&both), bans: BanList::EMPTY };
        assert_eq!(merged.result, core_whole(&plain), "{first:?}\n{second:?}");
    }
}

fn premises(rng: &mut Rng) -> Premises {
    let mut users: Vec<usize> = (0..words::USERS).collect();
    rng.shuffle(&mut users);
    let most = rng.pick(&[1, 5, 63, 64, 64]);
    users.truncate(most);
    Premises { name: words::channel_name(rng), users }
}

/// A list of joins, good ones of the premises and others that are refused, in any order.
fn list(rng: &mut Rng, premises: &Premises, start: &Table) -> Vec<Join> {
    let count = if rng.one_in(8) { 0 } else { rng.between(0, 10) };
    let mut list: Vec<Join> = (0..count).map(|_| good_join(rng, premises, start)).collect();
    list.extend(refused_joins(rng, premises, start));
    rng.shuffle(&mut list);
    list
}

fn good_join(rng: &mut Rng, premises: &Premises, start: &Table) -> Join {
    let time = rng.pick(&[999, 1000, 1000, 1001]);
    let name = words::respelled(rng, &premises.name);
    let count = rng.between(1, premises.users.len().min(35));
    let users: Vec<usize> = (0..count).map(|_| rng.pick(&premises.users)).collect();
    let registered: Vec<u32> = (0..32).filter(|&link| start.has_link(link)).collect();
    let line = lines::sjoin_of(rng, time, &name, &users);
    let room = rng.pick(&[512, 600]);
    Join { line, link: if registered.is_empty() { 0 } else { rng.pick(&registered) }, room }
}

/// Joins that are refused at the start: bad lines, bad links, too little room.
fn refused_joins(rng: &mut Rng, premises: &Premises, start: &Table) -> Vec<Join> {
    let mut joins = Vec::new();
    for _ in 0..rng.between(0, 6) {
        let mut join = good_join(rng, premises, start);
        match rng.below(4) {
            0 => join.link = tables::link(rng, !start.links),
            1 => join.room = rng.below(512),
            2 => lines::damage(rng, &mut join.line),
            _ => {
                join.line = lines::join(rng);
                join.room = output_length(rng);
            }
        }
        if !is_good(&join, start) && reads_as_join(&join.line) {
            joins.push(join);
        }
    }
    joins
}

/// Whether a line reads as SJOIN or isn't read, as each of a list of joins does.
fn reads_as_join(line: &[u8]) -> bool {
    line::read(line).map_or(true, |message| message.command.eq_ignore_ascii_case(b"SJOIN"))
}

/// The same good lines in any order, some of them more than once, and other refused ones.
fn in_another_order(rng: &mut Rng, premises: &Premises, list: &[Join], start: &Table) -> Vec<Join> {
    let good = list.iter().filter(|join| is_good(join, start));
    let mut again: Vec<Join> = good.cloned().collect();
    for _ in 0..again.len() {
        if rng.one_in(3) {
            again.push(again[rng.below(again.len())].clone());
        }
    }
    again.extend(refused_joins(rng, premises, start));
    rng.shuffle(&mut again);
    again
}

/// The number that the rules give a join at the start, and its place: the model's, so that a core that
/// refuses what is good is found out.
fn number_at(join: &Join, start: &Table) -> (u8, usize) {
    let mut out = vec![0; join.room];
    let mut table = *start;
    number_and_place(&model::relay::take(&mut table, join.link, &join.line, &mut out))
}

/// Whether the rules give a join no number at the start.
fn is_good(join: &Join, start: &Table) -> bool {
    number_at(join, start).0 == relay::ACCEPTED
}

/// What the lines of the good joins say, in their order.
fn good_lines(list: &[Join], start: &Table) -> Vec<Record> {
    let good = list.iter().filter(|join| is_good(join, start));
    good.map(|join| read_join(&join.line, &line::read(&join.line).unwrap()).unwrap()).collect()
}

/// Takes the list with the core, from the start, and holds each answer and the table after it to
/// demand 3. No join adds a mask, so the ban lists are zero at the end as at the start.
fn fold(list: &[Join], start: &Table, tally: &mut Tally) -> relay::Table {
    let mut table = core_table(start);
    for join in list {
        let mut out = vec![0; join.room];
        let taken = relay::process(&table.head, &mut table.bans, join.link, &join.line, &mut out);
        let given = (taken.number, taken.place);
        assert_eq!(given, number_at(join, start), "{join:?} of {list:?}");
        tally.count(taken.number);
        table.head = taken.head;
    }
    let good = good_lines(list, start);
    let mut expected = *start;
    if !good.is_empty() {
        expected.slots[0] = plain_record(&good);
    }
    assert!(table == core_table(&expected), "{list:?}\n{:?}", table.head.slots[0]);
    assert!(table.bans == [0; relay::BANS], "{list:?}");
    table
}

/// Whether two tables are alike in all but the spelling of the channel's name.
fn same_but_spelling(a: &relay::Table, b: &relay::Table) -> bool {
    let (name, other) = (a.head.slots[0].name, b.head.slots[0].name);
    let mut respelled = *b;
    respelled.head.slots[0].name = name;
    *a == respelled && names::equal(&name, &other)
}
