//! Whether a text is banned.

use model::refusal::number_of;
use model::Table;

use crate::convert::{core_bans, core_head};
use crate::inputs::{lists, tables, words};
use crate::lent::Lent;
use crate::rng::Rng;
use crate::tally::Tally;

/// Asks for a text, mostly one that a mask of the channel matches, in a table that is damaged now and
/// then.
pub fn banned(rng: &mut Rng, tally: &mut Tally) {
    let mut table = tables::table(rng);
    let slot = rng.below(table.slots.len());
    let name = name(rng, &table, slot);
    let text = text(rng, &table, slot);
    if rng.one_in(8) {
        tables::damage_table(rng, &mut table);
    }
    compare_banned(&table, &name, &text, tally);
}

/// The name of the slot's channel, mostly, in any spelling.
fn name(rng: &mut Rng, table: &Table, slot: usize) -> Vec<u8> {
    match rng.below(10) {
        0 => words::bad_channel_name(rng),
        1 => words::channel_name(rng),
        _ if table.slots[slot].count == 0 => words::channel_name(rng),
        _ => words::respelled(rng, table.slots[slot].name()),
    }
}

fn text(rng: &mut Rng, table: &Table, slot: usize) -> Vec<u8> {
    let masks = table.bans[slot].masks().expect("it is well formed");
    let chosen = rng.below(masks.len().max(1));
    let mut text = match masks.get(chosen) {
        Some(mask) => lists::text_for(rng, mask),
        None => lists::mask(rng),
    };
    match rng.below(8) {
        0 => text.truncate(rng.below(4)),
        1 => text.resize(rng.pick(&[0, 511, 512, 513, 514, 1000]), b'x'),
        2 => crate::inputs::lines::damage(rng, &mut text),
        _ => {}
    }
    text
}

/// Asks for a given text.
pub fn compare_banned(table: &Table, name: &[u8], text: &[u8], tally: &mut Tally) {
    let lent = Lent::holding(&core_bans(table));
    let mut lists = lent.clone();
    let answer = relay::is_banned(&core_head(table), lists.lists(), name, text);
    let expected = table.is_banned(name, text);
    let told = || format!("{} {}\n{table:?}", name.escape_ascii(), text.escape_ascii());
    assert_eq!(answer.number, number_of(&expected), "{}", told());
    assert_eq!(answer.yes, expected.unwrap_or(false), "{}", told());
    assert!(lists == lent, "{}", told());
    tally.count(answer.number);
    tally.decide(answer.yes);
}
