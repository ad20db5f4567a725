//! Records and tables, well formed and damaged.

use model::channel::{K, L, MEMBERS};
use model::names;
use model::{Member, Record, Table, WholeRecord};

use super::{lists, words};
use crate::rng::Rng;

/// A well-formed record of that name and that many members.
pub fn record_of(rng: &mut Rng, name: &[u8], count: usize) -> Record {
    let mut record = Record { time: words::time(rng), ..Record::EMPTY };
    record.set_name(name);
    record.modes = rng.byte();
    if record.modes & K != 0 {
        record.set_key(&words::key(rng));
    }
    if record.modes & L != 0 {
        record.limit = words::limit(rng);
    }
    record.set_members(&members(rng, count));
    record
}

fn members(rng: &mut Rng, count: usize) -> Vec<Member> {
    let mut numbers: Vec<usize> = (0..words::USERS).collect();
    rng.shuffle(&mut numbers);
    let user = |&n: &usize| Member { id: words::user(n), status: rng.below(4) as u8 };
    let mut members: Vec<Member> = numbers[..count].iter().map(user).collect();
    members.sort_by_key(|m| m.id);
    members
}

/// How many members a record has: often few, often as many as it can.
pub fn member_count(rng: &mut Rng) -> usize {
    match rng.below(4) {
        0 => rng.between(1, 3),
        1 => rng.between(1, MEMBERS),
        _ => rng.between(MEMBERS - 4, MEMBERS),
    }
}

/// A well-formed record.
pub fn record(rng: &mut Rng) -> Record {
    let name = words::channel_name(rng);
    let count = member_count(rng);
    record_of(rng, &name, count)
}

/// A well-formed record of that name and that many members, with a ban list.
pub fn whole_of(rng: &mut Rng, name: &[u8], count: usize) -> WholeRecord {
    WholeRecord { record: record_of(rng, name, count), bans: lists::list(rng) }
}

/// A well-formed record with a ban list.
pub fn whole(rng: &mut Rng) -> WholeRecord {
    WholeRecord { record: record(rng), bans: lists::list(rng) }
}

/// A well-formed table: any number of slots used, often none or all, in any places.
pub fn table(rng: &mut Rng) -> Table {
    let mut table = Table { links: links(rng), ..Table::EMPTY };
    let used = match rng.below(4) {
        0 => 0,
        1 => table.slots.len(),
        _ => rng.below(table.slots.len()),
    };
    let mut places: Vec<usize> = (0..table.slots.len()).collect();
    rng.shuffle(&mut places);
    for &place in &places[..used] {
        let record = record(rng);
        if table.slots.iter().all(|r| !names::equal(r.name(), record.name())) {
            table.slots[place] = record;
            table.bans[place] = lists::list(rng);
        }
    }
    if used == table.slots.len() {
        fill_free_slots(rng, &mut table);
    }
    table
}

/// Uses the slots that are free still by names that nothing else has.
fn fill_free_slots(rng: &mut Rng, table: &mut Table) {
    for place in 0..table.slots.len() {
        if table.slots[place].count == 0 {
            let name = format!("#only-{place}");
            let count = member_count(rng);
            table.slots[place] = record_of(rng, name.as_bytes(), count);
            table.bans[place] = lists::list(rng);
        }
    }
}

/// A set of links.
pub fn links(rng: &mut Rng) -> u32 {
    match rng.below(4) {
        0 => u32::MAX,
        1 => 1 << rng.below(32),
        _ => rng.number() as u32,
    }
}

/// The number of a link: mostly one of the set, else any.
pub fn link(rng: &mut Rng, set: u32) -> u32 {
    let registered: Vec<u32> = (0..32).filter(|&n| set & (1 << n) != 0).collect();
    if registered.is_empty() || rng.one_in(12) {
        return match rng.below(3) {
            0 => rng.below(32) as u32,
            1 => rng.pick(&[31, 32, 33, 63, 64, 255, 256, u32::MAX]),
            _ => rng.number() as u32,
        };
    }
    rng.pick(&registered)
}

/// The bytes that a record's fields have, each of which can be damaged.
pub const RECORD_BYTES: usize = 744;

/// Changes one byte of a record by the bits of `change`: the byte at that place, the fields counted
/// in their order with nothing between them.
pub fn damage_byte(record: &mut Record, place: usize, change: u8) {
    match place {
        0..=49 => record.name[place] ^= change,
        50..=57 => record.name_len ^= usize::from(change) << (8 * (place - 50)),
        58..=61 => record.time ^= u32::from(change) << (8 * (place - 58)),
        62 => record.modes ^= change,
        63..=85 => record.key[place - 63] ^= change,
        86..=93 => record.key_len ^= usize::from(change) << (8 * (place - 86)),
        94..=95 => record.limit ^= u16::from(change) << (8 * (place - 94)),
        96..=735 => {
            damage_member(&mut record.members[(place - 96) / 10], (place - 96) % 10, change)
        }
        736..=743 => record.count ^= usize::from(change) << (8 * (place - 736)),
        _ => panic!("a record has no byte {place}"),
    }
}

fn damage_member(member: &mut Member, place: usize, change: u8) {
    if place < member.id.len() {
        member.id[place] ^= change;
    } else {
        member.status ^= change;
    }
}

/// Damages a record in a byte or in what its parts say together.
pub fn damage_record(rng: &mut Rng, record: &mut Record) {
    match rng.below(6) {
        0 => record.count = rng.pick(&[0, 1, 63, 64, 65, usize::MAX]),
        1 => record.name_len = rng.pick(&[0, 1, 2, 49, 50, 51, usize::MAX]),
        2 => record.key_len = rng.pick(&[0, 1, 22, 23, 24, usize::MAX]),
        3 => {
            let (a, b) = (rng.below(MEMBERS), rng.below(MEMBERS));
            record.members.swap(a, b);
        }
        _ => {
            let change = if rng.one_in(2) { 1 << rng.below(8) } else { rng.byte() };
            damage_byte(record, rng.below(RECORD_BYTES), change);
        }
    }
}

/// Damages one slot of a table or its list, makes two slots alike, or gives a slot, free or not,
/// another list. Now and then the table stays well formed.
pub fn damage_table(rng: &mut Rng, table: &mut Table) {
    let slot = rng.below(table.slots.len());
    match rng.below(7) {
        0 => table.slots[slot] = table.slots[rng.below(table.slots.len())],
        1..=2 => lists::damage_list(rng, &mut table.bans[slot]),
        3 => table.bans[slot] = lists::list(rng),
        _ => damage_record(rng, &mut table.slots[slot]),
    }
}
