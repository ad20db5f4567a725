//! Each byte of a table and of a record changed, one at a time, those of the ban lists too.

use model::bans::{LIST, MASKS};
use model::{Table, WholeRecord};
use trials::compare::bans::compare_banned;
use trials::compare::tables::{compare_links, compare_merge};
use trials::compare::taking::compare_take;
use trials::inputs::tables::{damage_byte, record_of, RECORD_BYTES};
use trials::inputs::{lists, words};
use trials::lent::Lent;
use trials::rng::Rng;
use trials::tally::Tally;

/// A table whose slots are full, nearly empty and free by turns, and so are their lists.
fn table(rng: &mut Rng) -> Table {
    let mut table = Table { links: u32::MAX, ..Table::EMPTY };
    for place in 0..table.slots.len() {
        let name = [b'#', b'a' + place as u8];
        match place % 3 {
            0 => {
                table.slots[place] = record_of(rng, &name, 64);
                table.bans[place] = lists::list_of(rng, MASKS);
            }
            1 => {
                table.slots[place] = record_of(rng, &name, 2);
                table.bans[place] = lists::list_of(rng, place % 5);
            }
            _ => {}
        }
    }
    table
}

/// Everything that reads a table, with this one.
fn compare_all(table: &Table, out: &Lent, tally: &mut Tally) {
    compare_links(table, 5, tally);
    compare_banned(table, b"#a", b"boat", tally);
    for line in
        [b":1AB SJOIN 1000 #a + 1ABA00000\r\n".as_slice(), b":1AB BMASK 1 #a b :*!*@spec* x\r\n"]
    {
        compare_take(&mut { *table }, 5, line, out.clone(), tally);
    }
}

#[test]
fn of_a_table() {
    let mut rng = Rng::new(1);
    let whole = table(&mut rng);
    assert!(whole.is_well_formed());
    let out = Lent::new(&mut rng, 512);
    let mut tally = Tally::default();
    for slot in 0..whole.slots.len() {
        for place in 0..RECORD_BYTES {
            let change = 1 << rng.below(8);
            let mut damaged = whole;
            damage_byte(&mut damaged.slots[slot], place, change);
            assert!(damaged != whole);
            compare_links(&damaged, 5, &mut tally);
            let line = b":1AB SJOIN 1000 #a + 1ABA00000\r\n";
            compare_take(&mut damaged, 5, line, out.clone(), &mut tally);
        }
    }
    assert_eq!(tally.missing(&[0, 1]), []);
}

/// The lists of three slots whole, and of each other slot the bytes at the ends of its list and rooms.
#[test]
fn of_the_lists() {
    let mut rng = Rng::new(4);
    let whole = table(&mut rng);
    let out = Lent::new(&mut rng, 512);
    let mut tally = Tally::default();
    compare_all(&whole, &out, &mut tally);
    assert_eq!(tally.unexpected(&[0, 22, 27]), [], "it is well formed");
    for slot in 0..whole.bans.len() {
        for place in 0..LIST {
            let at_an_end = place == 0 || place == LIST - 1 || place % 101 < 3;
            if slot > 2 && !at_an_end {
                continue;
            }
            let mut damaged = whole;
            damaged.bans[slot].room[place] ^= 1 << rng.below(8);
            compare_all(&damaged, &out, &mut tally);
        }
    }
    assert_eq!(tally.missing(&[0, 1]), []);
}

/// Each thing that is wrong with a list, in a used slot and in a free one.
#[test]
fn lists_that_are_not_well_formed() {
    let mut rng = Rng::new(5);
    let mut good = Table { links: u32::MAX, ..Table::EMPTY };
    good.slots[7] = record_of(&mut rng, b"#a", 3);
    let masks = [b"*!*@boat".to_vec(), b"Spec".to_vec(), b"spec1".to_vec()];
    good.bans[7] = model::BanList::of(&masks);
    assert!(good.is_well_formed());
    let out = Lent::new(&mut rng, 512);
    let changes: [fn(&mut [u8; LIST]); 21] = [
        |room| room[0] = 33,
        |room| room[0] = 255,
        |room| room[0] = 2,
        |room| room[0] = 4,
        |room| room[1] = 0,
        |room| room[1] = 7,
        |room| room[1] = 9,
        |room| room[1] = 101,
        |room| room[1] = 255,
        |room| room[102] = 0,
        |room| room[4] = b' ',
        |room| room[4] = 0,
        |room| room[4] = b'\r',
        |room| room[4] = b'\n',
        |room| room[10] = 1,
        |room| room[101] = 1,
        |room| room[304] = 1,
        |room| room[LIST - 1] = 1,
        |room| room[2] = b'}',
        |room| room.copy_within(102..203, 203),
        |room| room[203..209].copy_from_slice(b"\x04SPEC\0"),
    ];
    for change in changes {
        let mut ill = good;
        change(&mut ill.bans[7].room);
        let mut tally = Tally::default();
        compare_all(&ill, &out, &mut tally);
        let (first, second) = (good.whole(7), ill.whole(7));
        compare_merge(&first, &second, &mut tally);
        compare_merge(&second, &first, &mut tally);
        assert_eq!(tally.unexpected(&[1]), [], "{:?}", ill.bans[7]);
    }
    for masks in 1..=MASKS {
        let mut ill = good;
        ill.bans[rng.pick(&[0, 6, 8, 15])] = lists::list_of(&mut rng, masks);
        let mut tally = Tally::default();
        compare_all(&ill, &out, &mut tally);
        assert_eq!(tally.unexpected(&[1]), [], "a free slot with {masks} masks");
    }
}

#[test]
fn of_a_record() {
    let mut rng = Rng::new(2);
    let mut tally = Tally::default();
    for count in [1, 31, 64] {
        let first = whole_of(&mut rng, b"#Race", count, 3);
        let second = whole_of(&mut rng, b"#race", 40, 30);
        for place in 0..RECORD_BYTES {
            for change in [1, 1 << rng.below(8), rng.byte()] {
                let mut damaged = first;
                damage_byte(&mut damaged.record, place, change);
                compare_merge(&damaged, &second, &mut tally);
                compare_merge(&second, &damaged, &mut tally);
            }
        }
        for place in 0..LIST {
            let mut damaged = first;
            damaged.bans.room[place] ^= 1 << rng.below(8);
            compare_merge(&damaged, &second, &mut tally);
            compare_merge(&second, &damaged, &mut tally);
        }
    }
    assert_eq!(tally.missing(&[0, 1, 16, 22]), []);
}

/// A record of so many members and masks.
fn whole_of(rng: &mut Rng, name: &[u8], members: usize, masks: usize) -> WholeRecord {
    WholeRecord { record: record_of(rng, name, members), bans: lists::list_of(rng, masks) }
}

/// Every pair of slots made alike, the spelling apart.
#[test]
fn two_slots_alike() {
    let mut rng = Rng::new(3);
    let mut tally = Tally::default();
    let mut whole = table(&mut rng);
    for (place, slot) in whole.slots.iter_mut().enumerate().filter(|(_, r)| r.count == 0) {
        *slot = record_of(&mut rng, format!("#[{place}]").as_bytes(), 1);
    }
    assert!(whole.is_well_formed());
    for (one, other) in pairs(whole.slots.len()) {
        let mut alike = whole;
        alike.slots[other].name = [0; 50];
        let name = words::respelled(&mut rng, whole.slots[one].name());
        alike.slots[other].set_name(&name);
        compare_links(&alike, 0, &mut tally);
    }
    assert_eq!(tally.unexpected(&[1]), []);
}

fn pairs(count: usize) -> impl Iterator<Item = (usize, usize)> {
    (0..count)
        .flat_map(move |one| (0..count).map(move |other| (one, other)))
        .filter(|(a, b)| a != b)
}
