//! Channels found by their names and told as texts, and the masks of their ban lists.

use relay::{describe, find, Found, Table, Written, BANS, LIST};

/// A table of two channels, in the slots 0 and 1, the first of which has two masks.
fn table() -> Table {
    let mut table = Table::empty();
    assert_eq!(table.register(3), 0);
    let mut out = [0; 512];
    for line in [
        ":1AB SJOIN 1000 #One +k buoy :@1ABAAAAAA 1ABAAAAAB\r\n",
        ":1AB SJOIN 1001 #two[ + 1ABAAAAAA\r\n",
        ":1AB BMASK 1000 #one b :spec* *!*@boat\r\n",
    ] {
        assert_eq!(table.take(3, line.as_bytes(), &mut out).number, 0, "{line}");
    }
    table
}

#[test]
fn channels_are_found_by_their_names() {
    let table = table();
    for (name, number, slot) in [
        ("#One", 0, 0),
        ("#ONE", 0, 0),
        ("#TWO{", 0, 1),
        ("#two", 19, 0),
        ("#One ", 19, 0),
        ("", 19, 0),
    ] {
        assert_eq!(find(&table.head, name.as_bytes()), Found { number, slot }, "{name}");
    }
    assert_eq!(find(&Table::empty().head, b""), Found { number: 19, slot: 0 });
}

/// What fits is at the front and the rest of the room as it was; what doesn't fit leaves all of it so.
#[test]
fn records_are_told_as_texts() {
    let text = b"1000 #One +k buoy @1ABAAAAAA 1ABAAAAAB";
    let record = table().head.slots[0];
    for size in 0..text.len() + 3 {
        let mut room = vec![0xa5; size];
        let written = describe(&record, &mut room);
        if size < text.len() {
            assert_eq!(written, Written { number: 25, len: 0 }, "{size}");
            assert_eq!(room, vec![0xa5; size]);
        } else {
            assert_eq!(written, Written { number: 0, len: text.len() }, "{size}");
            assert_eq!(room[..text.len()], *text);
            assert_eq!(room[text.len()..], vec![0xa5; size - text.len()]);
        }
    }
}

#[test]
fn records_that_are_not_well_formed_are_refused() {
    let slots = table().head.slots;
    let mut unsorted = slots[0];
    unsorted.members.swap(0, 1);
    let mut timeless = slots[0];
    timeless.time = 0;
    for record in [slots[2], unsorted, timeless] {
        for size in [0, 1, 869] {
            let mut room = vec![0xa5; size];
            assert_eq!(describe(&record, &mut room), Written { number: 1, len: 0 });
            assert_eq!(room, vec![0xa5; size]);
        }
    }
}

/// Every byte of the lists is made zero, whatever was there, and no byte beside them is touched.
#[test]
fn the_empty_table_is_all_zero() {
    let mut room = vec![0xa5; BANS + 2];
    let lists = &mut room[1..][..BANS];
    let head = relay::empty_head(lists.try_into().expect("so many bytes"));
    assert_eq!((head.links.set, head.slots.map(|r| (r.count, r.time))), (0, [(0, 0); 16]));
    assert_eq!((room[0], room[BANS + 1]), (0xa5, 0xa5));
    assert!(room[1..=BANS].iter().all(|&b| b == 0));
    assert!(Table::empty() == Table { head, bans: [0; BANS] });
}

#[test]
fn masks_are_read() {
    let table = table();
    let expected = [b"*!*@boat".as_slice(), b"spec*"];
    assert_eq!(table.masks(0).collect::<Vec<_>>(), expected);
    assert_eq!(table.channel(0).bans.masks().collect::<Vec<_>>(), expected);
    assert_eq!(table.channel(0).record, table.head.slots[0]);
    for slot in 1..16 {
        assert_eq!(table.masks(slot).count(), 0, "{slot}");
    }
}

/// Whatever the bytes, no mask is longer than its room, and there are at most 32.
#[test]
fn masks_of_any_bytes_are_read() {
    let mut table = table();
    table.bans = [0xff; BANS];
    for slot in 0..16 {
        assert!(table.masks(slot).eq([[0xff; 100]; 32]), "{slot}");
    }
    for count in 0..=255 {
        let mut list = table.channel(15).bans;
        (list.room[0], list.room[1], list.room[LIST - 101]) = (count, count, 0);
        let masks: Vec<&[u8]> = list.masks().collect();
        assert_eq!(masks.len(), usize::from(count).min(32));
        assert_eq!(masks.first().map_or(0, |mask| mask.len()), usize::from(count).min(100));
        assert_eq!(masks.get(31).map_or(0, |mask| mask.len()), 0);
    }
}
