//! The table: sixteen slots, each with a ban list, and the registered links.

use crate::mask;
use crate::names;
use crate::{BanList, Record, Refusal, WholeRecord};

/// The slots of a table.
pub const SLOTS: usize = 16;

/// The links are numbered 0 to 31.
pub const LINKS: u32 = 32;

/// What the relay holds.
#[derive(Clone, Copy, Debug, PartialEq, Eq)]
pub struct Table {
    /// A record each, or the empty one where the slot is free.
    pub slots: [Record; SLOTS],
    /// The registered links, link n as the bit n.
    pub links: u32,
    /// The ban list of each slot.
    pub bans: [BanList; SLOTS],
}

impl Table {
    /// Every slot free, no link registered.
    pub const EMPTY: Table =
        Table { slots: [Record::EMPTY; SLOTS], links: 0, bans: [BanList::EMPTY; SLOTS] };

    /// The used slots hold well-formed records with their lists, no two with equal names, and the
    /// free ones are zero, their lists too.
    pub fn is_well_formed(&self) -> bool {
        let good = |(record, list): (&Record, &BanList)| match record.count {
            0 => *record == Record::EMPTY && *list == BanList::EMPTY,
            _ => record.is_well_formed() && list.is_well_formed(),
        };
        self.slots.iter().zip(&self.bans).all(good) && self.names_differ()
    }

    fn names_differ(&self) -> bool {
        let used = || self.slots.iter().enumerate().filter(|(_, r)| r.count != 0);
        used().all(|(i, a)| used().all(|(j, b)| i <= j || !names::equal(a.name(), b.name())))
    }

    /// The used slot whose name, folded, equals this one.
    pub fn slot_of(&self, name: &[u8]) -> Option<usize> {
        self.slots.iter().position(|r| r.count != 0 && names::equal(r.name(), name))
    }

    /// The channel in a slot, with its list.
    pub fn whole(&self, slot: usize) -> WholeRecord {
        WholeRecord { record: self.slots[slot], bans: self.bans[slot] }
    }

    /// Whether some mask of the channel of that name matches the text.
    pub fn is_banned(&self, name: &[u8], text: &[u8]) -> Result<bool, Refusal> {
        if !self.is_well_formed() {
            return Err(Refusal::IllFormed);
        }
        if !names::is_channel_name(name) {
            return Err(Refusal::BadName);
        }
        let slot = self.slot_of(name).ok_or(Refusal::NoChannel)?;
        if text.len() > mask::TEXT {
            return Err(Refusal::LongText);
        }
        let masks = self.bans[slot].masks().expect("it is well formed");
        Ok(masks.iter().any(|m| mask::matches(m, text) == Ok(true)))
    }

    /// The lowest free slot.
    pub fn free_slot(&self) -> Option<usize> {
        self.slots.iter().position(|r| r.count == 0)
    }

    /// Registers a link; twice changes nothing more.
    pub fn register(&mut self, link: u32) -> Result<(), Refusal> {
        self.links |= self.link_bit(link)?;
        Ok(())
    }

    /// Drops a link and leaves the channels as they are; twice changes nothing more.
    pub fn unregister(&mut self, link: u32) -> Result<(), Refusal> {
        self.links &= !self.link_bit(link)?;
        Ok(())
    }

    fn link_bit(&self, link: u32) -> Result<u32, Refusal> {
        if !self.is_well_formed() {
            return Err(Refusal::IllFormed);
        }
        if link >= LINKS {
            return Err(Refusal::BadLink);
        }
        Ok(1 << link)
    }

    /// Whether a link has this number and is registered.
    pub fn has_link(&self, link: u32) -> bool {
        link < LINKS && self.links & (1 << link) != 0
    }

    /// Takes a user out of a slot if it is there, and says whether it was. An emptied slot is
    /// zeroed, and its list with it.
    pub fn remove_member(&mut self, slot: usize, id: &[u8]) -> bool {
        let record = &mut self.slots[slot];
        let mut members = record.members().to_vec();
        members.retain(|m| m.id != id);
        if members.len() == record.count {
            return false;
        }
        record.set_members(&members);
        if members.is_empty() {
            *record = Record::EMPTY;
            self.bans[slot] = BanList::EMPTY;
        }
        true
    }
}

#[cfg(test)]
mod tests {
    use super::*;
    use crate::Member;

    fn table_of(names: &[&[u8]]) -> Table {
        let mut table = Table::EMPTY;
        for (slot, name) in table.slots.iter_mut().zip(names) {
            slot.time = 1;
            slot.set_name(name);
            slot.set_members(&[Member { id: *b"1ABAAAAAA", status: 0 }]);
        }
        table
    }

    #[test]
    fn no_two_names_are_equal() {
        assert!(Table::EMPTY.is_well_formed());
        assert!(table_of(&[b"#a", b"#b"]).is_well_formed());
        assert!(!table_of(&[b"#a[", b"#b", b"#A{"]).is_well_formed());
    }

    #[test]
    fn free_slots_are_zero() {
        let mut table = table_of(&[b"#a"]);
        table.slots[9].time = 1;
        assert!(!table.is_well_formed());
        table.slots[9] = Record::EMPTY;
        table.slots[0].count = 0;
        assert!(!table.is_well_formed());
    }

    #[test]
    fn lists_of_used_and_free_slots() {
        let mut table = table_of(&[b"#a"]);
        let list = BanList::of(&[b"x".to_vec()]);
        table.bans[0] = list;
        assert!(table.is_well_formed());
        table.bans[1] = list;
        assert!(!table.is_well_formed());
        table.bans[1] = BanList::EMPTY;
        table.bans[0].room[3000] = 1;
        assert!(!table.is_well_formed());
    }

    #[test]
    fn texts_that_are_banned() {
        let mut table = table_of(&[b"#Race", b"#open"]);
        table.bans[0] = BanList::of(&[b"*!*@Spec[1]".to_vec(), b"boat?".to_vec()]);
        let banned =
            |name: &[u8], text: &[u8]| table.is_banned(name, text).map_err(Refusal::number);
        assert_eq!(banned(b"#RACE", b"joe!x@SPEC{1}"), Ok(true));
        assert_eq!(banned(b"#race", b"Boat1"), Ok(true));
        assert_eq!(banned(b"#race", b"boat"), Ok(false));
        assert_eq!(banned(b"#race", b""), Ok(false));
        assert_eq!(banned(b"#open", b"boat1"), Ok(false));
        assert_eq!(banned(b"#open", &[b'x'; 512]), Ok(false));
        assert_eq!(banned(b"#open", &[b'x'; 513]), Err(23));
        assert_eq!(banned(b"#gone", &[b'x'; 513]), Err(19));
        assert_eq!(banned(b"race", &[b'x'; 513]), Err(16));
        let mut ill = table;
        ill.bans[15].room[0] = 1;
        assert_eq!(ill.is_banned(b"race", b""), Err(Refusal::IllFormed));
        table.bans[1] = BanList::of(&[b"*".to_vec()]);
        assert_eq!(table.is_banned(b"#open", b""), Ok(true));
    }

    #[test]
    fn links_twice() {
        let mut table = Table::EMPTY;
        for _ in 0..2 {
            assert_eq!(table.register(31), Ok(()));
            assert_eq!(table.links, 1 << 31);
        }
        assert_eq!(table.register(32), Err(Refusal::BadLink));
        assert_eq!(table.unregister(u32::MAX), Err(Refusal::BadLink));
        for _ in 0..2 {
            assert_eq!(table.unregister(31), Ok(()));
            assert_eq!(table.links, 0);
        }
        table.slots[3].modes = 1;
        assert_eq!(table.register(32), Err(Refusal::IllFormed));
    }
}
