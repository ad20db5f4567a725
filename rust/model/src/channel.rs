//! The channel record, keys and merging.

use std::cmp::Ordering;

use crate::bans::{self, Masks};
use crate::names::{self, UserId};
use crate::{BanList, Refusal};

/// The most members of a channel.
pub const MEMBERS: usize = 64;

/// The most bytes of a key.
pub const KEY: usize = 23;

/// Voice, as a member's status has it.
pub const VOICE: u8 = 1;

/// Operator, as a member's status has it.
pub const OPERATOR: u8 = 2;

/// The letters of the modes; the letter at place n has the bit n.
pub const LETTERS: &[u8; 8] = b"imnpstkl";

/// The mode k, present exactly with a key.
pub const K: u8 = 64;

/// The mode l, present exactly with a limit.
pub const L: u8 = 128;

/// A user in a channel.
#[derive(Clone, Copy, Debug, PartialEq, Eq)]
pub struct Member {
    /// The user's id.
    pub id: UserId,
    /// Voice plus operator.
    pub status: u8,
}

/// A channel as a table's slot holds it, its ban list apart.
#[derive(Clone, Copy, Debug, PartialEq, Eq)]
pub struct Record {
    /// The name, then zeros.
    pub name: [u8; names::NAME],
    /// The length of the name.
    pub name_len: usize,
    /// The channel's time, 1 or more.
    pub time: u32,
    /// A bit for each mode.
    pub modes: u8,
    /// The key, then zeros.
    pub key: [u8; KEY],
    /// The length of the key, 0 without the mode k.
    pub key_len: usize,
    /// The limit, 0 without the mode l.
    pub limit: u16,
    /// The members, ids ascending, then zeros.
    pub members: [Member; MEMBERS],
    /// The number of members; 0 exactly in a free slot.
    pub count: usize,
}

/// A channel with its ban list, which document 02 counts to the record.
#[derive(Clone, Copy, Debug, PartialEq, Eq)]
pub struct WholeRecord {
    /// The channel.
    pub record: Record,
    /// Its ban list.
    pub bans: BanList,
}

impl Member {
    /// What stands in the room of no member.
    pub const NONE: Member = Member { id: [0; 9], status: 0 };
}

impl Record {
    /// What a free slot holds.
    pub const EMPTY: Record = Record {
        name: [0; names::NAME],
        name_len: 0,
        time: 0,
        modes: 0,
        key: [0; KEY],
        key_len: 0,
        limit: 0,
        members: [Member::NONE; MEMBERS],
        count: 0,
    };

    /// The name's bytes, in a record that is well formed.
    pub fn name(&self) -> &[u8] {
        &self.name[..self.name_len]
    }

    /// The key's bytes, none where there is no key, in a record that is well formed.
    pub fn key(&self) -> &[u8] {
        &self.key[..self.key_len]
    }

    /// The members, in a record that is well formed.
    pub fn members(&self) -> &[Member] {
        &self.members[..self.count]
    }

    /// Gives an empty record its name, of at most 50 bytes.
    pub fn set_name(&mut self, name: &[u8]) {
        self.name[..name.len()].copy_from_slice(name);
        self.name_len = name.len();
    }

    /// Gives a record without a key its key, of at most 23 bytes.
    pub fn set_key(&mut self, key: &[u8]) {
        self.key[..key.len()].copy_from_slice(key);
        self.key_len = key.len();
    }

    /// Gives the record these members, at most 64, and no other.
    pub fn set_members(&mut self, members: &[Member]) {
        self.members = [Member::NONE; MEMBERS];
        self.members[..members.len()].copy_from_slice(members);
        self.count = members.len();
    }

    /// Whether a table's slot may hold this for a channel.
    pub fn is_well_formed(&self) -> bool {
        self.time != 0 && self.has_good_name() && self.has_good_modes() && self.has_good_members()
    }

    fn has_good_name(&self) -> bool {
        let Some((name, unused)) = self.name.split_at_checked(self.name_len) else {
            return false;
        };
        names::is_channel_name(name) && all_zero(unused)
    }

    fn has_good_modes(&self) -> bool {
        let Some((key, unused)) = self.key.split_at_checked(self.key_len) else {
            return false;
        };
        let good_key = if self.modes & K != 0 { is_key(key) } else { key.is_empty() };
        let good_limit = (self.modes & L != 0) == (self.limit != 0);
        good_key && all_zero(unused) && good_limit
    }

    fn has_good_members(&self) -> bool {
        let Some((members, unused)) = self.members.split_at_checked(self.count) else {
            return false;
        };
        !members.is_empty()
            && members.iter().all(|m| names::is_user_id(&m.id) && m.status <= VOICE + OPERATOR)
            && members.windows(2).all(|two| two[0].id < two[1].id)
            && unused.iter().all(|m| *m == Member::NONE)
    }
}

fn all_zero(room: &[u8]) -> bool {
    room.iter().all(|&b| b == 0)
}

/// 1 to 23 bytes from 33 to 126 without comma, not starting with ':'.
pub fn is_key(key: &[u8]) -> bool {
    (1..=KEY).contains(&key.len())
        && key.iter().all(|&b| (33..=126).contains(&b) && b != b',')
        && key[0] != b':'
}

/// The greater key, compared as unsigned bytes, a proper beginning being smaller; the first where
/// they are equal. No key is the empty one, so where one side has none the other's stands.
pub fn greater_key<'a>(first: &'a [u8], second: &'a [u8]) -> &'a [u8] {
    if first < second {
        second
    } else {
        first
    }
}

/// Puts a user into a list, ids ascending; an id that is there already has both statuses.
pub fn add_member(list: &mut Vec<Member>, id: UserId, status: u8) {
    match list.binary_search_by(|m| m.id.cmp(&id)) {
        Ok(place) => list[place].status |= status,
        Err(place) => list.insert(place, Member { id, status }),
    }
}

impl WholeRecord {
    /// No channel, no masks.
    pub const EMPTY: WholeRecord = WholeRecord { record: Record::EMPTY, bans: BanList::EMPTY };

    /// The masks, if record and list are well formed.
    fn masks_if_well_formed(&self) -> Option<Masks> {
        self.bans.masks().filter(|_| self.record.is_well_formed())
    }
}

/// Merges two whole records, the first one's spelling kept.
pub fn merge(first: &WholeRecord, second: &WholeRecord) -> Result<WholeRecord, Refusal> {
    let masks = first.masks_if_well_formed().ok_or(Refusal::IllFormed)?;
    let others = second.masks_if_well_formed().ok_or(Refusal::IllFormed)?;
    if !names::equal(first.record.name(), second.record.name()) {
        return Err(Refusal::BadName);
    }
    let record = merge_well_formed(&first.record, &second.record)?;
    let masks = match first.record.time.cmp(&second.record.time) {
        Ordering::Less => masks,
        Ordering::Equal => bans::add(&masks, &others)?,
        Ordering::Greater => others,
    };
    Ok(WholeRecord { record, bans: BanList::of(&masks) })
}

/// SJOIN's three cases in one: a side gives its modes, key, limit and statuses if it has the
/// earlier time, which at equal times both have; its users join in any case.
pub fn merge_well_formed(first: &Record, second: &Record) -> Result<Record, Refusal> {
    let time = first.time.min(second.time);
    let mut merged = Record { time, ..Record::EMPTY };
    merged.set_name(first.name());
    let mut key = [].as_slice();
    let mut members = Vec::with_capacity(2 * MEMBERS);
    for side in [first, second] {
        let counts = side.time == time;
        if counts {
            merged.modes |= side.modes;
            merged.limit = merged.limit.max(side.limit);
            key = greater_key(key, side.key());
        }
        for member in side.members() {
            add_member(&mut members, member.id, if counts { member.status } else { 0 });
        }
    }
    if members.len() > MEMBERS {
        return Err(Refusal::ManyMembers);
    }
    merged.set_key(key);
    merged.set_members(&members);
    Ok(merged)
}

#[cfg(test)]
mod tests {
    use super::*;

    fn record(name: &[u8], time: u32, members: &[(&[u8; 9], u8)]) -> Record {
        let mut record = Record { time, ..Record::EMPTY };
        record.set_name(name);
        let mut list = Vec::new();
        for &(id, status) in members {
            add_member(&mut list, *id, status);
        }
        record.set_members(&list);
        record
    }

    fn keyed(mut record: Record, key: &[u8]) -> Record {
        record.modes |= K;
        record.set_key(key);
        record
    }

    #[test]
    fn greater_keys() {
        assert_eq!(greater_key(b"buoy", b"buoys"), b"buoys");
        assert_eq!(greater_key(b"buoys", b"buoy"), b"buoys");
        assert_eq!(greater_key(b"\x7f", b"\x80"), b"\x80");
        let (first, second) = (b"same", b"same");
        assert_eq!(greater_key(first, second).as_ptr(), first.as_ptr());
    }

    #[test]
    fn keys_at_equal_times() {
        let a = keyed(record(b"#a", 5, &[(b"1ABAAAAAA", 1)]), b"buoy");
        let b = keyed(record(b"#A", 5, &[(b"1ABAAAAAA", 2)]), b"buoys");
        let both = merge_well_formed(&a, &b).unwrap();
        assert_eq!(both.key(), b"buoys");
        assert_eq!((both.name(), both.members()[0].status), (b"#a".as_slice(), 3));
    }

    #[test]
    fn an_earlier_time_takes_statuses_and_leaves_members() {
        let old = keyed(record(b"#a", 1000, &[(b"2CDAAAAAA", 2)]), b"buoy");
        let new = record(b"#a", 999, &[(b"1ABAAAAAA", 1)]);
        let both = merge_well_formed(&old, &new).unwrap();
        assert_eq!(both, record(b"#a", 999, &[(b"1ABAAAAAA", 1), (b"2CDAAAAAA", 0)]));
    }

    #[test]
    fn a_later_time_brings_users_alone() {
        let old = record(b"#a", 999, &[(b"2CDAAAAAA", 2)]);
        let new = keyed(record(b"#a", 1000, &[(b"1ABAAAAAA", 1), (b"2CDAAAAAA", 1)]), b"z");
        let both = merge_well_formed(&old, &new).unwrap();
        assert_eq!(both, record(b"#a", 999, &[(b"1ABAAAAAA", 0), (b"2CDAAAAAA", 2)]));
    }

    /// A record with these masks, which stand in their order.
    fn whole(record: Record, masks: &[&str]) -> WholeRecord {
        let masks: Masks = masks.iter().map(|mask| mask.as_bytes().to_vec()).collect();
        WholeRecord { record, bans: BanList::of(&masks) }
    }

    #[test]
    fn refused_merges() {
        let a = whole(record(b"#a", 5, &[(b"1ABAAAAAA", 0)]), &["x"]);
        let b = whole(record(b"#b", 5, &[(b"1ABAAAAAA", 0)]), &[]);
        let unordered = WholeRecord { bans: whole(a.record, &["b", "a"]).bans, ..a };
        assert_eq!(merge(&a, &b), Err(Refusal::BadName));
        for ill in [WholeRecord::EMPTY, unordered, WholeRecord { record: Record::EMPTY, ..a }] {
            assert_eq!(merge(&b, &ill), Err(Refusal::IllFormed));
            assert_eq!(merge(&ill, &b), Err(Refusal::IllFormed));
        }
    }

    #[test]
    fn merged_lists() {
        let member: [(&[u8; 9], u8); 1] = [(b"1ABAAAAAA", 0)];
        let at = |time, masks: &[&str]| whole(record(b"#a", time, &member), masks);
        let merged = |a: &WholeRecord, b: &WholeRecord| merge(a, b).unwrap();
        let (old, new) = (at(5, &["a", "Boat[1]"]), at(5, &["BOAT{1}", "c"]));
        assert_eq!(merged(&old, &new), at(5, &["a", "Boat[1]", "c"]));
        assert_eq!(merged(&new, &old), at(5, &["a", "BOAT{1}", "c"]));
        assert_eq!(merged(&old, &at(6, &["z"])), old);
        assert_eq!(merged(&at(6, &["z"]), &old), old);
        assert_eq!(merged(&at(6, &["z"]), &at(5, &[])), at(5, &[]));
    }

    /// 22 comes before 27, and 27 is given at equal times alone.
    #[test]
    fn too_many_members_and_masks() {
        let names: Vec<String> = (10..43).map(|n| format!("m{n}")).collect();
        let texts: Vec<&str> = names.iter().map(String::as_str).collect();
        let ids: Vec<[u8; 9]> =
            (0..65).map(|n| format!("1ABA{n:05}").into_bytes().try_into().unwrap()).collect();
        let members: Vec<(&[u8; 9], u8)> = ids.iter().map(|id| (id, 0)).collect();
        let side = |time, users: std::ops::Range<usize>, masks: std::ops::Range<usize>| {
            whole(record(b"#a", time, &members[users]), &texts[masks])
        };
        let full = side(5, 0..64, 0..32);
        assert_eq!(merge(&full, &side(5, 64..65, 32..33)), Err(Refusal::ManyMembers));
        assert_eq!(merge(&full, &side(5, 0..1, 32..33)), Err(Refusal::ManyMasks));
        assert_eq!(merge(&full, &side(5, 0..1, 31..32)), Ok(full));
        assert_eq!(merge(&full, &side(6, 0..1, 32..33)), Ok(full));
        assert_eq!(
            merge(&full, &side(4, 0..1, 32..33)).unwrap().bans,
            BanList::of(&[texts[32].into()])
        );
    }

    #[test]
    fn keys_at_their_limits() {
        assert!(!is_key(b"") && is_key(b"x") && is_key(&[b'x'; 23]) && !is_key(&[b'x'; 24]));
        assert!(!is_key(b":x") && is_key(b"x:") && !is_key(b"a,b") && !is_key(b"a b"));
        assert!(is_key(&[33]) && !is_key(&[32]) && is_key(&[126]) && !is_key(&[127]));
    }

    #[test]
    fn well_formed_records() {
        let good = keyed(record(b"#a", 5, &[(b"1ABAAAAAA", 3), (b"1ABAAAAAB", 0)]), b"k");
        assert!(good.is_well_formed() && !Record::EMPTY.is_well_formed());
        let bad = |change: fn(&mut Record)| {
            let mut changed = good;
            change(&mut changed);
            assert!(!changed.is_well_formed(), "{changed:?}");
        };
        bad(|r| r.time = 0);
        bad(|r| r.name_len = 1);
        bad(|r| r.name_len = 3);
        bad(|r| r.name_len = usize::MAX);
        bad(|r| r.name[49] = 1);
        bad(|r| r.modes = 0);
        bad(|r| r.modes |= L);
        bad(|r| r.limit = 1);
        bad(|r| r.key_len = 0);
        bad(|r| r.key_len = usize::MAX);
        bad(|r| r.key[22] = 1);
        bad(|r| r.count = 1);
        bad(|r| r.count = 3);
        bad(|r| r.count = usize::MAX);
        bad(|r| r.members[1].status = 4);
        bad(|r| r.members[63].status = 1);
        bad(|r| r.members[63].id[8] = 1);
        bad(|r| r.members[1].id = r.members[0].id);
        bad(|r| r.members[0].id[3] = b'0');
    }
}
