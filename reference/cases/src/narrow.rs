//! Document 02 (b): what lookup, next key and preview answer on a harmed image,
//! by what its builder knows and with no page judged; and calls to make on it.

use crate::harms::Harmed;
use crate::images::{Place, LAST_KEY};
use crate::lists::{List, KEY_RULES};
use crate::previews::{any_key, any_list};
use crate::random::Random;

/// How a preview ends on a list that has no fault of its own.
#[derive(Clone, Copy, Debug, PartialEq, Eq)]
pub enum End {
    /// The refusal of page 0 or the root.
    BeforeLeaves(u8),
    /// 6.
    KeyAsked,
    /// 4, of the leaf that this edit needs, or of its index page under a top.
    LeafOfEdit(usize),
    /// 8 or 9, of this edit.
    KeyRule {
        number: u8,
        edit: usize,
    },
    /// 4, last of all.
    LeafOfKey,
    InList {
        offset: usize,
        length: usize,
    },
    InImage {
        offset: usize,
        length: usize,
    },
    Missing,
}

impl End {
    /// As the numbers of the C interface: 0 or the refusal's number; edit
    /// number, which buffer has the value (1 the list, 2 the image, 0 none),
    /// offset and length.
    pub fn numbers(self) -> (u8, [u64; 4]) {
        let (number, four) = match self {
            End::BeforeLeaves(number) => (number, [0; 4]),
            End::KeyAsked => (6, [0; 4]),
            End::LeafOfEdit(_) | End::LeafOfKey => (4, [0; 4]),
            End::KeyRule { number, edit } => (number, [edit, 0, 0, 0]),
            End::InList { offset, length } => (0, [0, 1, offset, length]),
            End::InImage { offset, length } => (0, [0, 2, offset, length]),
            End::Missing => (0, [0; 4]),
        };
        (number, four.map(|number| number as u64))
    }
}

fn in_range(key: u64) -> bool {
    (1..=LAST_KEY).contains(&key)
}

/// An edit's kind, value length and key.
fn head(edit: &[u8]) -> (u8, usize, u64) {
    let key = edit[2..10].try_into().unwrap();
    (edit[0], edit[1] as usize, u64::from_le_bytes(key))
}

impl Harmed {
    /// The leaf that a key belongs to.
    pub fn leaf_of(&self, key: u64) -> usize {
        self.built.leaf_of(key)
    }

    /// The refusal that comes before any leaf is read, or any index page under a top.
    pub fn before_leaves(&self) -> Option<u8> {
        self.page_zero.or(self.root.map(|_| 4))
    }

    /// The records of this leaf, if it is good, and its index page under a top too.
    fn leaf(&self, at: usize) -> Result<&[Place], u8> {
        match self.on_way_to(at) {
            Some(_) => Err(4),
            None => Ok(&self.built.leaves[at].places),
        }
    }

    fn find(&self, key: u64) -> Result<Option<(usize, usize)>, u8> {
        let places = self.leaf(self.leaf_of(key))?;
        let found = places.iter().find(|place| place.key == key);
        Ok(found.map(|place| (place.at + 16, place.length)))
    }

    /// The value's offset and length, none if missing, or the refusal.
    pub fn lookup(&self, key: u64) -> Result<Option<(usize, usize)>, u8> {
        self.before_leaves().map_or(Ok(()), Err)?;
        let found = self.find(key)?;
        if in_range(key) {
            Ok(found)
        } else {
            Err(6)
        }
    }

    /// The smallest key above the number in this leaf, if it is good.
    fn above(&self, at: usize, number: u64) -> Result<Option<u64>, u8> {
        let mut keys = self.leaf(at)?.iter().map(|place| place.key);
        Ok(keys.find(|&key| key > number))
    }

    /// The next key, none if there is none, or the refusal.
    pub fn next_key(&self, number: u64) -> Result<Option<u64>, u8> {
        self.before_leaves().map_or(Ok(()), Err)?;
        let at = self.leaf_of(number);
        match self.above(at, number)? {
            None if at + 1 < self.leaves.len() => self.above(at + 1, number),
            found => Ok(found),
        }
    }

    /// How the preview of these edits ends.
    pub fn preview(&self, edits: &[Vec<u8>], key: u64) -> End {
        if let Some(number) = self.before_leaves() {
            return End::BeforeLeaves(number);
        }
        if !in_range(key) {
            return End::KeyAsked;
        }
        if let Some(end) = (0..edits.len()).find_map(|at| self.refused_edit(edits, at)) {
            return end;
        }
        let Some(last) = edits.iter().rposition(|edit| head(edit).2 == key) else {
            return match self.find(key) {
                Err(_) => End::LeafOfKey,
                Ok(Some((offset, length))) => End::InImage { offset, length },
                Ok(None) => End::Missing,
            };
        };
        let (kind, length, _) = head(&edits[last]);
        let offset = edits[..last].concat().len() + 10;
        match kind {
            3 => End::Missing,
            _ => End::InList { offset, length },
        }
    }

    fn refused_edit(&self, edits: &[Vec<u8>], at: usize) -> Option<End> {
        let (kind, _, key) = head(&edits[at]);
        let Ok(stored) = self.find(key) else {
            return Some(End::LeafOfEdit(at));
        };
        let mut before = edits[..at].iter().rev().map(|edit| head(edit));
        let present = match before.find(|head| head.2 == key) {
            Some((kind, ..)) => kind != 3,
            None => stored.is_some(),
        };
        let number = if kind == 1 { 8 } else { 9 };
        (present == (kind == 1)).then_some(End::KeyRule { number, edit: at })
    }

    /// A key or other number to ask: mostly in or beside a leaf that is bad or has a
    /// bad index page, at or beside a key or a separator.
    pub fn any_key(&self, random: &mut Random) -> u64 {
        if let Some(last) = self.before_bad_index().filter(|_| random.one_in(3)) {
            return last;
        }
        let bad = (0..self.leaves.len()).find(|&at| self.on_way_to(at).is_some());
        let at = match bad {
            Some(bad) if !random.one_in(3) => (bad + random.below(3)).saturating_sub(1),
            _ => random.below(self.leaves.len()),
        };
        let at = at.min(self.leaves.len() - 1);
        let places = &self.built.leaves[at].places;
        let near = match random.below(4) {
            0 if random.one_in(2) => self.own_separator(at),
            0 => self.built.bounds[at],
            1 => places.last().map_or(1, |place| place.key),
            _ if places.is_empty() => 1,
            _ => places[random.below(places.len())].key,
        };
        match random.below(12) {
            0 => random.pick(&[0, 1, LAST_KEY, LAST_KEY + 1, u64::MAX]),
            1 => random.number() % LAST_KEY,
            2 => near.saturating_sub(1),
            3 | 4 => near + 1,
            _ => near,
        }
    }

    /// The last key before an index page that is bad: the next key reads that.
    fn before_bad_index(&self) -> Option<u64> {
        let mut leaves = 1..self.leaves.len();
        let first = leaves.find(|&at| {
            let starts = self.built.place_of(at).1 == 0;
            starts && self.index_of(at).is_some() && self.on_way_to(at - 1).is_none()
        });
        let last = self.built.leaves[first? - 1].places.last();
        last.map(|place| place.key)
    }

    /// The separator of the record that names this leaf.
    fn own_separator(&self, leaf: usize) -> u64 {
        let (index, slot) = self.built.place_of(leaf);
        self.built.indexes[index].places[slot].key
    }

    /// An edit list and a key to ask: one list in three has an edit that breaks
    /// the key rules.
    pub fn any_preview(&self, random: &mut Random) -> (List, u64) {
        let table = &self.built.table;
        let mut list = any_list(random, table);
        if random.one_in(3) {
            // "8 insert of a key present; 9 other edit of a missing key."
            let fault = random.pick(&KEY_RULES);
            list.spoil(random, fault);
            list.edits.truncate(16);
        }
        let key = match random.below(4) {
            0 => self.any_key(random),
            _ => any_key(random, table, &list),
        };
        (list, key)
    }
}
