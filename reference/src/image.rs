//! Document 01, 'Page layout': page 0, soundness and the fresh store; from
//! 'The plain ledger' the table; from 'Each call and when it says no' format,
//! check, lookup with its companion, and next key, where document 02 (b) says
//! which pages the last three read. Document 02 (j): a top page may stand above
//! the index pages.

use crate::device::{check_length, PAGE};
use crate::page::{is_key, read_page, two_bytes, Header, Record, INDEX, LEAF, TOP};
use crate::{refuse, Refusal};
use std::collections::{BTreeMap, BTreeSet};

/// "Byte 0 = 1, byte 1 = k (1 to 15 logged headers), bytes 2-3 = the new root
/// page (1 to N-1), bytes 4-7 zero."
#[derive(Clone, Copy, Debug, PartialEq, Eq)]
pub struct Mark {
    pub headers: usize,
    pub root: usize,
}

impl Mark {
    pub fn encode(&self) -> [u8; 8] {
        let root = (self.root as u16).to_le_bytes();
        [1, self.headers as u8, root[0], root[1], 0, 0, 0, 0]
    }
}

/// What line 0 of page 0 says; a mark if one waits.
#[derive(Clone, Copy, Debug, PartialEq, Eq)]
pub struct PageZero {
    pub mark: Option<Mark>,
    pub root: usize,
}

/// A leaf that keeps every clause of soundness by itself: its page, where its
/// records lie in that page, and the records, both in the order of the slots.
#[derive(Clone, Debug, PartialEq, Eq)]
pub struct Leaf {
    pub page: usize,
    pub slots: Vec<usize>,
    pub records: Vec<Record>,
}

impl Leaf {
    /// "The value's offset in the image and its length."
    pub fn find(&self, key: u64) -> Option<(usize, usize)> {
        let at = self.records.iter().position(|record| record.key == key)?;
        let offset = self.page * PAGE + self.slots[at] + 16;
        Some((offset, self.records[at].value.len()))
    }

    /// The smallest key above this number.
    fn key_above(&self, number: u64) -> Option<u64> {
        let keys = self.records.iter().map(|record| record.key);
        keys.filter(|&key| key > number).min()
    }
}

pub fn page_of(image: &[u8], number: usize) -> &[u8] {
    &image[number * PAGE..][..PAGE]
}

/// Page 0's line 0, if it is not wrong: "Page 0 is wrong if line 0 departs
/// from this, the mark included, or the root number is not 1 to N-1."
pub fn read_page_zero(image: &[u8]) -> Option<PageZero> {
    let pages = image.len() / PAGE;
    let mark = match &image[..8] {
        [0, 0, 0, 0, 0, 0, 0, 0] => None,
        [1, headers, low, high, 0, 0, 0, 0] => {
            let root = two_bytes(&[*low, *high], 0);
            if *headers < 1 || *headers > 15 || root < 1 || root >= pages {
                return None;
            }
            Some(Mark {
                headers: *headers as usize,
                root,
            })
        }
        _ => return None,
    };
    let root = u64::from_le_bytes(image[8..16].try_into().unwrap());
    let good = root >= 1
        && root < pages as u64
        && two_bytes(image, 16) == pages
        && two_bytes(image, 18) == 1
        && image[20..64].iter().all(|&byte| byte == 0);
    good.then_some(PageZero {
        mark,
        root: root as usize,
    })
}

/// "A page is reached if it is the root or is named by a root record"; document
/// 02 (j): or by a record of an index page under a top. Of a sound image.
pub fn reached(image: &[u8]) -> BTreeSet<usize> {
    let mut reader = Reader::new(image).expect("the image is sound");
    let mut pages = BTreeSet::from([reader.root.page]);
    pages.extend(reader.root.names());
    for at in 0..reader.count_indexes() {
        pages.extend(reader.index(at).expect("the image is sound").names());
    }
    pages
}

/// A page above the leaves: an index page, or a top page, "in the index form".
#[derive(Clone, Debug, PartialEq, Eq)]
pub struct Node {
    pub page: usize,
    pub kind: u8,
    pub records: Vec<Record>,
}

impl Node {
    /// The pages that its records name, in their order.
    pub fn names(&self) -> impl Iterator<Item = usize> + '_ {
        self.records.iter().map(Record::page)
    }

    /// "1 to 28 records; its pages are distinct [...] in 1 to N-1", and none of
    /// these others.
    fn names_well(&self, pages: usize, others: &BTreeSet<usize>) -> bool {
        let named: BTreeSet<usize> = self.names().collect();
        !self.records.is_empty()
            && named.len() == self.records.len()
            && named.iter().all(|page| (1..pages).contains(page))
            && named.is_disjoint(others)
    }
}

/// Where a leaf stands: in which index page, by that page's place in the top (0
/// without a top), and in which of its records.
#[derive(Clone, Copy, Debug, PartialEq, Eq)]
pub struct Place {
    pub index: usize,
    pub slot: usize,
}

/// The pages above the leaves that one call has read. Document 02 (b): "the pages
/// read break soundness by themselves"; the pages that one call reads are judged
/// together, so an index page's names must differ from those of all pages read
/// before.
pub struct Reader<'a> {
    image: &'a [u8],
    pub root: Node,
    /// Under a top, the index pages read, by their place in it.
    indexes: BTreeMap<usize, Node>,
}

impl Reader<'_> {
    /// The root's records, or the refusals for page 0 and the root alone: "1; 4 if
    /// page 0 is wrong; 3 if a well-formed mark waits; 4 if unsound". Every call
    /// that reads the tree starts so.
    pub fn new(image: &[u8]) -> Result<Reader<'_>, Refusal> {
        check_length(image)?;
        let Some(zero) = read_page_zero(image) else {
            return refuse(4);
        };
        if zero.mark.is_some() {
            return refuse(3);
        }
        let Some(root) = read_root(image, zero.root) else {
            return refuse(4);
        };
        Ok(Reader {
            image,
            root,
            indexes: BTreeMap::new(),
        })
    }

    fn under_top(&self) -> bool {
        self.root.kind == TOP
    }

    /// How many index pages there are.
    pub fn count_indexes(&self) -> usize {
        if self.under_top() {
            self.root.records.len()
        } else {
            1
        }
    }

    /// The index page at this place, read now if it was not before, or 4.
    pub fn index(&mut self, at: usize) -> Result<&Node, Refusal> {
        if self.under_top() && !self.indexes.contains_key(&at) {
            let Some(index) = self.read_index(at) else {
                return refuse(4);
            };
            self.indexes.insert(at, index);
        }
        Ok(self.index_read(at))
    }

    /// An index page that was read.
    fn index_read(&self, at: usize) -> &Node {
        match self.under_top() {
            true => &self.indexes[&at],
            false => &self.root,
        }
    }

    /// The index page that this record of the top names, if it keeps every clause
    /// of soundness by itself and beside the pages read.
    fn read_index(&self, at: usize) -> Option<Node> {
        let page = self.root.records[at].page();
        let records = read_page(page_of(self.image, page), page, INDEX)?;
        let index = Node {
            page,
            kind: INDEX,
            records,
        };
        let good = index.names_well(self.image.len() / PAGE, &self.read_names())
            && keeps_bounds(&index.records, &self.root.records, at);
        good.then_some(index)
    }

    /// The root's page and all pages that pages read so far name.
    fn read_names(&self) -> BTreeSet<usize> {
        let nodes = self.indexes.values().chain([&self.root]);
        let named = nodes.flat_map(Node::names);
        named.chain([self.root.page]).collect()
    }

    /// Where a key's leaf stands. Document 02 (j): "A key belongs by the old rule to
    /// one index page, then within it to a leaf."
    pub fn place_of(&mut self, key: u64) -> Result<Place, Refusal> {
        let index = match self.under_top() {
            true => child_of(&self.root.records, key),
            false => 0,
        };
        let slot = child_of(&self.index(index)?.records, key);
        Ok(Place { index, slot })
    }

    /// The leaf after: the next of the same index page, else the first of the next
    /// one, which is then read.
    pub fn place_after(&mut self, place: Place) -> Result<Option<Place>, Refusal> {
        let Place { index, slot } = place;
        if slot + 1 < self.index(index)?.records.len() {
            let slot = slot + 1;
            return Ok(Some(Place { index, slot }));
        }
        if index + 1 == self.count_indexes() {
            return Ok(None);
        }
        let index = index + 1;
        self.index(index)?;
        Ok(Some(Place { index, slot: 0 }))
    }

    /// The leaf that stands here, or 4 if it breaks a clause of soundness. Document
    /// 02 (b): "the pages read break soundness by themselves, separator bounds
    /// included".
    pub fn leaf(&mut self, place: Place) -> Result<Leaf, Refusal> {
        self.index(place.index)?;
        match self.read_leaf(place) {
            Some(leaf) => Ok(leaf),
            None => refuse(4),
        }
    }

    fn read_leaf(&self, place: Place) -> Option<Leaf> {
        let index = &self.index_read(place.index).records;
        let page = index[place.slot].page();
        let records = read_page(page_of(self.image, page), page, LEAF)?;
        let (low, high) = self.bounds(index, place);
        let good = (records.iter())
            .all(|record| record.key >= low && high.is_none_or(|high| record.key < high));
        // "No leaf is empty unless it is the only one": of the whole store.
        let only = self.count_indexes() == 1 && index.len() == 1;
        (good && (only || !records.is_empty())).then_some(Leaf {
            page,
            slots: Header::read(page_of(self.image, page))?.slots,
            records,
        })
    }

    /// Keys of this leaf are not below the one and below the other, if there is
    /// one. "Each leaf's keys are not below its separator (first leaf excepted) and
    /// are below the next separator." Document 02 (j): "The first leaf of any index
    /// page may hold keys below its own separator but not below that page's, the
    /// first index page excepted"; an index page's "last leaf's keys stay below the
    /// next index page's separator".
    fn bounds(&self, index: &[Record], place: Place) -> (u64, Option<u64>) {
        let low = match place {
            Place { index: 0, slot: 0 } => 0,
            Place { index, slot: 0 } => self.root.records[index].key,
            Place { slot, .. } => index[slot].key,
        };
        let next = match index.get(place.slot + 1) {
            None if self.under_top() => self.root.records.get(place.index + 1),
            next => next,
        };
        (low, next.map(|record| record.key))
    }
}

/// The root's records, if the root keeps every clause of soundness by itself.
fn read_root(image: &[u8], page: usize) -> Option<Node> {
    // "The root is an index with 1 to 28 records." Document 02 (j): "a top page,
    // kind 3, in the index form, may now stand above 1 to 28 index pages, and the
    // root word may name either kind".
    let kind = match Header::read(page_of(image, page))?.kind {
        TOP => TOP,
        _ => INDEX,
    };
    let records = read_page(page_of(image, page), page, kind)?;
    // "Its pages are distinct leaves in 1 to N-1, none the root." That they are
    // leaves, or index pages, is for them to show.
    let root = Node {
        page,
        kind,
        records,
    };
    let good = root.names_well(image.len() / PAGE, &BTreeSet::from([page]));
    good.then_some(root)
}

/// Document 02 (j): "An index page's separators keep the bounds of a leaf's keys":
/// they are not below the page's own separator in the top, the first index page
/// excepted, and below the next one.
fn keeps_bounds(index: &[Record], top: &[Record], at: usize) -> bool {
    let separators = || index.iter().map(|record| record.key);
    let above = at == 0 || separators().all(|key| key >= top[at].key);
    let below = at + 1 == top.len() || separators().all(|key| key < top[at + 1].key);
    above && below
}

/// The leaves of a sound image, by rising keys, or check's refusal.
pub fn sound_leaves(image: &[u8]) -> Result<Vec<Leaf>, Refusal> {
    let mut reader = Reader::new(image)?;
    let mut leaves = Vec::new();
    for index in 0..reader.count_indexes() {
        for slot in 0..reader.index(index)?.records.len() {
            leaves.push(reader.leaf(Place { index, slot })?);
        }
    }
    Ok(leaves)
}

/// Document 01, 'Edits': "A key belongs to the last leaf whose separator is not
/// above it, else to the first." The place of the record in its page, an index
/// page or a top.
pub fn child_of(records: &[Record], key: u64) -> usize {
    records
        .iter()
        .rposition(|record| record.key <= key)
        .unwrap_or(0)
}

/// Keys and values, keys rising.
pub type Table = Vec<(u64, Vec<u8>)>;

/// "A sound image's table is the key and value of each record that its reached
/// leaves list, keys rising."
pub fn table(image: &[u8]) -> Option<Table> {
    let leaves = sound_leaves(image).ok()?;
    let records = leaves.into_iter().flat_map(|leaf| leaf.records);
    Some(records.map(|record| (record.key, record.value)).collect())
}

/// "Check: 1; 4 if page 0 is wrong; 3 if a well-formed mark waits; 4 if
/// unsound."
pub fn check(image: &[u8]) -> Result<(), Refusal> {
    sound_leaves(image).map(|_| ())
}

/// "Format (writes a fresh store): 1 if the length isn't 8 to 64 whole pages."
pub fn format(image: &mut [u8]) -> Result<(), Refusal> {
    check_length(image)?;
    let pages = image.len() / PAGE;
    image.fill(0);
    image[8] = 1;
    image[16] = pages as u8;
    image[18] = 1;
    let index = Header {
        start: 1000,
        slots: vec![1000],
        ..Header::unused(INDEX, 1)
    };
    image[PAGE..][..64].copy_from_slice(&index.encode());
    image[PAGE + 1000..][..24].copy_from_slice(&Record::of_page(0, 2).encode());
    image[2 * PAGE..][..64].copy_from_slice(&Header::unused(LEAF, 2).encode());
    Ok(())
}

/// "Lookup answers the value's offset in the image and its length, or
/// missing." Document 02 (b): it "reads page 0, the index and one leaf"; and "1,
/// 3, 4 and 6 in the old order", so a key out of range reads its leaf too. (j):
/// under a top it reads the root, one index page and one leaf.
pub fn lookup(image: &[u8], key: u64) -> Result<Option<(usize, usize)>, Refusal> {
    let mut reader = Reader::new(image)?;
    let place = reader.place_of(key)?;
    let leaf = reader.leaf(place)?;
    if !is_key(key) {
        return refuse(6);
    }
    Ok(leaf.find(key))
}

/// "A companion hands back the value bytes themselves as part of the image,
/// with no copy; empty if refused or missing."
pub fn value(image: &[u8], key: u64) -> &[u8] {
    match lookup(image, key) {
        Ok(Some((offset, length))) => &image[offset..offset + length],
        _ => &[],
    }
}

/// "Next takes any 8-byte number and answers the smallest key above it, or
/// none." Document 02 (b): it "reads that and, only if that leaf holds no larger
/// key, the leaf after".
pub fn next_key(image: &[u8], number: u64) -> Result<Option<u64>, Refusal> {
    let mut reader = Reader::new(image)?;
    let place = reader.place_of(number)?;
    let key = reader.leaf(place)?.key_above(number);
    if key.is_some() {
        return Ok(key);
    }
    match reader.place_after(place)? {
        Some(after) => Ok(reader.leaf(after)?.key_above(number)),
        None => Ok(None),
    }
}
