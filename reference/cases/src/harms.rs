//! Images for document 02 (b), in which single pages are harmed. Each page that
//! is harmed surely breaks a clause of soundness by itself, and the others keep
//! theirs: so a test knows, apart from the reference, which reads are refused.

use crate::images::{size, Built, Reached, LAST_KEY};
use crate::random::Random;

#[derive(Clone, Copy, Debug, PartialEq, Eq)]
pub enum Harm {
    // In the header of any page.
    CountAbove28,
    StartBelow64,
    StartNoMultipleOf8,
    StartAbove1024,
    StartAboveRecord,
    OtherKind,
    OtherNumber,
    ZeroOfHeader,
    SlotNoMultipleOf8,
    SlotPastCount,
    SlotsAlike,
    SlotsSwapped,
    SlotAtEnd,
    NoRecord,
    // In a record of any page.
    LengthAbove200,
    SixZeros,
    Padding,
    LastKeyAboveRange,
    // In a key of a leaf.
    FirstKeyZero,
    FirstKeyBelowSeparator,
    LastKeyAtNextSeparator,
    // In the index, which then leaves one leaf outside its bounds.
    SeparatorLowered,
    SeparatorRaised,
    // In an index page or the top, which then is bad itself.
    NamesPageZero,
    NamesPagePastLast,
    NamesRoot,
    NamesPageTwice,
    SeparatorsAlike,
    // In an index page under a top, which then is bad beside the top.
    NamesIndexPage,
    SeparatorBelowPages,
    SeparatorAtNextPages,
}

const OF_ALL: [Harm; 18] = [
    Harm::CountAbove28,
    Harm::StartBelow64,
    Harm::StartNoMultipleOf8,
    Harm::StartAbove1024,
    Harm::StartAboveRecord,
    Harm::OtherKind,
    Harm::OtherNumber,
    Harm::ZeroOfHeader,
    Harm::SlotNoMultipleOf8,
    Harm::SlotPastCount,
    Harm::SlotsAlike,
    Harm::SlotsSwapped,
    Harm::SlotAtEnd,
    Harm::NoRecord,
    Harm::LengthAbove200,
    Harm::SixZeros,
    Harm::Padding,
    Harm::LastKeyAboveRange,
];

const OF_LEAVES: [Harm; 5] = [
    Harm::FirstKeyZero,
    Harm::FirstKeyBelowSeparator,
    Harm::LastKeyAtNextSeparator,
    Harm::SeparatorLowered,
    Harm::SeparatorRaised,
];

const OF_INDEX: [Harm; 5] = [
    Harm::NamesPageZero,
    Harm::NamesPagePastLast,
    Harm::NamesRoot,
    Harm::NamesPageTwice,
    Harm::SeparatorsAlike,
];

const OF_LOWER: [Harm; 3] = [
    Harm::NamesIndexPage,
    Harm::SeparatorBelowPages,
    Harm::SeparatorAtNextPages,
];

/// Every harm that makes a leaf bad.
pub fn of_leaves() -> Vec<Harm> {
    [&OF_ALL[..], &OF_LEAVES].concat()
}

/// Every harm that makes the root bad.
pub fn of_root() -> Vec<Harm> {
    [&OF_ALL[..], &OF_INDEX].concat()
}

/// Every harm that makes an index page under a top bad.
pub fn of_lower() -> Vec<Harm> {
    [&OF_ALL[..], &OF_INDEX, &OF_LOWER].concat()
}

/// What may be wrong in line 0 of page 0, and the refusal that it gets.
pub const OF_PAGE_ZERO: [(&str, u8); 9] = [
    ("a waiting mark", 3),
    ("a mark of another kind", 4),
    ("a mark with no header", 4),
    ("root 0", 4),
    ("root past the last page", 4),
    ("another page count", 4),
    ("another format", 4),
    ("zeros of page 0", 4),
    ("a waiting mark, zeros of page 0", 4),
];

/// An image with harm in it, or none yet.
#[derive(Clone, Debug)]
pub struct Harmed {
    /// As built, but for the image, and for the bounds that a moved separator gives.
    pub built: Built,
    /// The refusal that line 0 of page 0 gets.
    pub page_zero: Option<u8>,
    pub root: Option<Harm>,
    /// Of the index pages under a top; without a top none.
    pub lower: Vec<Option<Harm>>,
    pub leaves: Vec<Option<Harm>>,
}

impl Harmed {
    pub fn not_yet(built: &Built) -> Harmed {
        Harmed {
            built: built.clone(),
            page_zero: None,
            root: None,
            lower: vec![None; built.top.as_ref().map_or(0, |_| built.indexes.len())],
            leaves: vec![None; built.leaves.len()],
        }
    }

    /// The harm of the leaf, or of the index page above it under a top: either way
    /// the leaf cannot be read.
    pub fn on_way_to(&self, leaf: usize) -> Option<Harm> {
        self.index_of(leaf).or(self.leaves[leaf])
    }

    /// The harm of the index page above a leaf, under a top.
    pub fn index_of(&self, leaf: usize) -> Option<Harm> {
        let (index, _) = self.built.place_of(leaf);
        self.lower.get(index).copied().flatten()
    }

    /// Nothing but the root and page 0 is bad.
    pub fn is_good_below(&self) -> bool {
        !self.lower.iter().chain(&self.leaves).any(Option::is_some)
    }

    /// Makes this leaf bad; false if that can't be done so, or it is bad
    /// already.
    pub fn harm_leaf(&mut self, random: &mut Random, at: usize, harm: Harm) -> bool {
        let several = self.leaves.len() > 1;
        if self.leaves[at].is_some() || (harm == Harm::NoRecord && !several) {
            return false;
        }
        let image = &mut self.built.image;
        let leaf = &self.built.leaves[at];
        let done = header(image, leaf, harm)
            || record(random, image, leaf, harm)
            || self.move_key(at, harm)
            || self.move_separator(at, harm);
        if done {
            self.leaves[at] = Some(harm);
        }
        done
    }

    /// Makes the root bad; false if that can't be done so, or it is bad already.
    pub fn harm_root(&mut self, random: &mut Random, harm: Harm) -> bool {
        if self.root.is_some() {
            return false;
        }
        let root = self.built.root().clone();
        let done = self.harm_above(random, &root, harm);
        if done {
            self.root = Some(harm);
        }
        done
    }

    /// Makes this index page under a top bad; false if that can't be done so, or it is
    /// bad already.
    pub fn harm_lower(&mut self, random: &mut Random, at: usize, harm: Harm) -> bool {
        if self.lower[at].is_some() {
            return false;
        }
        let index = self.built.indexes[at].clone();
        let done = self.harm_above(random, &index, harm) || self.harm_beside_top(random, at, harm);
        if done {
            self.lower[at] = Some(harm);
        }
        done
    }

    /// Harm that any page above the leaves may have.
    fn harm_above(&mut self, random: &mut Random, page: &Reached, harm: Harm) -> bool {
        let image = &mut self.built.image;
        header(image, page, harm)
            || record(random, image, page, harm)
            || self.harm_names(random, page, harm)
    }

    /// Harm beside the top: a page named that the top names, or a separator out of the
    /// page's bounds, where those of the page still rise.
    fn harm_beside_top(&mut self, random: &mut Random, at: usize, harm: Harm) -> bool {
        let top = &self.built.top.as_ref().expect("it is under a top").places;
        let places = &self.built.indexes[at].places;
        let (first, last) = (places[0].at, places[places.len() - 1].at);
        let (place, key) = match harm {
            Harm::NamesIndexPage => {
                let place = places[random.below(places.len())].at;
                let page = self.built.indexes[random.below(top.len())].page;
                put(&mut self.built.image, place + 16, page);
                return true;
            }
            Harm::SeparatorBelowPages if at > 0 => (first, top[at].key - 1),
            Harm::SeparatorAtNextPages if at + 1 < top.len() => (last, top[at + 1].key),
            _ => return false,
        };
        put_key(&mut self.built.image, place, key);
        true
    }

    /// Makes line 0 of page 0 wrong, by the number in `OF_PAGE_ZERO`.
    pub fn harm_page_zero(&mut self, random: &mut Random, which: usize) {
        let root = self.built.root().page as u8;
        let line = &mut self.built.image[..64];
        let headers = random.between(1, 15) as u8;
        let mark = [1, headers, root, 0, 0, 0, 0, 0];
        match which {
            0 | 8 => line[..8].copy_from_slice(&mark),
            1 => line[0] = 2,
            2 => line[0] = 1,
            3 => line[8] = 0,
            4 => line[8] = self.built.pages as u8,
            5 => line[16] += 1,
            6 => line[18] = 2,
            _ => {}
        }
        if which >= 7 {
            line[random.between(20, 63)] = 1;
        }
        self.page_zero = Some(OF_PAGE_ZERO[which].1);
    }

    /// Anything in a log line, or in a page that is not reached: no harm.
    pub fn fill_log_line(&mut self, random: &mut Random) {
        let line = random.between(1, 15);
        random.fill(&mut self.built.image[line * 64..][..64]);
    }

    pub fn fill_page(&mut self, random: &mut Random, page: usize) {
        random.fill(&mut self.built.image[page * 1024..][..1024]);
    }

    /// A key of this leaf moved across one of its bounds, or out of the range.
    fn move_key(&mut self, at: usize, harm: Harm) -> bool {
        let bounds = &self.built.bounds;
        let places = &self.built.leaves[at].places;
        let (Some(first), Some(last)) = (places.first(), places.last()) else {
            return false;
        };
        let (place, key) = match harm {
            Harm::FirstKeyZero => (first, 0),
            Harm::FirstKeyBelowSeparator if at > 0 => (first, bounds[at] - 1),
            Harm::LastKeyAtNextSeparator if at + 1 < bounds.len() => (last, bounds[at + 1]),
            _ => return false,
        };
        put_key(&mut self.built.image, place.at, key);
        true
    }

    /// A bound of this leaf in its index page moved across one of its keys, where the
    /// separators still rise. Only while no leaf is bad: it could do another leaf good.
    fn move_separator(&mut self, at: usize, harm: Harm) -> bool {
        let built = &self.built;
        let (index, slot) = built.place_of(at);
        let separators = &built.indexes[index].places;
        let places = &built.leaves[at].places;
        let (Some(first), Some(last)) = (places.first(), places.last()) else {
            return false;
        };
        let (moved, leaf, key) = match harm {
            Harm::SeparatorRaised if slot > 0 => (slot, at, first.key + 1),
            Harm::SeparatorLowered if slot + 1 < separators.len() => (slot + 1, at + 1, last.key),
            _ => return false,
        };
        let next = built.bounds.get(leaf + 1).copied().unwrap_or(LAST_KEY + 1);
        let rising = separators[moved - 1].key < key && key < next;
        if !rising || !self.is_good_below() {
            return false;
        }
        let place = &mut self.built.indexes[index].places[moved];
        place.key = key;
        put_key(&mut self.built.image, place.at, key);
        self.built.bounds[leaf] = key;
        true
    }

    /// A wrong page number in a record of a page above the leaves, or a separator that
    /// does not rise.
    fn harm_names(&mut self, random: &mut Random, page: &Reached, harm: Harm) -> bool {
        let places = &page.places;
        let (root, pages) = (self.built.root().page, self.built.pages);
        let image = &mut self.built.image;
        let at = random.below(places.len());
        let other = (at + 1) % places.len();
        let named = match harm {
            Harm::NamesPageZero => 0,
            Harm::NamesPagePastLast => pages,
            Harm::NamesRoot => root,
            Harm::NamesPageTwice if other != at => image[places[other].at + 16] as usize,
            Harm::SeparatorsAlike if other > at => {
                put_key(image, places[other].at, places[at].key);
                return true;
            }
            _ => return false,
        };
        put(image, places[at].at + 16, named);
        true
    }
}

/// Harm in the header of a page; false if the harm is another, or the page has
/// nothing of the kind.
fn header(image: &mut [u8], page: &Reached, harm: Harm) -> bool {
    let base = page.page * 1024;
    let slots: Vec<usize> = page.places.iter().map(|place| place.at - base).collect();
    let line = &mut image[base..][..64];
    let start = u16::from_le_bytes([line[2], line[3]]) as usize;
    let last = 6 + 2 * slots.len();
    match (harm, &slots[..]) {
        (Harm::CountAbove28, _) => line[0] = 29,
        (Harm::StartBelow64, _) => put(line, 2, 56),
        (Harm::StartNoMultipleOf8, _) => put(line, 2, start + 4),
        (Harm::StartAbove1024, _) => put(line, 2, 1032),
        (Harm::StartAboveRecord, [_, ..]) => put(line, 2, slots.iter().min().unwrap() + 8),
        // Of a root that is an index page or a top, none that the root may have.
        (Harm::OtherKind, _) => line[4] = [0, 2, 1, 4][line[4] as usize],
        (Harm::OtherNumber, _) => line[6] ^= 1,
        (Harm::ZeroOfHeader, _) => line[5] = 1,
        (Harm::SlotNoMultipleOf8, [.., slot]) => put(line, last, slot + 4),
        (Harm::SlotPastCount, _) if slots.len() < 28 => line[63] = 4,
        (Harm::SlotsAlike, [first, _, ..]) => put(line, 10, *first),
        (Harm::SlotsSwapped, [first, second, ..]) => {
            put(line, 8, *second);
            put(line, 10, *first);
        }
        (Harm::SlotAtEnd, [.., _]) => put(line, last, 1016),
        (Harm::NoRecord, [_, ..]) => {
            line[0] = 0;
            line[8..].fill(0);
        }
        _ => return false,
    }
    true
}

/// Harm in a record of a page; false if the harm is another, or the page has
/// nothing of the kind.
fn record(random: &mut Random, image: &mut [u8], page: &Reached, harm: Harm) -> bool {
    let Some(last) = page.places.last() else {
        return false;
    };
    let place = page.places[random.below(page.places.len())];
    match harm {
        Harm::LengthAbove200 => put(image, place.at + 8, 201),
        Harm::SixZeros => image[place.at + 10 + random.below(6)] = 1,
        Harm::Padding if place.length % 8 != 0 => image[place.at + size(place.length) - 1] = 1,
        Harm::LastKeyAboveRange => put_key(image, last.at, LAST_KEY + 1),
        _ => return false,
    }
    true
}

fn put(bytes: &mut [u8], at: usize, number: usize) {
    bytes[at..at + 2].copy_from_slice(&(number as u16).to_le_bytes());
}

fn put_key(image: &mut [u8], at: usize, key: u64) {
    image[at..at + 8].copy_from_slice(&key.to_le_bytes());
}

/// Harm of every mix in this image: mostly in one leaf or in several, at times in an
/// index page under a top, in the root, in page 0, or in none of them.
pub fn any_harmed(random: &mut Random, built: &Built) -> Harmed {
    let mut harmed = Harmed::not_yet(built);
    if random.one_in(4) {
        harmed.fill_log_line(random);
    }
    let leaves = built.leaves.len();
    for _ in 0..random.pick(&[0, 1, 1, 1, 2, 3, leaves]) {
        let (at, harm) = (random.below(leaves), random.pick(&of_leaves()));
        harmed.harm_leaf(random, at, harm);
    }
    let lower = harmed.lower.len();
    if lower > 0 && !random.one_in(3) {
        for _ in 0..random.pick(&[1, 1, 1, 2, lower]) {
            let (at, harm) = (random.below(lower), random.pick(&of_lower()));
            harmed.harm_lower(random, at, harm);
        }
    }
    if random.one_in(5) {
        let harm = random.pick(&of_root());
        harmed.harm_root(random, harm);
    }
    if random.one_in(8) {
        let which = random.below(OF_PAGE_ZERO.len());
        harmed.harm_page_zero(random, which);
    }
    harmed
}
