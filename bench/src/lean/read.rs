//! Lookup and next key. "A lookup now reads page 0, the index and one leaf. Next
//! key reads that and, only if that leaf holds no larger key, the leaf after." Under a
//! top page the index page of a leaf is judged before it.
//!
//! Why the raw pointers are sound: the image's length is judged first, and all
//! page numbers of a page above the leaves before one of them is read; a leaf is
//! judged before it is searched.

use super::image::{judged_root, names, root};
use super::page::{find, good_key, half, not_above, page, record, word, INDEX, KEYS, LEAF, TOP};
use super::PAGE;

/// An image whose page 0 and root are good, and what the pages above the leaves that were
/// read take.
pub(super) struct Root {
    image: *const u8,
    pages: usize,
    page: *const u8,
    count: usize,
    under_top: bool,
    taken: u64,
}

impl Root {
    /// Judges page 0's first line and the root.
    #[inline(always)]
    pub fn read(image: &[u8]) -> Result<Root, u8> {
        let (root, start) = (root(image)?, image.as_ptr());
        let pages = image.len() / PAGE;
        unsafe {
            let page = start.add(root * PAGE);
            let (count, kind, taken) = judged_root(page, start, pages, root).ok_or(4)?;
            Ok(Root {
                image: start,
                pages,
                page,
                count,
                under_top: kind == TOP,
                taken,
            })
        }
    }

    /// Which index page a key belongs to: 0 without a top.
    #[inline(always)]
    pub unsafe fn route(&self, key: u64) -> usize {
        match self.under_top {
            true => route(self.page, key),
            false => 0,
        }
    }

    /// How many index pages there are.
    #[inline(always)]
    pub fn indexes(&self) -> usize {
        match self.under_top {
            true => self.count,
            false => 1,
        }
    }

    /// An index page, judged if it is under a top; it must not have been before.
    #[inline(always)]
    pub unsafe fn index(&mut self, which: usize) -> Option<Index> {
        if self.under_top {
            return self.lower(which);
        }
        Some(Index {
            image: self.image,
            page: self.page,
            leaves: self.count,
            bounds: (1, KEYS),
            only: self.count == 1,
        })
    }

    #[inline(never)]
    unsafe fn lower(&mut self, which: usize) -> Option<Index> {
        let number = half(record(self.page, which).add(16));
        let bound = |i: usize| match i == self.count {
            true => KEYS,
            false => word(record(self.page, i)),
        };
        let low = if which == 0 { 0 } else { bound(which) };
        let high = bound(which + 1);
        let page = self.image.add(number * PAGE);
        let place = (number, INDEX);
        let taken = &mut self.taken;
        let leaves = names(page, self.image, self.pages, place, (low, high), taken)?;
        Some(Index {
            image: self.image,
            page,
            leaves,
            bounds: (low.max(1), high),
            only: self.count == 1 && leaves == 1,
        })
    }
}

/// A good index page.
#[derive(Clone, Copy)]
pub(super) struct Index {
    image: *const u8,
    page: *const u8,
    leaves: usize,
    /// Keys of its leaves are from the one on, and below the other.
    bounds: (u64, u64),
    /// It names the only leaf of the store.
    only: bool,
}

impl Index {
    /// Which leaf a key belongs to.
    #[inline(always)]
    pub unsafe fn route(&self, key: u64) -> usize {
        route(self.page, key)
    }

    /// A leaf that is not judged, or was before.
    #[inline(always)]
    pub unsafe fn leaf(&self, which: usize) -> *const u8 {
        self.image.add(PAGE * self.number(which))
    }

    #[inline(always)]
    pub unsafe fn number(&self, which: usize) -> usize {
        half(record(self.page, which).add(16))
    }

    /// Whether a leaf is sound "by [itself], separator bounds included": the first may
    /// hold keys below its separator, down to its index page's, and only a leaf without
    /// others may be empty.
    #[inline(always)]
    pub unsafe fn is_good(&self, which: usize) -> bool {
        let separator = |i| word(record(self.page, i));
        let (start, end) = self.bounds;
        let low = if which == 0 { start } else { separator(which) };
        let last = which + 1 == self.leaves;
        let high = if last { end } else { separator(which + 1) };
        let (leaf, number) = (self.leaf(which), self.number(which));
        let least = !self.only as usize;
        page(leaf, leaf, number, LEAF, low, high, |_| true).is_some_and(|count| count >= least)
    }

    /// Where a record's value is in the image, and its length.
    #[inline(always)]
    pub unsafe fn value(&self, record: *const u8) -> (u64, u64) {
        let offset = record.add(16).offset_from(self.image);
        (offset as u64, half(record.add(8)) as u64)
    }
}

/// The last leaf whose separator is not above the key, else the first.
#[inline(always)]
pub(super) unsafe fn route(index: *const u8, key: u64) -> usize {
    not_above(index, key).saturating_sub(1)
}

pub fn lookup(image: &[u8], key: u64, answer: &mut [u64; 3]) -> u8 {
    let mut root = match Root::read(image) {
        Ok(root) => root,
        Err(number) => return number,
    };
    unsafe {
        let Some(index) = root.index(root.route(key)) else {
            return 4;
        };
        let which = index.route(key);
        if !index.is_good(which) {
            return 4;
        }
        if !good_key(key) {
            return 6;
        }
        *answer = match find(index.leaf(which), key) {
            Some(record) => {
                let (offset, length) = index.value(record);
                [1, offset, length]
            }
            None => [0, 0, 0],
        };
    }
    0
}

pub fn next_key(image: &[u8], key: u64, answer: &mut [u64; 2]) -> u8 {
    let mut root = match Root::read(image) {
        Ok(root) => root,
        Err(number) => return number,
    };
    unsafe {
        let which_index = root.route(key);
        let Some(mut index) = root.index(which_index) else {
            return 4;
        };
        let mut which = index.route(key);
        if !index.is_good(which) {
            return 4;
        }
        let mut at = not_above(index.leaf(which), key);
        if at == half(index.leaf(which)) {
            which += 1;
            if which == index.leaves {
                if which_index + 1 == root.indexes() {
                    *answer = [0, 0];
                    return 0;
                }
                let Some(after) = root.index(which_index + 1) else {
                    return 4;
                };
                (index, which) = (after, 0);
            }
            // It is not empty, as it is not the only one.
            if !index.is_good(which) {
                return 4;
            }
            at = 0;
        }
        *answer = [1, word(record(index.leaf(which), at))];
    }
    0
}
