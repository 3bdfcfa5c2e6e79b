//! Merge: both images judged, their records listed in key order and the leaves
//! counted, then the third buffer written from the list, each byte once.
//!
//! Why the raw pointers are sound: both images are judged whole before a record is
//! read, so that a book has at most 62 leaves of 28 records; the third buffer has a
//! page for each page that is written.

use super::image::reached;
use super::page::{half, kind, record, word, INDEX, KEYS, LEAF, SLOTS, TOP};
use super::tree::{fill_page, listed, put_word, Listed, INDEX_RECORD, ROOM};
use super::{good_length, PAGE};
use std::mem::MaybeUninit;

/// The most leaves of a book, or of a result: 64 pages without page 0 and the root.
const LEAVES: usize = 62;

/// The most records of two books.
const MOST: usize = 2 * LEAVES * SLOTS;

pub fn merge(first: &[u8], second: &[u8], out: &mut [u8]) -> u8 {
    match unsafe { merge_into(first, second, out) } {
        Ok(()) => 0,
        Err(number) => number,
    }
}

#[inline(always)]
unsafe fn merge_into(first: &[u8], second: &[u8], out: &mut [u8]) -> Result<(), u8> {
    if !good_length(out.len()) {
        return Err(1);
    }
    let (root, _) = reached(first)?;
    let (other, _) = reached(second)?;
    let books = [Book::open(first, root), Book::open(second, other)];
    let mut space = MaybeUninit::<[Listed; MOST]>::uninit();
    let mut leaves = Leaves {
        records: space.as_mut_ptr() as *mut Listed,
        ends: [0; LEAVES],
        count: 1,
    };
    leaves.list(books)?;
    let pages = out.len() / PAGE;
    // 10 would need more leaves than two books have.
    let indexes = match leaves.count > SLOTS {
        true => leaves.count.div_ceil(SLOTS),
        false => 0,
    };
    if 2 + indexes + leaves.count > pages {
        return Err(11);
    }
    leaves.write(out.as_mut_ptr(), pages, indexes);
    Ok(())
}

/// A place in a book: the record that comes next and its key, or a key above all.
struct Book {
    image: *const u8,
    /// The top, or null without one; the place of the index page in it.
    top: *const u8,
    at: usize,
    index: *const u8,
    leaf: usize,
    page: *const u8,
    slot: usize,
    record: *const u8,
    key: u64,
}

impl Book {
    #[inline(always)]
    unsafe fn open(image: &[u8], root: usize) -> Book {
        let image = image.as_ptr();
        let root = image.add(root * PAGE);
        let mut book = Book {
            image,
            top: if kind(root) == TOP {
                root
            } else {
                std::ptr::null()
            },
            at: 0,
            index: root,
            leaf: 0,
            page: image,
            slot: 0,
            record: image,
            key: KEYS,
        };
        if !book.top.is_null() {
            book.turn_index();
        }
        book.turn();
        // Only a leaf without others may be empty.
        if half(book.page) > 0 {
            book.see();
        }
        book
    }

    /// On to the index page.
    #[inline(never)]
    unsafe fn turn_index(&mut self) {
        let number = half(record(self.top, self.at).add(16));
        self.index = self.image.add(PAGE * number);
        self.leaf = 0;
    }

    /// On to the leaf's page.
    #[inline(always)]
    unsafe fn turn(&mut self) {
        let number = half(record(self.index, self.leaf).add(16));
        self.page = self.image.add(PAGE * number);
        self.slot = 0;
    }

    #[inline(always)]
    unsafe fn see(&mut self) {
        self.record = record(self.page, self.slot);
        self.key = word(self.record);
    }

    #[inline(always)]
    unsafe fn pass(&mut self) {
        self.slot += 1;
        if self.slot == half(self.page) {
            self.leaf += 1;
            if self.leaf == half(self.index) {
                self.at += 1;
                if self.top.is_null() || self.at == half(self.top) {
                    self.key = KEYS;
                    return;
                }
                self.turn_index();
            }
            self.turn();
        }
        self.see();
    }
}

/// The records of both in key order, and where each leaf ends among them; the
/// last leaf ends with them.
struct Leaves {
    records: *mut Listed,
    ends: [usize; LEAVES],
    count: usize,
}

impl Leaves {
    /// "20 if a key is in both" comes before what the leaves are refused for, so all
    /// records are listed.
    #[inline(always)]
    unsafe fn list(&mut self, [mut one, mut other]: [Book; 2]) -> Result<(), u8> {
        let (mut all, mut count, mut bytes) = (0, 0, 0);
        while one.key != other.key {
            let book = if one.key < other.key {
                &mut one
            } else {
                &mut other
            };
            let new = listed(book.record);
            book.pass();
            if count == SLOTS || bytes + new.1 > ROOM {
                if self.count <= LEAVES {
                    self.ends[self.count - 1] = all;
                }
                self.count += 1;
                (count, bytes) = (0, 0);
            }
            self.records.add(all).write(new);
            all += 1;
            count += 1;
            bytes += new.1;
        }
        if one.key != KEYS {
            return Err(20);
        }
        if self.count <= LEAVES {
            self.ends[self.count - 1] = all;
        }
        Ok(())
    }

    #[inline(always)]
    unsafe fn write(&self, out: *mut u8, pages: usize, indexes: usize) {
        out.write_bytes(0, PAGE);
        put_word(out.add(8), 1);
        put_word(out.add(16), pages as u64 | 1 << 16);
        let mut index = [[0u64; INDEX_RECORD / 8]; LEAVES];
        let first = 2 + indexes;
        let mut from = 0;
        for (i, entry) in index[..self.count].iter_mut().enumerate() {
            let all = std::slice::from_raw_parts(self.records, self.ends[i]);
            let leaf = &all[from..];
            let separator = if i == 0 { 0 } else { word(leaf[0].0) };
            *entry = [separator, 2, (first + i) as u64];
            new_page(out, first + i, LEAF, leaf);
            from = self.ends[i];
        }
        let index = &index[..self.count];
        match indexes {
            0 => new_page(out, 1, INDEX, name(&mut EMPTY.clone(), index)),
            _ => write_top(out, index),
        }
        let used = first + self.count;
        out.add(used * PAGE).write_bytes(0, (pages - used) * PAGE);
    }
}

type Entry = [u64; INDEX_RECORD / 8];
const EMPTY: [Listed; SLOTS] = [(std::ptr::null(), 0); SLOTS];

/// The records of an index page as they are listed.
#[inline(always)]
fn name<'a>(space: &'a mut [Listed; SLOTS], entries: &[Entry]) -> &'a [Listed] {
    for (listed, entry) in space.iter_mut().zip(entries) {
        *listed = (entry.as_ptr() as *const u8, INDEX_RECORD);
    }
    &space[..entries.len()]
}

/// Index pages of 28 leaves from page 2 on, and the top as page 1.
#[inline(never)]
unsafe fn write_top(out: *mut u8, index: &[Entry]) {
    let mut top = [[0u64; INDEX_RECORD / 8]; SLOTS];
    let pages = index.chunks(SLOTS);
    let count = pages.len();
    for (i, (entries, entry)) in pages.zip(&mut top).enumerate() {
        new_page(out, 2 + i, INDEX, name(&mut EMPTY.clone(), entries));
        *entry = [entries[0][0], 2, 2 + i as u64];
    }
    new_page(out, 1, TOP, name(&mut EMPTY.clone(), &top[..count]));
}

/// A page with these records, and zeros between its header and them.
#[inline(always)]
unsafe fn new_page(out: *mut u8, number: usize, kind: u64, records: &[Listed]) {
    let page = out.add(number * PAGE);
    let start = fill_page(page, number, kind, records);
    page.add(64).write_bytes(0, start - 64);
}
