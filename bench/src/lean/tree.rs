//! The edits made in work, page by page.

use super::edits::Edit;
use super::page::{half, kind, not_above, record, word, INDEX, LEAF, SLOTS, TOP};
use super::read::route;
use super::tape::bits;
use super::PAGE;
use std::mem::MaybeUninit;
use std::ptr::{copy, copy_nonoverlapping};

pub const ROOM: usize = PAGE - 64;
pub const INDEX_RECORD: usize = 24;

/// Work while the edits are made; sets of pages have one bit a page.
pub struct Tree {
    pub before: *const u8,
    pub work: *mut u8,
    pub root: usize,
    /// Reached before.
    pub reached: u64,
    /// Neither reached before nor taken.
    pub free: u64,
    /// Pages whose bytes may not be the image's.
    pub touched: u64,
}

/// Where a page's list of slots takes a record.
#[derive(Clone, Copy)]
enum Slot {
    New(usize),
    Old(usize),
}

/// A record somewhere: its first byte and its size.
pub type Listed = (*const u8, usize);

/// Where an edit's key belongs: the place of its index page in the top, or `NO_TOP`; that
/// page; the leaf's place in it; the leaf.
#[derive(Clone, Copy)]
struct Path {
    in_top: usize,
    index: usize,
    in_index: usize,
    leaf: usize,
}

const NO_TOP: usize = usize::MAX;

/// What a page that took a record became: the new pages, and the right one's first key or
/// separator.
#[derive(Clone, Copy)]
enum Moved {
    Not,
    Copy(usize),
    Split(usize, usize, u64),
}

/// An index record as it is listed.
#[inline(always)]
fn name(record: &[u64; 3]) -> Listed {
    (record.as_ptr() as *const u8, INDEX_RECORD)
}

impl Tree {
    #[inline(always)]
    pub unsafe fn page(&self, number: usize) -> *mut u8 {
        self.work.add(number * PAGE)
    }

    /// All edits, or the refusal's number and edit number, work then holding
    /// the image.
    #[inline(always)]
    pub unsafe fn edit_all(&mut self, edits: &[Edit]) -> Result<(), (u8, usize)> {
        for (i, edit) in edits.iter().enumerate() {
            let number = self.edit(edit);
            if number != 0 {
                self.put_back(self.touched);
                return Err((number, i));
            }
        }
        Ok(())
    }

    /// One edit; 0 or the refusal's number.
    #[inline(always)]
    unsafe fn edit(&mut self, edit: &Edit) -> u8 {
        let path = self.path(edit.key);
        let page = self.page(path.leaf);
        let at = not_above(page, edit.key);
        let found = at > 0 && word(record(page, at - 1)) == edit.key;
        match edit.kind {
            1 if found => 8,
            1 => self.write(path, Slot::New(at), edit),
            _ if !found => 9,
            2 => self.write(path, Slot::Old(at - 1), edit),
            _ => {
                self.drop_slot(path.leaf, at - 1);
                if half(page) == 0 {
                    self.drop_leaf(path);
                }
                0
            }
        }
    }

    #[inline(always)]
    unsafe fn path(&self, key: u64) -> Path {
        let (mut index, mut in_top) = (self.root, NO_TOP);
        let root = self.page(self.root);
        if kind(root) == TOP {
            in_top = route(root, key);
            index = half(record(root, in_top).add(16));
        }
        let page = self.page(index);
        let in_index = route(page, key);
        Path {
            in_top,
            index,
            in_index,
            leaf: half(record(page, in_index).add(16)),
        }
    }

    /// "A leaf left empty, unless it is the only one, loses its index record", and an index
    /// page likewise.
    #[inline(always)]
    unsafe fn drop_leaf(&mut self, path: Path) {
        let several = half(self.page(path.index)) > 1;
        if several {
            return self.drop_slot(path.index, path.in_index);
        }
        if path.in_top != NO_TOP && half(self.page(self.root)) > 1 {
            self.drop_slot(path.index, 0);
            self.drop_slot(self.root, path.in_top);
        }
    }

    #[inline(always)]
    unsafe fn drop_slot(&mut self, number: usize, at: usize) {
        let page = self.page(number);
        let count = half(page);
        let slot = page.add(8 + 2 * at);
        copy(slot.add(2), slot, 2 * (count - 1 - at));
        put_half(page.add(8 + 2 * (count - 1)), 0);
        put_half(page, count - 1);
        self.touched |= 1 << number;
    }

    /// A record into a leaf: in place, or else by a copy or a split.
    #[inline(always)]
    unsafe fn write(&mut self, path: Path, slot: Slot, edit: &Edit) -> u8 {
        let size = 16 + edit.length.next_multiple_of(8);
        if let Some(record) = self.make_room(path.leaf, slot, size) {
            put_record(record, edit, size);
            return 0;
        }
        let mut record = MaybeUninit::<[u64; 27]>::uninit();
        let record = record.as_mut_ptr() as *mut u8;
        put_record(record, edit, size);
        match self.move_leaf(path, slot, (record, size)) {
            Ok(()) => 0,
            Err(number) => number,
        }
    }

    /// Room for a record just below the page's start, with its slot set, if the
    /// page has room.
    #[inline(always)]
    unsafe fn make_room(&mut self, number: usize, slot: Slot, size: usize) -> Option<*mut u8> {
        let page = self.page(number);
        let (count, start) = (half(page), half(page.add(2)));
        if size > start - 64 {
            return None;
        }
        let at = match slot {
            Slot::New(_) if count == SLOTS => return None,
            Slot::New(at) => {
                let slot = page.add(8 + 2 * at);
                copy(slot, slot.add(2), 2 * (count - at));
                put_half(page, count + 1);
                at
            }
            Slot::Old(at) => at,
        };
        put_half(page.add(8 + 2 * at), start - size);
        put_half(page.add(2), start - size);
        self.touched |= 1 << number;
        Some(page.add(start - size))
    }

    /// The leaf's records with the edit made, into one or two new pages; then the records
    /// above, page by page.
    #[inline(never)]
    unsafe fn move_leaf(&mut self, path: Path, slot: Slot, new: Listed) -> Result<(), u8> {
        let leaf = self.move_page(LEAF, path.leaf, slot, new)?;
        let root = self.page(self.root);
        let of_page = match path.in_top {
            0 | NO_TOP => 0,
            at => word(record(root, at)),
        };
        let separator = match path.in_index {
            0 => of_page,
            at => word(record(self.page(path.index), at)),
        };
        let index = self.put_names(INDEX, path.index, path.in_index, separator, leaf)?;
        if path.in_top != NO_TOP {
            let top = self.put_names(TOP, self.root, path.in_top, of_page, index)?;
            return match top {
                Moved::Not => Ok(()),
                Moved::Copy(page) => {
                    self.root = page;
                    Ok(())
                }
                Moved::Split(..) => Err(10),
            };
        }
        match index {
            Moved::Not => {}
            Moved::Copy(page) => self.root = page,
            Moved::Split(left, right, separator) => {
                let names = [[0, 2, left as u64], [separator, 2, right as u64]];
                let listed = names.each_ref().map(name);
                self.root = self.fill_new(TOP, &listed)?;
            }
        }
        Ok(())
    }

    /// A page takes the records of what its child became, left first, each by the whole
    /// rule.
    #[inline(always)]
    unsafe fn put_names(
        &mut self,
        kind: u64,
        page: usize,
        slot: usize,
        separator: u64,
        child: Moved,
    ) -> Result<Moved, u8> {
        match child {
            Moved::Not => Ok(Moved::Not),
            Moved::Copy(left) => {
                self.put_name(kind, page, Slot::Old(slot), [separator, 2, left as u64])
            }
            Moved::Split(left, right, low) => {
                let name = [separator, 2, left as u64];
                let after = self.put_name(kind, page, Slot::Old(slot), name)?;
                let now = if let Moved::Copy(copy) = after {
                    copy
                } else {
                    page
                };
                let name = [low, 2, right as u64];
                let moved = self.put_name(kind, now, Slot::New(slot + 1), name)?;
                Ok(if let Moved::Not = moved { after } else { moved })
            }
        }
    }

    /// An index record in place, or else its page copied or split.
    #[inline(always)]
    unsafe fn put_name(
        &mut self,
        kind: u64,
        page: usize,
        slot: Slot,
        new: [u64; 3],
    ) -> Result<Moved, u8> {
        if let Some(record) = self.make_room(page, slot, INDEX_RECORD) {
            copy_nonoverlapping(new.as_ptr() as *const u8, record, INDEX_RECORD);
            return Ok(Moved::Not);
        }
        self.move_page(kind, page, slot, name(&new))
    }

    /// The page's records with one more or one replaced, into one or two new pages.
    #[inline(always)]
    unsafe fn move_page(
        &mut self,
        kind: u64,
        page: usize,
        slot: Slot,
        new: Listed,
    ) -> Result<Moved, u8> {
        let mut space = MaybeUninit::<[Listed; SLOTS + 1]>::uninit();
        let space = space.as_mut_ptr() as *mut Listed;
        let records = list(self.page(page), slot, new, space);
        let total: usize = records.iter().map(|record| record.1).sum();
        if records.len() <= SLOTS && total <= ROOM {
            return Ok(Moved::Copy(self.fill_new(kind, records)?));
        }
        let (left, right) = records.split_at(half_of(records, total));
        let left = self.fill_new(kind, left)?;
        Ok(Moved::Split(
            left,
            self.fill_new(kind, right)?,
            word(right[0].0),
        ))
    }

    /// The highest page that may be taken, filled from the end down, or 11.
    #[inline(always)]
    unsafe fn fill_new(&mut self, kind: u64, records: &[Listed]) -> Result<usize, u8> {
        if self.free == 0 {
            return Err(11);
        }
        let number = 63 - self.free.leading_zeros() as usize;
        self.free ^= 1 << number;
        self.touched |= 1 << number;
        fill_page(self.page(number), number, kind, records);
        Ok(number)
    }

    /// The image's bytes again, in these pages.
    #[inline(always)]
    pub unsafe fn put_back(&mut self, pages: u64) {
        for page in bits(pages) {
            copy_nonoverlapping(self.before.add(page * PAGE), self.page(page), PAGE);
        }
    }
}

/// Header and records of a page, these from the end down; gives the content start.
#[inline(always)]
pub unsafe fn fill_page(page: *mut u8, number: usize, kind: u64, records: &[Listed]) -> usize {
    page.write_bytes(0, 64);
    let mut start = PAGE;
    for (i, &(from, size)) in records.iter().enumerate() {
        start -= size;
        copy_words(from, page.add(start), size);
        put_half(page.add(8 + 2 * i), start);
    }
    let head = records.len() as u64 | (start as u64) << 16 | kind << 32;
    put_word(page, head | (number as u64) << 48);
    start
}

/// A record as it is listed.
#[inline(always)]
pub unsafe fn listed(record: *const u8) -> Listed {
    (record, 16 + half(record.add(8)).next_multiple_of(8))
}

/// The page's records with one more, or with one replaced, in key order.
#[inline(always)]
unsafe fn list<'a>(page: *const u8, slot: Slot, new: Listed, to: *mut Listed) -> &'a [Listed] {
    let mut count = half(page);
    for i in 0..count {
        let from = record(page, i);
        let shift = matches!(slot, Slot::New(at) if i >= at) as usize;
        to.add(i + shift).write(listed(from));
    }
    match slot {
        Slot::New(at) => {
            to.add(at).write(new);
            count += 1;
        }
        Slot::Old(at) => to.add(at).write(new),
    }
    std::slice::from_raw_parts(to, count)
}

/// How many records the left page takes.
#[inline(always)]
fn half_of(records: &[Listed], total: usize) -> usize {
    let (mut m, mut bytes) = (0, 0);
    while 2 * bytes < total {
        bytes += records[m].1;
        m += 1;
    }
    m
}

#[inline(always)]
unsafe fn put_half(at: *mut u8, number: usize) {
    (at as *mut u16).write_unaligned(number as u16);
}

#[inline(always)]
pub unsafe fn put_word(at: *mut u8, number: u64) {
    (at as *mut u64).write_unaligned(number);
}

#[inline(always)]
unsafe fn copy_words(from: *const u8, to: *mut u8, size: usize) {
    for at in (0..size).step_by(8) {
        put_word(to.add(at), word(from.add(at)));
    }
}

/// Key, length and zeros, value, zeros to a multiple of 8.
#[inline(always)]
unsafe fn put_record(to: *mut u8, edit: &Edit, size: usize) {
    put_word(to, edit.key);
    // The last word first: it may be padding in part.
    put_word(to.add(size - 8), 0);
    put_word(to.add(8), edit.length as u64);
    copy_nonoverlapping(edit.value, to.add(16), edit.length);
}
