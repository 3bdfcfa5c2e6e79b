//! Preview: page 0's first line, the index and one pass over the list; then one
//! descent for each key of the list, as a later edit of a key is judged by the
//! one before it. A leaf is judged once, before it is first searched.
//!
//! Why the raw pointers are sound: the index is good, so that every page number
//! that is followed is inside, and so is each leaf that is searched; an edit's
//! value is part of the list.

use super::edits::{parse, Edit};
use super::page::{find, good_key, half, SLOTS};
use super::read::{Index, Root};
use std::mem::MaybeUninit;

const INSERT: u8 = 1;
const DELETE: u8 = 3;

/// 2 to the 64 divided by the golden ratio: keys side by side get bits apart.
const SCATTER: u64 = 0x9e37_79b9_7f4a_7c15;

/// Which buffer has the value.
const NEITHER: u64 = 0;
const LIST: u64 = 1;
const IMAGE: u64 = 2;

pub fn preview(image: &[u8], list: &[u8], key: u64, answer: &mut [u64; 4]) -> u8 {
    match unsafe { look(image, list, key) } {
        Ok((buffer, (offset, length))) => {
            *answer = [0, buffer, offset, length];
            0
        }
        Err((number, edit)) => {
            *answer = [edit as u64, 0, 0, 0];
            number
        }
    }
}

/// Which buffer has the value, and where; or a refusal's number and edit number.
#[inline(always)]
unsafe fn look(image: &[u8], list: &[u8], key: u64) -> Result<(u64, (u64, u64)), (u8, usize)> {
    let root = Root::read(image).map_err(|number| (number, 0))?;
    let mut space = MaybeUninit::<[Edit; 16]>::uninit();
    let edits = parse(list, space.as_mut_ptr() as *mut Edit)?;
    if !good_key(key) {
        return Err((6, 0));
    }
    let mut leaves = Leaves {
        root,
        indexes: MaybeUninit::uninit(),
        read: 0,
        judged: 0,
    };
    judge_keys(&mut leaves, edits)?;
    Ok(match last(edits, key) {
        Some(edit) if edit.kind == DELETE => (NEITHER, (0, 0)),
        Some(edit) => {
            let offset = edit.value.offset_from(list.as_ptr());
            (LIST, (offset as u64, edit.length as u64))
        }
        None => match leaves.find(key)? {
            Some(record) => (IMAGE, value(image, record)),
            None => (NEITHER, (0, 0)),
        },
    })
}

/// Where a record's value is in the image, and its length.
#[inline(always)]
unsafe fn value(image: &[u8], record: *const u8) -> (u64, u64) {
    let offset = record.add(16).offset_from(image.as_ptr());
    (offset as u64, half(record.add(8)) as u64)
}

/// The index pages, with one bit for each that is read already, and one bit for each leaf's
/// page that is judged.
struct Leaves {
    root: Root,
    indexes: MaybeUninit<[Index; SLOTS]>,
    read: u32,
    judged: u64,
}

impl Leaves {
    /// The record of this key, if its leaf has one. Refused if the leaf is bad, or its
    /// index page: "a leaf's 4 comes just before the 8 or 9 of the first edit that needs
    /// that leaf, or last of all for the key asked". It is no edit's, so its number
    /// is 0.
    #[inline(always)]
    unsafe fn find(&mut self, key: u64) -> Result<Option<*const u8>, (u8, usize)> {
        let which = self.root.route(key);
        let indexes = self.indexes.as_mut_ptr() as *mut Index;
        if self.read >> which & 1 == 0 {
            indexes
                .add(which)
                .write(self.root.index(which).ok_or((4, 0))?);
            self.read |= 1 << which;
        }
        let index = *indexes.add(which);
        let which = index.route(key);
        let page = index.number(which);
        if self.judged >> page & 1 == 0 && !index.is_good(which) {
            return Err((4, 0));
        }
        self.judged |= 1 << page;
        Ok(find(index.leaf(which), key))
    }
}

/// A refusal's number and edit number, if an edit's key is there or missing
/// against the rules, or its leaf is bad. Most keys come once: one bit a key, by
/// a hash, spares the walk over the edits before.
#[inline(always)]
unsafe fn judge_keys(leaves: &mut Leaves, edits: &[Edit]) -> Result<(), (u8, usize)> {
    let mut keys: u64 = 0;
    for (i, edit) in edits.iter().enumerate() {
        let bit = 1 << (edit.key.wrapping_mul(SCATTER) >> 58);
        let earlier = if keys & bit == 0 { 0 } else { i };
        keys |= bit;
        let present = match last(&edits[..earlier], edit.key) {
            Some(before) => before.kind != DELETE,
            None => leaves.find(edit.key)?.is_some(),
        };
        if present == (edit.kind == INSERT) {
            return Err((if present { 8 } else { 9 }, i));
        }
    }
    Ok(())
}

/// The last of these edits that has this key.
#[inline(always)]
fn last(edits: &[Edit], key: u64) -> Option<&Edit> {
    edits.iter().rev().find(|edit| edit.key == key)
}
