//! Transaction: one check, one copy of the image, the edits made in the copy
//! (`tree`), one comparing pass over the pages that they touched; then the
//! tape's size is known and the tape is written (`commit`).
//!
//! Why the raw pointers are sound: work is as long as the image, and the image
//! is sound, so that every slot and page number that is followed is inside; the
//! edits keep it so. The tape's length is judged before it is written.

use super::edits::{parse, Edit};
use super::image::reached;
use super::tree::Tree;
use super::{good_length, PAGE};
use std::mem::MaybeUninit;
use std::ptr::copy_nonoverlapping;

pub fn transaction(
    image: &[u8],
    work: &mut [u8],
    tape: &mut [u8],
    list: &[u8],
    answer: &mut [u64; 5],
) -> u8 {
    *answer = [0; 5];
    if good_length(image.len()) && work.len() != image.len() {
        return 2;
    }
    let (root, reached) = match reached(image) {
        Ok(both) => both,
        Err(number) => return number,
    };
    let mut tree = Tree {
        before: image.as_ptr(),
        work: work.as_mut_ptr(),
        root,
        reached,
        free: !reached & u64::MAX >> (64 - image.len() / PAGE),
        touched: 0,
    };
    let mut space = MaybeUninit::<[Edit; 16]>::uninit();
    let made = unsafe {
        parse(list, space.as_mut_ptr() as *mut Edit).and_then(|edits| {
            copy_nonoverlapping(tree.before, tree.work, image.len());
            tree.edit_all(edits)
        })
    };
    match made {
        Ok(()) => unsafe { tree.commit(tape, answer) },
        Err((number, edit)) => {
            answer[0] = edit as u64;
            number
        }
    }
}
