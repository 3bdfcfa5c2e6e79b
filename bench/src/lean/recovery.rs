//! Recovery: one check of the image with its logged headers in, one copy, and
//! the tape.
//!
//! Why the raw pointers are sound: a logged page number is judged to be below N
//! before it is used, and the tape's length before it is written.

use super::image::{page_zero, sound};
use super::page::{half, word};
use super::tape::{Writer, BARRIER, FLUSH, LINE_STORE, WORD_STORE};
use super::{good_length, PAGE};
use std::ptr::copy_nonoverlapping;

pub fn recover(image: &[u8], work: &mut [u8], tape: &mut [u8], answer: &mut [u64; 2]) -> u8 {
    let length = image.len();
    if !good_length(length) {
        return 1;
    }
    if work.len() != length {
        return 2;
    }
    let (start, pages) = (image.as_ptr(), length / PAGE);
    unsafe {
        let Some((mark, root)) = page_zero(start, pages as u64) else {
            return 4;
        };
        if mark == 0 {
            return without_log(image, work, root, answer);
        }
        let (headers, new_root) = ((mark >> 8 & 0xff) as usize, (mark >> 16) as usize);
        if !replay_is_sound(start, pages, headers, new_root) {
            return 4;
        }
        copy_nonoverlapping(start, work.as_mut_ptr(), length);
        let words = 1 + (root != new_root) as usize;
        let bytes = headers * (LINE_STORE + FLUSH) + words * WORD_STORE + FLUSH + 2 * BARRIER;
        if tape.len() < bytes {
            return 13;
        }
        replay(
            start,
            work.as_mut_ptr(),
            tape.as_mut_ptr(),
            headers,
            new_root,
        );
        *answer = [bytes as u64, headers as u64 + 1];
    }
    0
}

/// With mark 0 the image itself is checked and copied.
#[inline(always)]
unsafe fn without_log(image: &[u8], work: &mut [u8], root: usize, answer: &mut [u64; 2]) -> u8 {
    let (start, pages) = (image.as_ptr(), image.len() / PAGE);
    if sound(start, pages, root, |page| start.add(page * PAGE)).is_none() {
        return 4;
    }
    copy_nonoverlapping(start, work.as_mut_ptr(), image.len());
    *answer = [0, 0];
    0
}

/// Whether the logged page numbers are good and the image is sound once they
/// are in.
#[inline(always)]
unsafe fn replay_is_sound(start: *const u8, pages: usize, headers: usize, root: usize) -> bool {
    // Where each page's header is, from the image's start.
    let mut place = [0u16; 64];
    for (page, place) in place.iter_mut().enumerate() {
        *place = (page * PAGE) as u16;
    }
    let mut seen: u64 = 1;
    for line in 1..=headers {
        let page = half(start.add(64 * line + 6));
        if page >= pages || seen >> page & 1 == 1 {
            return false;
        }
        seen |= 1 << page;
        place[page] = (64 * line) as u16;
    }
    sound(start, pages, root, |page| start.add(place[page] as usize)).is_some()
}

/// Work with the headers and the root in, and the tape.
#[inline(always)]
unsafe fn replay(start: *const u8, work: *mut u8, tape: *mut u8, headers: usize, root: usize) {
    let mut out = Writer(tape);
    for line in 1..=headers {
        let header = start.add(64 * line);
        let page = half(header.add(6));
        copy_nonoverlapping(header, work.add(page * PAGE), 64);
        out.line_store(16 * page, header);
    }
    for line in 1..=headers {
        out.flush(16 * half(start.add(64 * line + 6)));
    }
    out.barrier();
    if word(start.add(8)) != root as u64 {
        out.word_store(1, root as u64);
    }
    out.word_store(0, 0);
    out.flush(0);
    out.barrier();
    (work as *mut u64).write_unaligned(0);
    (work.add(8) as *mut u64).write_unaligned(root as u64);
}
