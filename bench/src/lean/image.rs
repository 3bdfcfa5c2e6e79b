//! Format, and the whole image judged: one pass over the headers and records
//! that are reached.
//!
//! Why the raw pointers are sound: the image's length is judged first, and a
//! page number to be below N before its page is read.

use super::page::{half, kind, page, word, INDEX, KEYS, LEAF, SLOTS, TOP};
use super::{good_length, PAGE};

pub fn format(image: &mut [u8]) -> u8 {
    if !good_length(image.len()) {
        return 1;
    }
    let pages = (image.len() / PAGE) as u64;
    image.fill(0);
    let mut put = |at: usize, number: u64| {
        image[at..at + 8].copy_from_slice(&number.to_le_bytes());
    };
    put(8, 1);
    put(16, pages | 1 << 16);
    put(PAGE, 1 | 1000 << 16 | 2 << 32 | 1 << 48);
    put(PAGE + 8, 1000);
    put(PAGE + 1008, 2);
    put(PAGE + 1016, 2);
    put(2 * PAGE, 1024 << 16 | 1 << 32 | 2 << 48);
    0
}

pub fn check(image: &[u8]) -> u8 {
    match reached(image) {
        Ok(_) => 0,
        Err(number) => number,
    }
}

/// Checks the image; gives the root and one bit a reached page, page 0 too, if
/// it is sound, else the refusal.
#[inline(always)]
pub fn reached(image: &[u8]) -> Result<(usize, u64), u8> {
    let root = root(image)?;
    let (start, pages) = (image.as_ptr(), image.len() / PAGE);
    unsafe {
        let reached = sound(start, pages, root, |page| start.add(page * PAGE));
        reached.map(|pages| (root, pages)).ok_or(4)
    }
}

/// The root, if the length and page 0's first line are good and no mark waits,
/// else the refusal: "1; 4 if page 0 is wrong; 3 if a well-formed mark waits".
#[inline(always)]
pub(super) fn root(image: &[u8]) -> Result<usize, u8> {
    if !good_length(image.len()) {
        return Err(1);
    }
    match unsafe { page_zero(image.as_ptr(), (image.len() / PAGE) as u64) } {
        None => Err(4),
        Some((0, root)) => Ok(root),
        Some(_) => Err(3),
    }
}

/// Page 0's mark and root, if line 0 is not wrong.
#[inline(always)]
pub(super) unsafe fn page_zero(start: *const u8, pages: u64) -> Option<(u64, usize)> {
    let mark = word(start);
    let root = word(start.add(8));
    let zeros = (3..8).fold(0, |all, i| all | word(start.add(8 * i)));
    if zeros != 0 || word(start.add(16)) != (pages | 1 << 16) || root.wrapping_sub(1) >= pages - 1 {
        return None;
    }
    let headers = mark >> 8 & 0xff;
    let new_root = mark >> 16;
    let good =
        mark & 0xff == 1 && headers.wrapping_sub(1) < 15 && new_root.wrapping_sub(1) < pages - 1;
    (mark == 0 || good).then_some((mark, root as usize))
}

/// How many records a page above the leaves has, if it is good: "1 to 28 records; its
/// pages are distinct [..] in 1 to N-1", none taken before. One bit for each page that is
/// taken; its own and page 0's are set before. `header` is where its header is.
#[inline(always)]
pub(super) unsafe fn names(
    header: *const u8,
    start: *const u8,
    pages: usize,
    (number, kind): (usize, u64),
    (low, high): (u64, u64),
    taken: &mut u64,
) -> Option<usize> {
    let mut all = *taken;
    let fresh = |record: *const u8| {
        let number = half(record.add(16));
        let fresh = number < pages && all >> number & 1 == 0;
        all |= 1 << (number & 63);
        fresh
    };
    let count = page(
        header,
        start.add(number * PAGE),
        number,
        kind,
        low,
        high,
        fresh,
    )?;
    *taken = all;
    (count > 0).then_some(count)
}

/// The root's records and kind, and one bit for each page that is taken by it.
#[inline(always)]
pub(super) unsafe fn judged_root(
    header: *const u8,
    start: *const u8,
    pages: usize,
    root: usize,
) -> Option<(usize, u64, u64)> {
    let mut taken: u64 = 1 | 1 << root;
    let kind = if kind(header) == TOP { TOP } else { INDEX };
    let count = names(header, start, pages, (root, kind), (0, KEYS), &mut taken)?;
    Some((count, kind, taken))
}

/// One bit a page that is reached from this root, and page 0's, if all of them
/// are sound. `header` gives where a page's header is: it may wait in the log.
#[inline(always)]
pub(super) unsafe fn sound(
    start: *const u8,
    pages: usize,
    root: usize,
    header: impl Fn(usize) -> *const u8,
) -> Option<u64> {
    let (count, kind, taken) = judged_root(header(root), start, pages, root)?;
    if kind == TOP {
        return sound_under_top(start, pages, root, (count, taken), header);
    }
    // The first leaf may hold keys below its separator.
    let least = (count > 1) as usize;
    leaves(start, (root, count), (1, KEYS), least, &header)?;
    Some(taken)
}

/// The leaves that an index page names: the first one's keys begin at the one bound, the
/// last one's end at the other.
#[inline(always)]
unsafe fn leaves(
    start: *const u8,
    (index, count): (usize, usize),
    (mut low, end): (u64, u64),
    least: usize,
    header: &impl Fn(usize) -> *const u8,
) -> Option<()> {
    let index_header = header(index);
    let record = |i: usize| start.add(index * PAGE + half(index_header.add(8 + 2 * i)));
    for i in 0..count {
        let last = i + 1 == count;
        let high = if last { end } else { word(record(i + 1)) };
        let number = half(record(i).add(16));
        let leaf = start.add(number * PAGE);
        if page(header(number), leaf, number, LEAF, low, high, |_| true)? < least {
            return None;
        }
        low = high;
    }
    Some(())
}

/// The same under a top: its index pages first, then their leaves.
#[inline(never)]
unsafe fn sound_under_top(
    start: *const u8,
    pages: usize,
    root: usize,
    (count, mut taken): (usize, u64),
    header: impl Fn(usize) -> *const u8,
) -> Option<u64> {
    let top = header(root);
    let record = |i: usize| start.add(root * PAGE + half(top.add(8 + 2 * i)));
    let bound = |i: usize| if i == count { KEYS } else { word(record(i)) };
    let mut counts = [0; SLOTS];
    for (i, leaves) in counts[..count].iter_mut().enumerate() {
        let number = half(record(i).add(16));
        // The first one's separators may lie below its own.
        let low = if i == 0 { 0 } else { bound(i) };
        let place = (number, INDEX);
        *leaves = names(
            header(number),
            start,
            pages,
            place,
            (low, bound(i + 1)),
            &mut taken,
        )?;
    }
    let least = (count > 1 || counts[0] > 1) as usize;
    for (i, &named) in counts[..count].iter().enumerate() {
        let number = half(record(i).add(16));
        let low = if i == 0 { 1 } else { bound(i) };
        leaves(start, (number, named), (low, bound(i + 1)), least, &header)?;
    }
    Some(taken)
}
