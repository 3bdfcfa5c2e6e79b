//! A page by itself: its numbers, its records, whether it is sound, and the
//! search in it.
//!
//! Why the raw pointers are sound: a slot is judged to be at most 1,008 and its
//! record to end by 1,024 before the record is read; only a page so judged is
//! searched.

use super::PAGE;

pub const SLOTS: usize = 28;
pub const KEYS: u64 = 1_000_000_000_000;

#[inline(always)]
pub(super) unsafe fn word(at: *const u8) -> u64 {
    (at as *const u64).read_unaligned()
}

#[inline(always)]
pub(super) unsafe fn half(at: *const u8) -> usize {
    (at as *const u16).read_unaligned() as usize
}

/// Whether a key is one that a quote may have.
#[inline(always)]
pub(super) fn good_key(key: u64) -> bool {
    key.wrapping_sub(1) < KEYS - 1
}

/// The record of this slot.
#[inline(always)]
pub(super) unsafe fn record(page: *const u8, slot: usize) -> *const u8 {
    page.add(half(page.add(8 + 2 * slot)))
}

/// How many of the page's records have a key not above this one.
#[inline(always)]
pub(super) unsafe fn not_above(page: *const u8, key: u64) -> usize {
    let (mut low, mut high) = (0, half(page));
    while low < high {
        let middle = (low + high) / 2;
        if word(record(page, middle)) <= key {
            low = middle + 1;
        } else {
            high = middle;
        }
    }
    low
}

/// The record of this key, if the page has one.
#[inline(always)]
pub(super) unsafe fn find(page: *const u8, key: u64) -> Option<*const u8> {
    // The last record not above the key is its own, or it is missing.
    let at = not_above(page, key);
    if at == 0 {
        return None;
    }
    let record = record(page, at - 1);
    (word(record) == key).then_some(record)
}

/// The kinds of a page.
pub(super) const LEAF: u64 = 1;
pub(super) const INDEX: u64 = 2;
pub(super) const TOP: u64 = 3;

/// A page's kind byte.
#[inline(always)]
pub(super) unsafe fn kind(header: *const u8) -> u64 {
    *header.add(4) as u64
}

/// The number of records of a page, if its header and records are good and the
/// keys rise from `low` on to below `high`. Each record is handed to `each`.
#[inline(always)]
pub(super) unsafe fn page(
    header: *const u8,
    page: *const u8,
    number: usize,
    kind: u64,
    mut low: u64,
    high: u64,
    mut each: impl FnMut(*const u8) -> bool,
) -> Option<usize> {
    let head = word(header);
    let count = (head & 0xffff) as usize;
    let start = (head >> 16 & 0xffff) as usize;
    // Kind, zero byte and own number at once.
    if head >> 32 != (kind | (number as u64) << 16) || count > SLOTS {
        return None;
    }
    if start & 7 != 0 || !(64..=PAGE).contains(&start) || !zero_past(header, count) {
        return None;
    }
    let mut covered = (0, 0);
    for i in 0..count {
        let slot = half(header.add(8 + 2 * i));
        if slot & 7 != 0 || slot < start || slot > PAGE - 16 {
            return None;
        }
        let record = page.add(slot);
        let key = word(record);
        let (below, above) = covers(slot / 8, units(record, slot, kind)?);
        let free = covered.0 & below | covered.1 & above == 0;
        if key < low || key >= high || !free || !each(record) {
            return None;
        }
        covered = (covered.0 | below, covered.1 | above);
        low = key + 1;
    }
    Some(count)
}

/// One bit for each eight bytes of a page that a record covers: in the page's
/// first half, and in its second.
#[inline(always)]
fn covers(first: usize, units: usize) -> (u64, u64) {
    let ones = (1 << units) - 1;
    if first < 64 {
        return (ones << first, ones >> 1 >> (63 - first));
    }
    (0, ones << (first - 64))
}

/// Whether the slots past the count are zero, four at a time.
#[inline(always)]
unsafe fn zero_past(header: *const u8, count: usize) -> bool {
    let whole = count / 4;
    let mut rest = 0;
    if whole < SLOTS / 4 {
        rest = word(header.add(8 + 8 * whole)) >> (16 * (count % 4));
    }
    for i in whole + 1..SLOTS / 4 {
        rest |= word(header.add(8 + 8 * i));
    }
    rest == 0
}

/// The record's size in eight bytes, if its length, its zeros and its end are
/// good: 0 to 200 bytes in a leaf, a page number of two bytes above the leaves.
#[inline(always)]
unsafe fn units(record: *const u8, slot: usize, kind: u64) -> Option<usize> {
    // The length and six zeros at once.
    let length = word(record.add(8));
    if length > 200 || kind != LEAF && length != 2 {
        return None;
    }
    let length = length as usize;
    let units = 2 + length.div_ceil(8);
    if slot + 8 * units > PAGE {
        return None;
    }
    if length & 7 != 0 && word(record.add(8 * units - 8)) >> (8 * (length % 8)) != 0 {
        return None;
    }
    Some(units)
}
