//! Document 02 (i), 'Two books into one': the records of two images, written
//! anew into a third buffer; (j), with a top page where 28 leaves aren't enough.

use crate::device::{check_length, LINE, PAGE};
use crate::image::{format, sound_leaves};
use crate::page::{Header, Record, INDEX, LEAF, SLOTS, TOP};
use crate::{refuse, Refusal};

/// "Each as many as 28 records and 960 bytes allow": the 960 bytes are what the
/// header line leaves of a page.
const ROOM: usize = PAGE - LINE;

/// "Page 1 as index and page 2 onward as leaves." Document 02 (j): "the merge builds
/// a top only if 28 leaves aren't enough, as page 1, then index pages filled to 28
/// each, then leaves".
const ROOT_PAGE: usize = 1;

/// "One call reads both images and writes a third buffer." The three lengths
/// may differ. "Refused: 1 for the third buffer, check's for the first image,
/// check's for the second, 20 if a key is in both, 10, then 11, each leaving the
/// third buffer unchanged."
pub fn merge(first: &[u8], second: &[u8], third: &mut [u8]) -> Result<(), Refusal> {
    check_length(third)?;
    let first = records_of(first)?;
    let second = records_of(second)?;
    let leaves = deal(&in_key_order(first, second)?);
    let indexes = count_indexes(&leaves);
    // 10 is "a 29th record in the top page".
    if indexes > SLOTS {
        return refuse(10);
    }
    // 11 is "too few new pages": the leaves follow the pages above them, and the
    // buffer has to hold the last of them.
    if first_leaf(indexes) + leaves.len() > third.len() / PAGE {
        return refuse(11);
    }
    write(third, &leaves)
}

/// How many index pages there are under a top, none if there is no top.
fn count_indexes(leaves: &[Vec<Record>]) -> usize {
    if leaves.len() <= SLOTS {
        return 0;
    }
    leaves.len().div_ceil(SLOTS)
}

/// The page of the first leaf, behind so many index pages under a top.
fn first_leaf(indexes: usize) -> usize {
    ROOT_PAGE + 1 + indexes
}

/// The records that a sound image's leaves list, keys rising, or check's
/// refusal.
fn records_of(image: &[u8]) -> Result<Vec<Record>, Refusal> {
    let leaves = sound_leaves(image)?;
    Ok(leaves.into_iter().flat_map(|leaf| leaf.records).collect())
}

/// "Every record of both and nothing else", in key order; "20 if a key is in
/// both". No image has a key twice, so equal keys are one of each.
fn in_key_order(first: Vec<Record>, second: Vec<Record>) -> Result<Vec<Record>, Refusal> {
    let mut records = [first, second].concat();
    records.sort_by_key(|record| record.key);
    if records.windows(2).any(|two| two[0].key == two[1].key) {
        return refuse(20);
    }
    Ok(records)
}

/// "Leaves take records in key order, each as many as 28 records and 960 bytes
/// allow." No leaf for no records.
fn deal(records: &[Record]) -> Vec<Vec<Record>> {
    let mut leaves: Vec<Vec<Record>> = Vec::new();
    for record in records {
        match leaves.last_mut() {
            Some(leaf) if has_room(leaf, record) => leaf.push(record.clone()),
            _ => leaves.push(vec![record.clone()]),
        }
    }
    leaves
}

/// Whether a leaf of these records can take one more.
fn has_room(leaf: &[Record], record: &Record) -> bool {
    let taken: usize = leaf.iter().map(Record::size).sum();
    leaf.len() < SLOTS && taken + record.size() <= ROOM
}

/// "All other bytes are as in a fresh store. With no records the result is a
/// fresh store."
fn write(third: &mut [u8], leaves: &[Vec<Record>]) -> Result<(), Refusal> {
    format(third)?;
    if leaves.is_empty() {
        return Ok(());
    }
    let indexes = count_indexes(leaves);
    let records = leaf_records(leaves, first_leaf(indexes));
    match indexes {
        0 => fill(third, ROOT_PAGE, INDEX, &records),
        _ => write_top(third, &records),
    }
    for (at, leaf) in leaves.iter().enumerate() {
        fill(third, first_leaf(indexes) + at, LEAF, leaf);
    }
    Ok(())
}

/// The index record of each leaf. "The first separator is 0 and the others are
/// smallest keys."
fn leaf_records(leaves: &[Vec<Record>], first_page: usize) -> Vec<Record> {
    let mut records = Vec::new();
    for (at, leaf) in leaves.iter().enumerate() {
        let separator = if at == 0 { 0 } else { leaf[0].key };
        records.push(Record::of_page(separator, first_page + at));
    }
    records
}

/// "Index pages filled to 28 each": the last one takes the rest. The top has the first
/// separator of each.
fn write_top(third: &mut [u8], records: &[Record]) {
    let mut top = Vec::new();
    for (at, index) in records.chunks(SLOTS).enumerate() {
        let page = ROOT_PAGE + 1 + at;
        fill(third, page, INDEX, index);
        top.push(Record::of_page(index[0].key, page));
    }
    fill(third, ROOT_PAGE, TOP, &top);
}

/// "Each page is filled as a new one is." Document 01, 'Edits': "A new page is
/// filled in key order from the end down; its bytes from 64 to start stay." Here
/// those that stay are a fresh store's.
fn fill(image: &mut [u8], number: usize, kind: u8, records: &[Record]) {
    let page = &mut image[number * PAGE..][..PAGE];
    let mut header = Header::unused(kind, number);
    for record in records {
        header.start -= record.size();
        header.slots.push(header.start);
        page[header.start..][..record.size()].copy_from_slice(&record.encode());
    }
    page[..LINE].copy_from_slice(&header.encode());
}
