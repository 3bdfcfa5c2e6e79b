//! Document 01, 'Page layout': the header line and the records of one page.

use crate::device::{LINE, PAGE};

/// "The rest of the line is 28 slots of two bytes."
pub const SLOTS: usize = 28;

/// "Keys are 1 to 999,999,999,999", separators 0 to the same.
pub const LAST_KEY: u64 = 999_999_999_999;

/// "Values 0 to 200 bytes."
pub const LONGEST_VALUE: usize = 200;

/// "Kind (1; 1 leaf, 2 index)". Document 02 (j): "a top page, kind 3, in the
/// index form".
pub const LEAF: u8 = 1;
pub const INDEX: u8 = 2;
pub const TOP: u8 = 3;

/// Line 0 of a page other than page 0. The count is the number of slots here.
#[derive(Clone, Debug, PartialEq, Eq)]
pub struct Header {
    pub start: usize,
    pub kind: u8,
    pub number: usize,
    pub slots: Vec<usize>,
}

impl Header {
    /// "An unused header, the same everywhere: no records, content start
    /// 1,024", with the kind and number of the page that it is used for.
    pub fn unused(kind: u8, number: usize) -> Header {
        Header {
            start: PAGE,
            kind,
            number,
            slots: Vec::new(),
        }
    }

    /// The header of a page, if its line is laid out as a header is.
    pub fn read(page: &[u8]) -> Option<Header> {
        let count = two_bytes(page, 0);
        if count > SLOTS || page[5] != 0 {
            return None;
        }
        let all: Vec<usize> = (0..SLOTS).map(|i| two_bytes(page, 8 + 2 * i)).collect();
        // "Slots past the count are zero."
        if all[count..].iter().any(|&slot| slot != 0) {
            return None;
        }
        Some(Header {
            start: two_bytes(page, 2),
            kind: page[4],
            number: two_bytes(page, 6),
            slots: all[..count].to_vec(),
        })
    }

    /// "Count (2 bytes), content start (2), kind (1), zero (1), own page number
    /// (2)", then the slots, zero past the count.
    pub fn encode(&self) -> [u8; LINE] {
        let mut line = [0; LINE];
        put_two_bytes(&mut line, 0, self.slots.len());
        put_two_bytes(&mut line, 2, self.start);
        line[4] = self.kind;
        put_two_bytes(&mut line, 6, self.number);
        for (i, &slot) in self.slots.iter().enumerate() {
            put_two_bytes(&mut line, 8 + 2 * i, slot);
        }
        line
    }
}

/// A leaf's record, or one of an index page or a top page, with its separator as
/// key and a page number of two bytes as value.
#[derive(Clone, Debug, PartialEq, Eq)]
pub struct Record {
    pub key: u64,
    pub value: Vec<u8>,
}

impl Record {
    /// An index record.
    pub fn of_page(separator: u64, page: usize) -> Record {
        Record {
            key: separator,
            value: (page as u16).to_le_bytes().to_vec(),
        }
    }

    /// The page that an index record names.
    pub fn page(&self) -> usize {
        two_bytes(&self.value, 0)
    }

    /// "Its size is 16 plus the length rounded up to 8."
    pub fn size(&self) -> usize {
        16 + self.value.len().div_ceil(8) * 8
    }

    /// "Its key (8 bytes), value length (2), six zeros, the value, then zeros
    /// to a multiple of 8."
    pub fn encode(&self) -> Vec<u8> {
        let mut bytes = vec![0; self.size()];
        bytes[..8].copy_from_slice(&self.key.to_le_bytes());
        put_two_bytes(&mut bytes, 8, self.value.len());
        bytes[16..16 + self.value.len()].copy_from_slice(&self.value);
        bytes
    }

    /// The record at an offset of a page, if it ends by 1,024 and has the form
    /// above.
    pub fn read(page: &[u8], offset: usize) -> Option<Record> {
        let head = page.get(offset..offset + 16)?;
        let key = u64::from_le_bytes(head[..8].try_into().unwrap());
        let value = page.get(offset + 16..offset + 16 + two_bytes(head, 8))?;
        let record = Record {
            key,
            value: value.to_vec(),
        };
        let bytes = page.get(offset..offset + record.size())?;
        (bytes == record.encode()).then_some(record)
    }
}

/// The records that a page lists, in the order of its slots, if the page by
/// itself is as a sound image has it.
pub fn read_page(page: &[u8], number: usize, kind: u8) -> Option<Vec<Record>> {
    let header = Header::read(page)?;
    // "Every reached header is laid out as above, with at most 28 records and
    // its own number and kind; start is a multiple of 8 from 64 to 1,024."
    if header.number != number || header.kind != kind {
        return None;
    }
    if header.start % 8 != 0 || header.start < LINE || header.start > PAGE {
        return None;
    }
    // "Slots are multiples of 8, not below start; records end by 1,024."
    let mut records = Vec::new();
    for &slot in &header.slots {
        if slot % 8 != 0 || slot < header.start {
            return None;
        }
        records.push(Record::read(page, slot)?);
    }
    let good = records.iter().all(|record| has_form(record, kind))
        && !overlap(&header.slots, &records)
        && records.windows(2).all(|two| two[0].key < two[1].key);
    good.then_some(records)
}

/// "Keys are 1 to 999,999,999,999."
pub fn is_key(number: u64) -> bool {
    (1..=LAST_KEY).contains(&number)
}

/// "Values 0 to 200 bytes. An index record's key is a separator, 0 to
/// 999,999,999,999, and its value a 2-byte page number." Document 02 (g) bars
/// empty values from lists alone: "Stored ones work as before."
fn has_form(record: &Record, kind: u8) -> bool {
    if kind == LEAF {
        is_key(record.key) && record.value.len() <= LONGEST_VALUE
    } else {
        record.key <= LAST_KEY && record.value.len() == 2
    }
}

/// Whether some two of the records at these offsets share a byte.
fn overlap(slots: &[usize], records: &[Record]) -> bool {
    (0..slots.len()).any(|i| {
        (0..i).any(|j| {
            slots[i] < slots[j] + records[j].size() && slots[j] < slots[i] + records[i].size()
        })
    })
}

/// "Stored numbers are unsigned, low byte first."
pub fn two_bytes(bytes: &[u8], at: usize) -> usize {
    u16::from_le_bytes([bytes[at], bytes[at + 1]]) as usize
}

fn put_two_bytes(bytes: &mut [u8], at: usize, number: usize) {
    bytes[at..at + 2].copy_from_slice(&(number as u16).to_le_bytes());
}
