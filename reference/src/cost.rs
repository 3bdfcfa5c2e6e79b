//! Document 02 (f), 'The cost of one quote': which transactions of one edit it
//! speaks of, by the image and the edit alone.

use crate::device::LINE;
use crate::edits::{Edit, Kind};
use crate::image::{page_of, Reader};
use crate::page::{Header, Record, SLOTS};
use crate::Refusal;

/// The leaf that the edit's key belongs to, as it is before the edit.
#[derive(Clone, Copy, Debug, PartialEq, Eq)]
pub struct Ground {
    pub page: usize,
    pub start: usize,
    pub records: usize,
}

impl Ground {
    pub fn of(image: &[u8], key: u64) -> Result<Ground, Refusal> {
        let mut reader = Reader::new(image)?;
        let place = reader.place_of(key)?;
        let leaf = reader.leaf(place)?;
        let header = Header::read(page_of(image, leaf.page)).expect("the leaf is sound");
        Ok(Ground {
            page: leaf.page,
            start: header.start,
            records: leaf.records.len(),
        })
    }

    /// "One insert or update whose record fits below the content start, an
    /// insert finding fewer than 28 records"; a delete "that leaves its leaf
    /// with a record".
    pub fn is_met(&self, edit: &Edit) -> bool {
        match edit.kind {
            Kind::Insert => self.has_room(edit) && self.records < SLOTS,
            Kind::Update => self.has_room(edit),
            Kind::Delete => self.records >= 2,
        }
    }

    /// Whether the record would end at the start and begin past the header line.
    fn has_room(&self, edit: &Edit) -> bool {
        let record = Record {
            key: edit.key,
            value: edit.value.clone(),
        };
        LINE + record.size() <= self.start
    }
}
