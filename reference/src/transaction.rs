//! Document 01, 'Edits': how each edit is made; and from 'Each call and when it
//! says no' the transaction. Document 02 (j): index pages that split, under a top.

use crate::device::{check_length, check_work, Device, LINE, PAGE};
use crate::edits::{parse, Edit, Kind};
use crate::image::{child_of, page_of, reached, sound_leaves};
use crate::page::{Header, Record, INDEX, LEAF, SLOTS, TOP};
use crate::tape::{self, CommitPlace, Group};
use crate::{refuse, Refusal};
use std::collections::BTreeSet;

/// The room for records in a page.
const ROOM: usize = PAGE - LINE;

#[derive(Clone, Copy, Debug, PartialEq, Eq)]
pub struct Accepted {
    pub place: CommitPlace,
    pub bytes: usize,
    pub flushes: usize,
}

/// Document 01, 'Shortcuts that break a curve': each as a broken variant of the
/// transaction, to see that the crash test finds it. And one barrier of document
/// 02 (h) left out, of the transaction's tape or of the recovery's.
#[derive(Clone, Copy, Debug, PartialEq, Eq)]
pub enum Fault {
    None,
    HeaderByWords,
    UpdateInPlace,
    MarkClearedEarly,
    FreedPageTaken,
    RecordsFlushedLate,
    NoBarrier(Group),
}

pub fn transaction(
    image: &[u8],
    work: &mut [u8],
    tape: &mut [u8],
    list: &[u8],
) -> Result<Accepted, Refusal> {
    transaction_with(Device::Lines, Fault::None, image, work, tape, list)
}

/// Document 02 (d): the "separate transaction call" for modules without line
/// stores.
pub fn transaction_words(
    image: &[u8],
    work: &mut [u8],
    tape: &mut [u8],
    list: &[u8],
) -> Result<Accepted, Refusal> {
    transaction_with(Device::Words, Fault::None, image, work, tape, list)
}

pub fn transaction_with(
    device: Device,
    fault: Fault,
    image: &[u8],
    work: &mut [u8],
    tape: &mut [u8],
    list: &[u8],
) -> Result<Accepted, Refusal> {
    check_length(image)?;
    check_work(image, work)?;
    sound_leaves(image)?;
    make_edits(device, fault, image, work, tape, &parse(list)?)
}

/// The transaction past the list check: these edits on a sound image. Document 02
/// (g), "Stored ones work as before": tests store empty values by it, as lists
/// did by document 01 alone.
pub fn make_edits(
    device: Device,
    fault: Fault,
    image: &[u8],
    work: &mut [u8],
    tape: &mut [u8],
    edits: &[Edit],
) -> Result<Accepted, Refusal> {
    // "From 8 on, work holds the image."
    work.copy_from_slice(image);
    let mut tree = Tree::new(image, fault);
    for (i, edit) in edits.iter().enumerate() {
        tree.edit(edit)
            .map_err(|number| Refusal { number, edit: i })?;
    }
    let (commands, place) = tape::commands(device, image, &tree.finished(), fault)?;
    let bytes = tape::encode(&commands);
    if tape.len() < bytes.len() {
        return refuse(13);
    }
    // "Tape bytes past those used stay."
    tape[..bytes.len()].copy_from_slice(&bytes);
    // "On acceptance, the image after all the tape's stores."
    commands.iter().for_each(|command| command.apply(work));
    Ok(Accepted {
        place,
        bytes: bytes.len(),
        flushes: tape::count_flushes(&commands),
    })
}

/// Where a page's list of slots takes a record.
#[derive(Clone, Copy)]
enum Slot {
    New(usize),
    Old(usize),
}

/// Where an edit's key belongs: the leaf, its place in its index page, and that
/// page's place in the top, if there is one.
#[derive(Clone, Copy)]
struct Path {
    in_top: Option<usize>,
    index: usize,
    in_index: usize,
    leaf: usize,
}

/// What a page became: the pages with its records, and of a right one the smallest
/// key or first separator.
enum Became {
    Same,
    Copied { page: usize },
    Split { left: usize, right: Record },
}

/// The image while the edits are made. "Each edit sees those before it."
struct Tree<'a> {
    before: &'a [u8],
    image: Vec<u8>,
    root: usize,
    reached_before: BTreeSet<usize>,
    taken: BTreeSet<usize>,
    fault: Fault,
}

impl Tree<'_> {
    fn new(image: &[u8], fault: Fault) -> Tree<'_> {
        Tree {
            before: image,
            image: image.to_vec(),
            root: image[8] as usize,
            reached_before: reached(image),
            taken: BTreeSet::new(),
            fault,
        }
    }

    fn header(&self, page: usize) -> Header {
        Header::read(page_of(&self.image, page)).expect("edits keep headers good")
    }

    fn records(&self, page: usize) -> Vec<Record> {
        let bytes = page_of(&self.image, page);
        let slots = self.header(page).slots;
        let read = |&slot| Record::read(bytes, slot).expect("edits keep records good");
        slots.iter().map(read).collect()
    }

    fn put(&mut self, page: usize, at: usize, bytes: &[u8]) {
        self.image[page * PAGE + at..][..bytes.len()].copy_from_slice(bytes);
    }

    /// "A key belongs by the old rule to one index page, then within it to a leaf."
    fn path_to(&self, key: u64) -> Path {
        let root = self.records(self.root);
        let (in_top, index) = match self.header(self.root).kind {
            TOP => {
                let at = child_of(&root, key);
                (Some(at), root[at].page())
            }
            _ => (None, self.root),
        };
        let records = self.records(index);
        let in_index = child_of(&records, key);
        Path {
            in_top,
            index,
            in_index,
            leaf: records[in_index].page(),
        }
    }

    /// One edit, or its refusal.
    fn edit(&mut self, edit: &Edit) -> Result<(), u8> {
        let path = self.path_to(edit.key);
        let records = self.records(path.leaf);
        let found = records.iter().position(|record| record.key == edit.key);
        let record = Record {
            key: edit.key,
            value: edit.value.clone(),
        };
        match (edit.kind, found) {
            (Kind::Insert, Some(_)) => Err(8),
            // "An update's or delete's lookup that answers missing ends the
            // edit there with 9."
            (Kind::Update | Kind::Delete, None) => Err(9),
            (Kind::Delete, Some(at)) => {
                self.delete(path, at);
                Ok(())
            }
            (Kind::Insert, None) => {
                let below = |record: &&Record| record.key < edit.key;
                let at = records.iter().filter(below).count();
                self.write(path, Slot::New(at), record)
            }
            (Kind::Update, Some(at)) => self.update(path, at, record),
        }
    }

    /// "Update swaps the slot and never overwrites."
    fn update(&mut self, path: Path, at: usize, record: Record) -> Result<(), u8> {
        let same = self.records(path.leaf)[at].value.len() == record.value.len();
        if self.fault == Fault::UpdateInPlace && same {
            let offset = self.header(path.leaf).slots[at];
            self.put(path.leaf, offset, &record.encode());
            return Ok(());
        }
        self.write(path, Slot::Old(at), record)
    }

    /// "Delete drops the slot; start stays. A leaf left empty, unless it is
    /// the only one, loses its index record." The only one of the store. Document 02
    /// (j): "An index page left empty loses its record unless it is the only one; a
    /// top page stays."
    fn delete(&mut self, path: Path, at: usize) {
        self.drop_slot(path.leaf, at);
        if !self.is_empty(path.leaf) || self.count_leaves() == 1 {
            return;
        }
        self.drop_slot(path.index, path.in_index);
        if let (Some(at), true) = (path.in_top, self.is_empty(path.index)) {
            self.drop_slot(self.root, at);
        }
    }

    fn is_empty(&self, page: usize) -> bool {
        self.header(page).slots.is_empty()
    }

    fn count_leaves(&self) -> usize {
        let indexes = self.indexes().into_iter();
        indexes.map(|page| self.header(page).slots.len()).sum()
    }

    /// The pages of the index pages.
    fn indexes(&self) -> Vec<usize> {
        match self.header(self.root).kind {
            TOP => self.records(self.root).iter().map(Record::page).collect(),
            _ => vec![self.root],
        }
    }

    fn drop_slot(&mut self, page: usize, at: usize) {
        let mut header = self.header(page);
        header.slots.remove(at);
        self.put(page, 0, &header.encode());
    }

    /// A record into a leaf, and what follows from it above: "The top takes its new
    /// records after the index page has all of its own", so "pages are taken for
    /// leaves, index pages and top, in that order".
    fn write(&mut self, path: Path, slot: Slot, record: Record) -> Result<(), u8> {
        let leaf = self.write_record(LEAF, path.leaf, slot, record);
        let separator = self.left_separator(path);
        let slot = path.in_index;
        let index = self.write_children(INDEX, path.index, slot, separator, leaf);
        match path.in_top {
            None => self.write_root(index),
            Some(at) => self.write_top(at, index)?,
        }
        self.judge_pages()
    }

    /// "The left or only record takes the old leaf's slot, as in an update, and
    /// keeps its separator, or takes 0 if first." Document 02 (j): of the first leaf
    /// of an index page, "its left record takes that page's separator, or 0 in the
    /// first". That page's separator stands in the top.
    fn left_separator(&self, path: Path) -> u64 {
        match (path.in_top, path.in_index) {
            (None | Some(0), 0) => 0,
            (Some(at), 0) => self.records(self.root)[at].key,
            _ => self.records(path.index)[path.in_index].key,
        }
    }

    /// A page takes the new records of a child that was copied or split, left first.
    /// "The right one is an insert and takes its smallest key"; document 02 (j): "A
    /// right index page takes its first separator."
    fn write_children(
        &mut self,
        kind: u8,
        page: usize,
        slot: usize,
        separator: u64,
        child: Became,
    ) -> Became {
        let (left, right) = match child {
            Became::Same => return Became::Same,
            Became::Copied { page } => (page, None),
            Became::Split { left, right } => (left, Some(right)),
        };
        let left = Record::of_page(separator, left);
        let after_left = self.write_record(kind, page, Slot::Old(slot), left);
        let Some(right) = right else {
            return after_left;
        };
        // "If a left record has already forced a copy of a page that then splits,
        // the copy's page counts as taken, before those of the split."
        let (page, copied) = match after_left {
            Became::Copied { page } => (page, true),
            _ => (page, false),
        };
        match self.write_record(kind, page, Slot::New(slot + 1), right) {
            Became::Same if copied => Became::Copied { page },
            after_right => after_right,
        }
    }

    /// An index page that is the root. "Its own full page is copied likewise, which
    /// changes the root number." Document 02 (j): "A root index that would hold a
    /// 29th record is split by the leaf rule into two new index pages under a new
    /// kind 3 root." The new top's first separator is 0.
    fn write_root(&mut self, index: Became) {
        match index {
            Became::Same => {}
            Became::Copied { page } => self.root = page,
            Became::Split { left, right } => {
                let top = self.take();
                self.fill(top, TOP, &[Record::of_page(0, left), right]);
                self.root = top;
            }
        }
    }

    /// The top takes the new records of the index page at this place. "Lower index
    /// pages split and copy likewise": the left or only record keeps the separator,
    /// or takes 0 if first. "10 now means a 29th record in the top page."
    fn write_top(&mut self, at: usize, index: Became) -> Result<(), u8> {
        let separator = match at {
            0 => 0,
            _ => self.records(self.root)[at].key,
        };
        match self.write_children(TOP, self.root, at, separator, index) {
            Became::Same => Ok(()),
            Became::Copied { page } => {
                self.root = page;
                Ok(())
            }
            Became::Split { .. } => Err(10),
        }
    }

    /// "11 too few new pages": a page was taken that the image does not have.
    fn judge_pages(&self) -> Result<(), u8> {
        match self.image.len() > self.before.len() {
            true => Err(11),
            false => Ok(()),
        }
    }

    /// A record into a page of any kind: in place, or else by a copy or a split.
    fn write_record(&mut self, kind: u8, page: usize, slot: Slot, record: Record) -> Became {
        if self.fits(page, slot, &record) {
            self.write_in_place(page, slot, &record);
            return Became::Same;
        }
        let records = self.with_edit_made(page, slot, record);
        self.copy_or_split(kind, &records)
    }

    /// The opposite of "if s exceeds start minus 64, or an insert finds 28
    /// records".
    fn fits(&self, page: usize, slot: Slot, record: &Record) -> bool {
        let header = self.header(page);
        let full = matches!(slot, Slot::New(_)) && header.slots.len() == SLOTS;
        record.size() <= header.start - LINE && !full
    }

    /// "Insert and update write a new record of size s just below start, which
    /// moves down by s; update swaps the slot."
    fn write_in_place(&mut self, page: usize, slot: Slot, record: &Record) {
        let mut header = self.header(page);
        header.start -= record.size();
        match slot {
            Slot::New(at) => header.slots.insert(at, header.start),
            Slot::Old(at) => header.slots[at] = header.start,
        }
        self.put(page, header.start, &record.encode());
        self.put(page, 0, &header.encode());
    }

    /// "The leaf's records with the edit made are listed in key order."
    fn with_edit_made(&self, page: usize, slot: Slot, record: Record) -> Vec<Record> {
        let mut records = self.records(page);
        match slot {
            Slot::New(at) => records.insert(at, record),
            Slot::Old(at) => records[at] = record,
        }
        records
    }

    /// "If they are at most 28 and at most 960 bytes, they are copied to one
    /// new page; else split over two."
    fn copy_or_split(&mut self, kind: u8, records: &[Record]) -> Became {
        if records.len() <= SLOTS && bytes(records) <= ROOM {
            let page = self.take();
            self.fill(page, kind, records);
            return Became::Copied { page };
        }
        let m = left_count(records);
        let left = self.take();
        let right = self.take();
        self.fill(left, kind, &records[..m]);
        self.fill(right, kind, &records[m..]);
        let right = Record::of_page(records[m].key, right);
        Became::Split { left, right }
    }

    /// "A new page is filled in key order from the end down; its bytes from 64
    /// to start stay."
    fn fill(&mut self, page: usize, kind: u8, records: &[Record]) {
        let mut header = Header::unused(kind, page);
        for record in records {
            header.start -= record.size();
            header.slots.push(header.start);
            self.put(page, header.start, &record.encode());
        }
        self.put(page, 0, &header.encode());
    }

    /// "A new page is the highest-numbered one neither reached before the
    /// transaction nor already taken in it." Where there is none, the edit goes on
    /// with a page past the image's end, so that 10 is found before 11.
    fn take(&mut self) -> usize {
        let page = match self.free().last() {
            Some(&page) => page,
            None => {
                self.image.extend([0; PAGE]);
                self.image.len() / PAGE - 1
            }
        };
        self.taken.insert(page);
        page
    }

    /// The pages that may be taken, rising.
    fn free(&self) -> Vec<usize> {
        let reached = match self.fault {
            Fault::FreedPageTaken => self.reached_now(),
            _ => self.reached_before.clone(),
        };
        let pages = 1..self.before.len() / PAGE;
        pages
            .filter(|page| !reached.contains(page) && !self.taken.contains(page))
            .collect()
    }

    fn reached_now(&self) -> BTreeSet<usize> {
        let indexes = self.indexes();
        let leaves = indexes.iter().flat_map(|&page| self.records(page));
        let leaves: Vec<usize> = leaves.map(|record| record.page()).collect();
        leaves
            .into_iter()
            .chain(indexes)
            .chain([self.root])
            .collect()
    }

    /// The image after all edits. "Pages not reached at the end hold the bytes
    /// they held before."
    fn finished(mut self) -> Vec<u8> {
        let reached = self.reached_now();
        for page in 1..self.image.len() / PAGE {
            if !reached.contains(&page) {
                let bytes = page_of(self.before, page);
                self.image[page * PAGE..][..PAGE].copy_from_slice(bytes);
            }
        }
        self.image[8..16].copy_from_slice(&(self.root as u64).to_le_bytes());
        self.image
    }
}

fn bytes(records: &[Record]) -> usize {
    records.iter().map(Record::size).sum()
}

/// "The left takes the first m, m smallest with twice their bytes at least the
/// total."
fn left_count(records: &[Record]) -> usize {
    let enough = |&m: &usize| 2 * bytes(&records[..m]) >= bytes(records);
    (0..=records.len())
        .find(enough)
        .expect("all records are enough")
}
