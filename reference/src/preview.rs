//! Document 02 (a): the value that a key would have if an edit list were
//! committed. It reads only the leaves that it needs, by document 02 (b), and under
//! a top, by (j), only their index pages.

use crate::edits::{parse, Edit, Kind};
use crate::image::{Leaf, Reader};
use crate::page::is_key;
use crate::{refuse, Refusal};

/// "It hands back a part of the edit list or a part of the image, [...] and a
/// second answer says which, or missing."
#[derive(Clone, Copy, Debug, PartialEq, Eq)]
pub enum Preview {
    InList { offset: usize, length: usize },
    InImage { offset: usize, length: usize },
    Missing,
}

/// "Refused: check's, then the list's, then 6 for the key asked, then 8 and 9."
/// (b) leaves to check's what page 0 and the root show.
pub fn preview(image: &[u8], list: &[u8], key: u64) -> Result<Preview, Refusal> {
    let mut reader = Reader::new(image)?;
    let edits = parse(list)?;
    // "Edit numbers are as in a transaction, 0 for the key asked."
    if !is_key(key) {
        return refuse(6);
    }
    for at in 0..edits.len() {
        check_key(&mut reader, &edits, at)?;
    }
    // "As the last edit of that key decides."
    match edits.iter().rposition(|edit| edit.key == key) {
        Some(last) => Ok(part_of_list(&edits, last)),
        None => part_of_image(&mut reader, key),
    }
}

/// The leaf that a key belongs to. (j): "In the look an index page's 4 comes where
/// its leaf's would."
fn leaf_of(reader: &mut Reader, key: u64) -> Result<Leaf, Refusal> {
    let place = reader.place_of(key)?;
    reader.leaf(place)
}

/// "The key rules of edits hold for the whole list": 8 insert of a key present,
/// 9 other edit of a missing key. (b): "a leaf's 4 comes just before the 8 or 9
/// of the first edit that needs that leaf", and names no edit.
fn check_key(reader: &mut Reader, edits: &[Edit], at: usize) -> Result<(), Refusal> {
    let key = edits[at].key;
    let leaf = leaf_of(reader, key)?;
    // "Each edit sees those before it."
    let present = match edits[..at].iter().rfind(|edit| edit.key == key) {
        Some(before) => before.kind != Kind::Delete,
        None => leaf.find(key).is_some(),
    };
    let (number, good) = match edits[at].kind {
        Kind::Insert => (8, !present),
        Kind::Update | Kind::Delete => (9, present),
    };
    if !good {
        return Err(Refusal { number, edit: at });
    }
    Ok(())
}

/// The value of this edit, which follows its head of ten bytes.
fn part_of_list(edits: &[Edit], at: usize) -> Preview {
    if edits[at].kind == Kind::Delete {
        return Preview::Missing;
    }
    let before = edits[..at].iter().map(|edit| 10 + edit.value.len());
    Preview::InList {
        offset: before.sum::<usize>() + 10,
        length: edits[at].value.len(),
    }
}

/// What the image holds of a key that no edit has. (b): a leaf's 4 comes "last
/// of all for the key asked".
fn part_of_image(reader: &mut Reader, key: u64) -> Result<Preview, Refusal> {
    Ok(match leaf_of(reader, key)?.find(key) {
        Some((offset, length)) => Preview::InImage { offset, length },
        None => Preview::Missing,
    })
}
