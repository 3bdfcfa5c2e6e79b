//! The transactions whose flushes, barriers and bytes are counted, on a book of
//! 500 quotes.

use crate::books::{delete, edit, five_hundred, insert, neighbours, one, spread};
use crate::models::change::Change;
use cases::images::Built;
use reference::device::{decode, Command, Device};
use reference::tape::CommitPlace;
use reference::transaction::{transaction_with, Fault};

/// How many transactions of updates follow each other.
pub const TURNS: usize = 2_000;

/// Edit lists of one kind.
pub struct Workload {
    pub name: &'static str,
    /// Updates follow each other, so that pages fill up and are copied; other
    /// edits are each made in the book as it was first.
    pub updates: bool,
    book: Built,
    lists: Vec<Vec<u8>>,
}

/// What one transaction does.
pub struct Done {
    pub place: CommitPlace,
    pub tape: Vec<Command>,
    /// The tape for memory without line stores.
    pub tape_of_words: Vec<Command>,
    pub change: Change,
    /// The same in a store whose updates write over the old value, which is
    /// safe under a log of values, though not in this store.
    pub change_in_place: Change,
}

pub fn all() -> [Workload; 6] {
    [
        of_updates("one update", one),
        of_updates("16 neighbours", neighbours),
        of_updates("16 spread", spread),
        of_edits("one insert", |key| insert(key + 1)),
        of_edits("one delete", delete),
        splits(),
    ]
}

fn of_updates(name: &'static str, keys: fn(&Built, usize) -> Vec<u64>) -> Workload {
    let book = five_hundred(26);
    let list = |turn| {
        // Another value each turn, with no byte likely to be zero.
        let value = (turn as u64 + 1).wrapping_mul(0x9e37_79b9_7f4a_7c15);
        let update = |key| edit(2, key, &value.to_le_bytes());
        keys(&book, turn).into_iter().flat_map(update).collect()
    };
    Workload {
        name,
        updates: true,
        lists: (0..TURNS).map(list).collect(),
        book,
    }
}

/// One edit for each key of the book.
fn of_edits(name: &'static str, edit: fn(u64) -> Vec<u8>) -> Workload {
    let book = five_hundred(26);
    Workload {
        name,
        updates: false,
        lists: book.table.iter().map(|entry| edit(entry.0)).collect(),
        book,
    }
}

/// An insert into each full leaf beside each of its keys.
fn splits() -> Workload {
    let book = five_hundred(18);
    let full = book.leaves.iter().filter(|leaf| leaf.places.len() == 28);
    let places = full.flat_map(|leaf| &leaf.places);
    Workload {
        name: "a split",
        updates: false,
        lists: places.map(|place| insert(place.key + 1)).collect(),
        book,
    }
}

impl Workload {
    /// How many transactions there are.
    pub fn count(&self) -> usize {
        self.lists.len()
    }

    /// Makes the transactions and shows each.
    pub fn each(&self, mut show: impl FnMut(&Done)) {
        let (mut image, mut in_place) = (self.book.image.clone(), self.book.image.clone());
        for list in &self.lists {
            let (after, tape, place) = outcome(Device::Lines, &image, list, Fault::None);
            let (_, tape_of_words, _) = outcome(Device::Words, &image, list, Fault::None);
            let (overwritten, _, _) = outcome(Device::Lines, &in_place, list, Fault::UpdateInPlace);
            show(&Done {
                place,
                tape,
                tape_of_words,
                change: Change::between(&image, &after),
                change_in_place: Change::between(&in_place, &overwritten),
            });
            if self.updates {
                (image, in_place) = (after, overwritten);
            }
        }
    }
}

/// The image after the transaction, its tape and its commit place.
fn outcome(
    device: Device,
    image: &[u8],
    list: &[u8],
    fault: Fault,
) -> (Vec<u8>, Vec<Command>, CommitPlace) {
    let (mut work, mut tape) = (image.to_vec(), vec![0; 65_536]);
    let answer = transaction_with(device, fault, image, &mut work, &mut tape, list)
        .expect("these transactions are accepted");
    let commands = decode(&tape[..answer.bytes], image.len()).expect("the tape is good");
    (work, commands, answer.place)
}
