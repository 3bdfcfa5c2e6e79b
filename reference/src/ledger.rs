//! Document 01, 'The plain ledger'.

use crate::edits::{parse, Edit, Kind};
use crate::image::{table, Table};
use std::collections::BTreeMap;

/// The tables at each count, from 0 on.
pub struct Ledger {
    tables: Vec<BTreeMap<u64, Vec<u8>>>,
}

impl Ledger {
    /// "The ledger starts with the first image's table and count 0."
    pub fn new(image: &[u8]) -> Ledger {
        let first = table(image).expect("the first image is sound");
        Ledger {
            tables: vec![first.into_iter().collect()],
        }
    }

    /// "It is fed each transaction's edit list and whether it was accepted."
    pub fn feed(&mut self, list: &[u8], accepted: bool) {
        // "Refused: no change."
        if accepted {
            self.make(parse(list).expect("an accepted list is well formed"));
        }
    }

    /// "Accepted: each edit in order."
    pub fn make(&mut self, edits: Vec<Edit>) {
        let mut table = self.tables[self.count()].clone();
        for edit in edits {
            // "Insert adds key and value, update replaces the value and
            // delete drops both."
            match edit.kind {
                Kind::Insert | Kind::Update => table.insert(edit.key, edit.value),
                Kind::Delete => table.remove(&edit.key),
            };
        }
        // "Then the count rises by 1."
        self.tables.push(table);
    }

    pub fn count(&self) -> usize {
        self.tables.len() - 1
    }

    /// The value that the table at this count has for a key, if it has the key.
    pub fn value(&self, key: u64, count: usize) -> Option<&[u8]> {
        self.tables[count].get(&key).map(Vec::as_slice)
    }

    /// "That a recovered store holds j transactions means that it is sound and
    /// its table is the ledger's at count j." Its table is none if it is not
    /// sound.
    pub fn holds(&self, table: Option<&Table>, count: usize) -> bool {
        table.is_some_and(|table| {
            let entries = table.iter().map(|(key, value)| (key, value));
            self.tables[count].iter().eq(entries)
        })
    }
}
