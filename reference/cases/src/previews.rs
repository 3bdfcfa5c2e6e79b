//! Calls of document 02 (a): an image, an edit list and the key asked, all good
//! or with something wrong.

use crate::damage::{damage, other_length, FIELDS};
use crate::images::{any_shape, build, Built, Flaw, Shape, LAST_KEY};
use crate::lists::{List, FAULTS};
use crate::logs;
use crate::random::Random;

#[derive(Clone, Debug)]
pub struct PreviewCall {
    pub image: Vec<u8>,
    pub edits: Vec<u8>,
    pub key: u64,
    /// What was put wrong. It may be hidden behind another, or not be wrong
    /// after all.
    pub wrong: Vec<&'static str>,
}

/// What may be wrong, besides damage in a field of the image and faults of the
/// list.
pub const OTHERS: [&str; 5] = [
    "another length",
    "a waiting log",
    "an image built with a flaw",
    "an edit made twice",
    "the key asked out of range",
];

/// A call on this store. One in three has one to three things wrong, so that
/// their order matters.
pub fn any_call(random: &mut Random, built: &Built) -> PreviewCall {
    let mut list = any_list(random, &built.table);
    let key = any_key(random, &built.table, &list);
    let mut call = PreviewCall {
        image: built.image.clone(),
        edits: Vec::new(),
        key,
        wrong: Vec::new(),
    };
    if random.one_in(3) {
        for _ in 0..random.between(1, 3) {
            let wrong = match random.below(6) {
                0 | 1 => spoil_image(random, built, &mut call.image),
                2 | 3 => spoil_list(random, &mut list),
                4 => {
                    list.repeat(random);
                    OTHERS[3]
                }
                _ => {
                    call.key = random.pick(&[0, LAST_KEY + 1, 1 << 63, u64::MAX]);
                    OTHERS[4]
                }
            };
            call.wrong.push(wrong);
        }
    }
    call.edits = list.bytes();
    call
}

/// A list whose keys are right for a store with this table: of every mix, or of
/// few keys; now and then with an update to the bytes that the store has, if it
/// has any.
pub fn any_list(random: &mut Random, table: &[(u64, Vec<u8>)]) -> List {
    let keys: Vec<u64> = table.iter().map(|entry| entry.0).collect();
    let mut list = match random.below(2) {
        0 => List::any(random, &keys),
        _ => List::few_keys(random, &keys),
    };
    if !table.is_empty() && random.one_in(6) {
        let (key, value) = &table[random.below(table.len())];
        let new = !list.keys().contains(key) && list.edits.len() < 16;
        if new && !value.is_empty() {
            list.edits.push(update(*key, value));
        }
    }
    list
}

fn update(key: u64, value: &[u8]) -> Vec<u8> {
    let mut bytes = vec![2, value.len() as u8];
    bytes.extend(key.to_le_bytes());
    bytes.extend(value);
    bytes
}

/// A key to ask, in range: mostly one of the list or of the table, or beside
/// one, or at a limit, or any.
pub fn any_key(random: &mut Random, table: &[(u64, Vec<u8>)], list: &List) -> u64 {
    let keys = list.keys();
    let near = match random.below(3) {
        0 if !table.is_empty() => table[random.below(table.len())].0,
        _ if keys.is_empty() => 1,
        _ => random.pick(&keys),
    };
    let key = match random.below(12) {
        0 => random.pick(&[1, LAST_KEY]),
        1 => random.number() % LAST_KEY,
        2 => near.saturating_sub(1),
        3 => near.saturating_add(1),
        _ => near,
    };
    key.clamp(1, LAST_KEY)
}

/// Puts something wrong into the image, or another one in its place; says what
/// is wrong.
fn spoil_image(random: &mut Random, built: &Built, image: &mut Vec<u8>) -> &'static str {
    match random.below(8) {
        0 => {
            *image = other_length(random, built);
            OTHERS[0]
        }
        1 => {
            let headers = random.between(1, 15);
            *image = logs::waiting(random, built, headers);
            OTHERS[1]
        }
        2 => {
            let flaws = [
                Flaw::LongValue,
                Flaw::EmptyLeaf,
                Flaw::EmptyRoot,
                Flaw::EmptyIndex,
                Flaw::OddSlots,
            ];
            let flaw = random.pick(&flaws);
            let shape = any_shape(random);
            *image = build(random, Shape { flaw, ..shape }).image;
            OTHERS[2]
        }
        _ => damage_more(random, built, image),
    }
}

/// Damage in one field, on top of that done before if the length is still the
/// same.
fn damage_more(random: &mut Random, built: &Built, image: &mut Vec<u8>) -> &'static str {
    let field = random.below(FIELDS.len());
    let mut present = built.clone();
    if image.len() == built.image.len() {
        present.image.copy_from_slice(image);
    }
    *image = damage(random, &present, field).unwrap_or(present.image);
    FIELDS[field]
}

/// Puts a fault into the list; says which.
fn spoil_list(random: &mut Random, list: &mut List) -> &'static str {
    let fault = random.below(FAULTS.len());
    list.spoil(random, fault);
    FAULTS[fault].0
}
