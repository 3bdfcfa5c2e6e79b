//! Edit lists for a store that holds given keys: lists that can be made, and
//! lists with a fault.

use crate::images::LAST_KEY;
use crate::random::Random;

/// Edits, each as its own bytes, and the keys that the store holds after them,
/// rising.
pub struct List {
    pub edits: Vec<Vec<u8>>,
    present: Vec<u64>,
}

/// What the edits of one list have in common.
#[derive(Clone, Copy)]
struct Manner {
    /// The kind that most edits have; 0 if none.
    favourite: u8,
    longest: usize,
    /// A key that most others are beside, so that they meet in one leaf.
    near: Option<u64>,
}

/// What may be wrong with a list, and the refusal that it then gets if nothing
/// comes before it.
pub const FAULTS: [(&str, u8); 12] = [
    ("no edit", 5),
    ("a seventeenth edit", 5),
    ("head cut short", 5),
    ("unknown kind", 5),
    ("delete with a length", 5),
    ("length above 200", 7),
    ("value cut short", 5),
    ("key out of range", 6),
    ("insert of a key present", 8),
    ("update of a missing key", 9),
    ("delete of a missing key", 9),
    ("insert or update of length 0", 19),
];

/// Those of them that break the key rules; the others are the list's own.
pub const KEY_RULES: [usize; 3] = [8, 9, 10];
pub const OWN: [usize; 9] = [0, 1, 2, 3, 4, 5, 6, 7, EMPTY_VALUE];

const EMPTY_VALUE: usize = 11;

/// A list of edits, most of them possible one after the other on a store with
/// these keys, which rise; one list in eight has a fault.
pub fn any_list(random: &mut Random, keys: &[u64]) -> Vec<u8> {
    let mut list = List::any(random, keys);
    if random.one_in(8) {
        let fault = random.below(FAULTS.len());
        list.spoil(random, fault);
    }
    list.bytes()
}

/// One edit's bytes.
fn edit(random: &mut Random, kind: u8, key: u64, length: usize) -> Vec<u8> {
    let mut bytes = vec![kind, length as u8];
    bytes.extend(key.to_le_bytes());
    // Words of zeros often make no store.
    match random.below(4) {
        0 => bytes.resize(10 + length, 0),
        _ => bytes.extend(random.bytes(length)),
    }
    bytes
}

impl List {
    /// A list whose keys are right: 1 to 16 edits of every mix.
    pub fn any(random: &mut Random, keys: &[u64]) -> List {
        if keys.len() >= 16 && random.one_in(4) {
            return List::spread(random, keys);
        }
        let mut list = List {
            edits: Vec::new(),
            present: keys.to_vec(),
        };
        let count = match random.below(6) {
            0 => 16,
            1 => random.between(1, 16),
            2 | 3 => random.between(1, 4),
            _ => 1,
        };
        let manner = Manner {
            favourite: random.pick(&[1, 1, 2, 2, 3, 0, 0]),
            longest: random.pick(&[8, 40, 200, 200]),
            near: random.one_in(3).then(|| list.any_key(random)),
        };
        for _ in 0..count {
            list.add(random, manner);
        }
        list
    }

    /// Updates far apart, so in as many leaves as can be; a few are deletes.
    pub fn spread(random: &mut Random, keys: &[u64]) -> List {
        let mut list = List {
            edits: Vec::new(),
            present: keys.to_vec(),
        };
        let count = random.pick(&[2, 4, 8, 15, 16, 16]);
        for i in 0..count {
            let key = keys[i * keys.len() / count];
            if random.one_in(60) {
                list.present.retain(|&other| other != key);
                list.edits.push(edit(random, 3, key, 0));
            } else {
                list.edits.push(edit(random, 2, key, 8));
            }
        }
        list
    }

    /// 2 to 16 edits of one to three keys, so that most of these are in several
    /// edits: updated, or deleted and inserted again.
    pub fn few_keys(random: &mut Random, keys: &[u64]) -> List {
        let mut list = List {
            edits: Vec::new(),
            present: keys.to_vec(),
        };
        let few: Vec<u64> = (0..random.between(1, 3))
            .map(|_| match random.below(2) {
                0 => list.any_key(random),
                _ => list.new_key(random, None),
            })
            .collect();
        for _ in 0..random.between(2, 16) {
            let key = random.pick(&few);
            list.add_of(random, key);
        }
        list
    }

    pub fn bytes(&self) -> Vec<u8> {
        self.edits.concat()
    }

    /// The key of each edit whose head is whole.
    pub fn keys(&self) -> Vec<u64> {
        let head = |edit: &Vec<u8>| edit.get(2..10)?.try_into().ok();
        let heads = self.edits.iter().filter_map(head);
        heads.map(u64::from_le_bytes).collect()
    }

    /// An edit more that is then possible, of the favoured kind mostly.
    fn add(&mut self, random: &mut Random, manner: Manner) {
        let kind = match manner.favourite {
            _ if self.present.is_empty() => 1,
            0 => random.pick(&[1, 2, 3]),
            _ if random.one_in(4) => random.pick(&[1, 2, 3]),
            favourite => favourite,
        };
        let length = match random.below(2) {
            0 => manner.longest,
            _ => random.between(1, manner.longest),
        };
        let near = manner.near.filter(|_| !random.one_in(8));
        if kind == 1 {
            let key = self.new_key(random, near);
            let at = self.present.partition_point(|&other| other < key);
            self.present.insert(at, key);
            return self.edits.push(edit(random, 1, key, length));
        }
        let at = match near {
            None => random.below(self.present.len()),
            Some(key) => {
                let at = self.present.partition_point(|&other| other < key);
                (at + random.below(4)).min(self.present.len() - 1)
            }
        };
        let key = self.present[at];
        if kind == 3 {
            self.present.remove(at);
            return self.edits.push(edit(random, 3, key, 0));
        }
        self.edits.push(edit(random, 2, key, length));
    }

    /// An edit more of this key that is then possible.
    fn add_of(&mut self, random: &mut Random, key: u64) {
        let any = random.between(1, 200);
        let length = random.pick(&[1, 8, 8, 200, any]);
        match self.present.binary_search(&key) {
            Err(at) => {
                self.present.insert(at, key);
                self.edits.push(edit(random, 1, key, length));
            }
            Ok(_) if random.one_in(2) => self.edits.push(edit(random, 2, key, length)),
            Ok(at) => {
                self.present.remove(at);
                self.edits.push(edit(random, 3, key, 0));
            }
        }
    }

    /// A key that is present, if one is.
    fn any_key(&self, random: &mut Random) -> u64 {
        match self.present.len() {
            0 => 1 + random.number() % LAST_KEY,
            count => self.present[random.below(count)],
        }
    }

    /// A key that is not present: at a limit, small, beside another, anywhere.
    fn new_key(&self, random: &mut Random, near: Option<u64>) -> u64 {
        loop {
            let beside = near.unwrap_or_else(|| self.any_key(random));
            let key = match random.below(16) {
                0 => random.pick(&[1, LAST_KEY]),
                1 | 2 => 1 + random.number() % LAST_KEY,
                3 | 4 => 1 + random.number() % 100,
                5 | 6 => beside - 1,
                7 | 8 => beside + 1,
                _ => beside + random.number() % 64,
            };
            let good = (1..=LAST_KEY).contains(&key);
            if good && self.present.binary_search(&key).is_err() {
                return key;
            }
        }
    }

    /// Puts a fault into the list, by its number in `FAULTS`. It may then be
    /// hidden behind another, or not be one after all.
    pub fn spoil(&mut self, random: &mut Random, fault: usize) {
        match fault {
            0 => self.edits.clear(),
            1 => self.seventeenth(random),
            8..=10 => self.wrong_key(random, fault),
            _ if self.edits.is_empty() => {}
            _ => {
                let at = random.below(self.edits.len());
                // What is cut short must be the last edit.
                if fault == 2 || fault == 6 {
                    self.edits.truncate(at + 1);
                }
                spoil_edit(random, &mut self.edits[at], fault);
                if fault == EMPTY_VALUE && random.one_in(2) {
                    self.lengthen_another(random, at);
                }
            }
        }
    }

    /// "First faulty edit": one with 7, before this one or after it.
    fn lengthen_another(&mut self, random: &mut Random, at: usize) {
        let other = random.below(self.edits.len());
        if other != at {
            let (kind, key) = (random.pick(&[1, 2]), self.any_key(random));
            self.edits[other] = edit(random, kind, key, 201);
        }
    }

    /// Makes an insert or a delete once more, right after itself, if the edit
    /// picked is one.
    pub fn repeat(&mut self, random: &mut Random) {
        if self.edits.is_empty() {
            return;
        }
        let at = random.below(self.edits.len());
        if matches!(self.edits[at].first(), Some(1 | 3)) {
            self.edits.insert(at + 1, self.edits[at].clone());
            self.edits.truncate(16);
        }
    }

    /// "A seventeenth" edit, whole or not, or of length 0.
    fn seventeenth(&mut self, random: &mut Random) {
        let manner = Manner {
            favourite: 0,
            longest: 8,
            near: None,
        };
        while self.edits.len() < 17 {
            self.add(random, manner);
        }
        match random.below(4) {
            0 => spoil_edit(random, &mut self.edits[16], EMPTY_VALUE),
            1 => {}
            _ => {
                let length = random.between(1, 12);
                self.edits[16] = random.bytes(length);
            }
        }
    }

    /// An insert of a key that is there, or an update or delete of one that is
    /// not, among edits that leave this key alone.
    fn wrong_key(&mut self, random: &mut Random, fault: usize) {
        let key = match fault {
            8 => self.any_key(random),
            _ => self.new_key(random, None),
        };
        let touched = |edit: &Vec<u8>| edit.get(2..10) == Some(&key.to_le_bytes()[..]);
        let first = self.edits.iter().rposition(touched).map_or(0, |at| at + 1);
        let at = random.between(first, self.edits.len());
        let (kind, length) = [(1, 8), (2, 8), (3, 0)][fault - 8];
        self.edits.insert(at, edit(random, kind, key, length));
    }
}

/// One edit with a fault of its own.
fn spoil_edit(random: &mut Random, bytes: &mut Vec<u8>, fault: usize) {
    let Some(key) = bytes.get(2..10) else {
        return;
    };
    let key = u64::from_le_bytes(key.try_into().unwrap());
    // With length 0 too: these come before 19.
    if matches!(fault, 2 | 3) && random.one_in(2) {
        bytes[1] = 0;
    }
    match fault {
        2 => bytes.truncate(random.between(1, 9)),
        3 => bytes[0] = random.pick(&[0, 4, 255]),
        4 => {
            let length = random.between(1, 201);
            *bytes = edit(random, 3, key, length);
        }
        5 => {
            let (kind, length) = (random.pick(&[1, 2]), random.pick(&[201, 201, 202, 255]));
            *bytes = edit(random, kind, key, length);
            bytes.truncate(random.pick(&[10, 210, 265]));
        }
        6 => {
            let (kind, length) = (random.pick(&[1, 2]), random.between(1, 200));
            *bytes = edit(random, kind, key, length);
            bytes.truncate(random.between(10, 9 + length));
        }
        EMPTY_VALUE => {
            let kind = random.pick(&[1, 2]);
            // 19 comes before the 6 of the same edit.
            let key = random.pick(&[key, key, 0, LAST_KEY + 1]);
            *bytes = edit(random, kind, key, 0);
        }
        _ => {
            let key = random.pick(&[0, LAST_KEY + 1, 1 << 63, u64::MAX]);
            bytes[2..10].copy_from_slice(&key.to_le_bytes());
        }
    }
}
