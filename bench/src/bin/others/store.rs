//! This store, the proved one: a transaction, then its tape run on the image, so
//! that the next call finds the image updated.

use crate::{Quote, Quotes};
use cases::images::Built;

pub struct Store {
    image: Vec<u8>,
    work: Vec<u8>,
    tape: Vec<u8>,
    edits: Vec<u8>,
}

impl Store {
    pub fn new(book: &Built) -> Store {
        Store {
            image: book.image.clone(),
            work: book.image.clone(),
            tape: vec![0; 65_536],
            edits: Vec::new(),
        }
    }

    /// The transaction of `edits`; its tape's bytes.
    fn transaction(&mut self) -> usize {
        let (work, tape) = (&mut self.work, &mut self.tape);
        let mut answer = [0; 5];
        let number = proved::transaction(&mut self.image, work, tape, &mut self.edits, &mut answer);
        assert_eq!(number, 0, "a transaction was refused");
        answer[3] as usize
    }
}

impl Quotes for Store {
    fn shift(&mut self, quotes: &[Quote]) {
        self.edits.clear();
        for (key, value) in quotes {
            self.edits.extend([2, 8]);
            self.edits.extend(key.to_le_bytes());
            self.edits.extend(value);
        }
        let bytes = self.transaction();
        let number = proved::run(&mut self.image, &mut self.work, &mut self.tape[..bytes]);
        assert_eq!(number, 0, "its tape was refused");
        std::mem::swap(&mut self.image, &mut self.work);
    }

    fn lookup(&mut self, key: u64) -> Option<[u8; 8]> {
        let mut answer = [0; 3];
        let number = proved::lookup(&mut self.image, key, &mut answer);
        assert_eq!(number, 0, "a lookup was refused");
        let [found, at, length] = answer.map(|number| number as usize);
        (found == 1).then(|| self.image[at..at + length].try_into().expect("8 bytes"))
    }
}
