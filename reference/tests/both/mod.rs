//! The calls that read, by the reference and by the proved library: the answer
//! and every buffer are the same.

// Each test uses some of these.
#![allow(dead_code)]

pub mod cuts;
pub mod merges;

use reference::image as plain;
use reference::numbers::of_preview;
use reference::preview::{preview, Preview};
use reference::Refusal;

/// What an answer array holds before a call, to see what a call leaves.
pub const BEFORE: u64 = 0x5555_aaaa_1234_8765;

/// An image, and the buffer in which it is lent to the proved library.
pub struct Both<'a> {
    pub image: &'a [u8],
    lent: Vec<u8>,
}

impl<'a> Both<'a> {
    pub fn new(image: &'a [u8]) -> Both<'a> {
        let lent = image.to_vec();
        Both { image, lent }
    }

    /// Not assert_eq: that would print whole images.
    fn unchanged(&self, call: &str) {
        assert!(self.lent == self.image, "{call} changed the image");
    }

    pub fn check(&mut self) -> Result<(), Refusal> {
        let wanted = plain::check(self.image);
        let given = proved::check(&mut self.lent);
        assert_eq!(given, number(&wanted), "check");
        self.unchanged("check");
        wanted
    }

    pub fn lookup(&mut self, key: u64) -> Result<Option<(usize, usize)>, Refusal> {
        let wanted = plain::lookup(self.image, key);
        let mut answer = [BEFORE; 3];
        let given = proved::lookup(&mut self.lent, key, &mut answer);
        assert_eq!(given, number(&wanted), "lookup of {key}");
        let array = match wanted {
            Ok(Some((offset, length))) => [1, offset as u64, length as u64],
            Ok(None) => [0, 0, 0],
            Err(_) => [BEFORE; 3],
        };
        assert_eq!(answer, array, "answer of the lookup of {key}");
        self.unchanged("lookup");
        wanted
    }

    /// The companion's part of the image, "empty if refused or missing". The
    /// proved library has no companion for C: its lookup says where the part is.
    pub fn value(&mut self, key: u64) -> &'a [u8] {
        let part = plain::value(self.image, key);
        let mut answer = [BEFORE; 3];
        let given = proved::lookup(&mut self.lent, key, &mut answer);
        let wanted = match (given, answer) {
            (0, [1, offset, length]) => &self.image[offset as usize..][..length as usize],
            _ => &[],
        };
        assert_eq!(part, wanted, "value of {key}");
        part
    }

    pub fn next_key(&mut self, key: u64) -> Result<Option<u64>, Refusal> {
        let wanted = plain::next_key(self.image, key);
        let mut answer = [BEFORE; 2];
        let given = proved::next_key(&mut self.lent, key, &mut answer);
        assert_eq!(given, number(&wanted), "next key after {key}");
        let array = match wanted {
            Ok(Some(next)) => [1, next],
            Ok(None) => [0, 0],
            Err(_) => [BEFORE; 2],
        };
        assert_eq!(answer, array, "answer of the next key after {key}");
        self.unchanged("next key");
        wanted
    }

    /// With so many numbers lent for the answer.
    pub fn preview(&mut self, edits: &[u8], key: u64, room: usize) -> Result<Preview, Refusal> {
        let answer = preview(self.image, edits, key);
        let (wanted, four) = of_preview(&answer);
        let mut numbers = vec![BEFORE; room];
        // Written only where there is room for four.
        if let Some(first) = numbers.first_chunk_mut() {
            *first = four;
        }
        let (mut lent, mut lent_edits) = (vec![BEFORE; room], edits.to_vec());
        let given = proved::preview(&mut self.lent, &mut lent_edits, key, &mut lent);
        assert_eq!(given, wanted, "preview of {key}");
        assert_eq!(lent, numbers, "numbers of the preview of {key}");
        assert!(lent_edits == edits, "preview changed the edits");
        self.unchanged("preview");
        answer
    }
}

/// 0 or the refusal's number.
pub fn number<T>(answer: &Result<T, Refusal>) -> u8 {
    match answer {
        Ok(_) => 0,
        Err(refusal) => {
            assert_eq!(refusal.edit, 0, "these calls name no edit");
            refusal.number
        }
    }
}
