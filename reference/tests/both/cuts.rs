//! The calls of document 02 (e), by the reference and by the proved library.

use super::{number, BEFORE};
use reference::cuts::{count_cuts, list, nth_of, Cut};
use reference::Refusal;

/// A tape on an image, the reference's list of its cuts, and the buffers in
/// which image and tape are lent to the proved library.
pub struct Tape<'a> {
    pub image: &'a [u8],
    pub tape: &'a [u8],
    pub cuts: Result<Vec<Cut>, Refusal>,
    lent: [Vec<u8>; 2],
}

impl<'a> Tape<'a> {
    pub fn new(image: &'a [u8], tape: &'a [u8]) -> Tape<'a> {
        Tape {
            image,
            tape,
            cuts: list(image, tape),
            lent: [image.to_vec(), tape.to_vec()],
        }
    }

    /// With so many numbers lent for the answer.
    pub fn count(&mut self, room: usize) -> Result<usize, Refusal> {
        let wanted = count_cuts(self.image, self.tape);
        let mut answer = vec![BEFORE; room];
        let [image, tape] = &mut self.lent;
        let given = proved::count_cuts(image, tape, &mut answer);
        assert_eq!(given, number(&wanted), "count, tape {:?}", self.tape);
        assert_eq!(answer, one_number(room, &wanted), "tape {:?}", self.tape);
        wanted
    }

    /// Cut number r, and the choices afterwards.
    pub fn nth(
        &mut self,
        r: usize,
        choices: &[u8],
        room: usize,
    ) -> (Result<usize, Refusal>, Vec<u8>) {
        let mut left = choices.to_vec();
        let wanted = match &self.cuts {
            Ok(cuts) => nth_of(cuts, self.image, r, &mut left),
            Err(refusal) => Err(*refusal),
        };
        let (mut right, mut answer) = (choices.to_vec(), vec![BEFORE; room]);
        let [image, tape] = &mut self.lent;
        let given = proved::nth_cut(image, tape, r, &mut right, &mut answer);
        assert_eq!(given, number(&wanted), "cut {r}, tape {:?}", self.tape);
        let numbers = one_number(room, &wanted);
        assert_eq!(answer, numbers, "cut {r}, tape {:?}", self.tape);
        assert_eq!(right, left, "choices of cut {r}, tape {:?}", self.tape);
        if wanted.is_err() {
            assert!(left == choices, "the reference's refused choices");
        }
        (wanted, left)
    }

    /// After the calls. Not assert_eq: that would print whole images.
    pub fn unchanged(&self) {
        let [image, tape] = &self.lent;
        assert!(image == self.image && tape == self.tape, "image or tape");
    }
}

/// An answer array of so many numbers afterwards: the one number is written if
/// the call is accepted and there is room for it.
fn one_number(room: usize, answer: &Result<usize, Refusal>) -> Vec<u64> {
    let mut numbers = vec![BEFORE; room];
    if let (Ok(number), Some(first)) = (answer, numbers.first_mut()) {
        *first = *number as u64;
    }
    numbers
}
