//! All cuts of a small tape, one after the other.

use crate::{calls, Refusal, LINE};
use std::iter::FusedIterator;
use std::ops::Range;

/// Document 02, request (e): "cut number r, from 0, as a count of commands and the
/// choice bytes". Of two cuts the smaller comes first: "Cuts rise by that count,
/// then by the choice bytes compared line by line from line 0."
///
/// ```
/// use quote_store::{calls, Cut};
///
/// let (image, mut work) = ([0; 8192], [0; 8192]);
/// let store_word_2 = [1, 0, 2, 0, 11, 12, 13, 14, 15, 16, 17, 18];
/// let all: Vec<Cut> = calls::cuts(&image, &store_word_2)?.collect();
/// assert!(all.is_sorted());
/// let Cut { commands, choices } = &all[2];
/// calls::cut(&image, &mut work, &store_word_2, *commands, choices)?;
/// assert_eq!(work[16..24], store_word_2[4..]);
/// # Ok::<(), quote_store::Refusal>(())
/// ```
#[derive(Clone, Debug, PartialEq, Eq, PartialOrd, Ord, Hash)]
pub struct Cut {
    /// The commands carried out before the power fails.
    pub commands: usize,
    /// For each line of the image, how many of its pending stores it keeps.
    pub choices: Vec<u8>,
}

/// The cuts of a tape on an image, from [`calls::cuts`]. Each is made by its number
/// when it is asked for: to skip some, or to take one from the end, makes no other.
///
/// ```
/// use quote_store::calls;
///
/// let image = [0; 8192];
/// let flushes_of_line_0 = [3, 0, 0, 0].repeat(12);
/// let mut cuts = calls::cuts(&image, &flushes_of_line_0)?;
/// assert_eq!(cuts.len(), 13);
/// assert_eq!(cuts.nth(5).unwrap().commands, 5);
/// assert_eq!(cuts.next_back().unwrap().commands, 12);
/// assert_eq!(cuts.len(), 6);
/// # Ok::<(), quote_store::Refusal>(())
/// ```
#[derive(Clone, Debug)]
pub struct Cuts<'a> {
    image: &'a [u8],
    tape: &'a [u8],
    /// The numbers of those not yet given.
    left: Range<usize>,
}

impl<'a> Cuts<'a> {
    pub(crate) fn of(image: &'a [u8], tape: &'a [u8]) -> Result<Cuts<'a>, Refusal> {
        let left = 0..calls::count_cuts(image, tape)?;
        Ok(Cuts { image, tape, left })
    }

    fn numbered(&self, r: usize) -> Cut {
        let mut choices = vec![0; self.image.len() / LINE];
        let commands = calls::nth_cut(self.image, self.tape, r, &mut choices)
            .expect("a number below the number of cuts");
        Cut { commands, choices }
    }
}

impl Iterator for Cuts<'_> {
    type Item = Cut;

    fn next(&mut self) -> Option<Cut> {
        let r = self.left.next()?;
        Some(self.numbered(r))
    }

    fn size_hint(&self) -> (usize, Option<usize>) {
        self.left.size_hint()
    }

    fn nth(&mut self, n: usize) -> Option<Cut> {
        let r = self.left.nth(n)?;
        Some(self.numbered(r))
    }
}

impl DoubleEndedIterator for Cuts<'_> {
    fn next_back(&mut self) -> Option<Cut> {
        let r = self.left.next_back()?;
        Some(self.numbered(r))
    }
}

impl ExactSizeIterator for Cuts<'_> {}

impl FusedIterator for Cuts<'_> {}
