//! What a transaction changes in the image, by ranges of bytes.

use reference::device::{LINE, PAGE, WORD};
use reference::image::reached;
use std::collections::BTreeSet;
use std::ops::Range;

/// The ranges are of whole words, each as long as it can be within its page,
/// rising. Log lines are left out: they belong to this store's method.
#[derive(Clone, Debug, Default, PartialEq, Eq)]
pub struct Change {
    pub ranges: Vec<Range<usize>>,
    /// Pages reached after the transaction and not before it.
    pub taken: BTreeSet<usize>,
    /// Pages reached before it and not after.
    pub freed: BTreeSet<usize>,
}

impl Change {
    /// From one sound image to another.
    pub fn between(before: &[u8], after: &[u8]) -> Change {
        let (old, new) = (reached(before), reached(after));
        Change {
            ranges: changed_ranges(before, after),
            taken: &new - &old,
            freed: &old - &new,
        }
    }

    /// From given places.
    #[cfg(test)]
    pub fn of(ranges: &[(usize, usize)], taken: &[usize], freed: &[usize]) -> Change {
        Change {
            ranges: ranges.iter().map(|&(start, end)| start..end).collect(),
            taken: taken.iter().copied().collect(),
            freed: freed.iter().copied().collect(),
        }
    }

    /// The ranges in pages taken, which nothing reads before the commit.
    pub fn in_new_pages(&self) -> impl Iterator<Item = &Range<usize>> {
        self.ranges.iter().filter(|range| self.is_new(range))
    }

    /// The ranges in pages that stay.
    pub fn in_old_pages(&self) -> impl Iterator<Item = &Range<usize>> {
        self.ranges.iter().filter(|range| !self.is_new(range))
    }

    fn is_new(&self, range: &Range<usize>) -> bool {
        self.taken.contains(&(range.start / PAGE))
    }
}

fn changed_ranges(before: &[u8], after: &[u8]) -> Vec<Range<usize>> {
    let mut ranges: Vec<Range<usize>> = Vec::new();
    for start in (0..before.len()).step_by(WORD) {
        let word = start..start + WORD;
        let log = (LINE..PAGE).contains(&start);
        if log || before[word.clone()] == after[word.clone()] {
            continue;
        }
        match ranges.last_mut() {
            Some(last) if last.end == start && !start.is_multiple_of(PAGE) => last.end = word.end,
            _ => ranges.push(word),
        }
    }
    ranges
}

/// Ranges of one page as one where no more than `gap` clean bytes are between
/// them: one log record for both, if a second one's head would be longer.
pub fn joined<'a>(ranges: impl Iterator<Item = &'a Range<usize>>, gap: usize) -> Vec<Range<usize>> {
    let mut all: Vec<Range<usize>> = Vec::new();
    for range in ranges {
        match all.last_mut() {
            Some(last)
                if last.start / PAGE == range.start / PAGE && range.start <= last.end + gap =>
            {
                last.end = range.end;
            }
            _ => all.push(range.clone()),
        }
    }
    all
}

/// How many bytes these ranges have.
pub fn bytes<'a>(ranges: impl Iterator<Item = &'a Range<usize>>) -> usize {
    ranges.map(|range| range.len()).sum()
}

/// How many lines have a byte of these ranges.
pub fn lines<'a>(ranges: impl Iterator<Item = &'a Range<usize>>) -> usize {
    let all = ranges.flat_map(|range| range.start / LINE..range.end.div_ceil(LINE));
    all.collect::<BTreeSet<usize>>().len()
}

#[cfg(test)]
mod tests {
    use super::*;
    use reference::image::format;

    #[test]
    fn ranges_are_runs_of_words_without_the_log() {
        let mut before = vec![0; 8 * PAGE];
        format(&mut before).unwrap();
        let mut after = before.clone();
        // A log line, a word of leaf 2 by its last byte, two words beside each
        // other over a line's end, and page 3's end with page 4's start.
        for at in [70, 2 * PAGE + 15, 2 * PAGE + 120, 2 * PAGE + 128] {
            after[at] = 9;
        }
        after[4 * PAGE - 1..4 * PAGE + 1].fill(9);
        let ranges = [
            2056..2064,
            2048 + 120..2048 + 136,
            4096 - 8..4096,
            4096..4096 + 8,
        ];
        let change = Change::between(&before, &after);
        assert_eq!(change.ranges, ranges);
        assert!(change.taken.is_empty() && change.freed.is_empty());
        assert_eq!(bytes(ranges.iter()), 40);
        // Line 32, lines 33 and 34, line 63, line 64.
        assert_eq!(lines(ranges.iter()), 5);
    }

    /// 32 clean bytes or fewer join, 40 do not, and pages are never joined.
    #[test]
    fn ranges_near_each_other_are_joined() {
        let ranges = [2048..2056, 2088..2096, 2136..2144, 3064..3072, 3072..3080];
        let hand = [2048..2096, 2136..2144, 3064..3072, 3072..3080];
        assert_eq!(joined(ranges.iter(), 32), hand);
    }

    #[test]
    fn pages_taken_and_freed() {
        let mut before = vec![0; 8 * PAGE];
        format(&mut before).unwrap();
        let mut after = before.clone();
        // The one index record, at offset 1,000 of page 1, now names page 7,
        // whose header is the old leaf's with its own number.
        after[PAGE + 1000 + 16] = 7;
        after.copy_within(2 * PAGE..2 * PAGE + LINE, 7 * PAGE);
        after[7 * PAGE + 6] = 7;
        let change = Change::between(&before, &after);
        assert_eq!(change.taken, BTreeSet::from([7]));
        assert_eq!(change.freed, BTreeSet::from([2]));
        let (start, header) = (PAGE + 1016, 7 * PAGE);
        assert_eq!(change.ranges, [start..start + 8, header..header + 8]);
        assert_eq!(bytes(change.in_new_pages()), 8);
        assert_eq!(bytes(change.in_old_pages()), 8);
    }

    /// The index copied to page 6: the root word, then two words of its header
    /// and two of its record, whose separator is 0.
    #[test]
    fn the_root_word_is_a_range() {
        let mut before = vec![0; 8 * PAGE];
        format(&mut before).unwrap();
        let mut after = before.clone();
        after.copy_within(PAGE..2 * PAGE, 6 * PAGE);
        after[6 * PAGE + 6] = 6;
        after[WORD] = 6;
        let change = Change::between(&before, &after);
        let hand = [(8, 16), (6144, 6160), (6144 + 1008, 6144 + 1024)];
        assert_eq!(change, Change::of(&hand, &[6], &[1]));
    }
}
