//! This store, counted from its tape: the stores' bytes, the flushes and the
//! barriers that are on it (document 02 (h)).

use super::Counts;
use reference::device::{Command, LINE, WORD};

pub fn counts(tape: &[Command]) -> Counts {
    let mut counts = Counts::default();
    for command in tape {
        match command {
            Command::WordStore { .. } => counts.bytes += WORD,
            Command::LineStore { .. } => counts.bytes += LINE,
            Command::Flush { .. } => counts.flushes += 1,
            Command::Barrier => counts.barriers += 1,
        }
    }
    counts
}

#[cfg(test)]
mod tests {
    use super::*;
    use reference::device::decode;
    use reference::image::format;
    use reference::transaction::transaction;

    /// Document 01's first worked row: "insert 101 with 8 value bytes: words
    /// 381-383; flush 47; line 32; flush 32", with a barrier behind each flush.
    #[test]
    fn first_worked_row() {
        let mut image = vec![0; 8192];
        format(&mut image).unwrap();
        let (mut work, mut tape) = (image.clone(), vec![0; 1000]);
        let edits = crate::books::insert(101);
        let answer = transaction(&image, &mut work, &mut tape, &edits).unwrap();
        let commands = decode(&tape[..answer.bytes], image.len()).unwrap();
        let hand = Counts {
            flushes: 2,
            barriers: 2,
            bytes: 3 * 8 + 64,
        };
        assert_eq!(counts(&commands), hand);
    }

    /// Barriers are counted as they stand, also where no flush is before them.
    #[test]
    fn barriers_are_those_on_the_tape() {
        let flush = |line| Command::Flush { line };
        let word = Command::WordStore {
            word: 0,
            bytes: [0; 8],
        };
        let tape = [flush(1), flush(2), Command::Barrier, word, flush(0)];
        let mut hand = Counts {
            flushes: 3,
            barriers: 1,
            bytes: 8,
        };
        assert_eq!(counts(&tape), hand);
        hand.barriers += 2;
        let barriers = [Command::Barrier, Command::Barrier];
        assert_eq!(counts(&[&tape[..], &barriers].concat()), hand);
        assert_eq!(counts(&[]), Counts::default());
    }
}
