//! The memory manager under document 002's transactions, its section 5: "each
//! transaction maintains a persistent private allocation log", persisted by the
//! first barrier of the commit; after it the bits of the blocks are flipped.
//!
//! The paper gives no sizes: a log record is 16 bytes here, a block and what is
//! done with it. A bit is flipped by a word store; the bits of all blocks lie
//! in one line.

use super::{stored, Counts};

const RECORD: usize = 16;

/// The allocation log, and then the bits, without their barriers; nothing if
/// there was no request.
pub fn log_and_bits(requests: usize) -> (Counts, Counts) {
    let log = RECORD * requests;
    let bits = stored(8 * requests, requests.min(1));
    (stored(log, log.div_ceil(64)), bits)
}

#[cfg(test)]
mod tests {
    use super::*;

    #[test]
    fn none_and_five() {
        let none = (Counts::default(), Counts::default());
        assert_eq!(log_and_bits(0), none);
        assert_eq!(log_and_bits(5), (stored(80, 2), stored(40, 1)));
    }
}
