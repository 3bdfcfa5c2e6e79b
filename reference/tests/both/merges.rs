//! The call of document 02 (i), by the reference and by the proved library.

use super::number;
use reference::merge::merge;

/// Merges two books into a buffer that holds this before: the answer's number, and
/// what the buffer then holds. `which` names the call where it fails.
pub fn merge_both(which: &str, [first, second]: [&[u8]; 2], before: &[u8]) -> (u8, Vec<u8>) {
    let mut left = before.to_vec();
    let wanted = number(&merge(first, second, &mut left));
    let (mut one, mut other, mut right) = (first.to_vec(), second.to_vec(), before.to_vec());
    let given = proved::merge(&mut one, &mut other, &mut right);
    assert_eq!(given, wanted, "answer of {which}");
    // Not assert_eq: that would print whole images.
    assert!(right == left, "third buffer of {which}");
    assert!(one == first && other == second, "the books of {which}");
    // "Each leaving the third buffer unchanged."
    assert!(wanted == 0 || left == before, "{which}, refused {wanted}");
    (wanted, left)
}
