//! Images that no call makes any more.

use quote_store::calls;

/// Makes the value that the image holds of this key an empty one, as a store from
/// before document 02 (g) may hold. Document 01: "A record is its key (8 bytes),
/// value length (2), six zeros, the value". The bytes of the value are free then.
pub fn empty_out(image: &mut [u8], key: u64) {
    let found = calls::lookup(image, key).expect("the image is sound");
    let value = found.expect("the key is there").start;
    image[value - 8..value - 6].fill(0);
    assert_eq!(calls::check(image), Ok(()));
}
