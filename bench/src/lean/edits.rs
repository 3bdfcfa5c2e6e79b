//! The edit list, taken apart in one pass.

use super::page::{good_key, word};

#[derive(Clone, Copy)]
pub struct Edit {
    pub kind: u8,
    pub length: usize,
    pub key: u64,
    pub value: *const u8,
}

/// The edits, or a refusal's number and edit number.
#[inline(always)]
pub unsafe fn parse<'a>(list: &[u8], edits: *mut Edit) -> Result<&'a [Edit], (u8, usize)> {
    let mut rest = list;
    let mut count = 0;
    while !rest.is_empty() {
        if count == 16 || rest.len() < 10 {
            return Err((5, count));
        }
        let (kind, length) = (rest[0], rest[1] as usize);
        if kind.wrapping_sub(1) > 2 || (kind == 3 && length != 0) {
            return Err((5, count));
        }
        if length > 200 {
            return Err((7, count));
        }
        // "19 .. for an insert or update of length 0, in the list check just after 7".
        if length == 0 && kind != 3 {
            return Err((19, count));
        }
        if rest.len() < 10 + length {
            return Err((5, count));
        }
        let key = word(rest.as_ptr().add(2));
        if !good_key(key) {
            return Err((6, count));
        }
        let value = rest.as_ptr().add(10);
        let edit = Edit {
            kind,
            length,
            key,
            value,
        };
        edits.add(count).write(edit);
        count += 1;
        rest = rest.get_unchecked(10 + length..);
    }
    if count == 0 {
        return Err((5, 0));
    }
    Ok(std::slice::from_raw_parts(edits, count))
}
