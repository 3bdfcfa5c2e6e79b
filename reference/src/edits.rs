//! Document 01, 'Edits': the edit list, and from 'Each call and when it says
//! no' its refusals 5, 6 and 7; document 02 (g) adds 19.

use crate::page::{is_key, LONGEST_VALUE};
use crate::Refusal;

/// "Kind (1 insert, 2 update, 3 delete)".
#[derive(Clone, Copy, Debug, PartialEq, Eq)]
pub enum Kind {
    Insert,
    Update,
    Delete,
}

#[derive(Clone, Debug, PartialEq, Eq)]
pub struct Edit {
    pub kind: Kind,
    pub key: u64,
    pub value: Vec<u8>,
}

impl Edit {
    pub fn encode(&self) -> Vec<u8> {
        let kind = match self.kind {
            Kind::Insert => 1,
            Kind::Update => 2,
            Kind::Delete => 3,
        };
        let mut bytes = vec![kind, self.value.len() as u8];
        bytes.extend(self.key.to_le_bytes());
        bytes.extend(&self.value);
        bytes
    }
}

/// "Then the list, first faulty edit: 5 (no edit, a seventeenth, head cut
/// short, unknown kind, delete with a length), 7 length above 200, 5 value cut
/// short, 6." Document 02 (g) has 19 "just after 7".
pub fn parse(list: &[u8]) -> Result<Vec<Edit>, Refusal> {
    let mut edits = Vec::new();
    let mut rest = list;
    while !rest.is_empty() {
        let number = edits.len();
        let edit = parse_one(rest, number).map_err(|refused| Refusal {
            number: refused,
            edit: number,
        })?;
        rest = &rest[10 + edit.value.len()..];
        edits.push(edit);
    }
    if edits.is_empty() {
        return Err(Refusal { number: 5, edit: 0 });
    }
    Ok(edits)
}

/// The edit at the start of these bytes, or why it is faulty: "kind, value
/// length (1 byte; 0 for delete), key (8), value".
fn parse_one(bytes: &[u8], number: usize) -> Result<Edit, u8> {
    if number == 16 || bytes.len() < 10 {
        return Err(5);
    }
    let kind = match bytes[0] {
        1 => Kind::Insert,
        2 => Kind::Update,
        3 => Kind::Delete,
        _ => return Err(5),
    };
    let length = bytes[1] as usize;
    if kind == Kind::Delete && length != 0 {
        return Err(5);
    }
    if length > LONGEST_VALUE {
        return Err(7);
    }
    // Document 02 (g): "19, with its edit's number, for an insert or update of
    // length 0, in the list check just after 7".
    if kind != Kind::Delete && length == 0 {
        return Err(19);
    }
    if bytes.len() < 10 + length {
        return Err(5);
    }
    let key = u64::from_le_bytes(bytes[2..10].try_into().unwrap());
    if !is_key(key) {
        return Err(6);
    }
    let value = bytes[10..10 + length].to_vec();
    Ok(Edit { kind, key, value })
}
