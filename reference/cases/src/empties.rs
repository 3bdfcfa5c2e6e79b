//! Document 02 (g), "No more empty quotes": empty values that a store holds, and
//! where one stands in a list that is refused.

use crate::images::LAST_KEY;

/// Whether a table has an empty value.
pub fn any_stored(table: &[(u64, Vec<u8>)]) -> bool {
    table.iter().any(|(_, value)| value.is_empty())
}

/// "19 .. for an insert or update of length 0, in the list check just after 7",
/// beside the list's other refusals.
pub const ORDERS: [&str; 6] = [
    "order: 19 before the 6 of the same edit",
    "order: 19 before the 7 of a later edit",
    "order: 7 before the 19 of a later edit",
    "order: 5 for an unknown kind of length 0",
    "order: 5 for a head of length 0 cut short",
    "order: 5 for a seventeenth edit of length 0",
];

/// Those that a list shows which is refused with this number at this edit.
pub fn orders(list: &[u8], number: u8, edit: usize) -> Vec<&'static str> {
    let parts = parts(list);
    let Some((refused, later)) = parts.get(edit..).and_then(<[_]>::split_first) else {
        return Vec::new();
    };
    let whole = refused.len() >= 10;
    let shown = [
        number == 19 && whole && !has_key(refused),
        number == 19 && later.iter().any(|part| is_long(part)),
        number == 7 && later.iter().any(|part| is_empty(part)),
        number == 5 && edit < 16 && whole && matches!(refused, [0 | 4..=255, 0, ..]),
        number == 5 && edit < 16 && !whole && matches!(refused, [1 | 2, 0, ..]),
        number == 5 && edit == 16 && is_empty(refused),
    ];
    let orders = ORDERS.into_iter().zip(shown);
    orders
        .filter_map(|(order, shown)| shown.then_some(order))
        .collect()
}

/// The list taken apart by its lengths alone. The last part may be cut short.
fn parts(list: &[u8]) -> Vec<&[u8]> {
    let mut parts = Vec::new();
    let mut rest = list;
    while !rest.is_empty() {
        let size = 10 + rest.get(1).map_or(0, |&length| length as usize);
        let (part, after) = rest.split_at(size.min(rest.len()));
        parts.push(part);
        rest = after;
    }
    parts
}

/// An insert or update of length 0.
fn is_empty(part: &[u8]) -> bool {
    part.len() >= 10 && matches!(part, [1 | 2, 0, ..])
}

/// An insert or update of a length above 200.
fn is_long(part: &[u8]) -> bool {
    part.len() >= 10 && matches!(part, [1 | 2, 201..=255, ..])
}

fn has_key(part: &[u8]) -> bool {
    let key = u64::from_le_bytes(part[2..10].try_into().unwrap());
    (1..=LAST_KEY).contains(&key)
}
