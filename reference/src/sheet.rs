//! Document 01, 'The sheet program': the form, its transactions and the
//! listing, all of it bytes in and bytes out.

use crate::device::PAGE;
use crate::edits::{Edit, Kind};
use crate::image::{format, sound_leaves};
use crate::transaction::transaction;

/// "The first line is always the heading."
const HEADING: &str = "pageslot          key len\n";

/// A line of the form.
enum Line {
    Commit,
    Edit(Edit),
}

/// The store, the edits that wait, and the transactions so far.
struct Sheet {
    image: Vec<u8>,
    waiting: Vec<Edit>,
    accepted: usize,
    refused: usize,
}

/// All that the program writes for this input.
pub fn sheet(input: &[u8]) -> Vec<u8> {
    let mut sheet = Sheet::new();
    for (i, bytes) in input.split_inclusive(|&byte| byte == b'\n').enumerate() {
        // "At a bad line (not of this form), or line 2,001, it prints that
        // line's number in 8 columns after the heading, and nothing more."
        match read_line(bytes) {
            Some(line) if i < 2_000 => sheet.take(line),
            _ => return format!("{HEADING}{:8}\n", i + 1).into_bytes(),
        }
    }
    sheet.listing().into_bytes()
}

impl Sheet {
    /// "It starts from 8 fresh pages."
    fn new() -> Sheet {
        let mut image = vec![0; 8 * PAGE];
        format(&mut image).expect("8 pages can be formatted");
        Sheet {
            image,
            waiting: Vec::new(),
            accepted: 0,
            refused: 0,
        }
    }

    fn take(&mut self, line: Line) {
        match line {
            Line::Commit => self.commit(),
            // "Edits past the seventeenth .. are dropped."
            Line::Edit(edit) if self.waiting.len() < 17 => self.waiting.push(edit),
            Line::Edit(_) => {}
        }
    }

    /// "Lends 16,384 tape bytes."
    fn commit(&mut self) {
        let list: Vec<u8> = self.waiting.drain(..).flat_map(|e| e.encode()).collect();
        let mut work = vec![0; self.image.len()];
        let mut tape = vec![0; 16_384];
        match transaction(&self.image, &mut work, &mut tape, &list) {
            Ok(_) => {
                self.image = work;
                self.accepted += 1;
            }
            Err(_) => self.refused += 1,
        }
    }

    /// "One row a record by rising key: page 4 columns, slot from 0 4, key 13,
    /// value length 4; last line records, accepted and refused transactions, 8
    /// each."
    fn listing(&self) -> String {
        let mut text = String::from(HEADING);
        let mut records = 0;
        for leaf in sound_leaves(&self.image).expect("the store is sound") {
            for (slot, record) in leaf.records.iter().enumerate() {
                let (key, length) = (record.key, record.value.len());
                text += &format!("{:4}{slot:4}{key:13}{length:4}\n", leaf.page);
                records += 1;
            }
        }
        text + &format!("{records:8}{:8}{:8}\n", self.accepted, self.refused)
    }
}

/// "Lines of 27 columns and a line feed ..: kind (0 to 3) 1-2, key 3-15, price
/// in millionths 16-27. Kind 0 with zeros commits; kind 3 has price 0." "The
/// value is the price in 8 bytes."
fn read_line(bytes: &[u8]) -> Option<Line> {
    let columns = bytes.strip_suffix(b"\n")?;
    if columns.len() != 27 {
        return None;
    }
    let kind = read_number(&columns[..2])?;
    let key = read_number(&columns[2..15])?;
    let price = read_number(&columns[15..])?;
    let value = price.to_le_bytes().to_vec();
    let (kind, value) = match (kind, key, price) {
        (0, 0, 0) => return Some(Line::Commit),
        (1, _, _) => (Kind::Insert, value),
        (2, _, _) => (Kind::Update, value),
        (3, _, 0) => (Kind::Delete, Vec::new()),
        _ => return None,
    };
    Some(Line::Edit(Edit { kind, key, value }))
}

/// "Decimal, right-justified, no leading zeros": spaces, then digits, the first
/// of which is no 0 unless it is the only one.
fn read_number(columns: &[u8]) -> Option<u64> {
    let text = std::str::from_utf8(columns).ok()?;
    let digits = text.trim_start_matches(' ');
    let plain = digits.bytes().all(|byte| byte.is_ascii_digit());
    if !plain || (digits.starts_with('0') && digits != "0") {
        return None;
    }
    digits.parse().ok()
}
