//! Images whose log waits, made apart from any transaction, and damage to a
//! log.

use crate::images::Built;
use crate::random::Random;

/// The store as a cut left it whose log holds this many headers, or one of
/// every page if there are fewer: replayed, it is sound and has the store's
/// table. The headers in place may hold anything then.
pub fn waiting(random: &mut Random, built: &Built, headers: usize) -> Vec<u8> {
    let mut image = built.image.clone();
    let pages = logged_pages(random, built, headers);
    for (i, &page) in pages.iter().enumerate() {
        let mut header = image[page * 1024..][..64].to_vec();
        if is_reached(built, page) {
            scramble(random, &mut image[page * 1024..][..64]);
        }
        header[6..8].copy_from_slice(&[page as u8, 0]);
        image[64 * (i + 1)..][..64].copy_from_slice(&header);
    }
    let root = built.root().page as u8;
    image[..8].copy_from_slice(&[1, pages.len() as u8, root, 0, 0, 0, 0, 0]);
    // The old root may be any page.
    if random.one_in(2) {
        image[8] = random.between(1, built.pages - 1) as u8;
    }
    image
}

fn is_reached(built: &Built, page: usize) -> bool {
    built.reached().any(|reached| reached.page == page)
}

/// So many distinct pages, in any order; mostly those reached come first.
fn logged_pages(random: &mut Random, built: &Built, headers: usize) -> Vec<usize> {
    let mut pages: Vec<usize> = (1..built.pages).collect();
    random.shuffle(&mut pages);
    if !random.one_in(4) {
        pages.sort_by_key(|&page| !is_reached(built, page));
    }
    pages.truncate(headers);
    random.shuffle(&mut pages);
    pages
}

/// Some words of the line, or none, or all, replaced.
fn scramble(random: &mut Random, line: &mut [u8]) {
    let some = random.byte();
    let which = random.pick(&[0, 255, some]);
    for (i, word) in line.chunks_mut(8).enumerate() {
        if which >> i & 1 == 1 {
            random.fill(word);
        }
    }
}

/// The fields of a waiting log.
pub const FIELDS: [&str; 7] = [
    "number of headers",
    "new root",
    "rest of the mark",
    "old root",
    "page number repeated",
    "page number out of range",
    "logged header",
];

/// Other content of this field of an image whose mark waits; it may be as good
/// as before.
pub fn damage(random: &mut Random, image: &mut [u8], field: usize) {
    let pages = image.len() / 1024;
    let headers = (image[1] as usize).clamp(1, 15);
    let line = 64 * random.between(1, headers);
    let other = 64 * random.between(1, headers);
    let outside = random.pick(&[0, pages, pages + 1, 256 + pages / 2]);
    match field {
        0 => image[1] = random.pick(&[0, 16, 255, headers as u8 + 1, headers as u8 - 1]),
        1 => image[2..4].copy_from_slice(&(outside as u16).to_le_bytes()),
        2 => image[random.pick(&[0, 4, 5, 6, 7])] ^= 1 << random.below(8),
        3 => image[8..16].copy_from_slice(&(outside as u64).to_le_bytes()),
        4 => image.copy_within(other + 6..other + 8, line + 6),
        5 => image[line + 6..line + 8].copy_from_slice(&(outside as u16).to_le_bytes()),
        _ => {
            let at = line + random.pick(&[0, 1, 2, 3, 4, 5, 8, 9, 10, 62, 63]);
            image[at] ^= 1 << random.below(8);
        }
    }
}
