//! Document 02 (i), "Two books into one": pairs of books, made from the quotes that
//! they have together, and buffers for the result.

use crate::images::{any_counts, any_shape, from_leaves, keys, size, Built, Shape};
use crate::random::Random;
use crate::stores::fresh;

pub type Quotes = Vec<(u64, Vec<u8>)>;

/// "28 records and 960 bytes."
const MOST: usize = 28;
const ROOM: usize = 960;

/// The most leaves of a book here: 64 pages hold them under a top of three index
/// pages, or four.
const MOST_LEAVES: usize = 58;

/// How the quotes are dealt to the two books.
#[derive(Clone, Copy, Debug, PartialEq, Eq, PartialOrd, Ord)]
pub enum Deal {
    /// Each to one or the other.
    Mixed,
    /// In runs.
    Runs,
    /// One book's keys are all below the other's.
    Apart,
    /// All to one.
    One,
}

pub const DEALS: [Deal; 4] = [Deal::Mixed, Deal::Runs, Deal::Apart, Deal::One];

/// Where among all quotes the one is whose key is in both books.
#[derive(Clone, Copy, Debug, PartialEq, Eq, PartialOrd, Ord)]
pub enum InBoth {
    First,
    Middle,
    Last,
}

pub const IN_BOTH: [InBoth; 3] = [InBoth::First, InBoth::Middle, InBoth::Last];

/// Two sound books.
#[derive(Clone, Debug)]
pub struct Pair {
    pub books: [Built; 2],
    pub deal: Deal,
    pub in_both: Option<InBoth>,
    /// The quotes of both by rising key; one that is in both comes twice.
    pub quotes: Quotes,
    /// How many leaves the quotes fill.
    pub leaves: usize,
}

/// A pair of any kind: with few quotes or many, at the limits or not.
pub fn any_pair(random: &mut Random) -> Pair {
    let most = match random.below(8) {
        0 => 0,
        1 => random.between(1, 28),
        2 => random.pick(&[5, 6, 7]),
        3 => random.pick(&[27, 28, 28, 29]),
        4 => {
            let (some, many) = (random.between(29, 60), random.between(60, 110));
            random.pick(&[some, many, 56, 57, 58, 59, 60])
        }
        _ => random.between(1, 8),
    };
    pair(random, most)
}

/// A pair whose quotes fill so many leaves, at most 110.
pub fn pair(random: &mut Random, leaves: usize) -> Pair {
    let quotes = any_quotes(random, leaves);
    loop {
        let (deal, dealt) = any_deal(random, &quotes);
        let (in_both, dealt) = any_in_both(random, dealt, &quotes);
        // A book has to fit into an image too.
        if dealt.iter().any(|list| packed(list).len() > MOST_LEAVES) {
            continue;
        }
        let mut quotes = dealt.concat();
        quotes.sort_by_key(|quote| quote.0);
        return Pair {
            leaves: packed(&quotes).len(),
            books: dealt.map(|list| book(random, &list)),
            deal,
            in_both,
            quotes,
        };
    }
}

/// Quotes that fill so many leaves, the last one to its end or not.
fn any_quotes(random: &mut Random, leaves: usize) -> Quotes {
    if leaves == 0 {
        return Vec::new();
    }
    let lengths = random.pick(&[
        (0, 8),
        (8, 8),
        (1, 16),
        (0, 40),
        (0, 200),
        (80, 81),
        (200, 200),
    ]);
    let filled = random.one_in(2);
    let mut values = Vec::new();
    let (mut closed, mut count, mut bytes) = (0, 0, 0);
    loop {
        let length = random.between(lengths.0, lengths.1);
        if count == MOST || bytes + size(length) > ROOM {
            (closed, count, bytes) = (closed + 1, 0, 0);
        }
        let done = !filled && closed + 1 == leaves && count > 0 && random.one_in(8);
        if done || closed == leaves {
            break;
        }
        (count, bytes) = (count + 1, bytes + size(length));
        values.push(random.bytes(length));
    }
    let keys = keys(random, values.len());
    keys.into_iter().zip(values).collect()
}

/// The quotes of each book.
fn any_deal(random: &mut Random, quotes: &Quotes) -> (Deal, [Quotes; 2]) {
    let deal = random.pick(&DEALS);
    let cut = random.below(quotes.len() + 1);
    let mut to = random.below(2);
    let mut dealt = [Vec::new(), Vec::new()];
    for (i, quote) in quotes.iter().enumerate() {
        let turns = match deal {
            Deal::Mixed => random.one_in(2),
            Deal::Runs => random.one_in(12),
            Deal::Apart => i == cut,
            Deal::One => false,
        };
        to = if turns { 1 - to } else { to };
        dealt[to].push(quote.clone());
    }
    (deal, dealt)
}

/// At times one of the keys put into the other book too, with another value.
fn any_in_both(
    random: &mut Random,
    mut dealt: [Quotes; 2],
    quotes: &Quotes,
) -> (Option<InBoth>, [Quotes; 2]) {
    if quotes.is_empty() || !random.one_in(4) {
        return (None, dealt);
    }
    let place = random.pick(&IN_BOTH);
    let at = match place {
        InBoth::First => 0,
        InBoth::Middle => random.below(quotes.len()),
        InBoth::Last => quotes.len() - 1,
    };
    let key = quotes[at].0;
    let length = random.pick(&[0, 8, quotes[at].1.len()]);
    let lacks = dealt
        .iter_mut()
        .find(|list| list.iter().all(|quote| quote.0 != key));
    let list = lacks.expect("it is in one book");
    list.push((key, random.bytes(length)));
    list.sort_by_key(|quote| quote.0);
    (Some(place), dealt)
}

/// How many quotes each leaf has: "Leaves take records in key order, each as many as
/// 28 records and 960 bytes allow."
pub fn packed(quotes: &Quotes) -> Vec<usize> {
    let mut leaves: Vec<usize> = Vec::new();
    let mut bytes = 0;
    for quote in quotes {
        let size = size(quote.1.len());
        let full = leaves.last().is_none_or(|&count| count == MOST);
        if full || bytes + size > ROOM {
            leaves.push(0);
            bytes = 0;
        }
        bytes += size;
        *leaves.last_mut().unwrap() += 1;
    }
    leaves
}

/// Index pages under a top that so many leaves of a merged store need; none up to 28.
pub fn index_pages(leaves: usize) -> usize {
    match leaves <= MOST {
        true => 0,
        false => leaves.div_ceil(MOST),
    }
}

/// Pages that a merged store of so many leaves needs: page 0, the root, the index pages
/// under a top, the leaves, of which a fresh store has one.
pub fn pages_for(leaves: usize) -> usize {
    2 + index_pages(leaves) + leaves.max(1)
}

/// A store with these quotes, in as few leaves as hold them or in more; under a top
/// where it needs one, and at times where it does not.
fn book(random: &mut Random, quotes: &Quotes) -> Built {
    let mut rest = &quotes[..];
    let mut leaves: Vec<Quotes> = Vec::new();
    for count in packed(quotes) {
        let (leaf, after) = rest.split_at(count);
        leaves.push(leaf.to_vec());
        rest = after;
    }
    if leaves.is_empty() {
        leaves.push(Vec::new());
    }
    let most = if leaves.len() <= MOST {
        MOST
    } else {
        MOST_LEAVES
    };
    let more: usize = random.pick(&[0, 0, 1, 3, 28]);
    for _ in 0..more.min(most - leaves.len()) {
        let at = random.below(leaves.len());
        if leaves[at].len() > 1 {
            let cut = random.between(1, leaves[at].len() - 1);
            let right = leaves[at].split_off(cut);
            leaves.insert(at + 1, right);
        }
    }
    let counts = any_index_counts(random, leaves.len());
    let least = (leaves.len() + counts.len() + 2).max(8);
    let pages = match random.below(4) {
        0 => least,
        1 => random.between(least, 64),
        _ => random.between(least, (least + 4).min(64)),
    };
    let tidy = random.one_in(2);
    from_leaves(random, pages, tidy, &counts, leaves)
}

/// How many leaves each index page under a top has; none without a top.
fn any_index_counts(random: &mut Random, leaves: usize) -> Vec<usize> {
    if leaves <= MOST && !random.one_in(4) {
        return Vec::new();
    }
    let least = leaves.div_ceil(MOST);
    let indexes = random.between(least, leaves.min(62 - leaves).clamp(least, MOST));
    let shape = Shape {
        indexes,
        leaves,
        ..any_shape(random)
    };
    any_counts(random, shape)
}

impl Pair {
    /// The images of both books.
    pub fn images(&self) -> [Vec<u8>; 2] {
        self.books.each_ref().map(|book| book.image.clone())
    }
}

/// A buffer for so many leaves: of a length that suffices, that is one page short, or
/// that no image has; of any content, a store's at times.
pub fn any_third(random: &mut Random, leaves: usize) -> Vec<u8> {
    let needed = pages_for(leaves);
    let pages = match random.below(8) {
        0 => return wrong_length(random, needed),
        1 | 2 => needed - 1,
        3 | 4 => needed,
        5 => 64,
        _ => random.between(8, 64),
    };
    any_content(random, pages.clamp(8, 64))
}

/// Bytes of a length that no image has.
fn wrong_length(random: &mut Random, pages: usize) -> Vec<u8> {
    let near = 1024 * pages.clamp(8, 64);
    let length = random.pick(&[0, 1, 1024, 7168, 8191, near - 1, near + 1, 65_537, 66_560]);
    random.bytes(length)
}

/// So many pages: noise, one byte throughout, or a fresh store.
fn any_content(random: &mut Random, pages: usize) -> Vec<u8> {
    match random.below(4) {
        0 => vec![random.byte(); 1024 * pages],
        1 => fresh(pages),
        _ => random.bytes(1024 * pages),
    }
}
