//! Sound images of every shape, with the table that each holds; and images
//! with a flaw that no change of one field could make.

use crate::random::Random;

pub const LAST_KEY: u64 = 999_999_999_999;

/// Where one record lies and how long its value is.
#[derive(Clone, Copy, Debug)]
pub struct Place {
    /// Offset in the image.
    pub at: usize,
    pub key: u64,
    pub length: usize,
}

/// A page that the root reaches, or the root itself.
#[derive(Clone, Debug)]
pub struct Reached {
    pub page: usize,
    pub places: Vec<Place>,
}

/// A sound image, and what a test wants to know of it.
#[derive(Clone, Debug)]
pub struct Built {
    pub image: Vec<u8>,
    pub pages: usize,
    /// Document 02 (j): the top page, if one stands above the index pages.
    pub top: Option<Reached>,
    /// The index pages; without a top the root alone.
    pub indexes: Vec<Reached>,
    /// The leaves of all index pages, by rising keys.
    pub leaves: Vec<Reached>,
    /// From where on keys belong to each leaf: from 0 on to the first, else from its
    /// own separator, or in the first slot of an index page from that page's in the
    /// top.
    pub bounds: Vec<u64>,
    pub table: Vec<(u64, Vec<u8>)>,
}

impl Built {
    pub fn root(&self) -> &Reached {
        self.top.as_ref().unwrap_or(&self.indexes[0])
    }

    /// The top, if there is one, and the index pages.
    pub fn above_leaves(&self) -> impl Iterator<Item = &Reached> {
        self.top.iter().chain(&self.indexes)
    }

    /// All pages that are reached.
    pub fn reached(&self) -> impl Iterator<Item = &Reached> {
        self.above_leaves().chain(&self.leaves)
    }

    /// The index page and the slot in it that names this leaf.
    pub fn place_of(&self, leaf: usize) -> (usize, usize) {
        let mut slot = leaf;
        for (at, index) in self.indexes.iter().enumerate() {
            if slot < index.places.len() {
                return (at, slot);
            }
            slot -= index.places.len();
        }
        panic!("no index page names leaf {leaf}");
    }

    /// The leaf that a key belongs to.
    pub fn leaf_of(&self, key: u64) -> usize {
        self.bounds.iter().rposition(|&bound| bound <= key).unwrap()
    }

    /// All separators, of a top too.
    pub fn separators(&self) -> impl Iterator<Item = u64> + '_ {
        let places = self.above_leaves().flat_map(|page| &page.places);
        places.map(|place| place.key)
    }
}

/// How much is in an image.
#[derive(Clone, Copy, Debug)]
pub struct Shape {
    pub pages: usize,
    /// Index pages under a top; none if there is no top.
    pub indexes: usize,
    pub leaves: usize,
    /// Records in each leaf, as far as they fit; none only if there is one leaf.
    pub most: usize,
    pub longest: usize,
    /// Records lie close together at the page's end, and no junk about.
    pub tidy: bool,
    pub flaw: Flaw,
}

/// What is wrong with an image that is otherwise as a sound one.
#[derive(Clone, Copy, Debug, PartialEq, Eq)]
pub enum Flaw {
    None,
    LongValue,
    EmptyLeaf,
    EmptyRoot,
    /// An index page without records, beside others or alone under a top.
    EmptyIndex,
    /// Slots that are no multiples of 8, in about half of the pages.
    OddSlots,
}

/// A shape of any kind: few leaves or many, full or nearly empty, under a top or not.
pub fn any_shape(random: &mut Random) -> Shape {
    let pages = match random.below(8) {
        0 => 64,
        1 => random.between(30, 64),
        2 => random.between(9, 20),
        _ => 8,
    };
    let indexes = any_indexes(random, pages);
    let (least, most) = leaves_within(pages, indexes);
    let leaves = match random.below(4) {
        0 => least,
        1 => most,
        _ => random.between(least, most),
    };
    Shape {
        pages,
        indexes,
        leaves,
        most: random.pick(&[0, 1, 2, 5, 14, 28, 28]),
        longest: random.pick(&[0, 8, 8, 16, 40, 200]),
        tidy: random.one_in(6),
        flaw: Flaw::None,
    }
}

/// Index pages under a top, in three images of eight; none in the others. "A top page
/// .. may now stand above 1 to 28 index pages."
pub fn any_indexes(random: &mut Random, pages: usize) -> usize {
    let most = ((pages - 2) / 2).min(28);
    let any = random.between(1, most);
    match random.below(8) {
        0 => 1,
        1 => random.pick(&[most, most, any]),
        2 => random.between(2, most.min(4)),
        _ => 0,
    }
}

/// The fewest and the most leaves beside so many index pages under a top.
pub fn leaves_within(pages: usize, indexes: usize) -> (usize, usize) {
    match indexes {
        0 => (1, (pages - 2).min(28)),
        _ => (indexes, (pages - 2 - indexes).min(28 * indexes)),
    }
}

/// A random image of this shape.
pub fn build(random: &mut Random, shape: Shape) -> Built {
    let lists = split(random, shape);
    let counts = any_counts(random, shape);
    assemble(random, shape, (lists, counts))
}

/// A tidy image with so many quotes of 8 bytes, evenly over its leaves.
pub fn even(random: &mut Random, pages: usize, leaves: usize, quotes: usize) -> Built {
    let lists = even_lists(random, leaves, quotes);
    from_leaves(random, pages, true, &[], lists)
}

/// The same under a top, with so many leaves in each index page.
pub fn even_under(random: &mut Random, pages: usize, counts: &[usize], quotes: usize) -> Built {
    let lists = even_lists(random, counts.iter().sum(), quotes);
    from_leaves(random, pages, true, counts, lists)
}

fn even_lists(random: &mut Random, leaves: usize, quotes: usize) -> Vec<Vec<(u64, Vec<u8>)>> {
    let mut lists = vec![Vec::new(); leaves];
    for (i, key) in keys(random, quotes).into_iter().enumerate() {
        lists[i * leaves / quotes].push((key, random.bytes(8)));
    }
    lists
}

/// An image with these quotes in its leaves; under a top if there are counts, of the
/// leaves in each index page.
pub fn from_leaves(
    random: &mut Random,
    pages: usize,
    tidy: bool,
    counts: &[usize],
    lists: Vec<Vec<(u64, Vec<u8>)>>,
) -> Built {
    let shape = Shape {
        pages,
        indexes: counts.len(),
        leaves: lists.len(),
        most: 28,
        longest: 200,
        tidy,
        flaw: Flaw::None,
    };
    assemble(random, shape, (lists, counts.to_vec()))
}

/// How many leaves each index page under a top has: 28 or few, in any order.
pub fn any_counts(random: &mut Random, shape: Shape) -> Vec<usize> {
    let mut counts = vec![1; shape.indexes];
    let full = random.one_in(2);
    for _ in shape.indexes..shape.leaves.max(shape.indexes) {
        if counts.is_empty() {
            break;
        }
        // The fullest that has room, or any.
        let mut at = random.below(counts.len());
        while counts[at] == 28 {
            at = random.below(counts.len());
        }
        if full {
            let with_room = (0..counts.len()).filter(|&at| counts[at] < 28);
            at = with_room.max_by_key(|&at| counts[at]).unwrap();
        }
        counts[at] += 1;
    }
    counts
}

/// Quotes of the leaves, and how many leaves each index page under a top has.
type Tree = (Vec<Vec<(u64, Vec<u8>)>>, Vec<usize>);

/// The image with these leaves' records.
fn assemble(random: &mut Random, shape: Shape, (lists, counts): Tree) -> Built {
    let mut numbers: Vec<usize> = (1..shape.pages).collect();
    random.shuffle(&mut numbers);
    let root = numbers[0];
    let (index_pages, leaf_pages) = match shape.indexes {
        0 => (&numbers[..1], &numbers[1..]),
        count => numbers[1..].split_at(count),
    };
    let separators = Separators::new(random, &lists, &counts);
    let mut image = background(random, shape);
    page_zero(&mut image, shape.pages, root);
    let mut leaves = Vec::new();
    for (list, &page) in lists.iter().zip(leaf_pages) {
        leaves.push(write_page(random, &mut image, (page, 1), list, shape));
    }
    let mut records = (separators.of_leaves.iter()).zip(leaf_pages).map(name);
    let counts = if counts.is_empty() {
        vec![lists.len()]
    } else {
        counts
    };
    let empty = match shape.flaw {
        Flaw::EmptyIndex => Some(random.below(counts.len())),
        _ => None,
    };
    let mut indexes = Vec::new();
    for (at, (&count, &page)) in counts.iter().zip(index_pages).enumerate() {
        let mut list: Vec<(u64, Vec<u8>)> = records.by_ref().take(count).collect();
        if empty == Some(at) {
            list.clear();
        }
        indexes.push(write_page(random, &mut image, (page, 2), &list, shape));
    }
    let top = (shape.indexes > 0).then(|| {
        let named = separators.of_indexes.iter().zip(index_pages).map(name);
        let mut list: Vec<(u64, Vec<u8>)> = named.collect();
        if shape.flaw == Flaw::EmptyRoot {
            list.clear();
        }
        write_page(random, &mut image, (root, 3), &list, shape)
    });
    Built {
        image,
        pages: shape.pages,
        top,
        indexes,
        leaves,
        bounds: separators.bounds,
        table: lists.concat(),
    }
}

/// The record that names a page.
fn name((&separator, &page): (&u64, &usize)) -> (u64, Vec<u8>) {
    (separator, vec![page as u8, 0])
}

/// The table, divided among the leaves.
fn split(random: &mut Random, shape: Shape) -> Vec<Vec<(u64, Vec<u8>)>> {
    let mut lists = Vec::new();
    for _ in 0..shape.leaves {
        let least = usize::from(shape.leaves > 1);
        let wanted = match random.below(3) {
            0 => random.between(least, shape.most.max(least)),
            _ => shape.most.max(least),
        };
        lists.push(values(random, wanted, shape.longest));
    }
    let flawed = random.below(shape.leaves);
    match shape.flaw {
        Flaw::LongValue => {
            let length = random.pick(&[201, 202, 208, 255, 256, 300, 944]);
            lists[flawed] = vec![random.bytes(length)];
        }
        Flaw::EmptyLeaf => lists[flawed].clear(),
        Flaw::EmptyRoot if shape.indexes == 0 => lists.clear(),
        _ => {}
    }
    let mut keys = keys(random, lists.iter().map(Vec::len).sum()).into_iter();
    let mut with_key = |value| (keys.next().unwrap(), value);
    lists
        .into_iter()
        .map(|values| values.into_iter().map(&mut with_key).collect())
        .collect()
}

/// At most so many values whose records fit one page.
fn values(random: &mut Random, wanted: usize, longest: usize) -> Vec<Vec<u8>> {
    let mut list = Vec::new();
    let mut room = 960;
    for _ in 0..wanted {
        let length = if random.one_in(3) {
            longest
        } else {
            random.between(0, longest)
        };
        if size(length) > room {
            // What is left, to the last byte.
            if room >= 16 {
                list.push(random.bytes(room - 16));
            }
            break;
        }
        room -= size(length);
        list.push(random.bytes(length));
    }
    list
}

/// So many rising keys: close together or far apart, at the limits or not.
pub(crate) fn keys(random: &mut Random, count: usize) -> Vec<u64> {
    let spread = random.pick(&[1, 2, 3, 1000, LAST_KEY / (count as u64 + 1)]);
    let mut keys: Vec<u64> = Vec::new();
    let mut last = 0;
    for _ in 0..count {
        last += 1 + random.number() % spread;
        keys.push(last);
    }
    // All may be moved up, by anything or to the very end.
    let slack = LAST_KEY - last;
    let up = match random.below(4) {
        0 => 0,
        1 => slack,
        _ => random.number() % (slack + 1),
    };
    keys.iter().map(|key| key + up).collect()
}

/// The separators of a tree.
struct Separators {
    of_leaves: Vec<u64>,
    /// Those in a top, one of each index page.
    of_indexes: Vec<u64>,
    /// As in `Built`.
    bounds: Vec<u64>,
}

impl Separators {
    /// A bound for each leaf: each but the first is above the keys before it and not
    /// above its own. Document 02 (j): in the first slot of an index page it stands
    /// in the top, and the leaf's own separator is any number from it on that is
    /// below the next. The first of all is any number below the second, in the top
    /// as in the first index page.
    fn new(random: &mut Random, lists: &[Vec<(u64, Vec<u8>)>], counts: &[usize]) -> Separators {
        let mut bounds = bounds(random, lists);
        let mut of_leaves = bounds.clone();
        let mut of_indexes = Vec::new();
        let last_below = |at: usize| match bounds.get(at) {
            Some(&next) => next.max(1) - 1,
            None => LAST_KEY,
        };
        let mut first = 0;
        for (at, &count) in counts.iter().enumerate() {
            let low = if at == 0 { 0 } else { bounds[first] };
            of_indexes.push(match at {
                0 => between(random, 0, last_below(count)),
                _ => low,
            });
            of_leaves[first] = between(random, low, last_below(first + 1).max(low));
            first += count;
        }
        if let Some(first) = bounds.first_mut() {
            *first = 0;
        }
        Separators {
            of_leaves,
            of_indexes,
            bounds,
        }
    }
}

/// Without a top these are the separators.
fn bounds(random: &mut Random, lists: &[Vec<(u64, Vec<u8>)>]) -> Vec<u64> {
    let mut bounds = Vec::new();
    let mut low = 0;
    for list in lists {
        let high = list.first().map_or(low, |entry| entry.0.max(low));
        let bound = between(random, low, high);
        bounds.push(bound);
        low = list.last().map_or(bound, |entry| entry.0) + 1;
    }
    let most = bounds.get(1).map_or(LAST_KEY, |next| next - 1);
    if let Some(first) = bounds.first_mut() {
        *first = between(random, 0, most);
    }
    bounds
}

/// A number from the one to the other, often one of these.
fn between(random: &mut Random, low: u64, high: u64) -> u64 {
    match random.below(3) {
        0 => low,
        1 => high,
        _ => low + random.number() % (high - low + 1),
    }
}

/// What the bytes are that no rule speaks of.
fn background(random: &mut Random, shape: Shape) -> Vec<u8> {
    let length = shape.pages * 1024;
    if shape.tidy || random.one_in(6) {
        return vec![if random.one_in(3) { 255 } else { 0 }; length];
    }
    random.bytes(length)
}

fn page_zero(image: &mut [u8], pages: usize, root: usize) {
    image[..64].fill(0);
    image[8] = root as u8;
    image[16] = pages as u8;
    image[18] = 1;
}

pub fn size(length: usize) -> usize {
    16 + length.div_ceil(8) * 8
}

/// Writes header and records of a page with this number and kind.
fn write_page(
    random: &mut Random,
    image: &mut [u8],
    (page, kind): (usize, u8),
    list: &[(u64, Vec<u8>)],
    shape: Shape,
) -> Reached {
    let sizes: Vec<usize> = list.iter().map(|(_, value)| size(value.len())).collect();
    let (offsets, start) = lay_out(random, &sizes, shape);
    let bytes = &mut image[page * 1024..][..1024];
    bytes[..64].fill(0);
    bytes[0] = list.len() as u8;
    put(bytes, 2, start);
    bytes[4] = kind;
    bytes[6] = page as u8;
    let mut places = Vec::new();
    for (i, ((key, value), &offset)) in list.iter().zip(&offsets).enumerate() {
        put(bytes, 8 + 2 * i, offset);
        let record = &mut bytes[offset..][..sizes[i]];
        record.fill(0);
        record[..8].copy_from_slice(&key.to_le_bytes());
        put(record, 8, value.len());
        record[16..16 + value.len()].copy_from_slice(value);
        places.push(Place {
            at: page * 1024 + offset,
            key: *key,
            length: value.len(),
        });
    }
    Reached { page, places }
}

fn put(bytes: &mut [u8], at: usize, number: usize) {
    bytes[at..at + 2].copy_from_slice(&(number as u16).to_le_bytes());
}

/// An offset for each record, in any order and with any gaps, or the first at
/// the end and down from there; and a start not above the lowest.
fn lay_out(random: &mut Random, sizes: &[usize], shape: Shape) -> (Vec<usize>, usize) {
    let mut free = 960 - sizes.iter().sum::<usize>();
    let mut order: Vec<usize> = (0..sizes.len()).collect();
    if !shape.tidy {
        random.shuffle(&mut order);
    }
    let gaps = if shape.tidy { 0 } else { random.below(3) };
    let mut offsets = vec![0; sizes.len()];
    let mut lowest = 1024;
    for i in order {
        let gap = match gaps {
            0 => 0,
            1 => free.min(8 * random.below(4)),
            _ => 8 * random.below(free / 8 + 1),
        };
        free -= gap;
        lowest -= gap + sizes[i];
        offsets[i] = lowest;
    }
    if shape.flaw == Flaw::OddSlots && free >= 8 && random.one_in(2) {
        let odd = random.between(1, 7);
        offsets.iter_mut().for_each(|offset| *offset -= odd);
        free -= 8;
    }
    let start = match random.below(3) {
        0 if !shape.tidy => 64,
        1 if !shape.tidy => 64 + 8 * random.below(free / 8 + 1),
        _ => 64 + free,
    };
    (offsets, start)
}
