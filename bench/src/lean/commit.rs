//! The tape, once the edits are made: what changed, how long the tape is, and
//! then its commands.

use super::page::{half, kind, record, word, TOP};
use super::tape::{bits, Writer, BARRIER, FLUSH, LINE_STORE, WORD_STORE};
use super::tree::{put_word, Tree};
use super::PAGE;
use std::mem::MaybeUninit;
use std::ptr::copy_nonoverlapping;

/// One bit a word of a page.
type Words = [u64; 2];

/// What the comparing pass finds.
struct Changes {
    /// The pages with changed words outside the headers reached before, and for
    /// each these words.
    pages: u64,
    words: MaybeUninit<[Words; 64]>,
    stores: usize,
    lines: usize,
    headers: u64,
    root: bool,
}

impl Changes {
    fn log(&self) -> bool {
        self.headers.count_ones() + self.root as u32 > 1
    }

    /// The tape's bytes and flushes.
    #[inline(always)]
    fn size(&self) -> (usize, usize) {
        let headers = self.headers.count_ones() as usize;
        let roots = self.root as usize;
        let (lines, words, flushes, barriers) = if self.log() {
            (2 * headers, 2 + roots, 2 * headers + 2, 4)
        } else {
            (headers, roots, 1, 1)
        };
        let stores = (self.stores + words) * WORD_STORE + lines * LINE_STORE;
        let flushes = self.lines + flushes;
        let barriers = (self.lines > 0) as usize + barriers;
        (stores + flushes * FLUSH + barriers * BARRIER, flushes)
    }

    /// Takes in a page's changed words.
    #[inline(always)]
    unsafe fn add(&mut self, page: usize, words: Words) {
        self.pages |= (((words[0] | words[1]) != 0) as u64) << page;
        self.stores += (words[0].count_ones() + words[1].count_ones()) as usize;
        self.lines += lines(words).count_ones() as usize;
        let all = self.words.as_mut_ptr() as *mut Words;
        all.add(page).write(words);
    }
}

impl Tree {
    /// The tape and the answer, once the edits are made.
    #[inline(always)]
    pub unsafe fn commit(&mut self, tape: &mut [u8], answer: &mut [u64; 5]) -> u8 {
        let kept = self.reached_now();
        self.put_back(self.touched & !kept);
        self.touched &= kept;
        let changes = self.compare();
        let (bytes, flushes) = changes.size();
        let too_many = changes.log() && changes.headers.count_ones() > 15;
        if too_many || tape.len() < bytes {
            self.put_back(self.touched);
            return if too_many { 12 } else { 13 };
        }
        put_word(self.work.add(8), self.root as u64);
        let mut out = Writer(tape.as_mut_ptr());
        self.stage_a(&changes, &mut out);
        let (kind, page) = if changes.log() {
            self.log(&changes, &mut out);
            (3, 0)
        } else if changes.root {
            out.word_store(1, self.root as u64);
            out.flush(0);
            out.barrier();
            (2, 0)
        } else {
            let page = changes.headers.trailing_zeros() as usize;
            out.line_store(16 * page, self.page(page));
            out.flush(16 * page);
            out.barrier();
            (1, page as u64)
        };
        *answer = [0, kind, page, bytes as u64, flushes as u64];
        0
    }

    #[inline(always)]
    unsafe fn reached_now(&self) -> u64 {
        let root = self.page(self.root);
        let named = 1 << self.root | names_of(root);
        if kind(root) != TOP {
            return named;
        }
        (0..half(root)).fold(named, |pages, i| {
            pages | names_of(self.page(half(record(root, i).add(16))))
        })
    }

    /// The one comparing pass. A page's records are written between its new
    /// start and its old one, or its end if it was not reached.
    #[inline(always)]
    unsafe fn compare(&self) -> Changes {
        let mut changes = Changes {
            pages: 0,
            words: MaybeUninit::uninit(),
            stores: 0,
            lines: 0,
            headers: 0,
            root: word(self.before.add(8)) != self.root as u64,
        };
        for number in bits(self.touched) {
            let (old, new) = (self.before.add(number * PAGE), self.page(number));
            let header = differing(old, new, 0, 8);
            let (start, old_start) = (half(new.add(2)) / 8, half(old.add(2)) / 8);
            if self.reached >> number & 1 == 1 {
                changes.headers |= ((header != 0) as u64) << number;
                changes.add(number, differing_words(old, new, start, old_start));
            } else {
                let [low, high] = differing_words(old, new, start, 128);
                changes.add(number, [low | header, high]);
            }
        }
        changes
    }

    /// "A word store for each word that differs .. then a flush of each line so
    /// stored", and a barrier if there is a flush.
    #[inline(always)]
    unsafe fn stage_a(&self, changes: &Changes, out: &mut Writer) {
        let words = changes.words.as_ptr() as *const Words;
        for number in bits(changes.pages) {
            let [low, high] = *words.add(number);
            for at in bits(low).chain(bits(high).map(|at| 64 + at)) {
                let place = 128 * number + at;
                out.word_store(place, word(self.work.add(8 * place)));
            }
        }
        for number in bits(changes.pages) {
            for line in bits(lines(*words.add(number))) {
                out.flush(16 * number + line);
            }
        }
        if changes.lines > 0 {
            out.barrier();
        }
    }

    /// Log, mark, headers, root and clearing, each with its barrier; and the log lines
    /// into work.
    #[inline(always)]
    unsafe fn log(&self, changes: &Changes, out: &mut Writer) {
        let headers = changes.headers;
        let count = headers.count_ones() as usize;
        for (i, page) in bits(headers).enumerate() {
            let line = self.work.add(64 * (i + 1));
            copy_nonoverlapping(self.page(page), line, 64);
            out.line_store(i + 1, line);
        }
        for line in 1..=count {
            out.flush(line);
        }
        out.barrier();
        out.word_store(0, 1 | (count as u64) << 8 | (self.root as u64) << 16);
        out.flush(0);
        out.barrier();
        for page in bits(headers) {
            out.line_store(16 * page, self.page(page));
        }
        for page in bits(headers) {
            out.flush(16 * page);
        }
        out.barrier();
        if changes.root {
            out.word_store(1, self.root as u64);
        }
        out.word_store(0, 0);
        out.flush(0);
        out.barrier();
    }
}

/// One bit for each page that this one names.
#[inline(always)]
unsafe fn names_of(page: *const u8) -> u64 {
    (0..half(page)).fold(0, |pages, i| pages | 1 << half(record(page, i).add(16)))
}

/// The words of a page from `from` to `to` that differ.
#[inline(always)]
unsafe fn differing_words(old: *const u8, new: *const u8, from: usize, to: usize) -> Words {
    let low = differing(old, new, from.min(64), to.min(64));
    let (old, new) = (old.add(512), new.add(512));
    let high = differing(old, new, from.max(64) - 64, to.max(64) - 64);
    [low, high]
}

/// The same within 64 words.
#[inline(always)]
unsafe fn differing(old: *const u8, new: *const u8, from: usize, to: usize) -> u64 {
    let mut words = 0;
    for at in from..to {
        let differs = word(old.add(8 * at)) != word(new.add(8 * at));
        words |= (differs as u64) << at;
    }
    words
}

/// One bit for each line that has one of these words.
#[inline(always)]
fn lines([low, high]: Words) -> u64 {
    let eight = |mut words: u64| {
        // Each byte's bits into its lowest, then the eight of these into one
        // byte.
        words |= words >> 4;
        words |= words >> 2;
        words |= words >> 1;
        (words & 0x0101_0101_0101_0101).wrapping_mul(0x0102_0408_1020_4080) >> 56
    };
    eight(low) | eight(high) << 8
}
