//! Each call of the proved library, on buffers that the program lends. A call
//! allocates nothing and keeps nothing. `include/quote_store.h` says of each
//! what its buffers hold afterwards, and its refusals in their order.
//!
//! [`check`], [`merge`], the transactions and the recoveries judge the whole image.
//! [`lookup`], [`next_key`] and [`preview`] judge page 0, the root, and of the index
//! pages under a top and of the leaves those that they read: quotes of other leaves are
//! answered where one is damaged, or its index page.
//!
//! [`transaction`] and [`recover`] are for a device that writes a line of 64
//! bytes whole ([`Device::Lines`](crate::Device::Lines)), [`transaction_words`]
//! and [`recover_words`] for one that writes only words of 8 bytes whole
//! ([`Device::Words`](crate::Device::Words)). The other calls are for both.
//!
//! [`run`] and [`cut`] are a device, simulated; [`count_cuts`] and [`nth_cut`] give
//! every cut of a small tape. [`cuts`], which goes through them by these two, is no
//! call of the library: it allocates the choices of each.

use crate::{Commit, Cuts, Preview, Recovery, Refusal};
use quote_store_sys as sys;
use std::ops::Range;

/// What a call answers: accepted, or the refusal at this edit.
fn judged(number: u8, edit: u64) -> Result<(), Refusal> {
    match number {
        0 => Ok(()),
        _ => Err(Refusal::of(number, edit as usize).expect("refusals are 1 to 20")),
    }
}

/// Writes a fresh store, without quotes, as large as the image.
///
/// ```
/// use quote_store::{calls, Refusal, PAGE};
///
/// let mut image = vec![255; 8 * PAGE];
/// calls::format(&mut image)?;
/// assert_eq!(calls::check(&image), Ok(()));
/// assert_eq!(calls::format(&mut image[1..]), Err(Refusal::ImageSize));
/// # Ok::<(), Refusal>(())
/// ```
pub fn format(image: &mut [u8]) -> Result<(), Refusal> {
    // Sound: the pointer is lent with its own length, for this call alone.
    let number = unsafe { sys::quote_format(image.as_mut_ptr(), image.len()) };
    judged(number, 0)
}

/// Whether the image is that of a sound store where no commit waits, all of its
/// leaves included.
///
/// ```
/// use quote_store::{calls, Refusal, Store};
///
/// let mut image = Store::fresh(8)?.image().to_vec();
/// assert_eq!(calls::check(&image), Ok(()));
/// image[40] = 1;
/// assert_eq!(calls::check(&image), Err(Refusal::Unsound));
/// # Ok::<(), Refusal>(())
/// ```
pub fn check(image: &[u8]) -> Result<(), Refusal> {
    // Sound: the pointer is lent with its own length, and only read.
    let number = unsafe { sys::quote_check(image.as_ptr(), image.len()) };
    judged(number, 0)
}

/// Where in the image the key's value is, if the store has the key.
///
/// ```
/// use quote_store::{calls, Edit, Store};
///
/// let mut store = Store::fresh(8)?;
/// store.apply(&[Edit::Insert { key: 101, value: b"101.25" }])?;
/// let place = calls::lookup(store.image(), 101)?.unwrap();
/// assert_eq!(&store.image()[place], b"101.25");
/// assert_eq!(calls::lookup(store.image(), 102), Ok(None));
/// # Ok::<(), quote_store::Refusal>(())
/// ```
///
/// Of the leaves it reads the one that the key belongs to, by the separators of the
/// index page that names it; under a top page, which a store of more than 28 leaves
/// has, it reads that index page alone of all. If the leaf is damaged, or the index
/// page, the root or page 0, it says [`Refusal::Unsound`]; damage in another leaf or
/// index page does not matter.
///
/// ```
/// use quote_store::{calls, Edit, Refusal, Store, PAGE};
///
/// // 29 quotes make two leaves.
/// let mut store = Store::fresh(8)?;
/// for key in 1..=29 {
///     store.apply(&[Edit::Insert { key, value: b"101.25" }])?;
/// }
/// let mut image = store.image().to_vec();
/// let last = calls::lookup(&image, 29)?.unwrap();
/// image[last.start / PAGE * PAGE] += 1; // its leaf counts a record too many
///
/// assert_eq!(calls::check(&image), Err(Refusal::Unsound));
/// assert_eq!(calls::lookup(&image, 29), Err(Refusal::Unsound));
/// let first = calls::lookup(&image, 1)?.unwrap();
/// assert_eq!(&image[first], b"101.25");
/// # Ok::<(), Refusal>(())
/// ```
pub fn lookup(image: &[u8], key: u64) -> Result<Option<Range<usize>>, Refusal> {
    let mut answer = [0; 3];
    // Sound: each pointer is lent with its own length; the image is only read.
    let number = unsafe {
        sys::quote_lookup(
            image.as_ptr(),
            image.len(),
            key,
            answer.as_mut_ptr(),
            answer.len(),
        )
    };
    judged(number, 0)?;
    let [found, offset, length] = answer.map(|number| number as usize);
    Ok((found == 1).then_some(offset..offset + length))
}

/// The smallest key above a number, which need not be a key. It reads the leaf
/// that the number belongs to and, only if that holds no larger key, the leaf
/// after it, and under a top page the index pages of these; if one of them is
/// damaged, it says [`Refusal::Unsound`].
///
/// ```
/// use quote_store::{calls, Edit, Store};
///
/// let mut store = Store::fresh(8)?;
/// store.apply(&[Edit::Insert { key: 101, value: b"101.25" }])?;
/// assert_eq!(calls::next_key(store.image(), 0), Ok(Some(101)));
/// assert_eq!(calls::next_key(store.image(), 101), Ok(None));
/// # Ok::<(), quote_store::Refusal>(())
/// ```
pub fn next_key(image: &[u8], key: u64) -> Result<Option<u64>, Refusal> {
    let mut answer = [0; 2];
    // Sound: each pointer is lent with its own length; the image is only read.
    let number = unsafe {
        sys::quote_next_key(
            image.as_ptr(),
            image.len(),
            key,
            answer.as_mut_ptr(),
            answer.len(),
        )
    };
    judged(number, 0)?;
    let [found, next] = answer;
    Ok((found == 1).then_some(next))
}

/// Where the value is that a key would have if the edits had been made, without
/// making them: in the list or in the image.
///
/// The rules for the keys of edits hold for the whole list. Pages, log and tape
/// play no part: a transaction of the list may still be refused with 11 to 13.
/// The key asked is refused as edit 0, and the list's own faults come first.
/// Of the leaves it reads those that the keys of the list belong to, and last
/// that of the key asked, if no edit has it; and under a top page their index
/// pages. A damaged one is [`Refusal::Unsound`], and comes before the key rule of
/// the first edit that needs it.
///
/// ```
/// use quote_store::{calls, encode, Edit, Preview, Refusal, Store};
///
/// let mut store = Store::fresh(8)?;
/// store.apply(&[
///     Edit::Insert { key: 101, value: b"101.25" },
///     Edit::Insert { key: 105, value: b"99.50" },
/// ])?;
/// let image = store.image();
/// let shift = encode(&[Edit::Update { key: 101, value: b"101.50" }]);
/// // A value stands behind the 10 bytes of its edit's kind, length and key.
/// assert_eq!(calls::preview(image, &shift, 101), Ok(Preview::InList(10..16)));
/// let place = calls::lookup(image, 105)?.unwrap();
/// assert_eq!(calls::preview(image, &shift, 105), Ok(Preview::InImage(place)));
/// assert_eq!(calls::preview(image, &shift, 107), Ok(Preview::Missing));
///
/// assert_eq!(calls::preview(image, &shift, 0), Err(Refusal::KeyRange { edit: 0 }));
/// let wrong = encode(&[Edit::Delete { key: 101 }, Edit::Delete { key: 101 }]);
/// assert_eq!(calls::preview(image, &wrong, 105), Err(Refusal::KeyMissing { edit: 1 }));
/// # Ok::<(), Refusal>(())
/// ```
pub fn preview(image: &[u8], edits: &[u8], key: u64) -> Result<Preview, Refusal> {
    let mut answer = [0; 4];
    // Sound: each pointer is lent with its own length; image and edits are only
    // read.
    let number = unsafe {
        sys::quote_preview(
            image.as_ptr(),
            image.len(),
            edits.as_ptr(),
            edits.len(),
            key,
            answer.as_mut_ptr(),
            answer.len(),
        )
    };
    let [edit, rest @ ..] = answer;
    judged(number, edit)?;
    Ok(Preview::of(rest.map(|number| number as usize)))
}

/// The value that [`preview`] finds, as a part of the list or of the image,
/// without a copy; none if the key would be missing.
///
/// ```
/// use quote_store::{calls, encode, Edit, Store};
///
/// let mut store = Store::fresh(8)?;
/// store.apply(&[Edit::Insert { key: 101, value: b"101.25" }])?;
/// let image = store.image();
/// let edits = encode(&[Edit::Insert { key: 105, value: b"99.50" }]);
/// assert_eq!(calls::preview_value(image, &edits, 105)?, Some(&b"99.50"[..]));
/// assert_eq!(calls::preview_value(image, &edits, 101)?, Some(&b"101.25"[..]));
/// assert_eq!(calls::preview_value(image, &edits, 107)?, None);
/// # Ok::<(), quote_store::Refusal>(())
/// ```
pub fn preview_value<'a>(
    image: &'a [u8],
    edits: &'a [u8],
    key: u64,
) -> Result<Option<&'a [u8]>, Refusal> {
    Ok(match preview(image, edits, key)? {
        Preview::InList(part) => Some(&edits[part]),
        Preview::InImage(part) => Some(&image[part]),
        Preview::Missing => None,
    })
}

/// Writes the quotes of two books as one store into a third buffer, whatever it held.
/// Its length says how many pages the result has; the three may differ.
///
/// The leaves, from page 2 on, take the quotes by rising key, each as many as 28
/// records and 960 bytes allow. More than 28 leaves stand behind a top page and index
/// pages of 28 leaves each. n leaves need n + 2 pages, more than 28 need n + 4, more
/// than 56 need n + 5. Stored empty values are taken too. A refusal leaves the buffer
/// as it was: [`Refusal::ImageSize`] for the buffer, what [`check`] says of the first
/// book, what it says of the second, [`Refusal::KeyInBoth`], and [`Refusal::PagesOut`]
/// with edit 0 if the buffer has too few pages.
///
/// There is no tape: while the buffer is written, and until it is made durable as a
/// whole, a power failure may leave anything in it.
///
/// ```
/// use quote_store::{calls, Edit, Refusal, Store, PAGE};
///
/// let (mut first, mut second) = (Store::fresh(8)?, Store::fresh(8)?);
/// first.apply(&[Edit::Insert { key: 101, value: b"101.25" }])?;
/// second.apply(&[Edit::Insert { key: 105, value: b"99.50" }])?;
///
/// let mut out = vec![255; 16 * PAGE];
/// calls::merge(first.image(), second.image(), &mut out)?;
/// assert_eq!(calls::check(&out), Ok(()));
/// for (key, value) in first.iter().chain(&second) {
///     let place = calls::lookup(&out, key)?.unwrap();
///     assert_eq!(&out[place], value);
/// }
///
/// // The same book twice has every key in both.
/// let before = out.clone();
/// let refused = calls::merge(first.image(), first.image(), &mut out);
/// assert_eq!(refused, Err(Refusal::KeyInBoth));
/// assert!(out == before);
/// # Ok::<(), Refusal>(())
/// ```
pub fn merge(first: &[u8], second: &[u8], out: &mut [u8]) -> Result<(), Refusal> {
    // Sound: each pointer is lent with its own length; only out is written, and it
    // overlaps no other buffer.
    let number = unsafe {
        sys::quote_merge(
            first.as_ptr(),
            first.len(),
            second.as_ptr(),
            second.len(),
            out.as_mut_ptr(),
            out.len(),
        )
    };
    judged(number, 0)
}

/// Makes all edits of a list, or none. Accepted, work is the image after them,
/// and the tape's first bytes are the commands that lead to it.
///
/// ```
/// use quote_store::{calls, encode, tape_length, Edit, Store};
///
/// let image = Store::fresh(8)?.image().to_vec();
/// let mut work = image.clone();
/// let mut tape = vec![0; tape_length(image.len())];
/// let edits = encode(&[Edit::Insert { key: 101, value: b"101.25" }]);
/// let commit = calls::transaction(&image, &mut work, &mut tape, &edits)?;
///
/// // The device that carries out the commands comes to the same image.
/// let mut device = image.clone();
/// calls::run(&image, &mut device, &tape[..commit.bytes])?;
/// assert!(device == work);
/// # Ok::<(), quote_store::Refusal>(())
/// ```
pub fn transaction(
    image: &[u8],
    work: &mut [u8],
    tape: &mut [u8],
    edits: &[u8],
) -> Result<Commit, Refusal> {
    transaction_by(sys::quote_transaction, image, work, tape, edits)
}

/// [`transaction`] for a device that writes only words whole: the same edits and
/// refusals. There is no line store on its tape: a header, and a line of the log,
/// is eight word stores. A changed header goes through the log, one alone too.
/// Work is the same but for lines 1 to 15 of page 0, the log.
///
/// ```
/// use quote_store::{calls, encode, tape_length, CommitPlace, Edit, Store};
///
/// let image = Store::fresh(8)?.image().to_vec();
/// let mut work = image.clone();
/// let mut tape = vec![0; tape_length(image.len())];
/// let edits = encode(&[Edit::Insert { key: 101, value: &[1; 8] }]);
/// let commit = calls::transaction(&image, &mut work, &mut tape, &edits)?;
/// assert_eq!(commit.place, CommitPlace::Header { page: 2 });
/// assert_eq!((commit.bytes, commit.flushes), (120, 2));
///
/// let mut other = image.clone();
/// let commit = calls::transaction_words(&image, &mut other, &mut tape, &edits)?;
/// assert_eq!(commit.place, CommitPlace::Log);
/// assert_eq!((commit.bytes, commit.flushes), (292, 5));
/// assert!(other[..64] == work[..64] && other[1024..] == work[1024..]);
/// # Ok::<(), quote_store::Refusal>(())
/// ```
pub fn transaction_words(
    image: &[u8],
    work: &mut [u8],
    tape: &mut [u8],
    edits: &[u8],
) -> Result<Commit, Refusal> {
    transaction_by(sys::quote_transaction_words, image, work, tape, edits)
}

fn transaction_by(
    call: sys::Transaction,
    image: &[u8],
    work: &mut [u8],
    tape: &mut [u8],
    edits: &[u8],
) -> Result<Commit, Refusal> {
    let mut answer = [0; 5];
    // Sound: each pointer is lent with its own length, and no buffer that is
    // written overlaps another; image and edits are only read.
    let number = unsafe {
        call(
            image.as_ptr(),
            image.len(),
            work.as_mut_ptr(),
            work.len(),
            tape.as_mut_ptr(),
            tape.len(),
            edits.as_ptr(),
            edits.len(),
            answer.as_mut_ptr(),
            answer.len(),
        )
    };
    let [edit, rest @ ..] = answer;
    judged(number, edit)?;
    Ok(Commit::of(rest.map(|number| number as usize)))
}

/// Finishes a commit that a power failure cut. Accepted, work is the image
/// after it, and the tape's first bytes are the commands that lead to it.
///
/// ```
/// use quote_store::{calls, Refusal, Store};
///
/// let mut image = Store::fresh(8)?.image().to_vec();
/// // A mark that says: one header logged, root page 1. And that header.
/// image[..8].copy_from_slice(&[1, 1, 1, 0, 0, 0, 0, 0]);
/// image.copy_within(1024..1024 + 64, 64);
/// assert_eq!(calls::check(&image), Err(Refusal::MarkWaits));
///
/// let mut work = image.clone();
/// let recovery = calls::recover(&image, &mut work, &mut [0; 1116])?;
/// assert_eq!((recovery.bytes, recovery.flushes), (96, 2));
/// assert_eq!(calls::check(&work), Ok(()));
/// # Ok::<(), Refusal>(())
/// ```
pub fn recover(image: &[u8], work: &mut [u8], tape: &mut [u8]) -> Result<Recovery, Refusal> {
    recover_by(sys::quote_recover, image, work, tape)
}

/// [`recover`] for a device that writes only words whole: the same image, and no
/// line store on the tape. It finishes a commit of either transaction.
///
/// ```
/// use quote_store::{calls, Refusal, Store};
///
/// let mut image = Store::fresh(8)?.image().to_vec();
/// // A mark that says: one header logged, root page 1. And that header.
/// image[..8].copy_from_slice(&[1, 1, 1, 0, 0, 0, 0, 0]);
/// image.copy_within(1024..1024 + 64, 64);
///
/// let (mut work, mut other) = (image.clone(), image.clone());
/// let recovery = calls::recover_words(&image, &mut work, &mut [0; 1536])?;
/// assert_eq!((recovery.bytes, recovery.flushes), (124, 2));
/// calls::recover(&image, &mut other, &mut [0; 1116])?;
/// assert!(work == other);
/// # Ok::<(), Refusal>(())
/// ```
pub fn recover_words(image: &[u8], work: &mut [u8], tape: &mut [u8]) -> Result<Recovery, Refusal> {
    recover_by(sys::quote_recover_words, image, work, tape)
}

fn recover_by(
    call: sys::Recovery,
    image: &[u8],
    work: &mut [u8],
    tape: &mut [u8],
) -> Result<Recovery, Refusal> {
    let mut answer = [0; 2];
    // Sound: each pointer is lent with its own length, and no buffer that is
    // written overlaps another; the image is only read.
    let number = unsafe {
        call(
            image.as_ptr(),
            image.len(),
            work.as_mut_ptr(),
            work.len(),
            tape.as_mut_ptr(),
            tape.len(),
            answer.as_mut_ptr(),
            answer.len(),
        )
    };
    judged(number, 0)?;
    let [bytes, flushes] = answer.map(|number| number as usize);
    Ok(Recovery { bytes, flushes })
}

/// A device, simulated: carries out a whole tape.
///
/// ```
/// use quote_store::calls;
///
/// let (image, mut work) = ([0; 8192], [0; 8192]);
/// let store_word_2 = [1, 0, 2, 0, 11, 12, 13, 14, 15, 16, 17, 18];
/// calls::run(&image, &mut work, &store_word_2)?;
/// assert_eq!(work[16..24], [11, 12, 13, 14, 15, 16, 17, 18]);
/// # Ok::<(), quote_store::Refusal>(())
/// ```
pub fn run(image: &[u8], work: &mut [u8], tape: &[u8]) -> Result<(), Refusal> {
    // Sound: each pointer is lent with its own length; only work is written,
    // and it overlaps no other buffer.
    let number = unsafe {
        sys::quote_run(
            image.as_ptr(),
            image.len(),
            work.as_mut_ptr(),
            work.len(),
            tape.as_ptr(),
            tape.len(),
        )
    };
    judged(number, 0)
}

/// The same device when the power fails after c commands. Stores that are durable
/// by then are kept: those whose line was flushed after them, with a barrier after
/// that flush. Of the others, each line keeps as many as its choice says, the
/// earliest first, or all if there are fewer. A choice is a byte for each line of
/// the image ([`LINE`](crate::LINE)). `c` may be raised until
/// [`Refusal::PastEnd`] to find the number of commands.
///
/// ```
/// use quote_store::calls;
///
/// let (image, mut work) = ([0; 8192], [9; 8192]);
/// let store_word_2 = [1, 0, 2, 0, 11, 12, 13, 14, 15, 16, 17, 18];
/// let (flush_line_0, barrier) = ([3, 0, 0, 0], [4, 0, 0, 0]);
/// let tape = [&store_word_2[..], &flush_line_0, &barrier].concat();
/// // The store may be lost before its line is flushed, and until the barrier.
/// for c in [1, 2] {
///     calls::cut(&image, &mut work, &tape, c, &[0; 128])?;
///     assert_eq!(work, image);
///     calls::cut(&image, &mut work, &tape, c, &[1; 128])?;
///     assert_ne!(work, image);
/// }
/// calls::cut(&image, &mut work, &tape, 3, &[0; 128])?;
/// assert_ne!(work, image);
/// # Ok::<(), quote_store::Refusal>(())
/// ```
pub fn cut(
    image: &[u8],
    work: &mut [u8],
    tape: &[u8],
    c: usize,
    choices: &[u8],
) -> Result<(), Refusal> {
    // Sound: each pointer is lent with its own length; only work is written,
    // and it overlaps no other buffer.
    let number = unsafe {
        sys::quote_cut(
            image.as_ptr(),
            image.len(),
            work.as_mut_ptr(),
            work.len(),
            tape.as_ptr(),
            tape.len(),
            c,
            choices.as_ptr(),
            choices.len(),
        )
    };
    judged(number, 0)
}

/// How many cuts a tape has, of at most
/// [`MOST_CUT_COMMANDS`](crate::MOST_CUT_COMMANDS) commands. A cut is a count of
/// commands and a choice for each line, which is not above the line's pending
/// stores: those that are not durable. Flushes and barriers are commands too. Of the
/// image only the length matters.
///
/// ```
/// use quote_store::{calls, Refusal};
///
/// let image = [0; 8192];
/// let store_word_2 = [1, 0, 2, 0, 11, 12, 13, 14, 15, 16, 17, 18];
/// // Before the store; after it, where line 0 keeps none, or one.
/// assert_eq!(calls::count_cuts(&image, &store_word_2), Ok(3));
/// assert_eq!(calls::count_cuts(&image, &[]), Ok(1));
/// assert_eq!(calls::count_cuts(&image, &store_word_2.repeat(13)), Err(Refusal::LongTape));
/// ```
pub fn count_cuts(image: &[u8], tape: &[u8]) -> Result<usize, Refusal> {
    let mut answer = [0; 1];
    // Sound: each pointer is lent with its own length; image and tape are only
    // read.
    let number = unsafe {
        sys::quote_count_cuts(
            image.as_ptr(),
            image.len(),
            tape.as_ptr(),
            tape.len(),
            answer.as_mut_ptr(),
            answer.len(),
        )
    };
    judged(number, 0)?;
    Ok(answer[0] as usize)
}

/// Cut number r of the same tape, from 0: the count of commands, and in `choices`
/// those of the lines, ready for [`cut`]. Cuts rise by the count of commands, then
/// by the choices compared line by line, line 0 first. Every one is given and none
/// twice; what [`cut`] leaves of the tape for any other choices, it leaves for one of
/// these too. `r` may be raised until [`Refusal::NoSuchCut`]; [`cuts`] does so.
///
/// ```
/// use quote_store::{calls, Refusal};
///
/// let (image, mut choices) = ([0; 8192], [9; 128]);
/// let store_word_2 = [1, 0, 2, 0, 11, 12, 13, 14, 15, 16, 17, 18];
/// assert_eq!(calls::nth_cut(&image, &store_word_2, 2, &mut choices), Ok(1));
/// assert_eq!((choices[0], &choices[1..]), (1, &[0; 127][..]));
/// let none = calls::nth_cut(&image, &store_word_2, 3, &mut choices);
/// assert_eq!(none, Err(Refusal::NoSuchCut));
/// ```
pub fn nth_cut(image: &[u8], tape: &[u8], r: usize, choices: &mut [u8]) -> Result<usize, Refusal> {
    let mut answer = [0; 1];
    // Sound: each pointer is lent with its own length; image and tape are only
    // read, and choices overlap no other buffer.
    let number = unsafe {
        sys::quote_nth_cut(
            image.as_ptr(),
            image.len(),
            tape.as_ptr(),
            tape.len(),
            r,
            choices.as_mut_ptr(),
            choices.len(),
            answer.as_mut_ptr(),
            answer.len(),
        )
    };
    judged(number, 0)?;
    Ok(answer[0] as usize)
}

/// Every cut of such a tape, in order, by [`count_cuts`] and [`nth_cut`].
///
/// ```
/// use quote_store::{calls, Edit, Store};
///
/// let mut store = Store::fresh(8)?;
/// let before = store.image().to_vec();
/// store.apply(&[Edit::Insert { key: 101, value: b"101.25" }])?;
/// let tape = store.take_tape();
///
/// // Wherever the power fails, the quote is there or it is not.
/// let (mut device, mut times) = (before.clone(), [0, 0]);
/// for cut in calls::cuts(&before, &tape)? {
///     calls::cut(&before, &mut device, &tape, cut.commands, &cut.choices)?;
///     let found = Store::open(&device)?;
///     let there = found.get(101) == Some(&b"101.25"[..]);
///     assert!(there || found.iter().count() == 0);
///     times[usize::from(there)] += 1;
/// }
/// assert_eq!(times, [17, 3]);
/// # Ok::<(), quote_store::Refusal>(())
/// ```
pub fn cuts<'a>(image: &'a [u8], tape: &'a [u8]) -> Result<Cuts<'a>, Refusal> {
    Cuts::of(image, tape)
}
