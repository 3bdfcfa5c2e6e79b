//! The proved store's C interface, with a safe function for each call. The
//! answer is 0 if accepted, else the refusal's number.
//!
//! Every buffer is lent as mutable, also those that a call must leave alone:
//! so a test may look whether the call did.
//!
//! Each function is inline, so that a program needs only those symbols of the
//! library whose functions it calls.

use quote_store_sys as interface;

#[inline]
pub fn run(image: &mut [u8], work: &mut [u8], tape: &mut [u8]) -> u8 {
    // Sound: each pointer is lent with its own length, for this call alone.
    unsafe {
        interface::quote_run(
            image.as_mut_ptr(),
            image.len(),
            work.as_mut_ptr(),
            work.len(),
            tape.as_mut_ptr(),
            tape.len(),
        )
    }
}

#[inline]
pub fn cut(image: &mut [u8], work: &mut [u8], tape: &mut [u8], c: usize, choices: &mut [u8]) -> u8 {
    // Sound: each pointer is lent with its own length, for this call alone.
    unsafe {
        interface::quote_cut(
            image.as_mut_ptr(),
            image.len(),
            work.as_mut_ptr(),
            work.len(),
            tape.as_mut_ptr(),
            tape.len(),
            c,
            choices.as_mut_ptr(),
            choices.len(),
        )
    }
}

/// The answer is one number: how many cuts the tape has. It stays as it was on a
/// refusal, or without room for one.
#[inline]
pub fn count_cuts(image: &mut [u8], tape: &mut [u8], answer: &mut [u64]) -> u8 {
    // Sound: each pointer is lent with its own length, for this call alone.
    unsafe {
        interface::quote_count_cuts(
            image.as_mut_ptr(),
            image.len(),
            tape.as_mut_ptr(),
            tape.len(),
            answer.as_mut_ptr(),
            answer.len(),
        )
    }
}

/// The answer is one number: after how many commands the cut comes. It stays as
/// it was on a refusal, or without room for one.
#[inline]
pub fn nth_cut(
    image: &mut [u8],
    tape: &mut [u8],
    r: usize,
    choices: &mut [u8],
    answer: &mut [u64],
) -> u8 {
    // Sound: each pointer is lent with its own length, for this call alone.
    unsafe {
        interface::quote_nth_cut(
            image.as_mut_ptr(),
            image.len(),
            tape.as_mut_ptr(),
            tape.len(),
            r,
            choices.as_mut_ptr(),
            choices.len(),
            answer.as_mut_ptr(),
            answer.len(),
        )
    }
}

#[inline]
pub fn format(image: &mut [u8]) -> u8 {
    // Sound: the pointer is lent with its own length, for this call alone.
    unsafe { interface::quote_format(image.as_mut_ptr(), image.len()) }
}

#[inline]
pub fn check(image: &mut [u8]) -> u8 {
    // Sound: the pointer is lent with its own length, for this call alone.
    unsafe { interface::quote_check(image.as_mut_ptr(), image.len()) }
}

/// The answer is 1, offset and length if the key is found, 0, 0 and 0 if it is
/// missing; it stays as it was on a refusal, or without room for three.
#[inline]
pub fn lookup(image: &mut [u8], key: u64, answer: &mut [u64]) -> u8 {
    // Sound: each pointer is lent with its own length, for this call alone.
    unsafe {
        interface::quote_lookup(
            image.as_mut_ptr(),
            image.len(),
            key,
            answer.as_mut_ptr(),
            answer.len(),
        )
    }
}

/// The answer is 1 and the next key, or 0 and 0 if there is none; it stays as
/// it was on a refusal, or without room for two.
#[inline]
pub fn next_key(image: &mut [u8], key: u64, answer: &mut [u64]) -> u8 {
    // Sound: each pointer is lent with its own length, for this call alone.
    unsafe {
        interface::quote_next_key(
            image.as_mut_ptr(),
            image.len(),
            key,
            answer.as_mut_ptr(),
            answer.len(),
        )
    }
}

/// The answer is four numbers: edit number, which buffer has the value (1 the
/// edit list, 2 the image, 0 none), the value's offset in it, its length. On a
/// refusal they are the edit number and three zeros. They are written only where
/// there is room for four.
#[inline]
pub fn preview(image: &mut [u8], edits: &mut [u8], key: u64, answer: &mut [u64]) -> u8 {
    // Sound: each pointer is lent with its own length, for this call alone.
    unsafe {
        interface::quote_preview(
            image.as_mut_ptr(),
            image.len(),
            edits.as_mut_ptr(),
            edits.len(),
            key,
            answer.as_mut_ptr(),
            answer.len(),
        )
    }
}

#[inline]
pub fn merge(first: &mut [u8], second: &mut [u8], out: &mut [u8]) -> u8 {
    // Sound: each pointer is lent with its own length, for this call alone.
    unsafe {
        interface::quote_merge(
            first.as_mut_ptr(),
            first.len(),
            second.as_mut_ptr(),
            second.len(),
            out.as_mut_ptr(),
            out.len(),
        )
    }
}

/// The answer is five numbers: edit number, kind of the commit place (1 header,
/// 2 root word, 3 log), page (of a header, else 0), tape bytes used, flushes.
/// On a refusal they are the edit number and four zeros. They are written only
/// where there is room for five.
#[inline]
pub fn transaction(
    image: &mut [u8],
    work: &mut [u8],
    tape: &mut [u8],
    edits: &mut [u8],
    answer: &mut [u64],
) -> u8 {
    transaction_by(
        interface::quote_transaction,
        [image, work, tape, edits],
        answer,
    )
}

/// The same for modules without line stores.
#[inline]
pub fn transaction_words(
    image: &mut [u8],
    work: &mut [u8],
    tape: &mut [u8],
    edits: &mut [u8],
    answer: &mut [u64],
) -> u8 {
    transaction_by(
        interface::quote_transaction_words,
        [image, work, tape, edits],
        answer,
    )
}

#[inline]
fn transaction_by(
    call: interface::Transaction,
    [image, work, tape, edits]: [&mut [u8]; 4],
    answer: &mut [u64],
) -> u8 {
    // Sound: each pointer is lent with its own length, for this call alone.
    unsafe {
        call(
            image.as_mut_ptr(),
            image.len(),
            work.as_mut_ptr(),
            work.len(),
            tape.as_mut_ptr(),
            tape.len(),
            edits.as_mut_ptr(),
            edits.len(),
            answer.as_mut_ptr(),
            answer.len(),
        )
    }
}

/// The answer is bytes and flushes, written only on acceptance and where there
/// is room for two.
#[inline]
pub fn recover(image: &mut [u8], work: &mut [u8], tape: &mut [u8], answer: &mut [u64]) -> u8 {
    recover_by(interface::quote_recover, [image, work, tape], answer)
}

/// The same for modules without line stores.
#[inline]
pub fn recover_words(image: &mut [u8], work: &mut [u8], tape: &mut [u8], answer: &mut [u64]) -> u8 {
    recover_by(interface::quote_recover_words, [image, work, tape], answer)
}

#[inline]
fn recover_by(
    call: interface::Recovery,
    [image, work, tape]: [&mut [u8]; 3],
    answer: &mut [u64],
) -> u8 {
    // Sound: each pointer is lent with its own length, for this call alone.
    unsafe {
        call(
            image.as_mut_ptr(),
            image.len(),
            work.as_mut_ptr(),
            work.len(),
            tape.as_mut_ptr(),
            tape.len(),
            answer.as_mut_ptr(),
            answer.len(),
        )
    }
}
