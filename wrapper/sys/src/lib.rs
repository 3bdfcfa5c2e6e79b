//! The C interface of the proved store, as `include/quote_store.h` declares it:
//! what each call does, and what the caller owes, stands there.
//!
//! The library is crates/store/out/libstore.a, which `rt lib` makes in
//! crates/store.

#![no_std]

extern "C" {
    pub fn quote_run(
        image: *const u8,
        image_length: usize,
        work: *mut u8,
        work_length: usize,
        tape: *const u8,
        tape_length: usize,
    ) -> u8;
    pub fn quote_cut(
        image: *const u8,
        image_length: usize,
        work: *mut u8,
        work_length: usize,
        tape: *const u8,
        tape_length: usize,
        c: usize,
        choices: *const u8,
        choices_length: usize,
    ) -> u8;
    pub fn quote_count_cuts(
        image: *const u8,
        image_length: usize,
        tape: *const u8,
        tape_length: usize,
        answer: *mut u64,
        answer_length: usize,
    ) -> u8;
    pub fn quote_nth_cut(
        image: *const u8,
        image_length: usize,
        tape: *const u8,
        tape_length: usize,
        r: usize,
        choices: *mut u8,
        choices_length: usize,
        answer: *mut u64,
        answer_length: usize,
    ) -> u8;
    pub fn quote_format(image: *mut u8, image_length: usize) -> u8;
    pub fn quote_check(image: *const u8, image_length: usize) -> u8;
    pub fn quote_lookup(
        image: *const u8,
        image_length: usize,
        key: u64,
        answer: *mut u64,
        answer_length: usize,
    ) -> u8;
    pub fn quote_next_key(
        image: *const u8,
        image_length: usize,
        key: u64,
        answer: *mut u64,
        answer_length: usize,
    ) -> u8;
    pub fn quote_preview(
        image: *const u8,
        image_length: usize,
        edits: *const u8,
        edits_length: usize,
        key: u64,
        answer: *mut u64,
        answer_length: usize,
    ) -> u8;
    pub fn quote_merge(
        first: *const u8,
        first_length: usize,
        second: *const u8,
        second_length: usize,
        out: *mut u8,
        out_length: usize,
    ) -> u8;
    pub fn quote_transaction(
        image: *const u8,
        image_length: usize,
        work: *mut u8,
        work_length: usize,
        tape: *mut u8,
        tape_length: usize,
        edits: *const u8,
        edits_length: usize,
        answer: *mut u64,
        answer_length: usize,
    ) -> u8;
    pub fn quote_recover(
        image: *const u8,
        image_length: usize,
        work: *mut u8,
        work_length: usize,
        tape: *mut u8,
        tape_length: usize,
        answer: *mut u64,
        answer_length: usize,
    ) -> u8;
    pub fn quote_transaction_words(
        image: *const u8,
        image_length: usize,
        work: *mut u8,
        work_length: usize,
        tape: *mut u8,
        tape_length: usize,
        edits: *const u8,
        edits_length: usize,
        answer: *mut u64,
        answer_length: usize,
    ) -> u8;
    pub fn quote_recover_words(
        image: *const u8,
        image_length: usize,
        work: *mut u8,
        work_length: usize,
        tape: *mut u8,
        tape_length: usize,
        answer: *mut u64,
        answer_length: usize,
    ) -> u8;
}

/// The signature of both transaction calls.
pub type Transaction = unsafe extern "C" fn(
    image: *const u8,
    image_length: usize,
    work: *mut u8,
    work_length: usize,
    tape: *mut u8,
    tape_length: usize,
    edits: *const u8,
    edits_length: usize,
    answer: *mut u64,
    answer_length: usize,
) -> u8;

/// The signature of both recovery calls.
pub type Recovery = unsafe extern "C" fn(
    image: *const u8,
    image_length: usize,
    work: *mut u8,
    work_length: usize,
    tape: *mut u8,
    tape_length: usize,
    answer: *mut u64,
    answer_length: usize,
) -> u8;
