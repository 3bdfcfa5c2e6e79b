/*
 * The quote store, for programs in C. Document 01, and document 02 for what
 * came later, decide what each call does; the calls are proved to do it, for
 * every content and every length of the buffers.
 *
 * Buffers
 *   Every buffer is lent by the caller for the time of the call, as a pointer
 *   and a length. The store keeps no pointer, allocates nothing, opens nothing
 *   and has no state of its own: threads may call it at once, each with buffers
 *   that no other thread writes meanwhile. A call takes up to 96 KiB of stack,
 *   a recovery the most.
 *   What the caller owes a call, and nothing else:
 *   - a pointer leads to as many bytes (or numbers) as its length says. It is
 *     not NULL, also where the length is 0; it need not be aligned, but for an
 *     array of numbers, which is aligned as uint64_t;
 *   - a buffer that the call writes overlaps no other buffer of the call. Two
 *     that it only reads (const here) may overlap.
 *   What it owes the store (each tape carried out whole, once and in order, one
 *   writer at a time) is in docs/USING.md.
 *
 * Answers
 *   Each call returns QUOTE_ACCEPTED (0), or the number of its refusal. A
 *   refusal is the whole effect of a call: the tape stays as it was, and so do
 *   all other buffers but those of which the call says otherwise. Refusals are
 *   tried in the order in which a call lists them here, and the first that
 *   applies is the answer.
 *   Numbers besides come in a lent array `answer`, which has room for
 *   `answer_length` numbers. They are written at its front, and only if it has
 *   room for all of them; the rest of the array stays. A shorter array is no
 *   fault.
 *
 * What is proved, and what is not
 *   Proved of the library's code, for every length and content of the buffers:
 *   the number that a call returns, the numbers in `answer` and every byte of
 *   the buffers afterwards are what the call's definition says; it reads and
 *   writes nothing else, and ends. Proved of the definitions: an accepted
 *   transaction makes exactly its edits, a preview shows the value that the
 *   table would hold after them, an accepted merge holds every quote of both
 *   books and nothing else, no power failure leaves half of a transaction,
 *   of a small tape quote_nth_cut gives every cut, in order and none twice, a
 *   tape of QUOTE_TAPE_SIZE bytes is never too short, and what one quote costs
 *   (at quote_transaction). docs/STATEMENTS.md has all of it. So each size, limit,
 *   kind, place and refusal below is one that the proofs speak of; that this file
 *   copies them right is tested (wrapper/c).
 *   Not proved: the stack that a call takes, which is tested.
 *
 * How a program goes on
 *   The image is the persistent memory, or a copy of it. No call writes it, but
 *   quote_format, and quote_merge, whose third buffer becomes an image; neither
 *   has a tape. A transaction leaves the new image in `work` and, on `tape`, the
 *   commands that make the old image into the new one so that a power failure
 *   between any two of them does no harm. The program has the device carry them
 *   out in order, all of them before the next call's. The edits are durable once
 *   that is done. If the image is the memory itself, it then holds what `work`
 *   does; if it is a copy, `work` is the next one. After a power failure the
 *   program calls quote_recover and does the same. Before a transaction,
 *   quote_preview shows what its edits would make of a quote.
 *   examples/quote.c and examples/crash.c are such programs; examples/all_cuts.c
 *   tries every cut of a transaction; examples/merge.c makes two books into one;
 *   examples/grow.c fills a store past one index page.
 *   docs/USING.md says how long a call takes, and what to do when a store is full
 *   or damaged.
 *
 * Which memory
 *   quote_transaction and quote_recover are for memory that writes a line of 64
 *   bytes whole. Where only a word of 8 bytes is written whole, the program calls
 *   quote_transaction_words and quote_recover_words instead, always: their tapes
 *   have no LINE_STORE. Nothing in an image says which memory it is on, and all
 *   other calls are the same for both.
 *
 * How large a store grows
 *   A leaf is a page of up to 28 quotes, an index page names up to 28 leaves, and a
 *   top page up to 28 index pages (document 02 (j)). The root of a store is an index
 *   page, or a top page above its index pages. A transaction that needs a 29th leaf
 *   in a root that is an index page splits it in two under a new top page, which
 *   then stays. So only the pages of the image limit a store: INDEX_FULL, the answer
 *   where a top page would need a 29th record, is never given, as 64 pages don't
 *   suffice for so many.
 *
 * What of an image is judged
 *   quote_check, quote_merge, the transactions and the recoveries judge all of it,
 *   every leaf that an index page names. quote_lookup, quote_next_key and
 *   quote_preview read page 0's first line, the root page, and of the index pages
 *   under a top and of the leaves those that they need, and judge these alone: they
 *   refuse the keys of a damaged leaf, and those under a damaged index page, and
 *   answer all others as if it were sound. The pages that one call reads are judged
 *   together: two index pages that name the same leaf are wrong where both are read.
 *   A key belongs to the last leaf whose separator in its index page is not above it,
 *   else to the first, and by the same rule to an index page under a top; and so does
 *   every 8-byte number. On an image that quote_check accepts, none of the three
 *   refuses with MARK_WAITS or UNSOUND. On one that it refuses, a key may be said to
 *   be missing though a leaf that was not read holds it: if separators are damaged.
 *
 * Link with crates/store/out/libstore.a, which `rt lib` makes in crates/store.
 */
#ifndef QUOTE_STORE_H
#define QUOTE_STORE_H

#include <stddef.h>
#include <stdint.h>

#ifdef __cplusplus
extern "C" {
#endif

/* Sizes, in bytes. An image has 8 to 64 whole pages. */
#define QUOTE_WORD_SIZE 8
#define QUOTE_LINE_SIZE 64
#define QUOTE_PAGE_SIZE 1024
#define QUOTE_LEAST_PAGES 8
#define QUOTE_MOST_PAGES 64

/* The length of an image of so many pages. */
#define QUOTE_IMAGE_SIZE(pages) ((size_t)(pages) * QUOTE_PAGE_SIZE)

/*
 * Keys are 1 to the last key. An insert or update brings a value of 1 to 200
 * bytes. A value of none may still be stored, from before document 02 (g): it is
 * found with length 0, and can be updated to a longer one or deleted.
 */
#define QUOTE_LAST_KEY UINT64_C(999999999999)
#define QUOTE_LONGEST_VALUE 200

/*
 * An edit list has 1 to 16 edits end to end. An edit is its kind (1 byte), the
 * value's length (1 byte; 0 for a delete, and for a delete alone), the key (8
 * bytes, low byte first) and the value: a head of 10 bytes, then the value's.
 */
#define QUOTE_MOST_EDITS 16
#define QUOTE_EDIT_HEAD 10
#define QUOTE_LONGEST_LIST (QUOTE_MOST_EDITS * (QUOTE_EDIT_HEAD + QUOTE_LONGEST_VALUE))

enum quote_edit {
    QUOTE_INSERT = 1,
    QUOTE_UPDATE = 2,
    QUOTE_DELETE = 3
};

/*
 * A tape is commands end to end. A command is its kind (1 byte), a zero byte,
 * its place (2 bytes, low byte first), and what it stores. What a device does
 * with the commands, one after the other:
 *   WORD_STORE  stores 8 bytes at 8 times its place. A power failure leaves all
 *               of the old bytes there or all of the new ones.
 *   LINE_STORE  stores 64 bytes at 64 times its place, whole in the same way.
 *   FLUSH       starts the write-back of all earlier stores to its line.
 *   BARRIER     does not end before every write-back that was started is done.
 * So a store is durable once its line was flushed after it and a barrier came
 * after that flush (document 02 (h)); a store between these two is not covered by
 * them. A store may become durable earlier, but none before an earlier one to the
 * same line. Nothing else is asked of a device: docs/USING.md. One for the calls
 * that end in _words needs no LINE_STORE. On every tape that a call writes, one
 * barrier follows each unbroken group of flushes, and none stands elsewhere.
 */
enum quote_command {
    QUOTE_WORD_STORE = 1, /* place: number of the word; 8 bytes follow */
    QUOTE_LINE_STORE = 2, /* place: number of the line; 64 bytes follow */
    QUOTE_FLUSH = 3,      /* place: number of the line; nothing follows */
    QUOTE_BARRIER = 4     /* place: 0; nothing follows */
};
#define QUOTE_COMMAND_HEAD 4 /* the bytes before what is stored */

/*
 * A tape of this size is never too short, for either transaction on so many
 * pages: TAPE_SHORT is not answered (tape-suffices), and no more bytes are used
 * (tape-used). 100 bytes a line, 16 lines a page: 8 word stores of 12 bytes and a
 * flush of 4 for each line of pages 1 to N-1; page 0's share holds the commit and
 * the barriers, five at most, and the header lines that go through the log are not
 * stored before it.
 */
#define QUOTE_TAPE_SIZE(pages) ((size_t)(pages) * 1600)

/* The same for a recovery (redo-suffices, redo-used): 72 bytes a header, for 15,
 * then 36; without line stores 100 bytes a header. */
#define QUOTE_RECOVERY_TAPE_SIZE 1116
#define QUOTE_RECOVERY_WORDS_TAPE_SIZE 1536

/* The length of `choices` for an image of so many pages: one byte a line. */
#define QUOTE_CHOICES_SIZE(pages) ((size_t)(pages) * 16)

/* The most commands of a tape whose cuts are counted and given; and the most cuts
 * that such a tape has: 12 stores to 12 lines have so many. */
#define QUOTE_MOST_CUT_COMMANDS 12
#define QUOTE_MOST_CUTS 8191

/* Why a call says no. */
enum quote_answer {
    QUOTE_ACCEPTED = 0,
    QUOTE_IMAGE_SIZE_WRONG = 1, /* the length of an image, or of a merge's third buffer, is not 8 to 64 whole pages */
    QUOTE_WORK_SIZE_WRONG = 2,  /* the work buffer's length is not the image's */
    QUOTE_MARK_WAITS = 3,       /* a power failure left a commit half done: recover first */
    QUOTE_UNSOUND = 4,          /* the image, or the part that was read, is not that of a store */
    QUOTE_BAD_LIST = 5,         /* no edit (edit 0), a seventeenth (edit 16), one cut short, an unknown kind, or a delete with a length */
    QUOTE_KEY_RANGE = 6,        /* the key is 0 or above QUOTE_LAST_KEY */
    QUOTE_LONG_VALUE = 7,       /* the value has more than 200 bytes */
    QUOTE_KEY_PRESENT = 8,      /* insert of a key that the store has */
    QUOTE_KEY_MISSING = 9,      /* update or delete of a key that it has not */
    QUOTE_INDEX_FULL = 10,      /* the edit, or the merge, would need a 29th record in a top page: never answered */
    QUOTE_PAGES_OUT = 11,       /* an insert or update needs more new pages than are free, or a merge more than there are */
    QUOTE_LOG_FULL = 12,        /* the edits change more than 15 headers */
    QUOTE_TAPE_SHORT = 13,      /* the tape has too few bytes */
    QUOTE_BAD_TAPE = 14,        /* the tape has a malformed command (a barrier with a place is one), or a place outside the image */
    QUOTE_PAST_END = 15,        /* the cut comes after more commands than the tape has */
    QUOTE_BAD_CHOICES = 16,     /* the choices are not one byte a line */
    QUOTE_LONG_TAPE = 17,       /* the tape has more than 12 commands */
    QUOTE_NO_SUCH_CUT = 18,     /* the cut's number is not below the number of cuts */
    QUOTE_EMPTY_VALUE = 19,     /* an insert or update with a value of 0 bytes */
    QUOTE_KEY_IN_BOTH = 20      /* a key is in both of the books that are merged */
};

/* Where a transaction commits. */
enum quote_place {
    QUOTE_PLACE_HEADER = 1, /* one header, of the page that the answer names; only with line stores */
    QUOTE_PLACE_ROOT = 2,   /* the root word */
    QUOTE_PLACE_LOG = 3     /* the mark, with the headers in the log */
};

/* Which buffer has the value that a preview answers. */
enum quote_where {
    QUOTE_NOWHERE = 0, /* neither: the key would be missing */
    QUOTE_IN_LIST = 1, /* the edit list */
    QUOTE_IN_IMAGE = 2 /* the image */
};

/* Where each number of a call stands in `answer`, and how many there are. */
enum quote_lookup_answer {
    QUOTE_LOOKUP_FOUND,  /* 1, or 0 if the store has no such key */
    QUOTE_LOOKUP_OFFSET, /* of the value in the image */
    QUOTE_LOOKUP_LENGTH, /* of the value */
    QUOTE_LOOKUP_NUMBERS
};
enum quote_next_key_answer {
    QUOTE_NEXT_KEY_FOUND, /* 1, or 0 if there is no larger key */
    QUOTE_NEXT_KEY_KEY,
    QUOTE_NEXT_KEY_NUMBERS
};
enum quote_preview_answer {
    QUOTE_PREVIEW_EDIT,   /* refused: the edit at fault, from 0 */
    QUOTE_PREVIEW_WHERE,  /* which buffer has the value (enum quote_where) */
    QUOTE_PREVIEW_OFFSET, /* of the value in that buffer */
    QUOTE_PREVIEW_LENGTH, /* of the value */
    QUOTE_PREVIEW_NUMBERS
};
enum quote_transaction_answer {
    QUOTE_TRANSACTION_EDIT,    /* refused: the edit at fault, from 0 */
    QUOTE_TRANSACTION_PLACE,   /* of the commit (enum quote_place) */
    QUOTE_TRANSACTION_PAGE,    /* whose header that is, or 0 */
    QUOTE_TRANSACTION_BYTES,   /* of the tape that are used */
    QUOTE_TRANSACTION_FLUSHES, /* among the commands; barriers are not counted */
    QUOTE_TRANSACTION_NUMBERS
};
enum quote_recover_answer {
    QUOTE_RECOVER_BYTES,   /* of the tape that are used */
    QUOTE_RECOVER_FLUSHES, /* among the commands; barriers are not counted */
    QUOTE_RECOVER_NUMBERS
};
enum quote_count_cuts_answer {
    QUOTE_COUNT_CUTS_CUTS, /* of the tape */
    QUOTE_COUNT_CUTS_NUMBERS
};
enum quote_nth_cut_answer {
    QUOTE_NTH_CUT_COMMANDS, /* before the cut: the c of quote_cut */
    QUOTE_NTH_CUT_NUMBERS
};

/*
 * Format: writes a fresh store, which has no quotes.
 *   image   written, whole. Its length says how many pages the store has.
 *   refuses IMAGE_SIZE_WRONG; image then stays.
 */
uint8_t quote_format(uint8_t *image, size_t image_length);

/*
 * Check: whether the image is that of a store, the whole of it.
 *   image   read.
 *   refuses IMAGE_SIZE_WRONG; UNSOUND if page 0 is wrong; MARK_WAITS; UNSOUND
 *           if anything else is wrong.
 */
uint8_t quote_check(const uint8_t *image, size_t image_length);

/*
 * Lookup: where the value of a key is. It reads the root, the leaf that the key
 * belongs to and, under a top page, the index page of that leaf.
 *   image   read.
 *   answer  three numbers: 1, the value's offset in the image, its length; or
 *           0, 0, 0 if the store has no such key. The value is read in place,
 *           at image + answer[1]; an empty value's offset may be image_length.
 *   refuses IMAGE_SIZE_WRONG; UNSOUND if page 0 is wrong; MARK_WAITS; UNSOUND
 *           if the root is wrong, or that index page, or that leaf; KEY_RANGE.
 *           answer then stays.
 */
uint8_t quote_lookup(const uint8_t *image, size_t image_length, uint64_t key,
                     uint64_t *answer, size_t answer_length);

/*
 * Next key: the smallest key above a number, which need not be a key. From 0
 * on, it leads through all keys, rising. It reads the root, the leaf that the
 * number belongs to and, only if that holds no larger key, the leaf after it; under
 * a top page also the index page of each leaf that it reads, where the leaf after
 * may be the first of the next index page.
 *   image   read.
 *   answer  two numbers: 1 and the key; or 0, 0 if there is none.
 *   refuses IMAGE_SIZE_WRONG; UNSOUND if page 0 is wrong; MARK_WAITS; UNSOUND
 *           if the root is wrong, or the first of these leaves or its index page,
 *           or the second or its index page, where they are read. answer then
 *           stays.
 * So a walk from 0 on is refused where a damaged leaf begins, or a damaged index
 * page; it can go on from any number that belongs to a later one.
 */
uint8_t quote_next_key(const uint8_t *image, size_t image_length, uint64_t key,
                       uint64_t *answer, size_t answer_length);

/*
 * Preview: the value that a key would have if the edits of a list had been
 * made, without making them: the curve before it is sent. The last edit of the
 * key decides. If that is an insert or update, the value is the edit's own; if
 * it is a delete, the key would be missing; if no edit has the key, the value is
 * the image's, or the key is missing there too.
 *   image   read.
 *   edits   read.
 *   answer  four numbers. Accepted: 0, which buffer has the value (enum
 *           quote_where), the value's offset in that buffer, its length; all are
 *           0 if the key would be missing. The value is read in place, at edits
 *           or image + answer[2], as long as that buffer stays as it is; an
 *           empty value is one that the image holds (in-list-filled), and its
 *           offset may be image_length. Refused: the number of the edit that is
 *           at fault, from 0, for 5 to 9 and 19, and three zeros; it is 0 too for
 *           1, 3, 4 and the key asked, which are no edit's.
 *   refuses IMAGE_SIZE_WRONG; UNSOUND if page 0 is wrong; MARK_WAITS; UNSOUND
 *           if the root is wrong; then for the first faulty edit of the list
 *           BAD_LIST, LONG_VALUE, EMPTY_VALUE, BAD_LIST if the value is cut
 *           short, KEY_RANGE; then KEY_RANGE for the key asked; then, over the
 *           whole list, each edit seeing those before it, for the first that
 *           fails UNSOUND if the leaf that its key belongs to is wrong, or the
 *           index page of that leaf under a top page, KEY_PRESENT, KEY_MISSING;
 *           last, if no edit has the key asked, UNSOUND for the same reasons of the
 *           leaf that this belongs to.
 * Pages, log and tape play no part: it does not say whether the transaction of
 * the list finds room, which may still be refused with PAGES_OUT, LOG_FULL or
 * TAPE_SHORT. Where that is accepted, a lookup of the key in its
 * work finds the same bytes; where it is refused with 5 to 9 or 19, so is the
 * preview of a key in range, with the same edit number.
 */
uint8_t quote_preview(const uint8_t *image, size_t image_length,
                      const uint8_t *edits, size_t edits_length, uint64_t key,
                      uint64_t *answer, size_t answer_length);

/*
 * Merge: writes the quotes of two books as one store into a third buffer (document
 * 02 (i)). Page 1 is its index, and the leaves are pages 2, 3 and so on: they take
 * the quotes by rising key, each as many as 28 records and 960 bytes allow. If that
 * makes more than 28 leaves, page 1 is a top page, pages 2, 3 and so on are index
 * pages of 28 leaves each, the last one of the rest, and the leaves follow them.
 * Stored empty values are taken too.
 *   first   read: an image.
 *   second  read: another image, or the same one.
 *   out     Its length says how many pages the result has, 8 to 64; the three
 *           lengths may differ. Accepted: the whole image of a store with every
 *           quote of both and no other, whatever the buffer held; all bytes that
 *           no header and no record takes are as quote_format leaves them. If
 *           neither book has a quote, it is what quote_format writes. The result
 *           depends on the quotes and on the length alone, not on which book has
 *           which quote or where. Refused: as it was.
 *   refuses IMAGE_SIZE_WRONG for out; as quote_check for first (IMAGE_SIZE_WRONG;
 *           UNSOUND if page 0 is wrong; MARK_WAITS; UNSOUND); the same for
 *           second; KEY_IN_BOTH if some key is in both, whatever its values;
 *           INDEX_FULL if a top page would have more than 28 records, which two
 *           books don't suffice for; PAGES_OUT if page 1, the index pages under a
 *           top page and the leaves are more than the pages of out past page 0: n
 *           leaves, up to 28, need n + 2 pages, up to 56 of them n + 4, and 57 to 59
 *           need n + 5, so that 59 are the most. A book without quotes has one leaf.
 * Only out is written, so it overlaps neither of the others. These may overlap: a
 * book may be merged with itself, which is KEY_IN_BOTH unless it has no quote.
 * There is no tape, and nothing makes the writing of out durable or safe from a
 * power failure: a program merges into memory that holds no store that it needs,
 * has it made durable as a whole, and only then goes on with it (docs/USING.md).
 */
uint8_t quote_merge(const uint8_t *first, size_t first_length,
                    const uint8_t *second, size_t second_length, uint8_t *out,
                    size_t out_length);

/*
 * Transaction: makes all edits of a list, or none.
 *   image   read.
 *   work    as long as the image. Accepted: the image after all edits, and
 *           after all of the tape's stores. Refused with 1 to 7 or 19: as it
 *           was. Refused with 8 to 13: the same bytes as the image.
 *   tape    of QUOTE_TAPE_SIZE bytes it is never too short. Accepted: the
 *           commands at its front, the rest as it was. Refused: as it was.
 *   edits   read.
 *   answer  five numbers. Accepted: 0, the commit's place (enum quote_place),
 *           the header's page (0 if the place is none), the tape bytes used,
 *           the number of flushes among the commands. Refused: the number of
 *           the edit that is at fault, from 0, for 5 to 11 and 19, and four
 *           zeros; it is 0 too for 1 to 4, 12 and 13, which are no edit's.
 *   refuses IMAGE_SIZE_WRONG; WORK_SIZE_WRONG; as quote_check; then for the
 *           first faulty edit of the list BAD_LIST, LONG_VALUE, EMPTY_VALUE,
 *           BAD_LIST if the value is cut short, KEY_RANGE; then, the edits made
 *           one after the other, for the first that fails KEY_PRESENT,
 *           KEY_MISSING, INDEX_FULL, PAGES_OUT; then LOG_FULL; TAPE_SHORT.
 * The cost of one quote. A list of one insert or update whose record fits below
 * the content start of the leaf that its key belongs to, an insert finding fewer
 * than 28 records there, takes at most 6 flushes and 2 barriers, commits by the
 * leaf's header, and stores at most 27 words besides it (quote-cost). A list of one
 * delete that leaves its leaf with a record takes one flush and one barrier, and
 * stores the header alone (delete-cost).
 */
uint8_t quote_transaction(const uint8_t *image, size_t image_length,
                          uint8_t *work, size_t work_length, uint8_t *tape,
                          size_t tape_length, const uint8_t *edits,
                          size_t edits_length, uint64_t *answer,
                          size_t answer_length);

/*
 * Recovery: finishes a commit that a power failure cut. Of a store where none
 * waits, it answers 0 bytes.
 *   image   read.
 *   work    as long as the image. Accepted: the image after all of the tape's
 *           stores, which quote_check accepts. Refused with TAPE_SHORT: the
 *           same bytes as the image. Refused else: as it was.
 *   tape    of QUOTE_RECOVERY_TAPE_SIZE bytes it is never too short. Accepted:
 *           the commands at its front, the rest as it was. Refused: as it was.
 *   answer  two numbers: the tape bytes used, the number of flushes. Refused:
 *           as it was.
 *   refuses IMAGE_SIZE_WRONG; WORK_SIZE_WRONG; UNSOUND if page 0 or the log is
 *           wrong, or the image were unsound after it; TAPE_SHORT.
 */
uint8_t quote_recover(const uint8_t *image, size_t image_length, uint8_t *work,
                      size_t work_length, uint8_t *tape, size_t tape_length,
                      uint64_t *answer, size_t answer_length);

/*
 * Transaction and recovery for memory that writes only words of 8 bytes whole
 * (document 02 (d)). The buffers, the numbers in answer and the refusals are those
 * of quote_transaction and quote_recover, but for this:
 *   tape    no LINE_STORE: a header, and a line of the log, is eight WORD_STOREs
 *           in rising order, also of words that stay the same. TAPE_SHORT is of
 *           this tape, which is longer. QUOTE_TAPE_SIZE bytes are never too short
 *           for the transaction, QUOTE_RECOVERY_WORDS_TAPE_SIZE for the recovery.
 *   place   a changed header goes through the log, one alone too, so it is the
 *           root word or the log.
 *   work    of the transaction: the same image but for lines 1 to 15 of page 0,
 *           the log, which no call reads where no commit waits. Of the recovery:
 *           the same image.
 * Either recovery finishes a commit of either transaction.
 */
uint8_t quote_transaction_words(const uint8_t *image, size_t image_length,
                                uint8_t *work, size_t work_length,
                                uint8_t *tape, size_t tape_length,
                                const uint8_t *edits, size_t edits_length,
                                uint64_t *answer, size_t answer_length);
uint8_t quote_recover_words(const uint8_t *image, size_t image_length,
                            uint8_t *work, size_t work_length, uint8_t *tape,
                            size_t tape_length, uint64_t *answer,
                            size_t answer_length);

/*
 * Run: a device, simulated: carries out a whole tape. It looks at nothing of
 * the image but its length.
 *   image   read.
 *   work    as long as the image. Accepted: the image after all stores.
 *           Refused: as it was.
 *   tape    read. Its length is that of the commands: of a transaction's tape
 *           lend the bytes used.
 *   refuses IMAGE_SIZE_WRONG; WORK_SIZE_WRONG; BAD_TAPE.
 */
uint8_t quote_run(const uint8_t *image, size_t image_length, uint8_t *work,
                  size_t work_length, const uint8_t *tape, size_t tape_length);

/*
 * Cut: the same device when the power fails after c commands. Stores that are
 * durable by then are kept: those whose line was flushed after them, with a barrier
 * after that flush. Of the others, each line keeps as many as its byte in choices
 * says, the earliest first, or all if there are fewer.
 *   image   read.
 *   work    as long as the image. Accepted: what the device then holds.
 *           Refused: as it was.
 *   tape    read, whole, as in quote_run.
 *   choices read: a byte for each line of the image (QUOTE_CHOICES_SIZE).
 *   refuses IMAGE_SIZE_WRONG; WORK_SIZE_WRONG; BAD_CHOICES; BAD_TAPE; PAST_END
 *           if c is above the number of commands, so that c may be raised until
 *           then.
 */
uint8_t quote_cut(const uint8_t *image, size_t image_length, uint8_t *work,
                  size_t work_length, const uint8_t *tape, size_t tape_length,
                  size_t c, const uint8_t *choices, size_t choices_length);

/*
 * Count cuts: how many cuts a tape of at most 12 commands has (document 02 (e)). A
 * cut is a count c of commands and a choice for each line, which is not above the
 * line's pending stores: of the first c commands, the stores to it that are not
 * durable. Flushes and barriers are commands too. The call looks at nothing of the
 * image but its length.
 *   image   read.
 *   tape    read, whole, as in quote_run.
 *   answer  one number: how many cuts there are, 1 to QUOTE_MOST_CUTS. Refused: as
 *           it was.
 *   refuses IMAGE_SIZE_WRONG; BAD_TAPE; LONG_TAPE.
 */
uint8_t quote_count_cuts(const uint8_t *image, size_t image_length,
                         const uint8_t *tape, size_t tape_length,
                         uint64_t *answer, size_t answer_length);

/*
 * Nth cut: cut number r of the same tape, from 0, ready for quote_cut. Cuts rise by
 * the count of commands, then by the choice bytes compared line by line, line 0
 * first. Every cut is given and none twice, though two may leave the same image.
 * Whatever quote_cut leaves of the tape, for any c and choices, it leaves for one
 * of these.
 *   image   read, as in quote_count_cuts.
 *   tape    read, whole, as in quote_run.
 *   choices a byte for each line of the image (QUOTE_CHOICES_SIZE). Accepted: the
 *           cut's choices, all of them, 0 for a line without pending stores.
 *           Refused: as it was.
 *   answer  one number: the count of commands. Refused: as it was.
 *   refuses IMAGE_SIZE_WRONG; BAD_TAPE; LONG_TAPE; BAD_CHOICES; NO_SUCH_CUT if r is
 *           not below the number of cuts, so that r may be raised until then.
 */
uint8_t quote_nth_cut(const uint8_t *image, size_t image_length,
                      const uint8_t *tape, size_t tape_length, size_t r,
                      uint8_t *choices, size_t choices_length, uint64_t *answer,
                      size_t answer_length);

#ifdef __cplusplus
}
#endif

#endif
