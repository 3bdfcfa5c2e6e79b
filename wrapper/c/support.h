/* What the tests in C share: buffers on the heap of exactly the lengths that
 * are lent, so that valgrind sees every byte read or written outside them. */
#ifndef SUPPORT_H
#define SUPPORT_H

#include "quote_store.h"

#include <stdio.h>
#include <stdlib.h>
#include <string.h>

#define EXPECT(what)                                                        \
    do {                                                                    \
        if (!(what)) {                                                      \
            fprintf(stderr, "%s:%d: not so: %s\n", __FILE__, __LINE__, #what); \
            exit(1);                                                        \
        }                                                                   \
    } while (0)

/* Bytes on the heap; none too has an address of its own. */
struct bytes {
    uint8_t *at;
    size_t length;
};

static inline struct bytes lend(size_t length)
{
    struct bytes bytes = {(uint8_t *)malloc(length), length};
    EXPECT(bytes.at != NULL);
    return bytes;
}

static inline struct bytes lend_filled(size_t length, int byte)
{
    struct bytes bytes = lend(length);
    memset(bytes.at, byte, length);
    return bytes;
}

static inline struct bytes lend_copy(const uint8_t *from, size_t length)
{
    struct bytes bytes = lend(length);
    memcpy(bytes.at, from, length);
    return bytes;
}

static inline void give_back(struct bytes bytes)
{
    free(bytes.at);
}

static inline int same(struct bytes one, struct bytes other)
{
    return one.length == other.length && memcmp(one.at, other.at, one.length) == 0;
}

static inline int all_are(struct bytes bytes, uint8_t byte)
{
    size_t i = 0;
    while (i < bytes.length && bytes.at[i] == byte)
        i += 1;
    return i == bytes.length;
}

/* A fresh store on so many pages. */
static inline struct bytes fresh(size_t pages)
{
    struct bytes image = lend(QUOTE_IMAGE_SIZE(pages));
    EXPECT(quote_format(image.at, image.length) == QUOTE_ACCEPTED);
    return image;
}

/* Makes the value that the image holds of this key an empty one, as a store from
 * before document 02 (g) may hold: its length stands 8 bytes before it, and its
 * bytes are free then. Says whether the key is there. */
static inline int empty_out(struct bytes image, uint64_t key)
{
    uint64_t found[QUOTE_LOOKUP_NUMBERS];
    if (quote_lookup(image.at, image.length, key, found, 3) != QUOTE_ACCEPTED ||
        found[QUOTE_LOOKUP_FOUND] == 0)
        return 0;
    memset(image.at + found[QUOTE_LOOKUP_OFFSET] - 8, 0, 2);
    return 1;
}

/* Writes an edit's head; the value's bytes follow it. */
static inline void put_head(uint8_t *at, uint8_t kind, uint8_t length, uint64_t key)
{
    at[0] = kind;
    at[1] = length;
    for (int i = 0; i < 8; i += 1)
        at[2 + i] = (uint8_t)(key >> 8 * i);
}

/* One edit, whose value has this byte throughout. */
static inline struct bytes one_edit(uint8_t kind, uint64_t key, uint8_t length, int byte)
{
    struct bytes list = lend_filled(QUOTE_EDIT_HEAD + (size_t)length, byte);
    put_head(list.at, kind, length, key);
    return list;
}

/* Puts an edit at a list's end, whose value has this byte throughout. */
static inline void add_edit(struct bytes *list, uint8_t kind, uint64_t key, uint8_t length,
                            int byte)
{
    size_t at = list->length;
    list->length += QUOTE_EDIT_HEAD + (size_t)length;
    list->at = (uint8_t *)realloc(list->at, list->length);
    EXPECT(list->at != NULL);
    put_head(list->at + at, kind, length, key);
    memset(list->at + at + QUOTE_EDIT_HEAD, byte, length);
}

/* A buffer in the middle of bytes that are to stay as they are: room for a result,
 * with as many before it as after it. */
struct guarded {
    struct bytes all, inside;
};

#define GUARD 64
#define GUARD_BYTE 0xa5

static inline struct guarded lend_guarded(size_t length, int byte)
{
    struct bytes all = lend_filled(GUARD + length + GUARD, GUARD_BYTE);
    struct guarded guarded = {all, {all.at + GUARD, length}};
    memset(guarded.inside.at, byte, length);
    return guarded;
}

static inline int guards_stay(struct guarded guarded)
{
    struct bytes before = {guarded.all.at, GUARD};
    struct bytes after = {guarded.inside.at + guarded.inside.length, GUARD};
    return all_are(before, GUARD_BYTE) && all_are(after, GUARD_BYTE);
}

/* A merge of two books into a buffer of so many bytes, which held 77s and lies between
 * bytes that stay: gives the buffer. The books stay; refused, so does the buffer. */
static inline uint8_t merge(struct bytes first, struct bytes second, size_t length,
                            struct bytes *out)
{
    struct bytes one = lend_copy(first.at, first.length);
    struct bytes other = lend_copy(second.at, second.length);
    struct guarded room = lend_guarded(length, 77);
    uint8_t number = quote_merge(one.at, one.length, other.at, other.length, room.inside.at,
                                 room.inside.length);
    EXPECT(same(one, first) && same(other, second) && guards_stay(room));
    EXPECT(number == QUOTE_ACCEPTED || all_are(room.inside, 77));
    *out = lend_copy(room.inside.at, length);
    give_back(one);
    give_back(other);
    give_back(room.all);
    return number;
}

/* A transaction and a recovery, with line stores or without. */
typedef uint8_t transaction_call(const uint8_t *image, size_t image_length, uint8_t *work,
                                 size_t work_length, uint8_t *tape, size_t tape_length,
                                 const uint8_t *edits, size_t edits_length, uint64_t *answer,
                                 size_t answer_length);
typedef uint8_t recover_call(const uint8_t *image, size_t image_length, uint8_t *work,
                             size_t work_length, uint8_t *tape, size_t tape_length,
                             uint64_t *answer, size_t answer_length);

/* The transaction of a list on an image, with a tape that suffices: gives work,
 * and the edit that is at fault. Refused, work and tape are as the header says. */
static inline uint8_t transact(transaction_call *call, struct bytes image, struct bytes list,
                               struct bytes *work, uint64_t *edit)
{
    uint64_t answer[QUOTE_TRANSACTION_NUMBERS];
    struct bytes tape = lend_filled(QUOTE_TAPE_SIZE(image.length / QUOTE_PAGE_SIZE), 77);
    *work = lend_filled(image.length, 77);
    uint8_t number = call(image.at, image.length, work->at, work->length, tape.at, tape.length,
                          list.at, list.length, answer, QUOTE_TRANSACTION_NUMBERS);
    *edit = answer[QUOTE_TRANSACTION_EDIT];
    int stays = number < QUOTE_KEY_PRESENT || number == QUOTE_EMPTY_VALUE;
    if (number != QUOTE_ACCEPTED) {
        EXPECT(all_are(tape, 77));
        EXPECT(stays ? all_are(*work, 77) : same(*work, image));
    }
    give_back(tape);
    return number;
}

/* Whether two images are the same but for the log, lines 1 to 15 of page 0. */
static inline int same_but_log(struct bytes one, struct bytes other)
{
    return one.length == other.length && memcmp(one.at, other.at, QUOTE_LINE_SIZE) == 0 &&
           memcmp(one.at + QUOTE_PAGE_SIZE, other.at + QUOTE_PAGE_SIZE,
                  one.length - QUOTE_PAGE_SIZE) == 0;
}

/* The transaction of a list on an image, on both kinds of memory, which say the
 * same. Accepted, the image becomes the new one. Gives the edit at fault too. */
static inline uint8_t apply(struct bytes *image, struct bytes list, uint64_t *edit)
{
    struct bytes work, other;
    uint64_t said;
    uint8_t number = transact(quote_transaction, *image, list, &work, edit);
    EXPECT(transact(quote_transaction_words, *image, list, &other, &said) == number);
    EXPECT(said == *edit && same_but_log(work, other));
    give_back(other);
    give_back(number == QUOTE_ACCEPTED ? *image : work);
    if (number == QUOTE_ACCEPTED)
        *image = work;
    return number;
}

/* The same of one edit, which is given back. */
static inline uint8_t apply_one(struct bytes *image, struct bytes list)
{
    uint64_t edit;
    uint8_t number = apply(image, list, &edit);
    EXPECT(edit == 0);
    give_back(list);
    return number;
}

#endif
