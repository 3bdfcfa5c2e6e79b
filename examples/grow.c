/*
 * A store that grows past one index page: quotes are inserted, one a transaction, until
 * the pages run out. The 29th leaf makes a top page above two index pages, in the same
 * transaction as the quote that needs it; the program does nothing for it. Build it at
 * the root of the repository:
 *
 *   mkdir -p target
 *   gcc -Iinclude examples/grow.c crates/store/out/libstore.a -o target/grow
 */
#include "common.h"

#define PAGES 64

/* The image is the device's memory; work and tape are room for a call. */
static uint8_t image[QUOTE_IMAGE_SIZE(PAGES)];
static uint8_t work[QUOTE_IMAGE_SIZE(PAGES)];
static uint8_t tape[QUOTE_TAPE_SIZE(PAGES)];

/* One edit, in one transaction. Work is what a device then holds that carried out the
 * tape. */
static uint8_t make(uint8_t kind, uint64_t key, const char *price)
{
    uint8_t edits[QUOTE_EDIT_HEAD + QUOTE_LONGEST_VALUE];
    uint64_t answer[QUOTE_TRANSACTION_NUMBERS];
    size_t bytes = (size_t)(put_edit(edits, kind, key, price) - edits);
    uint8_t number = quote_transaction(image, sizeof image, work, sizeof work, tape, sizeof tape,
                                       edits, bytes, answer, QUOTE_TRANSACTION_NUMBERS);
    if (number == QUOTE_ACCEPTED)
        memcpy(image, work, sizeof image);
    return number;
}

/* Whether the root is a top page: its kind stands in byte 4 of its page, whose number is
 * word 1. */
static int has_top(void)
{
    return image[QUOTE_PAGE_SIZE * image[QUOTE_WORD_SIZE] + 4] == 3;
}

/* How many quotes the store has, by a walk through all keys. */
static int count(void)
{
    uint64_t next[QUOTE_NEXT_KEY_NUMBERS] = {1, 0};
    int quotes = -1;
    do {
        quotes += 1;
        stop_if_refused("next key", quote_next_key(image, sizeof image, next[QUOTE_NEXT_KEY_KEY],
                                                   next, QUOTE_NEXT_KEY_NUMBERS));
    } while (next[QUOTE_NEXT_KEY_FOUND] == 1);
    return quotes;
}

static void print_root(void)
{
    printf("%d quotes: the root is %s\n", count(), has_top() ? "a top page" : "an index page");
}

static void print_quote(uint64_t key)
{
    uint64_t place[QUOTE_LOOKUP_NUMBERS];
    stop_if_refused("lookup", quote_lookup(image, sizeof image, key, place, QUOTE_LOOKUP_NUMBERS));
    printf("%" PRIu64 ": %.*s\n", key, (int)place[QUOTE_LOOKUP_LENGTH],
           (const char *)image + place[QUOTE_LOOKUP_OFFSET]);
}

int main(void)
{
    stop_if_refused("format", quote_format(image, sizeof image));
    print_root();
    int before = has_top();
    uint64_t key = 1;
    uint8_t number;
    while ((number = make(QUOTE_INSERT, key, "101.25")) == QUOTE_ACCEPTED) {
        if (has_top() != before)
            print_root();
        before = has_top();
        key += 1;
    }
    printf("quote %" PRIu64 ": %d, %s\n", key, number, words_of(number));
    stop_if_refused("check", quote_check(image, sizeof image));
    print_root();
    stop_if_refused("update", make(QUOTE_UPDATE, 434, "101.50"));
    print_quote(433);
    print_quote(434);
    return 0;
}
