/*
 * Every cut of a tape: the power fails after any number of its commands, and of the
 * stores that were not durable each line keeps any first part. Each cut is recovered,
 * and all quotes that are then there are held to those before the transaction and to
 * those after it; any others would be half a transaction. The tapes are those of an
 * update of one quote, and of the recovery of two deletes in two leaves, which go
 * through the log. The tape of these deletes has too many commands, and for memory
 * that writes only words of 8 bytes whole even a delete's has. Build it at the root
 * of the repository:
 *
 *   mkdir -p target
 *   gcc -Iinclude examples/all_cuts.c crates/store/out/libstore.a -o target/all_cuts
 */
#include "common.h"

#define PAGES 8
#define QUOTES 29 /* one more than a leaf holds, so that they lie in two leaves */

/* The device before the transaction and after it; where the tape that is cut begins;
 * after a cut, and recovered. */
static uint8_t before[QUOTE_IMAGE_SIZE(PAGES)], after[QUOTE_IMAGE_SIZE(PAGES)];
static uint8_t start[QUOTE_IMAGE_SIZE(PAGES)];
static uint8_t cut[QUOTE_IMAGE_SIZE(PAGES)], work[QUOTE_IMAGE_SIZE(PAGES)];
static uint8_t tape[QUOTE_TAPE_SIZE(PAGES)], redo[QUOTE_RECOVERY_TAPE_SIZE];
static uint8_t choices[QUOTE_CHOICES_SIZE(PAGES)], edits[QUOTE_LONGEST_LIST];

/* How many cuts were recovered to the old quotes and to the new ones, and how many
 * of them had a commit that recovery finished. */
struct found {
    int old, changed, finished;
};

/* The transaction of the list that ends here: its commands on the tape, and how many
 * bytes they take. */
static size_t transact(const uint8_t *end)
{
    uint64_t answer[QUOTE_TRANSACTION_NUMBERS];
    stop_if_refused("transaction",
                    quote_transaction(before, sizeof before, after, sizeof after, tape, sizeof tape,
                                      edits, (size_t)(end - edits), answer,
                                      QUOTE_TRANSACTION_NUMBERS));
    return (size_t)answer[QUOTE_TRANSACTION_BYTES];
}

/* Quotes 1 to 29, as the device that carried out the tapes then holds them. */
static void fill(void)
{
    for (uint64_t key = 1; key <= QUOTES; key += 1) {
        transact(put_edit(edits, QUOTE_INSERT, key, "101.25"));
        memcpy(before, after, sizeof before);
    }
}

static int same_value(const uint8_t *image, uint64_t key)
{
    uint64_t one[QUOTE_LOOKUP_NUMBERS], other[QUOTE_LOOKUP_NUMBERS];
    stop_if_refused("lookup", quote_lookup(work, sizeof work, key, one, QUOTE_LOOKUP_NUMBERS));
    stop_if_refused("lookup", quote_lookup(image, sizeof work, key, other, QUOTE_LOOKUP_NUMBERS));
    return one[QUOTE_LOOKUP_LENGTH] == other[QUOTE_LOOKUP_LENGTH] &&
           memcmp(work + one[QUOTE_LOOKUP_OFFSET], image + other[QUOTE_LOOKUP_OFFSET],
                  one[QUOTE_LOOKUP_LENGTH]) == 0;
}

/* Whether work holds the same quotes as an image: each key, with its value. */
static int same_quotes(const uint8_t *image)
{
    uint64_t one[QUOTE_NEXT_KEY_NUMBERS], other[QUOTE_NEXT_KEY_NUMBERS], key = 0;
    for (;;) {
        stop_if_refused("next key",
                        quote_next_key(work, sizeof work, key, one, QUOTE_NEXT_KEY_NUMBERS));
        stop_if_refused("next key",
                        quote_next_key(image, sizeof work, key, other, QUOTE_NEXT_KEY_NUMBERS));
        key = one[QUOTE_NEXT_KEY_KEY];
        if (memcmp(one, other, sizeof one) != 0)
            return 0;
        if (one[QUOTE_NEXT_KEY_FOUND] == 0)
            return 1;
        if (!same_value(image, key))
            return 0;
    }
}

/* Makes cut number r, recovers it and counts what it holds with the other cuts
 * after as many commands. */
static void try_cut(size_t bytes, size_t r, struct found *found)
{
    uint64_t nth[QUOTE_NTH_CUT_NUMBERS], answer[QUOTE_RECOVER_NUMBERS];
    stop_if_refused("nth cut", quote_nth_cut(start, sizeof start, tape, bytes, r, choices,
                                             sizeof choices, nth, QUOTE_NTH_CUT_NUMBERS));
    size_t commands = (size_t)nth[QUOTE_NTH_CUT_COMMANDS];
    stop_if_refused("cut", quote_cut(start, sizeof start, cut, sizeof cut, tape, bytes, commands,
                                     choices, sizeof choices));
    stop_if_refused("recover", quote_recover(cut, sizeof cut, work, sizeof work, redo, sizeof redo,
                                             answer, QUOTE_RECOVER_NUMBERS));
    found[commands].finished += answer[QUOTE_RECOVER_BYTES] > 0;
    if (same_quotes(before))
        found[commands].old += 1;
    else if (same_quotes(after))
        found[commands].changed += 1;
    else {
        fprintf(stderr, "half a transaction: cut %d, after %d commands\n", (int)r, (int)commands);
        exit(1);
    }
}

static void print_row(struct found row)
{
    printf("%6d%6d%6d%10d\n", row.old + row.changed, row.old, row.changed, row.finished);
}

/* A row for each count of commands, of which each has a cut, and their sum. */
static void print_table(const struct found *found)
{
    struct found all = {0, 0, 0};
    printf("%8s%6s%6s%6s%10s\n", "commands", "cuts", "old", "new", "finished");
    for (int c = 0; c <= QUOTE_MOST_CUT_COMMANDS && found[c].old + found[c].changed > 0; c += 1) {
        printf("%8d", c);
        print_row(found[c]);
        all.old += found[c].old;
        all.changed += found[c].changed;
        all.finished += found[c].finished;
    }
    printf("%8s", "all");
    print_row(all);
}

/* Tries every cut of a tape of so many bytes; or says why they are not given. */
static void try_all_cuts(const char *name, size_t bytes)
{
    uint64_t answer[QUOTE_COUNT_CUTS_NUMBERS];
    struct found found[QUOTE_MOST_CUT_COMMANDS + 1] = {{0, 0, 0}};
    uint8_t number = quote_count_cuts(start, sizeof start, tape, bytes, answer,
                                      QUOTE_COUNT_CUTS_NUMBERS);
    if (number != QUOTE_ACCEPTED) {
        printf("%s: refused: %d, %s\n", name, number, words_of(number));
        return;
    }
    size_t cuts = (size_t)answer[QUOTE_COUNT_CUTS_CUTS];
    for (size_t r = 0; r < cuts; r += 1)
        try_cut(bytes, r, found);
    printf("%s: %d cuts\n", name, (int)cuts);
    print_table(found);
}

/* The power fails as soon as the mark of the transaction on the tape is durable: in
 * start what the device then holds, and on the tape the recovery's commands. */
static size_t fail_and_recover(size_t bytes)
{
    uint64_t answer[QUOTE_RECOVER_NUMBERS];
    memset(choices, 0, sizeof choices);
    for (size_t c = 0; quote_check(start, sizeof start) != QUOTE_MARK_WAITS; c += 1)
        stop_if_refused("cut", quote_cut(before, sizeof before, start, sizeof start, tape, bytes, c,
                                         choices, sizeof choices));
    stop_if_refused("recover", quote_recover(start, sizeof start, work, sizeof work, tape,
                                             sizeof tape, answer, QUOTE_RECOVER_NUMBERS));
    return (size_t)answer[QUOTE_RECOVER_BYTES];
}

/* Without line stores a header goes through the log as 16 words, which is more
 * commands than cuts are given of. */
static size_t transact_words(const uint8_t *end)
{
    uint64_t answer[QUOTE_TRANSACTION_NUMBERS];
    stop_if_refused("transaction",
                    quote_transaction_words(before, sizeof before, after, sizeof after, tape,
                                            sizeof tape, edits, (size_t)(end - edits), answer,
                                            QUOTE_TRANSACTION_NUMBERS));
    return (size_t)answer[QUOTE_TRANSACTION_BYTES];
}

int main(void)
{
    stop_if_refused("format", quote_format(before, sizeof before));
    fill();
    memcpy(start, before, sizeof start);
    puts("each cut is recovered to the old quotes or to the new ones; finished: where recovery\n"
         "had a commit to finish");
    size_t bytes = transact(put_edit(edits, QUOTE_UPDATE, 5, "bid 101.50, ask 101.75"));
    try_all_cuts("an update", bytes);
    bytes = transact_words(put_edit(edits, QUOTE_DELETE, 5, ""));
    try_all_cuts("a delete without line stores", bytes);
    bytes = transact(put_edit(put_edit(edits, QUOTE_DELETE, 5, ""), QUOTE_DELETE, 25, ""));
    try_all_cuts("two deletes in two leaves", bytes);
    try_all_cuts("their recovery", fail_and_recover(bytes));
    return 0;
}
