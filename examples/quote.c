/*
 * A store of 8 pages: the start, three quotes of a curve and one beside it, a
 * shift of the whole curve, which is looked at before it is sent in one
 * transaction, and two lists that are refused, the second for a quote without a
 * price; last a damaged leaf, while the quotes of the other are still read. Build
 * it at the root of the repository:
 *
 *   mkdir -p target
 *   gcc -Iinclude examples/quote.c crates/store/out/libstore.a -o target/quote
 */
#include "common.h"

#define PAGES 8
#define MATURITIES 3

/* The image is the device's memory; work and tape are room for a call. */
static uint8_t image[QUOTE_IMAGE_SIZE(PAGES)];
static uint8_t work[QUOTE_IMAGE_SIZE(PAGES)];
static uint8_t tape[QUOTE_TAPE_SIZE(PAGES)];

/* The edits that are looked at, and then sent. */
static uint8_t edits[QUOTE_LONGEST_LIST];
static size_t edits_length;

static const uint64_t maturities[MATURITIES] = {2, 5, 10};

/* Starts the write-back of this line: on an x86 processor, clwb. Plain memory has
 * nothing to write back. */
static void flush(const uint8_t *line)
{
    (void)line;
}

/* Waits until every write-back that was started is done: on an x86 processor,
 * sfence. */
static void barrier(void)
{
}

/* One command: says how many bytes of the tape it takes. A real device stores
 * the 8 bytes, or the 64, so that a power failure leaves none or all of them. */
static size_t carry_out(const uint8_t *command)
{
    size_t place = command[2] + (size_t)command[3] * 256;
    size_t size = command[0] == QUOTE_WORD_STORE ? QUOTE_WORD_SIZE : QUOTE_LINE_SIZE;
    if (command[0] == QUOTE_FLUSH) {
        flush(image + QUOTE_LINE_SIZE * place);
        return QUOTE_COMMAND_HEAD;
    }
    if (command[0] == QUOTE_BARRIER) {
        barrier();
        return QUOTE_COMMAND_HEAD;
    }
    memcpy(image + size * place, command + QUOTE_COMMAND_HEAD, size);
    return QUOTE_COMMAND_HEAD + size;
}

/* The device carries out the commands of a call, and then holds what work does. */
static void play(size_t bytes)
{
    for (size_t at = 0; at < bytes;)
        at += carry_out(tape + at);
    if (memcmp(image, work, sizeof image) != 0) {
        fprintf(stderr, "the device went another way\n");
        exit(1);
    }
}

/* What a program does first, also after a power failure. */
static void start(void)
{
    uint64_t answer[QUOTE_RECOVER_NUMBERS];
    stop_if_refused("recover", quote_recover(image, sizeof image, work, sizeof work, tape,
                                             sizeof tape, answer, QUOTE_RECOVER_NUMBERS));
    play((size_t)answer[QUOTE_RECOVER_BYTES]);
    printf("started: %d tape bytes\n", (int)answer[QUOTE_RECOVER_BYTES]);
}

/* A list of one edit. */
static void list_quote(uint8_t kind, uint64_t key, const char *price)
{
    edits_length = (size_t)(put_edit(edits, kind, key, price) - edits);
}

/* A list of one edit of this kind for each maturity. */
static void list_curve(uint8_t kind, const char *const *prices)
{
    uint8_t *end = edits;
    for (int i = 0; i < MATURITIES; i += 1)
        end = put_edit(end, kind, maturities[i], prices[i]);
    edits_length = (size_t)(end - edits);
}

/* Notes on five other bonds, as long as a value may be: too much for one leaf. */
static void list_notes(void)
{
    char note[QUOTE_LONGEST_VALUE + 1] = {0};
    memset(note, 'n', QUOTE_LONGEST_VALUE);
    uint8_t *end = edits;
    for (uint64_t key = 31; key <= 35; key += 1)
        end = put_edit(end, QUOTE_INSERT, key, note);
    edits_length = (size_t)(end - edits);
}

static void print_refusal(uint64_t edit, uint8_t number)
{
    printf("refused at edit %d: %d, %s\n", (int)edit, number, words_of(number));
}

/* What a quote would be after the list's edits. It is read where it stands: in
 * the list if an edit gives it, else in the image. */
static void preview(uint64_t key)
{
    uint64_t answer[QUOTE_PREVIEW_NUMBERS];
    uint8_t number = quote_preview(image, sizeof image, edits, edits_length, key, answer,
                                   QUOTE_PREVIEW_NUMBERS);
    int in_list = answer[QUOTE_PREVIEW_WHERE] == QUOTE_IN_LIST;
    printf("preview of %" PRIu64 ": ", key);
    if (number != QUOTE_ACCEPTED)
        print_refusal(answer[QUOTE_PREVIEW_EDIT], number);
    else if (answer[QUOTE_PREVIEW_WHERE] == QUOTE_NOWHERE)
        printf("no quote\n");
    else
        printf("%.*s, from the %s\n", (int)answer[QUOTE_PREVIEW_LENGTH],
               (const char *)(in_list ? edits : image) + answer[QUOTE_PREVIEW_OFFSET],
               in_list ? "list" : "image");
}

/* All edits of the list in one transaction, or none. */
static void commit(void)
{
    uint64_t answer[QUOTE_TRANSACTION_NUMBERS];
    uint8_t number = quote_transaction(image, sizeof image, work, sizeof work, tape, sizeof tape,
                                       edits, edits_length, answer, QUOTE_TRANSACTION_NUMBERS);
    if (number != QUOTE_ACCEPTED) {
        print_refusal(answer[QUOTE_TRANSACTION_EDIT], number);
        return;
    }
    play((size_t)answer[QUOTE_TRANSACTION_BYTES]);
    printf("committed: %d tape bytes, %d flushes\n", (int)answer[QUOTE_TRANSACTION_BYTES],
           (int)answer[QUOTE_TRANSACTION_FLUSHES]);
}

/* The value is read in place. A refusal is of this quote: others may be read. */
static void print_quote(uint64_t key)
{
    uint64_t answer[QUOTE_LOOKUP_NUMBERS];
    uint8_t number = quote_lookup(image, sizeof image, key, answer, QUOTE_LOOKUP_NUMBERS);
    printf("%" PRIu64 ": ", key);
    if (number != QUOTE_ACCEPTED)
        printf("refused: %d, %s\n", number, words_of(number));
    else if (answer[QUOTE_LOOKUP_FOUND] == 0)
        printf("no quote\n");
    else
        printf("%.*s\n", (int)answer[QUOTE_LOOKUP_LENGTH],
               (const char *)image + answer[QUOTE_LOOKUP_OFFSET]);
}

static void print_all(void)
{
    uint64_t next[QUOTE_NEXT_KEY_NUMBERS] = {1, 0};
    for (;;) {
        stop_if_refused("next key", quote_next_key(image, sizeof image, next[QUOTE_NEXT_KEY_KEY],
                                                   next, QUOTE_NEXT_KEY_NUMBERS));
        if (next[QUOTE_NEXT_KEY_FOUND] == 0)
            return;
        print_quote(next[QUOTE_NEXT_KEY_KEY]);
    }
}

/* Damage, as if the memory had lost it: the leaf of a quote counts one too many. */
static void damage_leaf_of(uint64_t key)
{
    uint64_t answer[QUOTE_LOOKUP_NUMBERS];
    stop_if_refused("lookup", quote_lookup(image, sizeof image, key, answer, QUOTE_LOOKUP_NUMBERS));
    image[answer[QUOTE_LOOKUP_OFFSET] / QUOTE_PAGE_SIZE * QUOTE_PAGE_SIZE] += 1;
}

int main(void)
{
    static const char *const old[MATURITIES] = {"101.25", "99.50", "97.75"};
    static const char *const shifted[MATURITIES] = {"101.20", "99.375", "97.50"};
    static const char *const unquoted[MATURITIES] = {"101.25", "", "97.75"};
    stop_if_refused("format", quote_format(image, sizeof image));
    start();
    list_curve(QUOTE_INSERT, old);
    commit();
    list_quote(QUOTE_INSERT, 7, "98.00");
    commit();
    print_quote(5);
    list_curve(QUOTE_UPDATE, shifted);
    preview(5);
    preview(7); /* which the list leaves alone */
    commit();
    list_curve(QUOTE_INSERT, old);
    preview(5);
    commit();
    list_curve(QUOTE_UPDATE, unquoted);
    preview(5);
    commit();
    print_all();
    print_quote(30);
    list_notes();
    commit();
    damage_leaf_of(35);
    uint8_t number = quote_check(image, sizeof image);
    printf("check of the whole image: %d, %s\n", number, words_of(number));
    for (int i = 0; i < MATURITIES; i += 1)
        print_quote(maturities[i]);
    print_quote(35);
    return 0;
}
