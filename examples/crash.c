/*
 * A shift of one quote, and of a whole curve, cut by a power failure after every
 * number of its commands. Each cut is recovered, and the curve that is then there
 * is counted as the old one or the new one; any other would be half a shift. All
 * of it twice: on memory that writes a line of 64 bytes whole, and on memory that
 * writes only words of 8 bytes whole, which has calls of its own.
 * Build it at the root of the repository:
 *
 *   mkdir -p target
 *   gcc -Iinclude examples/crash.c crates/store/out/libstore.a -o target/crash
 */
#include "common.h"

#define PAGES 16
#define MATURITIES 16 /* the curve has a quote for each */
#define BONDS 5       /* others of each maturity, so that the curve lies in several leaves */
#define SHIFT 5
#define PATTERNS 5
#define PRICE 32

/* The device before the shift, and after a cut; room for the calls. */
static uint8_t image[QUOTE_IMAGE_SIZE(PAGES)], cut[QUOTE_IMAGE_SIZE(PAGES)];
static uint8_t work[QUOTE_IMAGE_SIZE(PAGES)], played[QUOTE_IMAGE_SIZE(PAGES)];
static uint8_t tape[QUOTE_TAPE_SIZE(PAGES)], redo[QUOTE_RECOVERY_WORDS_TAPE_SIZE];
static uint8_t choices[QUOTE_CHOICES_SIZE(PAGES)];

/* The calls for each kind of memory. */
struct device {
    const char *name;
    uint8_t (*transaction)(const uint8_t *image, size_t image_length, uint8_t *work,
                           size_t work_length, uint8_t *tape, size_t tape_length,
                           const uint8_t *edits, size_t edits_length, uint64_t *answer,
                           size_t answer_length);
    uint8_t (*recover)(const uint8_t *image, size_t image_length, uint8_t *work,
                       size_t work_length, uint8_t *tape, size_t tape_length, uint64_t *answer,
                       size_t answer_length);
};
static const struct device devices[] = {
    {"memory that writes lines of 64 bytes whole:", quote_transaction, quote_recover},
    {"memory that writes only words of 8 bytes whole:", quote_transaction_words,
     quote_recover_words},
};

/* How many cuts were recovered to each curve; the largest number of commands
 * after which the old one was found, and the smallest for the new one. */
struct found {
    int old, shifted;
    size_t last_old, first_new;
};

static uint64_t key_of(int maturity, int bond)
{
    return (uint64_t)(10 * (maturity + 1) + bond);
}

static void put_price(char price[PRICE], int maturity, int shift)
{
    snprintf(price, PRICE, "%d.%02d", 101 - maturity / 4, maturity % 4 * 20 + shift);
}

/* One edit of this kind for each of the first maturities, in one transaction: the
 * new image in work, the commands on the tape, and how many bytes they take. */
static size_t make_curve(const struct device *device, uint8_t kind, int bond, int quotes, int shift,
                         uint64_t *answer)
{
    uint8_t edits[QUOTE_LONGEST_LIST], *end = edits;
    char price[PRICE];
    for (int i = 0; i < quotes; i += 1) {
        put_price(price, i, shift);
        end = put_edit(end, kind, key_of(i, bond), price);
    }
    stop_if_refused("transaction", device->transaction(image, sizeof image, work, sizeof work, tape,
                                                       sizeof tape, edits, (size_t)(end - edits),
                                                       answer, QUOTE_TRANSACTION_NUMBERS));
    return (size_t)answer[QUOTE_TRANSACTION_BYTES];
}

/* Whether the quotes of a bond in work are as they were, the first ones shifted. */
static int holds_bond(int bond, int quotes, int shift)
{
    for (int i = 0; i < MATURITIES; i += 1) {
        uint64_t answer[QUOTE_LOOKUP_NUMBERS];
        char price[PRICE];
        put_price(price, i, i < quotes ? shift : 0);
        stop_if_refused("lookup", quote_lookup(work, sizeof work, key_of(i, bond), answer,
                                               QUOTE_LOOKUP_NUMBERS));
        if (answer[QUOTE_LOOKUP_FOUND] == 0 || answer[QUOTE_LOOKUP_LENGTH] != strlen(price) ||
            memcmp(work + answer[QUOTE_LOOKUP_OFFSET], price, strlen(price)) != 0)
            return 0;
    }
    return 1;
}

/* Whether so many quotes of bond 0 are shifted, and all others as they were. */
static int holds_curve(int quotes, int shift)
{
    int holds = holds_bond(0, quotes, shift);
    for (int bond = 1; bond < BONDS; bond += 1)
        holds = holds && holds_bond(bond, 0, 0);
    return holds;
}

/* Of its stores not yet durable, each line keeps none, one, or all; or those of
 * every other line are kept and the rest lost. */
static void choose(int pattern)
{
    for (size_t line = 0; line < sizeof choices; line += 1)
        switch (pattern) {
        case 0: choices[line] = 0; break;
        case 1: choices[line] = 1; break;
        case 2: choices[line] = 255; break;
        default: choices[line] = line % 2 == (size_t)pattern % 2 ? 255 : 0;
        }
}

/* Recovers what the cut left. The device carries out the recovery's commands and
 * comes to the image in work. */
static void recover(const struct device *device)
{
    uint64_t answer[QUOTE_RECOVER_NUMBERS];
    stop_if_refused("recover", device->recover(cut, sizeof cut, work, sizeof work, redo,
                                               sizeof redo, answer, QUOTE_RECOVER_NUMBERS));
    stop_if_refused("run", quote_run(cut, sizeof cut, played, sizeof played, redo,
                                     (size_t)answer[QUOTE_RECOVER_BYTES]));
    if (memcmp(played, work, sizeof work) != 0) {
        fprintf(stderr, "the recovery's commands lead elsewhere\n");
        exit(1);
    }
}

static void count_curve(struct found *found, int quotes, size_t c)
{
    if (holds_curve(quotes, 0)) {
        found->old += 1;
        found->last_old = c;
    } else if (holds_curve(quotes, SHIFT)) {
        found->first_new = found->shifted == 0 ? c : found->first_new;
        found->shifted += 1;
    } else {
        fprintf(stderr, "half a shift, cut after %d commands\n", (int)c);
        exit(1);
    }
}

/* Cuts after 0, 1, .. commands, to the tape's end; says how many it has. */
static size_t cut_everywhere(const struct device *device, struct found *found, int quotes,
                             size_t bytes)
{
    for (size_t c = 0;; c += 1)
        for (int pattern = 0; pattern < PATTERNS; pattern += 1) {
            choose(pattern);
            uint8_t number = quote_cut(image, sizeof image, cut, sizeof cut, tape, bytes, c,
                                       choices, sizeof choices);
            if (number == QUOTE_PAST_END)
                return c - 1;
            stop_if_refused("cut", number);
            recover(device);
            count_curve(found, quotes, c);
        }
}

/* Shifts the first quotes, cuts the shift everywhere, and prints what was found. */
static void try_shift(const struct device *device, int quotes)
{
    static const char *const places[] = {"", "one header", "the root word", "the log"};
    uint64_t answer[QUOTE_TRANSACTION_NUMBERS];
    struct found found = {0, 0, 0, 0};
    size_t bytes = make_curve(device, QUOTE_UPDATE, 0, quotes, SHIFT, answer);
    size_t commands = cut_everywhere(device, &found, quotes, bytes);
    printf("quotes shifted: %d; %d commands, %d of them flushes, committed by %s\n", quotes,
           (int)commands, (int)answer[QUOTE_TRANSACTION_FLUSHES],
           places[answer[QUOTE_TRANSACTION_PLACE]]);
    printf("%d cuts recovered: %d to the old curve, %d to the new one, none to half a shift\n",
           found.old + found.shifted, found.old, found.shifted);
    printf("up to %d commands always the old curve, from %d on always the new one, between either\n",
           (int)found.first_new - 1, (int)found.last_old + 1);
}

int main(void)
{
    uint64_t answer[QUOTE_TRANSACTION_NUMBERS];
    for (size_t i = 0; i < sizeof devices / sizeof *devices; i += 1) {
        printf("%s\n", devices[i].name);
        stop_if_refused("format", quote_format(image, sizeof image));
        for (int bond = 0; bond < BONDS; bond += 1) {
            make_curve(&devices[i], QUOTE_INSERT, bond, MATURITIES, 0, answer);
            memcpy(image, work, sizeof image); /* as the device that carried out the tape */
        }
        try_shift(&devices[i], 1);
        try_shift(&devices[i], MATURITIES);
    }
    return 0;
}
