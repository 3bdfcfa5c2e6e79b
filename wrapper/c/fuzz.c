/* Calls at random, seeded: every answer is one that the call's header lists,
 * and no byte is touched that was not lent, which valgrind looks at. */
#include "support.h"

#define ROUNDS 5000
#define SEED 20240613

static uint64_t state = SEED;

/* A number from 0 to n - 1, by splitmix64. */
static size_t below(size_t n)
{
    uint64_t z = state += UINT64_C(0x9e3779b97f4a7c15);
    z = (z ^ z >> 30) * UINT64_C(0xbf58476d1ce4e5b9);
    z = (z ^ z >> 27) * UINT64_C(0x94d049bb133111eb);
    return (size_t)((z ^ z >> 31) % n);
}

static struct bytes noise(size_t length)
{
    struct bytes bytes = lend(length);
    for (size_t i = 0; i < length; i += 1)
        bytes.at[i] = (uint8_t)below(below(2) == 0 ? 4 : 256);
    return bytes;
}

/* Noise, or edits end to end, mostly good: one insert, or several. */
static struct bytes any_list(void)
{
    static const uint8_t wrong[] = {0, QUOTE_LONGEST_VALUE + 1};
    if (below(4) == 0)
        return noise(below(700));
    struct bytes list = lend(0);
    for (size_t edits = below(2) == 0 ? 1 : below(19); edits > 0; edits -= 1) {
        uint8_t kind = below(12) == 0 ? QUOTE_UPDATE : QUOTE_INSERT;
        uint8_t length = below(50) == 0 ? wrong[below(2)] : 8;
        add_edit(&list, kind, 1 + below(500), length, (int)below(256));
    }
    return list;
}

/* The store that the rounds go on with, at times with a value made empty, or a part
 * of it, or it with some bits turned, or noise. */
static struct bytes any_image(struct bytes store)
{
    if (below(10) == 0)
        return noise(below(2) == 0 ? below(9000) : 1024 * below(12));
    struct bytes image = lend_copy(store.at, store.length - (below(12) == 0 ? below(2000) : 0));
    if (below(2) == 0)
        empty_out(image, 1 + below(500));
    for (size_t i = below(6); i < 2; i += 1)
        image.at[1024 * below(image.length / 1024) + below(80)] ^= (uint8_t)(1 << below(8));
    if (below(8) == 0)
        memcpy(image.at, "\1\2\1\0\0\0\0", 8);
    return image;
}

/* What each call may answer, a bit for each number. */
#define BIT(number) (1u << (number))
#define FORMAT_SAYS (BIT(QUOTE_ACCEPTED) | BIT(QUOTE_IMAGE_SIZE_WRONG))
#define CHECK_SAYS (FORMAT_SAYS | BIT(QUOTE_MARK_WAITS) | BIT(QUOTE_UNSOUND))
#define LOOKUP_SAYS (CHECK_SAYS | BIT(QUOTE_KEY_RANGE))
#define LIST_SAYS \
    (BIT(QUOTE_BAD_LIST) | BIT(QUOTE_LONG_VALUE) | BIT(QUOTE_EMPTY_VALUE) | BIT(QUOTE_KEY_RANGE))
#define PREVIEW_SAYS (CHECK_SAYS | LIST_SAYS | BIT(QUOTE_KEY_PRESENT) | BIT(QUOTE_KEY_MISSING))
#define MERGE_SAYS (CHECK_SAYS | BIT(QUOTE_KEY_IN_BOTH) | BIT(QUOTE_PAGES_OUT))
/* No call answers INDEX_FULL. */
#define TRANSACTION_SAYS \
    ((LIST_SAYS | (BIT(QUOTE_TAPE_SHORT + 1) - 1)) & ~BIT(QUOTE_INDEX_FULL))
#define SIZES_SAY (FORMAT_SAYS | BIT(QUOTE_WORK_SIZE_WRONG))
#define RECOVER_SAYS (SIZES_SAY | BIT(QUOTE_UNSOUND) | BIT(QUOTE_TAPE_SHORT))
#define RUN_SAYS (SIZES_SAY | BIT(QUOTE_BAD_TAPE))
#define CUT_SAYS (RUN_SAYS | BIT(QUOTE_PAST_END) | BIT(QUOTE_BAD_CHOICES))
#define COUNT_CUTS_SAYS (FORMAT_SAYS | BIT(QUOTE_BAD_TAPE) | BIT(QUOTE_LONG_TAPE))
#define NTH_CUT_SAYS (COUNT_CUTS_SAYS | BIT(QUOTE_BAD_CHOICES) | BIT(QUOTE_NO_SUCH_CUT))

#define ALL_ANSWERS (BIT(QUOTE_KEY_IN_BOTH + 1) - 1)

/* The answers that came, of all calls together, of previews, of merges and of nth cuts;
 * and where the values were that previews showed, and those of them that were empty. */
static unsigned came = 0, previews = 0, merges = 0, nth_cuts = 0, places = 0, empty_places = 0;

static void expect_known(uint8_t number, unsigned known)
{
    EXPECT(number <= QUOTE_KEY_IN_BOTH && (known & BIT(number)) != 0);
    came |= BIT(number);
}

/* A transaction and a recovery of one kind of memory, at random. */
static void transaction_and_recovery(transaction_call *transaction, recover_call *redo,
                                     struct bytes image, struct bytes *store)
{
    struct bytes list = any_list(), work = lend(below(12) == 0 ? below(9000) : image.length);
    struct bytes tape = lend(below(3) == 0 ? below(400) : 16384);
    size_t numbers = below(8);
    uint64_t *answer = (uint64_t *)malloc(8 * numbers);
    uint8_t number = transaction(image.at, image.length, work.at, work.length, tape.at,
                                 tape.length, list.at, list.length, answer, numbers);
    expect_known(number, TRANSACTION_SAYS);
    if (number == QUOTE_ACCEPTED) {
        EXPECT(quote_check(work.at, work.length) == QUOTE_ACCEPTED);
        give_back(*store);
        *store = lend_copy(work.at, work.length);
    }
    number = redo(image.at, image.length, work.at, work.length, tape.at, tape.length, answer,
                  numbers);
    expect_known(number, RECOVER_SAYS);
    free(answer);
    give_back(list);
    give_back(work);
    give_back(tape);
}

/* Noise, or up to 14 commands in lines 0 to 7, good but for a barrier that has a place
 * or a second byte at times. */
static struct bytes any_tape(void)
{
    static const uint8_t kinds[] = {QUOTE_WORD_STORE, QUOTE_WORD_STORE, QUOTE_WORD_STORE,
                                    QUOTE_FLUSH, QUOTE_FLUSH, QUOTE_BARRIER};
    uint8_t room[14 * (QUOTE_COMMAND_HEAD + QUOTE_WORD_SIZE)] = {0}, *end = room;
    if (below(2) == 0)
        return noise(below(3) == 0 ? below(100) : 4 * below(3));
    for (size_t i = below(15); i > 0; i -= 1) {
        end[0] = kinds[below(sizeof kinds)];
        if (end[0] != QUOTE_BARRIER)
            end[2] = (uint8_t)below(end[0] == QUOTE_FLUSH ? 8 : 64);
        else if (below(40) == 0)
            end[1 + below(3)] = 1;
        end += QUOTE_COMMAND_HEAD + (end[0] == QUOTE_WORD_STORE ? QUOTE_WORD_SIZE : 0);
    }
    return lend_copy(room, (size_t)(end - room));
}

/* A cut that is given is one that quote_cut takes. */
static void all_cuts(struct bytes image, struct bytes tape, struct bytes choices)
{
    size_t numbers = below(3), r = below(9) == 0 ? SIZE_MAX - below(3) : below(60);
    uint64_t *answer = (uint64_t *)malloc(8 * numbers);
    expect_known(quote_count_cuts(image.at, image.length, tape.at, tape.length, answer, numbers),
                 COUNT_CUTS_SAYS);
    uint8_t number = quote_nth_cut(image.at, image.length, tape.at, tape.length, r, choices.at,
                                   choices.length, answer, numbers);
    expect_known(number, NTH_CUT_SAYS);
    nth_cuts |= BIT(number);
    if (number == QUOTE_ACCEPTED && numbers > 0) {
        struct bytes work = lend(image.length);
        EXPECT(answer[QUOTE_NTH_CUT_COMMANDS] <= QUOTE_MOST_CUT_COMMANDS);
        EXPECT(quote_cut(image.at, image.length, work.at, work.length, tape.at, tape.length,
                         answer[QUOTE_NTH_CUT_COMMANDS], choices.at,
                         choices.length) == QUOTE_ACCEPTED);
        give_back(work);
    }
    free(answer);
}

static void device(struct bytes image)
{
    struct bytes work = lend(below(12) == 0 ? below(9000) : image.length);
    struct bytes tape = any_tape();
    struct bytes choices = noise(below(6) == 0 ? below(200) : image.length / 64);
    expect_known(quote_run(image.at, image.length, work.at, work.length, tape.at, tape.length),
                 RUN_SAYS);
    expect_known(quote_cut(image.at, image.length, work.at, work.length, tape.at, tape.length,
                           below(4), choices.at, choices.length),
                 CUT_SAYS);
    all_cuts(image, tape, choices);
    give_back(work);
    give_back(tape);
    give_back(choices);
}

static void reading(struct bytes image)
{
    size_t numbers = below(5);
    uint64_t *answer = (uint64_t *)malloc(8 * numbers);
    uint64_t key = below(8) == 0 ? UINT64_MAX - below(3) : below(600);
    expect_known(quote_check(image.at, image.length), CHECK_SAYS);
    expect_known(quote_lookup(image.at, image.length, key, answer, numbers), LOOKUP_SAYS);
    expect_known(quote_next_key(image.at, image.length, key, answer, numbers), CHECK_SAYS);
    expect_known(quote_format(image.at, image.length), FORMAT_SAYS);
    free(answer);
}

/* The value that a preview shows lies in the buffer that it names. */
static void value_is_inside(struct bytes image, struct bytes list, const uint64_t *answer)
{
    struct bytes from = answer[QUOTE_PREVIEW_WHERE] == QUOTE_IN_LIST ? list : image;
    EXPECT(answer[QUOTE_PREVIEW_EDIT] == 0 && answer[QUOTE_PREVIEW_WHERE] <= QUOTE_IN_IMAGE);
    EXPECT(answer[QUOTE_PREVIEW_OFFSET] <= from.length);
    EXPECT(answer[QUOTE_PREVIEW_LENGTH] <= from.length - answer[QUOTE_PREVIEW_OFFSET]);
    EXPECT(answer[QUOTE_PREVIEW_LENGTH] <= QUOTE_LONGEST_VALUE);
    places |= BIT(answer[QUOTE_PREVIEW_WHERE]);
    if (answer[QUOTE_PREVIEW_LENGTH] == 0)
        empty_places |= BIT(answer[QUOTE_PREVIEW_WHERE]);
}

/* The key is of the list's first edit, or any. */
static void looking(struct bytes image)
{
    struct bytes list = any_list();
    size_t numbers = below(7);
    uint64_t *answer = (uint64_t *)malloc(8 * numbers);
    uint64_t key = below(8) == 0 ? UINT64_MAX - below(3) : below(600);
    if (below(2) == 0 && list.length >= QUOTE_EDIT_HEAD)
        memcpy(&key, list.at + 2, 8);
    uint8_t number = quote_preview(image.at, image.length, list.at, list.length, key, answer,
                                   numbers);
    expect_known(number, PREVIEW_SAYS);
    previews |= BIT(number);
    if (number == QUOTE_ACCEPTED && numbers >= QUOTE_PREVIEW_NUMBERS)
        value_is_inside(image, list, answer);
    free(answer);
    give_back(list);
}

/* A book beside the store that the rounds go on with: its keys are mostly others. */
static struct bytes any_book(void)
{
    struct bytes image = fresh(8 + below(5)), list = lend(0);
    uint64_t key = below(3) == 0 ? 1 + below(500) : 1000 + below(500), edit;
    for (size_t edits = below(QUOTE_MOST_EDITS); edits > 0; edits -= 1)
        add_edit(&list, QUOTE_INSERT, key += 1 + below(3), (uint8_t)(1 + below(40)), 'b');
    if (list.length > 0)
        EXPECT(apply(&image, list, &edit) == QUOTE_ACCEPTED);
    give_back(list);
    return image;
}

/* Two books into one, in any order; the third buffer lies between bytes that stay, which
 * the merge of support.h looks at. */
static void merging(struct bytes image, struct bytes whole)
{
    struct bytes book = any_book(), out;
    struct bytes other = below(12) == 0 ? whole : below(9) == 0 ? image : book;
    size_t length = below(8) == 0 ? below(70000) : 1024 * (8 + below(below(2) == 0 ? 3 : 57));
    uint8_t number = below(2) == 0 ? merge(image, other, length, &out)
                                   : merge(other, image, length, &out);
    expect_known(number, MERGE_SAYS);
    merges |= BIT(number);
    if (number == QUOTE_ACCEPTED)
        EXPECT(quote_check(out.at, out.length) == QUOTE_ACCEPTED);
    give_back(out);
    give_back(book);
}

/* A store with as many leaves as there can be, of keys that no other has. */
static struct bytes all_leaves(void)
{
    struct bytes image = fresh(64);
    for (uint64_t key = 5000; key < 5112; key += 1) {
        struct bytes one = fresh(8), out;
        EXPECT(apply_one(&one, one_edit(QUOTE_INSERT, key, QUOTE_LONGEST_VALUE, 'w')) ==
               QUOTE_ACCEPTED);
        EXPECT(merge(image, one, image.length, &out) == QUOTE_ACCEPTED);
        give_back(one);
        give_back(image);
        image = out;
    }
    return image;
}

static void every_answer_came(void)
{
    printf("fuzz: %d rounds, seed %d; answers that came:", ROUNDS, SEED);
    for (int number = 0; number <= QUOTE_KEY_IN_BOTH; number += 1)
        if (came & BIT(number))
            printf(" %d", number);
    puts("");
    /* Stores of 12 pages have no 16 headers to change. */
    EXPECT((came | BIT(QUOTE_LOG_FULL) | BIT(QUOTE_INDEX_FULL)) == ALL_ANSWERS);
    EXPECT(previews == PREVIEW_SAYS && merges == MERGE_SAYS && nth_cuts == NTH_CUT_SAYS);
    EXPECT(places == (BIT(QUOTE_NOWHERE) | BIT(QUOTE_IN_LIST) | BIT(QUOTE_IN_IMAGE)));
    EXPECT(empty_places == (BIT(QUOTE_NOWHERE) | BIT(QUOTE_IN_IMAGE)));
}

int main(void)
{
    struct bytes store = fresh(12), whole = all_leaves();
    for (int i = 0; i < ROUNDS; i += 1) {
        struct bytes image = any_image(store);
        transaction_and_recovery(quote_transaction, quote_recover, image, &store);
        transaction_and_recovery(quote_transaction_words, quote_recover_words, image, &store);
        device(image);
        looking(image);
        merging(image, whole);
        reading(image);
        give_back(image);
    }
    give_back(store);
    give_back(whole);
    every_answer_came();
    return 0;
}
