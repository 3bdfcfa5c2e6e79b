/* Each call, on good and on bad input. */
#include "support.h"

static void format_refuses_other_lengths(void)
{
    static const size_t wrong[] = {0, 1, 1023, 1024, 7168, 8191, 8193, 65535, 65537, 66560};
    for (size_t i = 0; i < sizeof wrong / sizeof *wrong; i += 1) {
        struct bytes image = lend_filled(wrong[i], 77);
        EXPECT(quote_format(image.at, image.length) == QUOTE_IMAGE_SIZE_WRONG);
        EXPECT(all_are(image, 77));
        EXPECT(quote_check(image.at, image.length) == QUOTE_IMAGE_SIZE_WRONG);
        give_back(image);
    }
}

static void format_makes_a_store(void)
{
    for (size_t pages = QUOTE_LEAST_PAGES; pages <= QUOTE_MOST_PAGES; pages += 1) {
        struct bytes image = fresh(pages);
        EXPECT(quote_check(image.at, image.length) == QUOTE_ACCEPTED);
        EXPECT(image.at[16] == pages);
        give_back(image);
    }
}

/* What check says of a fresh store with one byte changed. */
static uint8_t checked_with(size_t at, uint8_t byte)
{
    struct bytes image = fresh(8);
    image.at[at] = byte;
    uint8_t number = quote_check(image.at, image.length);
    give_back(image);
    return number;
}

static void check_finds_what_is_wrong(void)
{
    EXPECT(checked_with(40, 1) == QUOTE_UNSOUND);   /* zeros of page 0 */
    EXPECT(checked_with(0, 1) == QUOTE_UNSOUND);    /* a mark of no headers */
    EXPECT(checked_with(8, 8) == QUOTE_UNSOUND);    /* a root outside */
    EXPECT(checked_with(2048, 1) == QUOTE_UNSOUND); /* a record that is not there */
    EXPECT(checked_with(64, 1) == QUOTE_ACCEPTED);  /* the log may hold anything */
    struct bytes image = fresh(8);
    memcpy(image.at, "\1\1\1", 3);
    EXPECT(quote_check(image.at, image.length) == QUOTE_MARK_WAITS);
    give_back(image);
}

/* A store with quotes 101 and 105, of 8 bytes and of none. */
static struct bytes two_quotes(void)
{
    struct bytes image = fresh(8);
    EXPECT(apply_one(&image, one_edit(QUOTE_INSERT, 101, 8, 'p')) == QUOTE_ACCEPTED);
    EXPECT(apply_one(&image, one_edit(QUOTE_INSERT, 105, 8, 'p')) == QUOTE_ACCEPTED);
    EXPECT(empty_out(image, 105));
    EXPECT(quote_check(image.at, image.length) == QUOTE_ACCEPTED);
    return image;
}

static void lookup_finds(void)
{
    struct bytes image = two_quotes();
    uint64_t answer[4] = {7, 7, 7, 7};
    EXPECT(quote_lookup(image.at, image.length, 101, answer, 4) == QUOTE_ACCEPTED);
    EXPECT(answer[QUOTE_LOOKUP_FOUND] == 1 && answer[QUOTE_LOOKUP_LENGTH] == 8);
    EXPECT(memcmp(image.at + answer[QUOTE_LOOKUP_OFFSET], "pppppppp", 8) == 0);
    EXPECT(answer[QUOTE_LOOKUP_NUMBERS] == 7);
    EXPECT(quote_lookup(image.at, image.length, 105, answer, 3) == QUOTE_ACCEPTED);
    EXPECT(answer[0] == 1 && answer[1] <= image.length && answer[2] == 0);
    EXPECT(quote_lookup(image.at, image.length, 102, answer, 3) == QUOTE_ACCEPTED);
    EXPECT(answer[0] == 0 && answer[1] == 0 && answer[2] == 0);
    give_back(image);
}

/* A refusal, and an array without room, leave the numbers as they were. */
static void lookup_refuses(void)
{
    struct bytes image = two_quotes();
    uint64_t answer[3] = {7, 7, 7};
    EXPECT(quote_lookup(image.at, image.length, 0, answer, 3) == QUOTE_KEY_RANGE);
    EXPECT(quote_lookup(image.at, image.length, QUOTE_LAST_KEY + 1, answer, 3) == QUOTE_KEY_RANGE);
    EXPECT(quote_lookup(image.at, image.length - 1, 0, answer, 3) == QUOTE_IMAGE_SIZE_WRONG);
    EXPECT(quote_lookup(image.at, image.length, 101, answer, 2) == QUOTE_ACCEPTED);
    EXPECT(quote_next_key(image.at, image.length, 0, answer, 1) == QUOTE_ACCEPTED);
    image.at[40] = 1;
    EXPECT(quote_lookup(image.at, image.length, 0, answer, 3) == QUOTE_UNSOUND);
    EXPECT(quote_next_key(image.at, image.length, 0, answer, 3) == QUOTE_UNSOUND);
    EXPECT(answer[0] == 7 && answer[1] == 7 && answer[2] == 7);
    give_back(image);
}

static void next_key_leads_through(void)
{
    static const uint64_t wanted[][3] = {
        {0, 1, 101}, {100, 1, 101}, {101, 1, 105}, {105, 0, 0}, {UINT64_MAX, 0, 0}};
    struct bytes image = two_quotes();
    for (size_t i = 0; i < sizeof wanted / sizeof *wanted; i += 1) {
        uint64_t answer[3] = {7, 7, 7};
        EXPECT(quote_next_key(image.at, image.length, wanted[i][0], answer, 3) == QUOTE_ACCEPTED);
        EXPECT(answer[QUOTE_NEXT_KEY_FOUND] == wanted[i][1]);
        EXPECT(answer[QUOTE_NEXT_KEY_KEY] == wanted[i][2]);
        EXPECT(answer[QUOTE_NEXT_KEY_NUMBERS] == 7);
    }
    give_back(image);
}

static uint8_t preview(struct bytes image, struct bytes list, uint64_t key, uint64_t *answer,
                       size_t numbers)
{
    return quote_preview(image.at, image.length, list.at, list.length, key, answer, numbers);
}

/* Whether the preview is accepted with these numbers, and writes no others. */
static int preview_shows(struct bytes image, struct bytes list, uint64_t key,
                         enum quote_where where, uint64_t offset, uint64_t length)
{
    uint64_t answer[QUOTE_PREVIEW_NUMBERS + 1] = {7, 7, 7, 7, 7};
    return preview(image, list, key, answer, QUOTE_PREVIEW_NUMBERS + 1) == QUOTE_ACCEPTED &&
           answer[QUOTE_PREVIEW_EDIT] == 0 && answer[QUOTE_PREVIEW_WHERE] == where &&
           answer[QUOTE_PREVIEW_OFFSET] == offset &&
           answer[QUOTE_PREVIEW_LENGTH] == length && answer[QUOTE_PREVIEW_NUMBERS] == 7;
}

/* Whether it is refused with these numbers. */
static int preview_refused(struct bytes image, struct bytes list, uint64_t key, uint8_t number,
                           uint64_t edit)
{
    uint64_t answer[QUOTE_PREVIEW_NUMBERS] = {7, 7, 7, 7};
    return preview(image, list, key, answer, QUOTE_PREVIEW_NUMBERS) == number &&
           answer[QUOTE_PREVIEW_EDIT] == edit && answer[QUOTE_PREVIEW_WHERE] == QUOTE_NOWHERE &&
           answer[QUOTE_PREVIEW_OFFSET] == 0 && answer[QUOTE_PREVIEW_LENGTH] == 0;
}

/* The last edit of a key decides; without one, the image. */
static void preview_says_where(void)
{
    uint64_t found[QUOTE_LOOKUP_NUMBERS];
    struct bytes image = two_quotes(), before = lend_copy(image.at, image.length);
    struct bytes list = one_edit(QUOTE_UPDATE, 101, 3, 'q');
    EXPECT(preview_shows(image, list, 101, QUOTE_IN_LIST, 10, 3));
    EXPECT(quote_lookup(image.at, image.length, 105, found, 3) == QUOTE_ACCEPTED);
    EXPECT(preview_shows(image, list, 105, QUOTE_IN_IMAGE, found[QUOTE_LOOKUP_OFFSET], 0));
    EXPECT(preview_shows(image, list, 102, QUOTE_NOWHERE, 0, 0));
    add_edit(&list, QUOTE_UPDATE, 105, 8, 'q');   /* 18 bytes behind 13 */
    add_edit(&list, QUOTE_DELETE, 105, 0, 0);     /* 10 bytes behind 31 */
    add_edit(&list, QUOTE_UPDATE, 101, 200, 'r'); /* behind 41 */
    EXPECT(preview_shows(image, list, 101, QUOTE_IN_LIST, 41 + QUOTE_EDIT_HEAD, 200));
    EXPECT(preview_shows(image, list, 105, QUOTE_NOWHERE, 0, 0));
    add_edit(&list, QUOTE_UPDATE, 101, 8, 'p'); /* behind 251: as it is in the image */
    EXPECT(preview_shows(image, list, 101, QUOTE_IN_LIST, 251 + QUOTE_EDIT_HEAD, 8));
    add_edit(&list, QUOTE_INSERT, 102, 1, 'p'); /* the list's last byte */
    EXPECT(preview_shows(image, list, 102, QUOTE_IN_LIST, list.length - 1, 1));
    EXPECT(same(image, before) && list.at[51] == 'r');
    give_back(image);
    give_back(before);
    give_back(list);
}

/* A lookup in the new image finds the bytes that the preview showed. */
static void preview_is_what_lookup_finds(void)
{
    struct bytes image = two_quotes(), old = lend_copy(image.at, image.length);
    struct bytes list = one_edit(QUOTE_UPDATE, 105, 9, 'q');
    uint64_t seen[QUOTE_PREVIEW_NUMBERS], found[QUOTE_LOOKUP_NUMBERS], edit;
    EXPECT(apply(&image, list, &edit) == QUOTE_ACCEPTED);
    for (uint64_t key = 100; key <= 106; key += 1) {
        EXPECT(preview(old, list, key, seen, QUOTE_PREVIEW_NUMBERS) == QUOTE_ACCEPTED);
        EXPECT(quote_lookup(image.at, image.length, key, found, 3) == QUOTE_ACCEPTED);
        int in_list = seen[QUOTE_PREVIEW_WHERE] == QUOTE_IN_LIST;
        EXPECT((seen[QUOTE_PREVIEW_WHERE] != QUOTE_NOWHERE) == found[QUOTE_LOOKUP_FOUND]);
        EXPECT(seen[QUOTE_PREVIEW_LENGTH] == found[QUOTE_LOOKUP_LENGTH]);
        EXPECT(memcmp((in_list ? list : old).at + seen[QUOTE_PREVIEW_OFFSET],
                      image.at + found[QUOTE_LOOKUP_OFFSET], found[QUOTE_LOOKUP_LENGTH]) == 0);
    }
    give_back(image);
    give_back(old);
    give_back(list);
}

/* Page 0 is judged first, and the index, then the list, then the key asked.
 * (What a list is refused with: lists_are_refused; leaves: bad_leaf_in_a_preview.) */
static void preview_refuses(void)
{
    struct bytes image = two_quotes(), none = lend(0);
    struct bytes list = one_edit(QUOTE_UPDATE, 101, 8, 'q');
    EXPECT(preview_shows(image, list, QUOTE_LAST_KEY, QUOTE_NOWHERE, 0, 0));
    EXPECT(preview_refused(image, list, QUOTE_LAST_KEY + 1, QUOTE_KEY_RANGE, 0));
    EXPECT(preview_refused(image, list, 0, QUOTE_KEY_RANGE, 0));
    EXPECT(preview_refused(image, none, 0, QUOTE_BAD_LIST, 0));
    image.at[1024 + 4] = 1; /* the index calls itself a leaf */
    EXPECT(preview_refused(image, none, 0, QUOTE_UNSOUND, 0));
    memcpy(image.at, "\1\1\1", 3);
    EXPECT(preview_refused(image, none, 0, QUOTE_MARK_WAITS, 0));
    image.at[40] = 1;
    EXPECT(preview_refused(image, none, 0, QUOTE_UNSOUND, 0));
    image.length -= 1;
    EXPECT(preview_refused(image, none, 0, QUOTE_IMAGE_SIZE_WRONG, 0));
    give_back(image);
    give_back(none);
    give_back(list);
}

/* An array without room for all numbers stays, accepted or refused. */
static void preview_without_room(void)
{
    uint64_t answer[QUOTE_PREVIEW_NUMBERS] = {7, 7, 7, 7};
    struct bytes image = two_quotes(), list = one_edit(QUOTE_UPDATE, 101, 8, 'q');
    for (size_t numbers = 0; numbers < QUOTE_PREVIEW_NUMBERS; numbers += 1) {
        EXPECT(preview(image, list, 101, answer, numbers) == QUOTE_ACCEPTED);
        EXPECT(preview(image, list, 0, answer, numbers) == QUOTE_KEY_RANGE);
    }
    list.length -= 1;
    EXPECT(preview(image, list, 101, answer, 3) == QUOTE_BAD_LIST);
    EXPECT(answer[0] == 7 && answer[1] == 7 && answer[2] == 7 && answer[3] == 7);
    give_back(image);
    give_back(list);
}

/* A store with quotes 10, 20, .. 90 in three leaves of three, the second one
 * damaged: it counts a record that is not there. */
static struct bytes bad_leaf(void)
{
    uint64_t found[QUOTE_LOOKUP_NUMBERS];
    struct bytes image = fresh(8);
    for (uint64_t key = 10; key <= 90; key += 10)
        EXPECT(apply_one(&image, one_edit(QUOTE_INSERT, key, 200, 'p')) == QUOTE_ACCEPTED);
    EXPECT(quote_lookup(image.at, image.length, 50, found, 3) == QUOTE_ACCEPTED);
    image.at[found[QUOTE_LOOKUP_OFFSET] / QUOTE_PAGE_SIZE * QUOTE_PAGE_SIZE] += 1;
    EXPECT(quote_check(image.at, image.length) == QUOTE_UNSOUND);
    return image;
}

/* A lookup of each number, and the next key above it: the answer, and what is
 * found. */
static const struct {
    uint64_t number;
    uint8_t lookup, next;
    uint64_t found, key;
} beside_bad_leaf[] = {
    {0, QUOTE_KEY_RANGE, QUOTE_ACCEPTED, 7, 10},
    {10, QUOTE_ACCEPTED, QUOTE_ACCEPTED, 1, 20},
    {29, QUOTE_ACCEPTED, QUOTE_ACCEPTED, 0, 30},
    {30, QUOTE_ACCEPTED, QUOTE_UNSOUND, 1, 7}, /* the leaf after is the bad one */
    {39, QUOTE_ACCEPTED, QUOTE_UNSOUND, 0, 7},
    {40, QUOTE_UNSOUND, QUOTE_UNSOUND, 7, 7},
    {69, QUOTE_UNSOUND, QUOTE_UNSOUND, 7, 7}, /* though the leaf after would do */
    {70, QUOTE_ACCEPTED, QUOTE_ACCEPTED, 1, 80},
    {90, QUOTE_ACCEPTED, QUOTE_ACCEPTED, 1, 0},
    {UINT64_MAX, QUOTE_KEY_RANGE, QUOTE_ACCEPTED, 7, 0},
};

static void bad_leaf_refuses_its_own_keys(void)
{
    struct bytes image = bad_leaf();
    for (size_t i = 0; i < sizeof beside_bad_leaf / sizeof *beside_bad_leaf; i += 1) {
        uint64_t number = beside_bad_leaf[i].number, found[3] = {7, 7, 7}, next[2] = {7, 7};
        EXPECT(quote_lookup(image.at, image.length, number, found, 3) == beside_bad_leaf[i].lookup);
        EXPECT(quote_next_key(image.at, image.length, number, next, 2) == beside_bad_leaf[i].next);
        EXPECT(found[QUOTE_LOOKUP_FOUND] == beside_bad_leaf[i].found);
        EXPECT(next[QUOTE_NEXT_KEY_KEY] == beside_bad_leaf[i].key);
    }
    EXPECT(apply_one(&image, one_edit(QUOTE_UPDATE, 10, 8, 'q')) == QUOTE_UNSOUND);
    give_back(image);
}

/* The leaf's refusal comes where the first edit needs it, or last of all for the
 * key asked, and is no edit's. */
static void bad_leaf_in_a_preview(void)
{
    uint64_t found[QUOTE_LOOKUP_NUMBERS];
    struct bytes image = bad_leaf(), list = one_edit(QUOTE_UPDATE, 10, 8, 'q');
    EXPECT(quote_lookup(image.at, image.length, 70, found, 3) == QUOTE_ACCEPTED);
    EXPECT(preview_shows(image, list, 70, QUOTE_IN_IMAGE, found[QUOTE_LOOKUP_OFFSET], 200));
    EXPECT(preview_shows(image, list, 10, QUOTE_IN_LIST, QUOTE_EDIT_HEAD, 8));
    EXPECT(preview_refused(image, list, 50, QUOTE_UNSOUND, 0));
    add_edit(&list, QUOTE_INSERT, 69, 8, 'q');
    EXPECT(preview_refused(image, list, 10, QUOTE_UNSOUND, 0));
    EXPECT(preview_refused(image, list, 0, QUOTE_KEY_RANGE, 0));
    add_edit(&list, QUOTE_INSERT, 10, 8, 'q');
    EXPECT(preview_refused(image, list, 10, QUOTE_UNSOUND, 0));
    put_head(list.at + 18, QUOTE_INSERT, 8, 71); /* in a good leaf instead of 69 */
    EXPECT(preview_refused(image, list, 50, QUOTE_KEY_PRESENT, 2));
    add_edit(&list, QUOTE_UPDATE, 0, 8, 'q');
    EXPECT(preview_refused(image, list, 50, QUOTE_KEY_RANGE, 3));
    give_back(image);
    give_back(list);
}

/* The two kinds of memory: their calls; tape bytes, flushes, commit place and its
 * page of document 01's first worked row, where each flush has a barrier of its own;
 * tape bytes of a recovery of one header, and of the longest one. */
static const struct device {
    transaction_call *transaction;
    recover_call *recover;
    size_t row_bytes;
    uint64_t row_flushes, place, page;
    size_t recovery_bytes, longest;
} devices[] = {
    {quote_transaction, quote_recover, 120, 2, QUOTE_PLACE_HEADER, 2, 96,
     QUOTE_RECOVERY_TAPE_SIZE},
    {quote_transaction_words, quote_recover_words, 292, 5, QUOTE_PLACE_LOG, 0, 124,
     QUOTE_RECOVERY_WORDS_TAPE_SIZE},
};

/* How many commands of a kind are on a tape of so many bytes. */
static int count_commands(struct bytes tape, size_t bytes, uint8_t kind)
{
    static const size_t sizes[] = {0, 12, 68, 4, 4};
    int count = 0;
    for (size_t at = 0; at < bytes; at += sizes[tape.at[at]])
        count += tape.at[at] == kind;
    return count;
}

/* Document 01's first worked row, with a tape of this length. */
static uint8_t worked_row(const struct device *device, struct bytes work, struct bytes tape,
                          uint64_t *answer, size_t numbers)
{
    struct bytes image = fresh(8);
    struct bytes list = one_edit(QUOTE_INSERT, 101, 8, 'p');
    uint8_t number = device->transaction(image.at, image.length, work.at, work.length, tape.at,
                                         tape.length, list.at, list.length, answer, numbers);
    if (number == QUOTE_TAPE_SHORT)
        EXPECT(same(work, image) && preview_shows(image, list, 101, QUOTE_IN_LIST, 10, 8));
    give_back(image);
    give_back(list);
    return number;
}

static void transaction_answers(const struct device *device)
{
    uint64_t answer[6] = {7, 7, 7, 7, 7, 7};
    size_t bytes = device->row_bytes;
    struct bytes work = lend(8192), tape = lend(bytes), other = lend_filled(bytes - 1, 77);
    EXPECT(worked_row(device, work, tape, answer, 6) == QUOTE_ACCEPTED);
    EXPECT(answer[QUOTE_TRANSACTION_EDIT] == 0 && answer[QUOTE_TRANSACTION_PAGE] == device->page);
    EXPECT(answer[QUOTE_TRANSACTION_PLACE] == device->place);
    EXPECT(answer[QUOTE_TRANSACTION_BYTES] == bytes);
    EXPECT(answer[QUOTE_TRANSACTION_FLUSHES] == device->row_flushes);
    EXPECT(answer[QUOTE_TRANSACTION_NUMBERS] == 7);
    EXPECT(tape.at[0] == QUOTE_WORD_STORE && tape.at[36] == QUOTE_FLUSH);
    EXPECT(memcmp(tape.at + 40, "\4\0\0", 4) == 0 && tape.at[bytes - 4] == QUOTE_BARRIER);
    EXPECT(count_commands(tape, bytes, QUOTE_FLUSH) == (int)device->row_flushes);
    EXPECT(count_commands(tape, bytes, QUOTE_BARRIER) == (int)device->row_flushes);
    EXPECT(count_commands(tape, bytes, QUOTE_LINE_STORE) == (device->place == QUOTE_PLACE_HEADER));
    EXPECT(quote_check(work.at, work.length) == QUOTE_ACCEPTED);
    EXPECT(worked_row(device, work, other, answer, 5) == QUOTE_TAPE_SHORT);
    EXPECT(answer[0] == 0 && answer[1] == 0 && answer[3] == 0 && all_are(other, 77));
    answer[0] = 7;
    EXPECT(worked_row(device, work, tape, answer, 4) == QUOTE_ACCEPTED);
    EXPECT(answer[0] == 7 && answer[1] == 0);
    work.length -= 1;
    EXPECT(worked_row(device, work, tape, answer, 5) == QUOTE_WORK_SIZE_WRONG);
    give_back(work);
    give_back(tape);
    give_back(other);
}

/* One edit, with line stores: commits by the header of page 2, with this many words
 * stored besides it, flushes and barriers. */
static void one_quote_takes(struct bytes *image, struct bytes list, int words, int flushes,
                            int barriers)
{
    uint64_t answer[QUOTE_TRANSACTION_NUMBERS];
    struct bytes work = lend(image->length), tape = lend(QUOTE_TAPE_SIZE(8));
    EXPECT(quote_transaction(image->at, image->length, work.at, work.length, tape.at, tape.length,
                             list.at, list.length, answer, 5) == QUOTE_ACCEPTED);
    size_t bytes = (size_t)answer[QUOTE_TRANSACTION_BYTES];
    EXPECT(answer[QUOTE_TRANSACTION_PLACE] == QUOTE_PLACE_HEADER);
    EXPECT(answer[QUOTE_TRANSACTION_PAGE] == 2);
    EXPECT(count_commands(tape, bytes, QUOTE_WORD_STORE) == words);
    EXPECT(count_commands(tape, bytes, QUOTE_LINE_STORE) == 1);
    EXPECT(count_commands(tape, bytes, QUOTE_FLUSH) == flushes);
    EXPECT(count_commands(tape, bytes, QUOTE_BARRIER) == barriers);
    EXPECT(answer[QUOTE_TRANSACTION_FLUSHES] == (uint64_t)flushes);
    give_back(list);
    give_back(tape);
    give_back(*image);
    *image = work;
}

/* The header's 'cost of one quote': the most flushes, barriers and words, for a
 * record that lies in five lines, and a delete. */
static void one_quote_costs(void)
{
    struct bytes image = fresh(8);
    one_quote_takes(&image, one_edit(QUOTE_INSERT, 101, 32, 'p'), 6, 2, 2);
    one_quote_takes(&image, one_edit(QUOTE_INSERT, 102, QUOTE_LONGEST_VALUE, 'p'), 27, 6, 2);
    one_quote_takes(&image, one_edit(QUOTE_DELETE, 101, 0, 0), 0, 1, 1);
    give_back(image);
}

/* The place at which an update of the quotes from one key to another commits. */
static uint64_t place_of_update(const struct device *device, struct bytes *image, uint64_t from,
                                uint64_t to)
{
    uint8_t room[QUOTE_LONGEST_LIST] = {0};
    size_t length = 0;
    for (uint64_t key = from; key <= to; key += 1, length += QUOTE_EDIT_HEAD + 200)
        put_head(room + length, QUOTE_UPDATE, 200, key);
    uint64_t answer[QUOTE_TRANSACTION_NUMBERS];
    struct bytes work = lend(image->length), tape = lend(QUOTE_TAPE_SIZE(16));
    struct bytes list = lend_copy(room, length);
    EXPECT(device->transaction(image->at, image->length, work.at, work.length, tape.at, tape.length,
                               list.at, list.length, answer, 5) == QUOTE_ACCEPTED);
    give_back(list);
    give_back(tape);
    give_back(*image);
    *image = work;
    return answer[QUOTE_TRANSACTION_PLACE];
}

/* Each copy of a leaf adds a record to the index, which is copied once it is
 * full: the root word. Quotes in several leaves: the log; without line stores any
 * header. */
static void commit_places(const struct device *device)
{
    int lines = device->place == QUOTE_PLACE_HEADER;
    struct bytes image = fresh(16);
    for (uint64_t key = 1; key <= 8; key += 1)
        EXPECT(apply_one(&image, one_edit(QUOTE_INSERT, key, 200, 'v')) == QUOTE_ACCEPTED);
    uint64_t came[4] = {0, 0, 0, 0};
    for (uint64_t i = 0; i < 300; i += 1)
        came[place_of_update(device, &image, 1 + i % 8, 1 + i % 8)] += 1;
    EXPECT(came[device->place] > 0 && came[QUOTE_PLACE_ROOT] > 0 && came[0] == 0);
    EXPECT(came[lines ? QUOTE_PLACE_LOG : QUOTE_PLACE_HEADER] == 0);
    for (int i = 0; i < 8; i += 1)
        came[place_of_update(device, &image, 1, 8)] += 1;
    EXPECT(came[QUOTE_PLACE_LOG] > 0 && (lines || came[QUOTE_PLACE_HEADER] == 0));
    give_back(image);
}

struct head {
    uint8_t kind, length;
    uint64_t key;
};

/* A list of these edits, each with a value of as many zeros as it says, without
 * so many bytes at its end; and the refusal that it gets. */
struct faulty {
    uint8_t number;
    uint64_t edit;
    size_t cut, edits;
    struct head heads[2];
};

static void list_is_refused(const struct faulty *faulty, struct bytes image)
{
    uint8_t room[2 * 265] = {0};
    size_t length = 0;
    for (size_t i = 0; i < faulty->edits; i += 1) {
        struct head head = faulty->heads[i];
        put_head(room + length, head.kind, head.length, head.key);
        length += QUOTE_EDIT_HEAD + (size_t)head.length;
    }
    struct bytes list = lend_copy(room, length - faulty->cut);
    struct bytes before = lend_copy(image.at, image.length);
    uint64_t edit = 77;
    /* A preview says the same, but for a key asked that is out of range. */
    int asked = faulty->number == QUOTE_KEY_PRESENT || faulty->number == QUOTE_KEY_MISSING;
    EXPECT(preview_refused(image, list, 101, faulty->number, faulty->edit));
    EXPECT(preview_refused(image, list, 0, asked ? (uint8_t)QUOTE_KEY_RANGE : faulty->number,
                           asked ? 0 : faulty->edit));
    EXPECT(apply(&image, list, &edit) == faulty->number);
    EXPECT(edit == faulty->edit);
    EXPECT(same(image, before));
    give_back(list);
    give_back(before);
}

/* Within an edit 5 comes first, then 7, 19, 5 if the value is cut short, and 6; the
 * first faulty edit decides. */
static const struct faulty faulty_lists[] = {
    {QUOTE_BAD_LIST, 0, 0, 0, {{0, 0, 0}, {0, 0, 0}}},
    {QUOTE_BAD_LIST, 0, 1, 1, {{QUOTE_INSERT, 0, 1}, {0, 0, 0}}},
    {QUOTE_BAD_LIST, 1, 9, 2, {{QUOTE_INSERT, 1, 1}, {QUOTE_INSERT, 0, 2}}},
    {QUOTE_BAD_LIST, 0, 0, 1, {{4, 0, 1}, {0, 0, 0}}},
    {QUOTE_BAD_LIST, 0, 0, 1, {{0, 0, 1}, {0, 0, 0}}},
    {QUOTE_BAD_LIST, 0, 0, 1, {{QUOTE_DELETE, 1, 101}, {0, 0, 0}}},
    {QUOTE_BAD_LIST, 0, 1, 1, {{QUOTE_INSERT, 8, 1}, {0, 0, 0}}},
    {QUOTE_BAD_LIST, 0, 1, 1, {{QUOTE_UPDATE, 1, 0}, {0, 0, 0}}},
    {QUOTE_LONG_VALUE, 0, 201, 1, {{QUOTE_INSERT, QUOTE_LONGEST_VALUE + 1, 1}, {0, 0, 0}}},
    {QUOTE_KEY_MISSING, 0, 0, 1, {{QUOTE_UPDATE, QUOTE_LONGEST_VALUE, 1}, {0, 0, 0}}},
    {QUOTE_LONG_VALUE, 1, 0, 2, {{QUOTE_INSERT, 1, 1}, {QUOTE_UPDATE, 255, 2}}},
    {QUOTE_LONG_VALUE, 0, 0, 2, {{QUOTE_UPDATE, 255, 2}, {QUOTE_INSERT, 0, 1}}},
    {QUOTE_EMPTY_VALUE, 0, 0, 1, {{QUOTE_INSERT, 0, 1}, {0, 0, 0}}},
    {QUOTE_EMPTY_VALUE, 0, 0, 1, {{QUOTE_INSERT, 0, 101}, {0, 0, 0}}},
    {QUOTE_EMPTY_VALUE, 0, 0, 1, {{QUOTE_UPDATE, 0, 1}, {0, 0, 0}}},
    {QUOTE_EMPTY_VALUE, 0, 0, 1, {{QUOTE_UPDATE, 0, 105}, {0, 0, 0}}},
    {QUOTE_EMPTY_VALUE, 0, 0, 1, {{QUOTE_INSERT, 0, 0}, {0, 0, 0}}},
    {QUOTE_EMPTY_VALUE, 1, 0, 2, {{QUOTE_INSERT, 1, 1}, {QUOTE_UPDATE, 0, QUOTE_LAST_KEY + 1}}},
    {QUOTE_EMPTY_VALUE, 1, 0, 2, {{QUOTE_DELETE, 0, 105}, {QUOTE_INSERT, 0, 105}}},
    {QUOTE_EMPTY_VALUE, 0, 0, 2, {{QUOTE_UPDATE, 0, 101}, {4, 0, 1}}},
    {QUOTE_KEY_RANGE, 0, 0, 2, {{QUOTE_DELETE, 0, 0}, {QUOTE_INSERT, 0, 1}}},
    {QUOTE_KEY_RANGE, 0, 0, 1, {{QUOTE_INSERT, 1, 0}, {0, 0, 0}}},
    {QUOTE_KEY_RANGE, 1, 0, 2, {{QUOTE_INSERT, 1, 1}, {QUOTE_DELETE, 0, QUOTE_LAST_KEY + 1}}},
    {QUOTE_KEY_PRESENT, 0, 0, 1, {{QUOTE_INSERT, 1, 105}, {0, 0, 0}}},
    {QUOTE_KEY_PRESENT, 1, 0, 2, {{QUOTE_INSERT, 1, 1}, {QUOTE_INSERT, 1, 1}}},
    {QUOTE_KEY_MISSING, 0, 0, 1, {{QUOTE_UPDATE, 1, 1}, {0, 0, 0}}},
    {QUOTE_KEY_MISSING, 1, 0, 2, {{QUOTE_DELETE, 0, 105}, {QUOTE_DELETE, 0, 105}}},
};

static void lists_are_refused(void)
{
    struct bytes image = two_quotes();
    for (size_t i = 0; i < sizeof faulty_lists / sizeof *faulty_lists; i += 1)
        list_is_refused(&faulty_lists[i], image);
    give_back(image);
}

/* Sixteen edits of 11 bytes are accepted; any byte more is a seventeenth, also where
 * its value is empty. */
static void seventeenth_edit_is_refused(void)
{
    uint8_t room[QUOTE_MOST_EDITS * 11 + QUOTE_EDIT_HEAD] = {0};
    for (uint64_t i = 0; i <= QUOTE_MOST_EDITS; i += 1)
        put_head(room + 11 * i, QUOTE_INSERT, i < QUOTE_MOST_EDITS, 1 + i);
    struct bytes image = fresh(8);
    for (size_t length = sizeof room; length >= QUOTE_MOST_EDITS * 11; length -= 1) {
        struct bytes list = lend_copy(room, length);
        uint64_t edit;
        int good = length == QUOTE_MOST_EDITS * 11;
        EXPECT(good ? preview_shows(image, list, 16, QUOTE_IN_LIST, length - 1, 1)
                    : preview_refused(image, list, 16, QUOTE_BAD_LIST, QUOTE_MOST_EDITS));
        EXPECT(apply(&image, list, &edit) == (good ? QUOTE_ACCEPTED : QUOTE_BAD_LIST));
        EXPECT(edit == (good ? 0 : QUOTE_MOST_EDITS));
        give_back(list);
    }
    give_back(image);
}

/* The length of a key's value, which is there, and the page that its record is in. */
static uint64_t length_of(struct bytes image, uint64_t key, uint64_t *page)
{
    uint64_t found[QUOTE_LOOKUP_NUMBERS];
    EXPECT(quote_lookup(image.at, image.length, key, found, 3) == QUOTE_ACCEPTED);
    EXPECT(found[QUOTE_LOOKUP_FOUND] == 1);
    *page = (found[QUOTE_LOOKUP_OFFSET] - 1) / QUOTE_PAGE_SIZE;
    return found[QUOTE_LOOKUP_LENGTH];
}

/* A stored empty value stays where other quotes change, also if its leaf is copied
 * and split; it can be updated to a longer one and deleted. (What is read of it:
 * lookup_finds, next_key_leads_through, preview_says_where.) */
static void stored_empty_value_goes_on(void)
{
    uint64_t page, copied, split;
    struct bytes image = two_quotes();
    EXPECT(length_of(image, 105, &page) == 0);
    for (int i = 0; i < 40; i += 1)
        EXPECT(apply_one(&image, one_edit(QUOTE_UPDATE, 101, 8, 'q')) == QUOTE_ACCEPTED);
    EXPECT(length_of(image, 105, &copied) == 0 && copied != page);
    for (uint64_t key = 201; key <= 230; key += 1)
        EXPECT(apply_one(&image, one_edit(QUOTE_INSERT, key, 8, 'q')) == QUOTE_ACCEPTED);
    EXPECT(length_of(image, 105, &split) == 0 && split != copied);
    EXPECT(apply_one(&image, one_edit(QUOTE_UPDATE, 105, 0, 0)) == QUOTE_EMPTY_VALUE);
    EXPECT(apply_one(&image, one_edit(QUOTE_UPDATE, 105, 9, 'q')) == QUOTE_ACCEPTED);
    EXPECT(length_of(image, 105, &page) == 9);
    EXPECT(empty_out(image, 105));
    EXPECT(apply_one(&image, one_edit(QUOTE_DELETE, 105, 0, 0)) == QUOTE_ACCEPTED);
    EXPECT(apply_one(&image, one_edit(QUOTE_INSERT, 105, 1, 'q')) == QUOTE_ACCEPTED);
    EXPECT(length_of(image, 105, &page) == 1);
    give_back(image);
}

/* Inserts rising keys, 10 apart, until one is refused; says with what. A preview
 * shows that one too: pages, log and tape play no part in it. */
static uint8_t fill(struct bytes *image, uint8_t length)
{
    uint64_t key = 10;
    uint8_t number;
    while ((number = apply_one(image, one_edit(QUOTE_INSERT, key, length, 'v'))) == QUOTE_ACCEPTED)
        key += 10;
    struct bytes list = one_edit(QUOTE_INSERT, key, length, 'v');
    EXPECT(preview_shows(*image, list, key, QUOTE_IN_LIST, QUOTE_EDIT_HEAD, length));
    give_back(list);
    return number;
}

static void full_stores_refuse(void)
{
    struct bytes small = fresh(8), large = fresh(64);
    EXPECT(fill(&small, 200) == QUOTE_PAGES_OUT);
    EXPECT(fill(&large, 200) == QUOTE_PAGES_OUT);
    EXPECT(quote_check(large.at, large.length) == QUOTE_ACCEPTED);
    /* The last leaf has the most quotes, the others 3: one quote of each of the
     * first 16. */
    uint8_t room[16 * 11];
    for (uint64_t i = 0; i < 16; i += 1) {
        put_head(room + 11 * i, QUOTE_UPDATE, 1, 10 + 30 * i);
        room[11 * i + 10] = 'u';
    }
    struct bytes list = lend_copy(room, sizeof room), shorter = lend_copy(room, sizeof room - 11);
    uint64_t edit;
    EXPECT(apply(&large, list, &edit) == QUOTE_LOG_FULL && edit == 0);
    EXPECT(preview_shows(large, list, 10 + 30 * 15, QUOTE_IN_LIST, sizeof room - 1, 1));
    EXPECT(apply(&large, shorter, &edit) == QUOTE_ACCEPTED);
    give_back(small);
    give_back(large);
    give_back(list);
    give_back(shorter);
}

/* What a merge says; the result is given back. */
static uint8_t merge_says(struct bytes first, struct bytes second, size_t length)
{
    struct bytes out;
    uint8_t number = merge(first, second, length, &out);
    if (number == QUOTE_ACCEPTED)
        EXPECT(quote_check(out.at, out.length) == QUOTE_ACCEPTED);
    give_back(out);
    return number;
}

/* A store with quotes of this length, every other key from this one on. */
static struct bytes every_other(size_t pages, uint64_t key, int quotes, uint8_t length)
{
    struct bytes image = fresh(pages);
    for (int i = 0; i < quotes; i += 1, key += 2)
        EXPECT(apply_one(&image, one_edit(QUOTE_INSERT, key, length, 'm')) == QUOTE_ACCEPTED);
    return image;
}

/* Quotes 1 to 29 of 24 bytes each: 28 in page 2 from its end down, and one in page 3;
 * the index names both, with separators 0 and 29. */
static void merge_fills_leaves(void)
{
    uint64_t found[QUOTE_LOOKUP_NUMBERS];
    struct bytes odd = every_other(8, 1, 15, 8), even = every_other(12, 2, 14, 8), out, turned;
    EXPECT(merge(odd, even, QUOTE_IMAGE_SIZE(10), &out) == QUOTE_ACCEPTED);
    EXPECT(merge(even, odd, QUOTE_IMAGE_SIZE(10), &turned) == QUOTE_ACCEPTED);
    EXPECT(same(out, turned) && quote_check(out.at, out.length) == QUOTE_ACCEPTED);
    for (uint64_t key = 1; key <= 29; key += 1) {
        uint64_t at = key == 29 ? 3 * 1024 + 1016 : 2 * 1024 + 1016 - 24 * (key - 1);
        EXPECT(quote_lookup(out.at, out.length, key, found, 3) == QUOTE_ACCEPTED);
        EXPECT(found[QUOTE_LOOKUP_FOUND] == 1 && found[QUOTE_LOOKUP_OFFSET] == at);
        EXPECT(found[QUOTE_LOOKUP_LENGTH] == 8 && memcmp(out.at + at, "mmmmmmmm", 8) == 0);
    }
    EXPECT(memcmp(out.at + 1024, "\2\0\320\3\2\0\1\0\350\3\320\3", 12) == 0);
    EXPECT(memcmp(out.at + 1024 + 1000, "\0\0\0\0\0\0\0\0\2\0\0\0\0\0\0\0\2", 17) == 0);
    EXPECT(memcmp(out.at + 1024 + 976, "\35\0\0\0\0\0\0\0\2\0\0\0\0\0\0\0\3", 17) == 0);
    struct bytes rest = {out.at + 4 * 1024, 6 * 1024};
    EXPECT(all_are(rest, 0));
    /* It is a store like any other. */
    EXPECT(apply_one(&out, one_edit(QUOTE_INSERT, 30, 200, 'q')) == QUOTE_ACCEPTED);
    EXPECT(apply_one(&out, one_edit(QUOTE_INSERT, 29, 8, 'q')) == QUOTE_KEY_PRESENT);
    give_back(odd);
    give_back(even);
    give_back(out);
    give_back(turned);
}

/* Without quotes it is a fresh store of the third buffer's pages; an empty value goes
 * with the others. */
static void merge_of_little(void)
{
    uint64_t page;
    struct bytes small = fresh(8), large = fresh(64), two = two_quotes(), wanted = fresh(9), out;
    EXPECT(merge(small, large, wanted.length, &out) == QUOTE_ACCEPTED && same(out, wanted));
    give_back(out);
    EXPECT(merge(large, large, wanted.length, &out) == QUOTE_ACCEPTED && same(out, wanted));
    give_back(out);
    EXPECT(merge(two, large, QUOTE_IMAGE_SIZE(8), &out) == QUOTE_ACCEPTED);
    EXPECT(length_of(out, 101, &page) == 8 && page == 2);
    EXPECT(length_of(out, 105, &page) == 0 && page == 2);
    give_back(out);
    give_back(small);
    give_back(large);
    give_back(two);
    give_back(wanted);
}

/* The third buffer first, then the first book, then the second, then both together. */
static void merge_refuses(void)
{
    static const size_t wrong[] = {0, 1, 1024, 7168, 8191, 8193, 65535, 65537, 66560};
    struct bytes good = two_quotes(), short_one = {good.at, good.length - 1}, bad[3];
    static const uint8_t says[] = {QUOTE_UNSOUND, QUOTE_MARK_WAITS, QUOTE_UNSOUND};
    for (int i = 0; i < 3; i += 1)
        bad[i] = lend_copy(good.at, good.length);
    bad[0].at[40] = 1;
    memcpy(bad[0].at, "\1\1\1", 3); /* page 0 is judged before the mark waits */
    memcpy(bad[1].at, "\1\1\1", 3);
    bad[2].at[2048] = 7; /* a leaf that counts too many */
    for (int i = 0; i < 3; i += 1) {
        EXPECT(merge_says(bad[i], good, 8192) == says[i]);
        EXPECT(merge_says(good, bad[i], 8192) == says[i]);
        EXPECT(merge_says(bad[i], short_one, 8192) == says[i]);
        EXPECT(merge_says(short_one, bad[i], 8192) == QUOTE_IMAGE_SIZE_WRONG);
        for (int j = 0; j < 3; j += 1)
            EXPECT(merge_says(bad[i], bad[j], 8192) == says[i]);
        for (size_t j = 0; j < sizeof wrong / sizeof *wrong; j += 1)
            EXPECT(merge_says(bad[i], bad[i], wrong[j]) == QUOTE_IMAGE_SIZE_WRONG);
    }
    EXPECT(merge_says(good, good, 8192) == QUOTE_KEY_IN_BOTH);
    give_back(good);
    for (int i = 0; i < 3; i += 1)
        give_back(bad[i]);
}

/* Four quotes of 200 bytes fill a leaf: 7 leaves need 9 pages, 28 leaves 30, and 29,
 * under a top page and two index pages, 33; a key in both comes before that. */
static void merge_needs_room(void)
{
    struct bytes few = every_other(64, 1, 14, 200), more = every_other(64, 2, 14, 200);
    struct bytes half = every_other(64, 1, 56, 200), other = every_other(64, 2, 56, 200);
    struct bytes one = every_other(8, 999, 1, 1), all;
    EXPECT(merge_says(few, more, QUOTE_IMAGE_SIZE(8)) == QUOTE_PAGES_OUT);
    EXPECT(merge_says(few, more, QUOTE_IMAGE_SIZE(9)) == QUOTE_ACCEPTED);
    EXPECT(merge_says(half, other, QUOTE_IMAGE_SIZE(29)) == QUOTE_PAGES_OUT);
    EXPECT(merge(half, other, QUOTE_IMAGE_SIZE(30), &all) == QUOTE_ACCEPTED);
    EXPECT(merge_says(all, one, QUOTE_IMAGE_SIZE(64)) == QUOTE_ACCEPTED); /* 96 bytes are left */
    EXPECT(apply_one(&one, one_edit(QUOTE_UPDATE, 999, 200, 'm')) == QUOTE_ACCEPTED);
    EXPECT(merge_says(all, one, QUOTE_IMAGE_SIZE(33)) == QUOTE_ACCEPTED);
    EXPECT(merge_says(all, one, QUOTE_IMAGE_SIZE(32)) == QUOTE_PAGES_OUT);
    EXPECT(merge_says(all, one, QUOTE_IMAGE_SIZE(8)) == QUOTE_PAGES_OUT);
    EXPECT(merge_says(all, half, QUOTE_IMAGE_SIZE(64)) == QUOTE_KEY_IN_BOTH);
    EXPECT(merge_says(all, few, QUOTE_IMAGE_SIZE(8)) == QUOTE_KEY_IN_BOTH);
    give_back(few);
    give_back(more);
    give_back(half);
    give_back(other);
    give_back(one);
    give_back(all);
}

static uint8_t recover(const struct device *device, struct bytes image, struct bytes work,
                       struct bytes tape, uint64_t *answer)
{
    return device->recover(image.at, image.length, work.at, work.length, tape.at, tape.length,
                           answer, QUOTE_RECOVER_NUMBERS);
}

/* The longest: 15 headers and another root, in a tape of exactly the size that
 * the header gives. The logged headers are those that are there, of leaves of
 * three quotes; the root word is a wrong one. */
static void longest_recovery(const struct device *device)
{
    uint64_t found[QUOTE_LOOKUP_NUMBERS], answer[QUOTE_RECOVER_NUMBERS + 1] = {7, 7, 7};
    struct bytes image = fresh(64), work = lend(image.length);
    struct bytes tape = lend(device->longest);
    EXPECT(fill(&image, 200) == QUOTE_PAGES_OUT);
    struct bytes whole = lend_copy(image.at, image.length);
    for (uint64_t i = 0; i < 15; i += 1) {
        EXPECT(quote_lookup(whole.at, whole.length, 10 + 30 * i, found, 3) == QUOTE_ACCEPTED);
        memcpy(image.at + 64 * (1 + i), whole.at + found[QUOTE_LOOKUP_OFFSET] / 1024 * 1024, 64);
    }
    memcpy(image.at, "\1\17", 2);
    memcpy(image.at + 2, whole.at + 8, 2);
    image.at[8] = whole.at[8] == 1 ? 2 : 1;
    EXPECT(device->recover(image.at, image.length, work.at, work.length, tape.at, tape.length,
                           answer, QUOTE_RECOVER_NUMBERS + 1) == QUOTE_ACCEPTED);
    EXPECT(answer[QUOTE_RECOVER_BYTES] == device->longest);
    EXPECT(answer[QUOTE_RECOVER_FLUSHES] == 16 && answer[QUOTE_RECOVER_NUMBERS] == 7);
    EXPECT(memcmp(work.at, whole.at, 64) == 0);
    give_back(image);
    give_back(work);
    give_back(tape);
    give_back(whole);
}

static void recovery_finishes_a_commit(const struct device *device, size_t pages)
{
    uint64_t answer[2] = {7, 7};
    size_t bytes = device->recovery_bytes;
    struct bytes image = fresh(pages), work = lend_filled(image.length, 77);
    struct bytes tape = lend(bytes), short_tape = lend_filled(bytes - 1, 77), none = lend(0);
    EXPECT(recover(device, image, work, none, answer) == QUOTE_ACCEPTED);
    EXPECT(answer[0] == 0 && answer[1] == 0 && same(work, image));
    memcpy(image.at, "\1\1\1", 3);              /* a mark: one header, root 1 */
    memcpy(image.at + 64, image.at + 1024, 64); /* that header */
    EXPECT(recover(device, image, work, tape, answer) == QUOTE_ACCEPTED);
    EXPECT(answer[QUOTE_RECOVER_BYTES] == bytes && answer[QUOTE_RECOVER_FLUSHES] == 2);
    EXPECT(quote_check(work.at, work.length) == QUOTE_ACCEPTED);
    EXPECT(recover(device, image, work, short_tape, answer) == QUOTE_TAPE_SHORT);
    EXPECT(same(work, image) && all_are(short_tape, 77));
    memset(work.at, 77, work.length);
    image.at[64 + 6] = 0; /* the header of page 0 */
    EXPECT(recover(device, image, work, tape, answer) == QUOTE_UNSOUND && all_are(work, 77));
    work.length -= 1;
    EXPECT(recover(device, image, work, tape, answer) == QUOTE_WORK_SIZE_WRONG);
    image.length -= 1;
    EXPECT(recover(device, image, work, tape, answer) == QUOTE_IMAGE_SIZE_WRONG);
    EXPECT(answer[0] == bytes && all_are(work, 77));
    give_back(image);
    give_back(work);
    give_back(tape);
    give_back(short_tape);
    give_back(none);
}

static uint8_t run(struct bytes image, struct bytes work, const char *tape, size_t length)
{
    struct bytes lent = lend_copy((const uint8_t *)tape, length);
    uint8_t number = quote_run(image.at, image.length, work.at, work.length, lent.at, length);
    give_back(lent);
    return number;
}

static void run_carries_out(void)
{
    struct bytes image = lend_filled(8192, 1), work = lend_filled(8192, 77);
    EXPECT(run(image, work, "\5\0\0\0", 4) == QUOTE_BAD_TAPE);    /* unknown kind */
    EXPECT(run(image, work, "\3\1\0\0", 4) == QUOTE_BAD_TAPE);    /* second byte */
    EXPECT(run(image, work, "\3\0\200\0", 4) == QUOTE_BAD_TAPE);  /* line 128 */
    EXPECT(run(image, work, "\3\0\0", 3) == QUOTE_BAD_TAPE);      /* head short */
    EXPECT(run(image, work, "\4\0\1\0", 4) == QUOTE_BAD_TAPE);    /* barrier with a place */
    EXPECT(run(image, work, "\4\0\0\1", 4) == QUOTE_BAD_TAPE);    /* place 256 */
    EXPECT(run(image, work, "\4\1\0\0", 4) == QUOTE_BAD_TAPE);    /* and its second byte */
    EXPECT(run(image, work, "\1\0\0\0abcdefg", 11) == QUOTE_BAD_TAPE); /* word short */
    EXPECT(all_are(work, 77));
    EXPECT(run(image, work, "", 0) == QUOTE_ACCEPTED && same(work, image));
    EXPECT(run(image, work, "\4\0\0\0\4\0\0\0", 8) == QUOTE_ACCEPTED && same(work, image));
    EXPECT(run(image, work, "\1\0\377\3abcdefgh\3\0\177\0\4\0\0\0", 20) == QUOTE_ACCEPTED);
    EXPECT(memcmp(work.at + 8184, "abcdefgh", 8) == 0);
    image.length -= 1;
    EXPECT(run(image, work, "", 0) == QUOTE_IMAGE_SIZE_WRONG);
    image.length -= 1023;
    EXPECT(run(work, image, "", 0) == QUOTE_WORK_SIZE_WRONG);
    give_back(image);
    give_back(work);
}

/* Whether the cut after c commands keeps these eight bytes of word 0, with a choice for
 * each line. */
static int cut_keeps(const char *text, size_t length, size_t c, int choice, const char *word)
{
    struct bytes image = lend_filled(8192, 1), work = lend(8192);
    struct bytes tape = lend_copy((const uint8_t *)text, length);
    struct bytes choices = lend_filled(QUOTE_CHOICES_SIZE(8), choice);
    uint8_t number = quote_cut(image.at, image.length, work.at, work.length, tape.at, tape.length,
                               c, choices.at, choices.length);
    struct bytes others = {work.at + 8, work.length - 8};
    int keeps = number == QUOTE_ACCEPTED && memcmp(work.at, word, 8) == 0 && all_are(others, 1);
    give_back(image);
    give_back(work);
    give_back(tape);
    give_back(choices);
    return keeps;
}

#define OLD_WORD "\1\1\1\1\1\1\1\1"
#define STORE_A "\1\0\0\0aaaaaaaa"
#define STORE_B "\1\0\0\0bbbbbbbb"
#define FLUSH_0 "\3\0\0\0"
#define BARRIER "\4\0\0\0"
/* A text without the zero at its end, and its length. */
#define TEXT(text) text, sizeof text - 1

static void cut_keeps_what_is_durable(void)
{
    /* Flushed is not durable; past the barrier it is, and a choice counts from there. */
    EXPECT(cut_keeps(TEXT(STORE_A FLUSH_0 BARRIER STORE_B), 1, 0, OLD_WORD));
    EXPECT(cut_keeps(TEXT(STORE_A FLUSH_0 BARRIER STORE_B), 2, 0, OLD_WORD));
    EXPECT(cut_keeps(TEXT(STORE_A FLUSH_0 BARRIER STORE_B), 2, 1, "aaaaaaaa"));
    EXPECT(cut_keeps(TEXT(STORE_A FLUSH_0 BARRIER STORE_B), 3, 0, "aaaaaaaa"));
    EXPECT(cut_keeps(TEXT(STORE_A FLUSH_0 BARRIER STORE_B), 4, 0, "aaaaaaaa"));
    EXPECT(cut_keeps(TEXT(STORE_A FLUSH_0 BARRIER STORE_B), 4, 1, "bbbbbbbb"));
    /* A barrier before the flush does not count. */
    EXPECT(cut_keeps(TEXT(STORE_A BARRIER FLUSH_0), 3, 0, OLD_WORD));
    /* A store between the flush and the barrier is not covered by them. */
    EXPECT(cut_keeps(TEXT(STORE_A FLUSH_0 STORE_B BARRIER), 4, 0, "aaaaaaaa"));
    EXPECT(cut_keeps(TEXT(STORE_A FLUSH_0 STORE_B BARRIER), 4, 1, "bbbbbbbb"));
}

static void cut_refuses(void)
{
    struct bytes image = lend_filled(8192, 1), work = lend_filled(8192, 77);
    struct bytes tape = lend_copy((const uint8_t *)STORE_A FLUSH_0 BARRIER, 20);
    struct bytes choices = lend_filled(128, 0);
#define CUT(c) quote_cut(image.at, 8192, work.at, 8192, tape.at, tape.length, c, choices.at, choices.length)
    EXPECT(CUT(4) == QUOTE_PAST_END && CUT(SIZE_MAX) == QUOTE_PAST_END);
    tape.at[18] = 1; /* the barrier's place */
    EXPECT(CUT(0) == QUOTE_BAD_TAPE);
    tape.length -= 5;
    EXPECT(CUT(0) == QUOTE_BAD_TAPE);
    choices.length -= 1;
    EXPECT(CUT(0) == QUOTE_BAD_CHOICES && all_are(work, 77));
#undef CUT
    give_back(image);
    give_back(work);
    give_back(tape);
    give_back(choices);
}

static uint8_t nth_cut(struct bytes image, struct bytes tape, size_t r, struct bytes choices,
                       uint64_t *answer, size_t numbers)
{
    return quote_nth_cut(image.at, image.length, tape.at, tape.length, r, choices.at,
                         choices.length, answer, numbers);
}

/* A store to word 0 of each of the first lines. */
static struct bytes stores_to_lines(size_t lines)
{
    struct bytes tape = lend_filled(12 * lines, 'w');
    for (size_t line = 0; line < lines; line += 1) {
        const uint8_t head[] = {QUOTE_WORD_STORE, 0, (uint8_t)(8 * line), 0};
        memcpy(tape.at + 12 * line, head, QUOTE_COMMAND_HEAD);
    }
    return tape;
}

/* Line 1 stored to twice, then line 0, then line 1 flushed, then a barrier: all cuts,
 * as the count of commands and the choices of these two lines. */
static const uint64_t cuts_by_hand[][3] = {
    {0, 0, 0}, {1, 0, 0}, {1, 0, 1}, {2, 0, 0}, {2, 0, 1}, {2, 0, 2}, {3, 0, 0},
    {3, 0, 1}, {3, 0, 2}, {3, 1, 0}, {3, 1, 1}, {3, 1, 2}, {4, 0, 0}, {4, 0, 1},
    {4, 0, 2}, {4, 1, 0}, {4, 1, 1}, {4, 1, 2}, {5, 0, 0}, {5, 1, 0}};

static void cuts_are_given_in_order(void)
{
    static const char text[] =
        "\1\0\10\0aaaaaaaa\1\0\17\0bbbbbbbb\1\0\0\0cccccccc\3\0\1\0\4\0\0\0";
    size_t number = sizeof cuts_by_hand / sizeof *cuts_by_hand;
    uint64_t answer[2] = {7, 7};
    struct bytes image = lend_filled(8192, 1), work = lend(8192), choices = lend_filled(128, 77);
    struct bytes tape = lend_copy((const uint8_t *)text, 44);
    EXPECT(quote_count_cuts(image.at, 8192, tape.at, 44, answer, 0) == QUOTE_ACCEPTED);
    EXPECT(answer[0] == 7);
    EXPECT(quote_count_cuts(image.at, 8192, tape.at, 44, answer, 2) == QUOTE_ACCEPTED);
    EXPECT(answer[QUOTE_COUNT_CUTS_CUTS] == number && answer[QUOTE_COUNT_CUTS_NUMBERS] == 7);
    for (size_t r = 0; r < number; r += 1) {
        EXPECT(nth_cut(image, tape, r, choices, answer, 2) == QUOTE_ACCEPTED);
        EXPECT(answer[QUOTE_NTH_CUT_COMMANDS] == cuts_by_hand[r][0]);
        EXPECT(choices.at[0] == cuts_by_hand[r][1] && choices.at[1] == cuts_by_hand[r][2]);
        struct bytes others = {choices.at + 2, 126};
        EXPECT(all_are(others, 0) && answer[QUOTE_NTH_CUT_NUMBERS] == 7);
        EXPECT(quote_cut(image.at, 8192, work.at, 8192, tape.at, 44, answer[0], choices.at,
                         128) == QUOTE_ACCEPTED);
        memset(choices.at, 77, 128);
    }
    EXPECT(nth_cut(image, tape, number, choices, answer, 2) == QUOTE_NO_SUCH_CUT);
    EXPECT(answer[0] == 5 && all_are(choices, 77));
    EXPECT(nth_cut(image, tape, 0, choices, answer, 0) == QUOTE_ACCEPTED);
    EXPECT(answer[0] == 5 && all_are(choices, 0));
    give_back(image);
    give_back(work);
    give_back(choices);
    give_back(tape);
}

/* The most that there are, on the smallest image and the largest; one command more
 * is refused. */
static void most_cuts(size_t pages)
{
    uint64_t answer[1] = {7};
    struct bytes image = lend_filled(QUOTE_IMAGE_SIZE(pages), 1);
    struct bytes choices = lend(QUOTE_CHOICES_SIZE(pages));
    struct bytes tape = stores_to_lines(QUOTE_MOST_CUT_COMMANDS);
    struct bytes longer = stores_to_lines(QUOTE_MOST_CUT_COMMANDS + 1);
    EXPECT(quote_count_cuts(image.at, image.length, tape.at, tape.length, answer, 1) ==
           QUOTE_ACCEPTED);
    EXPECT(answer[QUOTE_COUNT_CUTS_CUTS] == QUOTE_MOST_CUTS);
    EXPECT(nth_cut(image, tape, QUOTE_MOST_CUTS - 1, choices, answer, 1) == QUOTE_ACCEPTED);
    EXPECT(answer[QUOTE_NTH_CUT_COMMANDS] == QUOTE_MOST_CUT_COMMANDS);
    for (size_t line = 0; line < choices.length; line += 1)
        EXPECT(choices.at[line] == (line < QUOTE_MOST_CUT_COMMANDS));
    EXPECT(nth_cut(image, tape, QUOTE_MOST_CUTS, choices, answer, 1) == QUOTE_NO_SUCH_CUT);
    EXPECT(nth_cut(image, longer, 0, choices, answer, 1) == QUOTE_LONG_TAPE);
    EXPECT(quote_count_cuts(image.at, image.length, longer.at, longer.length, answer, 1) ==
           QUOTE_LONG_TAPE);
    give_back(image);
    give_back(choices);
    give_back(tape);
    give_back(longer);
}

/* Each ground for a refusal before those after it; answer and choices stay. */
static void cuts_are_refused(void)
{
    uint64_t answer[1] = {7};
    struct bytes image = lend_filled(8192, 1), choices = lend_filled(127, 77);
    struct bytes tape = stores_to_lines(13);
#define COUNT quote_count_cuts(image.at, image.length, tape.at, tape.length, answer, 1)
#define LAST nth_cut(image, tape, SIZE_MAX, choices, answer, 1)
    tape.at[12 * 12 + 3] = 4; /* word 1,024 + 96 of the last command: outside */
    image.length -= 1;
    EXPECT(COUNT == QUOTE_IMAGE_SIZE_WRONG && LAST == QUOTE_IMAGE_SIZE_WRONG);
    image.length += 1;
    EXPECT(COUNT == QUOTE_BAD_TAPE && LAST == QUOTE_BAD_TAPE);
    tape.at[12 * 12 + 3] = 0;
    EXPECT(COUNT == QUOTE_LONG_TAPE && LAST == QUOTE_LONG_TAPE);
    tape.length -= 1;
    EXPECT(COUNT == QUOTE_BAD_TAPE && LAST == QUOTE_BAD_TAPE);
    EXPECT(answer[0] == 7);
    tape.length -= 11;
    EXPECT(COUNT == QUOTE_ACCEPTED && LAST == QUOTE_BAD_CHOICES);
    EXPECT(answer[QUOTE_COUNT_CUTS_CUTS] == QUOTE_MOST_CUTS && all_are(choices, 77));
#undef COUNT
#undef LAST
    give_back(image);
    give_back(choices);
    give_back(tape);
}

int main(void)
{
    format_refuses_other_lengths();
    format_makes_a_store();
    check_finds_what_is_wrong();
    lookup_finds();
    lookup_refuses();
    next_key_leads_through();
    preview_says_where();
    preview_is_what_lookup_finds();
    preview_refuses();
    preview_without_room();
    bad_leaf_refuses_its_own_keys();
    bad_leaf_in_a_preview();
    lists_are_refused();
    seventeenth_edit_is_refused();
    stored_empty_value_goes_on();
    full_stores_refuse();
    merge_fills_leaves();
    merge_of_little();
    merge_refuses();
    merge_needs_room();
    one_quote_costs();
    for (size_t i = 0; i < sizeof devices / sizeof *devices; i += 1) {
        transaction_answers(&devices[i]);
        commit_places(&devices[i]);
        longest_recovery(&devices[i]);
        recovery_finishes_a_commit(&devices[i], QUOTE_LEAST_PAGES);
        recovery_finishes_a_commit(&devices[i], QUOTE_MOST_PAGES);
    }
    run_carries_out();
    cut_keeps_what_is_durable();
    cut_refuses();
    cuts_are_given_in_order();
    most_cuts(QUOTE_LEAST_PAGES);
    most_cuts(QUOTE_MOST_PAGES);
    cuts_are_refused();
    puts("calls: every call answers as its header says");
    return 0;
}
