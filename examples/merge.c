/*
 * Two books into one: the quotes of two desks, a store each, are merged into a third
 * memory. A first try is refused, since both desks quote one of the bonds; it is deleted
 * from one book, and the merge is made. Then the program goes on with the merged store
 * as with any other. Build it at the root of the repository:
 *
 *   mkdir -p target
 *   gcc -Iinclude examples/merge.c crates/store/out/libstore.a -o target/merge
 */
#include "common.h"

#define PAGES 8
#define MERGED_PAGES 16 /* more than are needed, so that some are free */

/* A book: the image is its device's memory. */
struct book {
    const char *name;
    uint8_t image[QUOTE_IMAGE_SIZE(PAGES)];
};

static struct book first = {"first book", {0}}, second = {"second book", {0}};

/* The merged store's memory, which holds no store yet; work and tape are room for a
 * call. */
static uint8_t merged[QUOTE_IMAGE_SIZE(MERGED_PAGES)];
static uint8_t work[QUOTE_IMAGE_SIZE(MERGED_PAGES)];
static uint8_t tape[QUOTE_TAPE_SIZE(MERGED_PAGES)];

/* One edit, in one transaction. Work is what a device then holds that carried out the
 * tape. */
static void make(uint8_t *image, size_t length, uint8_t kind, uint64_t key, const char *price)
{
    uint8_t edits[QUOTE_EDIT_HEAD + QUOTE_LONGEST_VALUE];
    uint64_t answer[QUOTE_TRANSACTION_NUMBERS];
    size_t bytes = (size_t)(put_edit(edits, kind, key, price) - edits);
    stop_if_refused("transaction",
                    quote_transaction(image, length, work, length, tape, sizeof tape, edits, bytes,
                                      answer, QUOTE_TRANSACTION_NUMBERS));
    memcpy(image, work, length);
}

/* Quotes of every second bond from this one on. */
static void fill(struct book *book, uint64_t key, int quotes, const char *price)
{
    stop_if_refused("format", quote_format(book->image, sizeof book->image));
    for (int i = 0; i < quotes; i += 1, key += 2)
        make(book->image, sizeof book->image, QUOTE_INSERT, key, price);
    printf("%s: %d quotes\n", book->name, quotes);
}

/* Merges the books into the third memory: says whether it was done. Only that memory is
 * written, and only if it is done. */
static int merge(void)
{
    uint8_t number = quote_merge(first.image, sizeof first.image, second.image,
                                 sizeof second.image, merged, sizeof merged);
    printf("merge: %d, %s\n", number, words_of(number));
    return number == QUOTE_ACCEPTED;
}

/* Where a quote stands in an image: says whether it is there. */
static int find(const uint8_t *image, size_t length, uint64_t key, uint64_t *place)
{
    stop_if_refused("lookup", quote_lookup(image, length, key, place, QUOTE_LOOKUP_NUMBERS));
    return place[QUOTE_LOOKUP_FOUND] == 1;
}

/* Deletes from the second book what the first has too. Next key leads through the
 * first. */
static void delete_from_second(void)
{
    uint64_t next[QUOTE_NEXT_KEY_NUMBERS] = {1, 0}, place[QUOTE_LOOKUP_NUMBERS];
    for (;;) {
        stop_if_refused("next key",
                        quote_next_key(first.image, sizeof first.image, next[QUOTE_NEXT_KEY_KEY],
                                       next, QUOTE_NEXT_KEY_NUMBERS));
        uint64_t key = next[QUOTE_NEXT_KEY_KEY];
        if (next[QUOTE_NEXT_KEY_FOUND] == 0)
            return;
        if (!find(second.image, sizeof second.image, key, place))
            continue;
        printf("%" PRIu64 " is in both, and is deleted from the %s\n", key, second.name);
        make(second.image, sizeof second.image, QUOTE_DELETE, key, "");
    }
}

static void print_quote(uint64_t key)
{
    uint64_t place[QUOTE_LOOKUP_NUMBERS];
    printf("%" PRIu64 ": ", key);
    if (!find(merged, sizeof merged, key, place))
        printf("no quote\n");
    else
        printf("%.*s, in page %d\n", (int)place[QUOTE_LOOKUP_LENGTH],
               (const char *)merged + place[QUOTE_LOOKUP_OFFSET],
               (int)((place[QUOTE_LOOKUP_OFFSET] - 1) / QUOTE_PAGE_SIZE));
}

int main(void)
{
    fill(&first, 101, 30, "101.25");
    fill(&second, 102, 30, "99.50");
    make(second.image, sizeof second.image, QUOTE_INSERT, 115, "100.00");
    if (!merge())
        delete_from_second();
    if (!merge())
        return 1;
    /* Here a real device makes the third memory durable, all of it, and only then does
     * the program note that this is the store now: until then it has the two books. */
    stop_if_refused("check", quote_check(merged, sizeof merged));
    print_quote(101);
    print_quote(102);
    print_quote(115);
    print_quote(160);
    print_quote(161);
    make(merged, sizeof merged, QUOTE_UPDATE, 115, "101.50");
    print_quote(115);
    return 0;
}
