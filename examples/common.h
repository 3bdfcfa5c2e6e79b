/* What the examples share. */
#ifndef COMMON_H
#define COMMON_H

#include "quote_store.h"

#include <inttypes.h>
#include <stdio.h>
#include <stdlib.h>
#include <string.h>

static inline const char *words_of(uint8_t number)
{
    static const char *const words[] = {
        "accepted", "the image has a wrong length", "the work buffer has another length than the image",
        "a commit waits: recover first", "what was read is not that of a store", "the list is malformed",
        "the key is out of range", "the value is too long", "the key is there already",
        "the key is not there", "a top page would need a 29th record", "too few pages are free",
        "more than 15 headers change", "the tape is too short", "the tape is malformed",
        "the cut is past the tape's end", "the choices have a wrong length",
        "the tape has more than 12 commands", "there is no cut of this number",
        "the value is empty", "a key is in both books"};
    return number < sizeof words / sizeof *words ? words[number] : "no answer of the store";
}

static inline void stop_if_refused(const char *call, uint8_t number)
{
    if (number == QUOTE_ACCEPTED)
        return;
    fprintf(stderr, "%s says no: %d, %s\n", call, number, words_of(number));
    exit(1);
}

/* Adds an edit to a list and says where the next one goes. The value has at most
 * QUOTE_LONGEST_VALUE bytes, and the list room for them. An empty one of an insert
 * or update is for the calls to refuse. */
static inline uint8_t *put_edit(uint8_t *at, uint8_t kind, uint64_t key, const char *value)
{
    size_t length = strlen(value);
    stop_if_refused("edit", length > QUOTE_LONGEST_VALUE ? QUOTE_LONG_VALUE : QUOTE_ACCEPTED);
    at[0] = kind;
    at[1] = (uint8_t)length;
    for (int i = 0; i < 8; i += 1)
        at[2 + i] = (uint8_t)(key >> 8 * i);
    memcpy(at + QUOTE_EDIT_HEAD, value, length);
    return at + QUOTE_EDIT_HEAD + length;
}

#endif
