// Loads a message, and lends a store for its records.
#include "file.h"
#include "messages.h"
#include "tandrekily.h"
#include <stdio.h>
#include <stdlib.h>
#include <string.h>

enum { DEPTH = 64, BATCH = 64, LENT = 0xA5 };

static void stop(const char *why) {
    fprintf(stderr, "file: %s\n", why);
    exit(1);
}

size_t load(const char *path, uint8_t *input) {
    FILE *file = fopen(path, "rb");
    if (file == NULL) stop("FILE can't be read");
    size_t length = fread(input, 1, MESSAGE_MOST, file);
    fclose(file);
    return length;
}

// A message without AVPs is accepted with no room at all. A byte more is allocated, so that its store is not null.
uint8_t *lend(const uint8_t *input, size_t length, size_t *room) {
    uint64_t result[TANDREKILY_RESULT];
    uint8_t none;
    tandrekily_message(false, DEPTH, input, length, &none, 0, result);
    if (result[TANDREKILY_NUMBER] != TANDREKILY_ACCEPTED && result[TANDREKILY_NUMBER] != TANDREKILY_NO_RECORDS)
        stop("the message is refused");
    *room = (size_t)(result[TANDREKILY_AMOUNT] + BATCH - 1) / BATCH * BATCH * TANDREKILY_RECORD_SIZE;
    uint8_t *store = malloc(*room + 1);
    if (store == NULL) stop("no memory for the store");
    memset(store, LENT, *room);
    return store;
}
