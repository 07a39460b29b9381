// `ours find FILE N`: finds its Session-Id N times. Prints how many AVPs were stepped over.
// `ours shift FILE N`: decodes it once and moves its table N times. Prints how many records the table has.
// `ours records FILE`: writes what was decoded, as `oracle records` does for the Rust.
#include "file.h"
#include "messages.h"
#include "tandrekily.h"
#include <inttypes.h>
#include <stdio.h>
#include <stdlib.h>
#include <string.h>

enum { DEPTH = 64, SESSION_ID = 263 };

static uint8_t input[MESSAGE_MOST];
static size_t length;

static void stop(const char *why) {
    fprintf(stderr, "ours: %s\n", why);
    exit(1);
}

// How many AVPs stand before the one that is found, by another way: a step over each.
static int passed(const uint64_t *found) {
    uint64_t outline[TANDREKILY_OUTLINE];
    int n = 0;
    for (size_t place = TANDREKILY_HEADER;; n++) {
        place = tandrekily_next(input, length, place, outline);
        if (!outline[TANDREKILY_OUTLINE_FOUND]) stop("what was found is not there");
        if (memcmp(outline, found, sizeof outline) == 0) return n;
    }
}

static void find(int times) {
    uint64_t outline[TANDREKILY_OUTLINE];
    for (; times > 0; times--) tandrekily_find(input, length, SESSION_ID, outline);
    if (!outline[TANDREKILY_OUTLINE_FOUND]) stop("the message has no Session-Id");
    printf("%d\n", passed(outline));
}

// Each time a byte and a record further, so that no time does the work of another.
static void shift(int times) {
    uint64_t read[TANDREKILY_RESULT], moved[TANDREKILY_RESULT];
    size_t room;
    uint8_t *store = lend(input, length, &room);
    tandrekily_message(false, DEPTH, input, length, store, room, read);
    size_t size = (size_t)read[TANDREKILY_RECORDS] * TANDREKILY_RECORD_SIZE;
    for (; times > 0; times--) tandrekily_shift(store, size, 1, 1, moved);
    if (moved[TANDREKILY_NUMBER] != TANDREKILY_ACCEPTED) stop("the table is refused");
    printf("%" PRIu64 "\n", moved[TANDREKILY_RECORDS]);
    free(store);
}

// A big-endian number of so many bytes.
static void put(uint64_t number, int bytes) {
    while (bytes-- > 0) putchar((int)(number >> (8 * bytes) & 0xFF));
}

// The header as on the wire, flags, counts and length, and all records.
static void put_all(void) {
    static const int sizes[] = {1, 3, 1, 3, 4, 4, 4};
    uint64_t read[TANDREKILY_RESULT];
    size_t room;
    uint8_t *store = lend(input, length, &room);
    tandrekily_message(false, DEPTH, input, length, store, room, read);
    for (int i = 0; i < 7; i++) put(read[TANDREKILY_MESSAGE_VERSION + i], sizes[i]);
    for (int i = TANDREKILY_ERRORS; i <= TANDREKILY_LENGTH; i++) put(read[i], 8);
    fwrite(store, TANDREKILY_RECORD_SIZE, (size_t)read[TANDREKILY_RECORDS], stdout);
}

int main(int count, char **words) {
    bool finding = count == 4 && strcmp(words[1], "find") == 0, moving = count == 4 && strcmp(words[1], "shift") == 0;
    if (!finding && !moving && (count != 3 || strcmp(words[1], "records") != 0))
        stop("usage: ours find|shift FILE N, or ours records FILE");
    length = load(words[2], input);
    if (finding) find(atoi(words[3]));
    else if (moving) shift(atoi(words[3]));
    else put_all();
    return 0;
}
