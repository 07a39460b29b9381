// `diameter ours|by_hand decode|write FILE... N`: decodes the message in each FILE N times, or decodes it once and writes it N times,
// with the library or with the C by hand. Prints the bytes, the records, the headers tried, and the bytes that a decoding cleared, each
// summed over the files.
#include "diameter_by_hand.h"
#include "file.h"
#include "messages.h"
#include "tandrekily.h"
#include <inttypes.h>
#include <stdio.h>
#include <stdlib.h>
#include <string.h>

typedef void decoder(bool, size_t, const uint8_t *, size_t, uint8_t *, size_t, uint64_t *);
typedef void writer(uint8_t, uint32_t, uint32_t, uint32_t, uint32_t, const uint8_t *, size_t, const uint8_t *, size_t, uint8_t *,
                    size_t, uint64_t *);

enum { DEPTH = 64 };

static uint8_t input[MESSAGE_MOST], out[MESSAGE_MOST];
static size_t length, room;
static uint8_t *store;

static void stop(const char *why) {
    fprintf(stderr, "diameter: %s\n", why);
    exit(1);
}

static void decode(decoder *with, uint64_t *read, int times) {
    for (; times > 0; times--) with(false, DEPTH, input, length, store, room, read);
    if (read[TANDREKILY_NUMBER] != TANDREKILY_ACCEPTED) stop("the message is refused");
}

static void encode(writer *with, const uint64_t *read, int times) {
    uint64_t written[TANDREKILY_RESULT];
    for (; times > 0; times--)
        with((uint8_t)read[TANDREKILY_MESSAGE_FLAGS], (uint32_t)read[TANDREKILY_COMMAND_CODE],
             (uint32_t)read[TANDREKILY_APPLICATION_ID], (uint32_t)read[TANDREKILY_HOP_BY_HOP],
             (uint32_t)read[TANDREKILY_END_TO_END], store, (size_t)read[TANDREKILY_RECORDS] * TANDREKILY_RECORD_SIZE, input, length,
             out, sizeof out, written);
    if (written[TANDREKILY_NUMBER] != TANDREKILY_ACCEPTED) stop("the table is refused");
    if (written[TANDREKILY_LENGTH] != length || memcmp(out, input, length) != 0) stop("what was written is another message");
}

// What is printed.
struct facts {
    uint64_t bytes, records, tried, cleared;
};

static void measure(const char *path, bool library, bool writing, int times, struct facts *facts) {
    uint64_t read[TANDREKILY_RESULT];
    length = load(path, input);
    store = lend(input, length, &room);
    decode(library ? tandrekily_message : by_hand_message, read, writing ? 1 : times);
    if (writing) encode(library ? tandrekily_write : by_hand_write, read, times);
    free(store);
    facts->bytes += length;
    facts->records += read[TANDREKILY_RECORDS];
    facts->tried += read[TANDREKILY_TRIED];
    facts->cleared += room - read[TANDREKILY_RECORDS] * TANDREKILY_RECORD_SIZE;
}

int main(int count, char **words) {
    struct facts facts = {0, 0, 0, 0};
    int times = atoi(words[count - 1]);
    if (count < 5 || times < 1) stop("usage: diameter ours|by_hand decode|write FILE... N");
    bool library = strcmp(words[1], "ours") == 0, writing = strcmp(words[2], "write") == 0;
    for (int i = 3; i < count - 1; i++) measure(words[i], library, writing, times, &facts);
    printf("%" PRIu64 " %" PRIu64 " %" PRIu64 " %" PRIu64 "\n", facts.bytes, facts.records, facts.tried, facts.cleared);
    return 0;
}
