// Joins two fragments of a credit-control report in two ways. One decodes each fragment, and puts the second's table,
// moved, behind the first's. The other puts the AVPs of both into one message and decodes that. Both give the same.
#include "tandrekily.h"
#include <inttypes.h>
#include <stdio.h>
#include <string.h>

enum { DEPTH = 64, MOST = 16, ROOM = MOST * TANDREKILY_RECORD_SIZE };

// Of the octets that were used for Rating-Group 100. The last AVP has a reserved bit set.
static const uint8_t first[80] = {
    1, 0, 0, 80, 0x80, 0, 1, 0x10, 0, 0, 0, 4, 0, 0, 0, 1, 0, 0, 0, 1,
    0, 0, 1, 0x07, 0x40, 0, 0, 15, 'a', '.', 'b', ';', '1', ';', '2', 0, // Session-Id
    0, 0, 1, 0xC8, 0x40, 0, 0, 44,                                       // Multiple-Services-Credit-Control
    0, 0, 1, 0xBE, 0x40, 0, 0, 24,                                       // . Used-Service-Unit
    0, 0, 1, 0xA5, 0x40, 0, 0, 16, 0, 0, 0, 0, 0, 0x4C, 0x4B, 0x40,      // . . CC-Total-Octets: 5,000,000
    0, 0, 1, 0xB0, 0x41, 0, 0, 12, 0, 0, 0, 100,                         // . Rating-Group: 100
};

// Of the seconds and octets that were used for Rating-Group 200. The first AVP has padding that is not zero.
static const uint8_t second[92] = {
    1, 0, 0, 92, 0x80, 0, 1, 0x10, 0, 0, 0, 4, 0, 0, 0, 2, 0, 0, 0, 2,
    0, 0, 1, 0x07, 0x40, 0, 0, 15, 'a', '.', 'b', ';', '1', ';', '2', 9, // Session-Id
    0, 0, 1, 0xC8, 0x40, 0, 0, 56,                                       // Multiple-Services-Credit-Control
    0, 0, 1, 0xBE, 0x40, 0, 0, 36,                                       // . Used-Service-Unit
    0, 0, 1, 0xA4, 0x40, 0, 0, 12, 0, 0, 0x0E, 0x10,                     // . . CC-Time: 3,600
    0, 0, 1, 0xA5, 0x40, 0, 0, 16, 0, 0, 0, 0, 0, 0x0F, 0x42, 0x40,      // . . CC-Total-Octets: 1,000,000
    0, 0, 1, 0xB0, 0x40, 0, 0, 12, 0, 0, 0, 200,                         // . Rating-Group: 200
};

// A message's table, and what is said of the message besides.
struct decoded {
    uint8_t table[ROOM];
    size_t length, records;
    uint64_t tried, errors;
};

// ---- decoding

static bool accepted(const char *what, const uint64_t *result) {
    if (result[TANDREKILY_NUMBER] == TANDREKILY_ACCEPTED) return true;
    printf("%s: answer %" PRIu64 ", amount %" PRIu64 "\n", what, result[TANDREKILY_NUMBER], result[TANDREKILY_AMOUNT]);
    return false;
}

static bool decode(const char *what, const uint8_t *message, size_t length, struct decoded *d) {
    uint64_t result[TANDREKILY_RESULT];
    tandrekily_message_by(TANDREKILY_RFC_8506, DEPTH, message, length, d->table, sizeof d->table, result);
    d->length = (size_t)result[TANDREKILY_LENGTH];
    d->records = (size_t)result[TANDREKILY_RECORDS];
    d->tried = result[TANDREKILY_TRIED];
    d->errors = result[TANDREKILY_ERRORS];
    return accepted(what, result);
}

// ---- joining tables

// The flags of all AVPs. Those of a header are no fragment's: the joined message has a header of its own.
static uint64_t errors_of_avps(const struct decoded *d) {
    uint64_t errors = 0;
    for (size_t i = 0; i < d->records; i++) errors |= d->table[i * TANDREKILY_RECORD_SIZE + TANDREKILY_RECORD_ERRORS];
    return errors;
}

// Puts the table of `next`, moved, behind that of `all`. Could it?
static bool append(struct decoded *all, const struct decoded *next) {
    uint8_t *behind = all->table + all->records * TANDREKILY_RECORD_SIZE;
    size_t size = next->records * TANDREKILY_RECORD_SIZE;
    uint64_t result[TANDREKILY_RESULT];
    if (all->records + next->records > MOST) return false;
    memcpy(behind, next->table, size);
    tandrekily_shift(behind, size, all->length - TANDREKILY_HEADER, all->records, result);
    if (!accepted("not moved", result)) return false;
    all->length += next->length - TANDREKILY_HEADER;
    all->records += next->records;
    all->tried += next->tried;
    all->errors |= errors_of_avps(next);
    return true;
}

// ---- joining messages

// The first's header with the new length, and the AVPs of both.
static size_t join(uint8_t *message) {
    size_t length = sizeof first + sizeof second - TANDREKILY_HEADER;
    memcpy(message, first, sizeof first);
    memcpy(message + sizeof first, second + TANDREKILY_HEADER, sizeof second - TANDREKILY_HEADER);
    message[1] = (uint8_t)(length >> 16);
    message[2] = (uint8_t)(length >> 8);
    message[3] = (uint8_t)length;
    return length;
}

static bool same(const struct decoded *one, const struct decoded *other) {
    if (one->length != other->length || one->records != other->records) return false;
    if (one->tried != other->tried || one->errors != other->errors) return false;
    return memcmp(one->table, other->table, one->records * TANDREKILY_RECORD_SIZE) == 0;
}

static void show(const char *what, const struct decoded *d) {
    printf("%s: %zu bytes, %zu records, tried %" PRIu64 ", error flags %" PRIu64 "\n", what, d->length, d->records,
           d->tried, d->errors);
}

int main(void) {
    uint8_t message[sizeof first + sizeof second];
    struct decoded all, next, whole;
    if (!decode("the first", first, sizeof first, &all)) return 1;
    if (!decode("the second", second, sizeof second, &next)) return 1;
    show("the first", &all);
    show("the second", &next);
    if (!append(&all, &next) || !decode("joined", message, join(message), &whole)) return 1;
    show("joined as tables", &all);
    show("joined as messages", &whole);
    puts(same(&all, &whole) ? "the same" : "not the same");
    return same(&all, &whole) ? 0 : 1;
}
