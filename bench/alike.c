// `alike N FILE...`: has the library and the C by hand answer the message in each FILE and write it back, and then N messages and N
// tables that are altered, of which many are broken. Prints how often each answer was given.
// What both answer and write must be the same, to the last byte that was lent and some past it; else it exits with 1.
#include "altered.h"
#include "diameter_by_hand.h"
#include "file.h"
#include "messages.h"
#include "random.h"
#include "tandrekily.h"
#include <stdio.h>
#include <stdlib.h>
#include <string.h>

enum { DEEPEST = 64, RECORD = TANDREKILY_RECORD_SIZE, LENT = 0xA5, PAST = 64, SHOWN = 4096, FILES = 256 };
enum { ANSWERS = TANDREKILY_NO_ROOM + 1 };

// More than the records of any message, which has 8 bytes or more for each.
enum { MOST_ROOM = (MESSAGE_MOST / 8 + 1) * RECORD, MOST_ALTERED = 65536 };

// What is lent, a store or an output, and what came of it.
struct lent {
    uint8_t bytes[MOST_ROOM + PAST];
    uint64_t result[TANDREKILY_RESULT];
};

static struct lent ours, by_hand;
static uint8_t input[MESSAGE_MOST + PAST], table[MOST_ROOM + PAST];
static struct {
    uint8_t *bytes;
    size_t length;
} starts[FILES];
static size_t start_count;

static void stop(const char *why) {
    fprintf(stderr, "alike: %s\n", why);
    exit(1);
}

static void lend_both(size_t room) {
    memset(ours.bytes, LENT, room + PAST);
    memset(by_hand.bytes, LENT, room + PAST);
}

static bool same(size_t room) {
    return memcmp(ours.result, by_hand.result, sizeof ours.result) == 0 && memcmp(ours.bytes, by_hand.bytes, room + PAST) == 0;
}

static void show(const uint8_t *bytes, size_t length) {
    for (size_t i = 0; i < length && i < SHOWN; i++) fprintf(stderr, "%02X", bytes[i]);
    fprintf(stderr, "\n");
}

// ---- one message

static uint64_t decode(bool rfc, size_t limit, size_t length, size_t room) {
    lend_both(room);
    tandrekily_message(rfc, limit, input, length, ours.bytes, room, ours.result);
    by_hand_message(rfc, limit, input, length, by_hand.bytes, room, by_hand.result);
    if (!same(room)) {
        fprintf(stderr, "alike: rfc %d, limit %zu, store of %zu bytes, message of %zu:\n", rfc, limit, room, length);
        show(input, length);
        stop("it is read in two ways");
    }
    return ours.result[TANDREKILY_NUMBER];
}

static size_t records_needed(bool rfc, size_t limit, size_t length) {
    return decode(rfc, limit, length, 0) == TANDREKILY_NO_RECORDS ? (size_t)ours.result[TANDREKILY_AMOUNT] : 0;
}

// The fields of a header that is written.
struct fields {
    uint8_t flags;
    uint32_t command_code, application_id, hop_by_hop, end_to_end;
};

static uint64_t encode(const struct fields *f, size_t table_length, size_t pool_length, size_t room) {
    lend_both(room);
    tandrekily_write(f->flags, f->command_code, f->application_id, f->hop_by_hop, f->end_to_end, table, table_length, input, pool_length,
                     ours.bytes, room, ours.result);
    by_hand_write(f->flags, f->command_code, f->application_id, f->hop_by_hop, f->end_to_end, table, table_length, input, pool_length,
                  by_hand.bytes, room, by_hand.result);
    if (!same(room)) {
        fprintf(stderr, "alike: command code %u, pool of %zu bytes, output of %zu, table of %zu:\n", (unsigned)f->command_code,
                pool_length, room, table_length);
        show(table, table_length);
        stop("it is written in two ways");
    }
    return ours.result[TANDREKILY_NUMBER];
}

// Takes the records that were decoded last as the table, and returns how many there are.
static size_t take_table(void) {
    size_t records = (size_t)ours.result[TANDREKILY_RECORDS];
    memcpy(table, ours.bytes, records * RECORD);
    return records;
}

// ---- the files

static void compare_whole(bool rfc, size_t length) {
    size_t room = records_needed(rfc, DEEPEST, length) * RECORD;
    if (decode(rfc, DEEPEST, length, room) != TANDREKILY_ACCEPTED) stop("a message in a file is refused");
    const uint64_t *read = ours.result;
    struct fields fields = {(uint8_t)read[TANDREKILY_MESSAGE_FLAGS], (uint32_t)read[TANDREKILY_COMMAND_CODE],
                            (uint32_t)read[TANDREKILY_APPLICATION_ID], (uint32_t)read[TANDREKILY_HOP_BY_HOP],
                            (uint32_t)read[TANDREKILY_END_TO_END]};
    size_t records = take_table();
    if (encode(&fields, records * RECORD, length, length) != TANDREKILY_ACCEPTED) stop("records of a message are refused");
    if (memcmp(ours.bytes, input, length) != 0) stop("what was written is another message");
}

// Compares the message, and keeps it as a start where it is short.
static void take_file(const char *path) {
    size_t length = load(path, input);
    compare_whole(false, length);
    compare_whole(true, length);
    if (length > MOST_ALTERED) return;
    if (start_count == FILES) stop("there are too many files");
    uint8_t *bytes = malloc(length + 1);
    if (bytes == NULL) stop("no memory for a message");
    memcpy(bytes, input, length);
    starts[start_count].bytes = bytes;
    starts[start_count++].length = length;
}

// ---- altered messages

// A message of a file or a made one, changed in so many ways.
static size_t some_message(size_t changes) {
    size_t length, start = below(start_count + start_count / 2);
    memset(input, 0, MOST_ALTERED + PAST);
    if (start < start_count) memcpy(input, starts[start].bytes, length = starts[start].length);
    else length = any_message(input);
    for (; changes > 0; changes--) length = alter_message(input, length);
    return length;
}

static uint64_t compare_message(void) {
    bool rfc = below(2) == 0;
    size_t length = some_message(below(4));
    size_t limit = below(2) == 0 ? below(DEEPEST + 3) : 1 + below(6);
    size_t needed = records_needed(rfc, limit, length);
    return decode(rfc, limit, length, (below(8) == 0 ? below(needed + 1) : needed) * RECORD + below(3 * RECORD));
}

// ---- altered tables

static struct fields any_fields(void) {
    struct fields fields = {(uint8_t)random_64(), (uint32_t)below(1 << 24), (uint32_t)random_64(), (uint32_t)random_64(),
                            (uint32_t)random_64()};
    if (below(32) == 0) fields.command_code = below(2) == 0 ? 1 << 24 : (uint32_t)random_64() | 1 << 24;
    return fields;
}

// The records of a message, changed in so many ways, and most of the time mended.
static size_t some_table(size_t changes, size_t *length) {
    bool rfc = below(2) == 0;
    do {
        *length = some_message(below(2));
    } while (decode(rfc, DEEPEST, *length, records_needed(rfc, DEEPEST, *length) * RECORD) != TANDREKILY_ACCEPTED);
    size_t records = take_table();
    for (; changes > 0 && records > 0; changes--) records = alter_table(table, records);
    if (below(4) != 0) mend_table(table, records);
    return records;
}

static uint64_t compare_table(void) {
    size_t length;
    size_t table_length = some_table(below(4), &length) * RECORD;
    struct fields fields = any_fields();
    size_t pool_length = below(2) == 0 ? sizeof input : below(16) == 0 ? below(length + 1) : length;
    if (below(32) == 0) table_length += 1 + below(RECORD - 1);
    encode(&fields, table_length, pool_length, 0);
    size_t needed = (size_t)ours.result[TANDREKILY_AMOUNT];
    if (ours.result[TANDREKILY_NUMBER] != TANDREKILY_NO_ROOM || needed > 2 * MOST_ALTERED) needed = below(64);
    return encode(&fields, table_length, pool_length, below(8) == 0 ? below(needed + 1) : needed + below(PAST));
}

// ---- all

static const char *const names[ANSWERS] = {"accepted",  "Incomplete", "NotVersion", "BadLength", "NotTiled", "TooDeep",
                                           "NoRecords", "BadDepth",   "BadHeader",  "BadTable",  "TooLong",  "NoRoom"};

// Each answer from `first` to `last`, and the acceptances, must have been seen.
static void print(const char *what, int times, const int *seen, int first, int last) {
    printf("%d %s: %d %s", times, what, seen[0], names[0]);
    for (int i = first; i <= last; i++) {
        printf(", %d %s", seen[i], names[i]);
        if (seen[i] < times / 200) stop("an answer is given too seldom");
    }
    printf("\n");
}

int main(int count, char **words) {
    int messages[ANSWERS] = {0}, tables[ANSWERS] = {0};
    if (count < 3) stop("usage: alike N FILE...");
    for (int i = 2; i < count; i++) take_file(words[i]);
    for (int left = atoi(words[1]); left > 0; left--) {
        messages[compare_message()]++;
        tables[compare_table()]++;
    }
    print("messages", atoi(words[1]), messages, TANDREKILY_INCOMPLETE, TANDREKILY_BAD_DEPTH);
    print("tables", atoi(words[1]), tables, TANDREKILY_BAD_HEADER, TANDREKILY_NO_ROOM);
    return 0;
}
