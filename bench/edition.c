// `edition sawp|rfc|4006|8506 typical|credit N`: decodes the message N times, in the reading or by the edition. Prints its bytes,
// the records, the headers tried, and the bytes that each decoding cleared.
// `edition sawp|rfc|4006|8506 cut N`: asks N times for the typical message where 4 bytes of it are there. Prints its bytes.
// `edition compare DIGITS EXPONENT DIGITS EXPONENT N`: compares two Unit-Values N times. Prints the order.
#include "messages.h"
#include "tandrekily.h"
#include <inttypes.h>
#include <stdio.h>
#include <stdlib.h>
#include <string.h>

// A way to decode is one of these, or the number of an edition.
enum { SAWP, RFC };

enum { DEPTH = 64, ROOM = 64 * TANDREKILY_RECORD_SIZE, MOST = 1024, CUT = 4 };

static uint8_t input[MOST], store[ROOM];
static uint64_t result[TANDREKILY_RESULT];

static void stop(const char *why) {
    fprintf(stderr, "edition: %s\n", why);
    exit(1);
}

static uint32_t way_of(const char *word) {
    if (strcmp(word, "sawp") == 0) return SAWP;
    return strcmp(word, "rfc") == 0 ? RFC : (uint32_t)atoi(word);
}

// The first `there` bytes of the input.
static void decode(uint32_t way, size_t there, int times) {
    for (; times > 0; times--) {
        if (way <= RFC) tandrekily_message(way == RFC, DEPTH, input, there, store, sizeof store, result);
        else tandrekily_message_by(way, DEPTH, input, there, store, sizeof store, result);
    }
}

static void decode_all(uint32_t way, size_t length, int times) {
    decode(way, length, times);
    if (result[TANDREKILY_NUMBER] != TANDREKILY_ACCEPTED) stop("the message is refused");
    uint64_t records = result[TANDREKILY_RECORDS];
    printf("%zu %" PRIu64 " %" PRIu64 " %" PRIu64 "\n", length, records, result[TANDREKILY_TRIED],
           ROOM - records * TANDREKILY_RECORD_SIZE);
}

static void decode_cut(uint32_t way, size_t length, int times) {
    decode(way, CUT, times);
    if (result[TANDREKILY_NUMBER] != TANDREKILY_INCOMPLETE) stop("4 bytes are not refused as incomplete");
    if (result[TANDREKILY_AMOUNT] != length - CUT) stop("another number of bytes is absent");
    printf("%zu\n", length);
}

static void compare(char **words) {
    int64_t digits = strtoll(words[0], NULL, 10), other_digits = strtoll(words[2], NULL, 10);
    int32_t exponent = atoi(words[1]), other_exponent = atoi(words[3]), order = 0;
    uint8_t number = TANDREKILY_ACCEPTED;
    for (int left = atoi(words[4]); left > 0; left--)
        number = tandrekily_compare(digits, exponent, other_digits, other_exponent, &order);
    if (number != TANDREKILY_ACCEPTED) stop("an exponent is refused");
    printf("%" PRId32 "\n", order);
}

int main(int count, char **words) {
    if (count == 7 && strcmp(words[1], "compare") == 0) {
        compare(words + 2);
        return 0;
    }
    if (count != 4) stop("usage: edition WAY typical|credit|cut N, or edition compare DIGITS EXPONENT DIGITS EXPONENT N");
    size_t length = strcmp(words[2], "credit") == 0 ? message_credit(input) : message_typical(input);
    (strcmp(words[2], "cut") == 0 ? decode_cut : decode_all)(way_of(words[1]), length, atoi(words[3]));
    return 0;
}
