// Decodes the message P8, prints its record with the error flag, writes it back and compares all 36 bytes.
#include "tandrekily.h"
#include <inttypes.h>
#include <stdio.h>
#include <string.h>

// One AVP, a Result-Code of 2001 with a fifth data byte: its length is 13, and three bytes of padding follow.
static const uint8_t p8[36] = {
    1, 0, 0, 36, 0, 0, 0, 0, 0, 0, 0, 0, 0, 0, 0, 0, 0, 0, 0, 0,
    0, 0, 1, 0x0C, 0, 0, 0, 13, 0, 0, 7, 0xD1, 0, 0, 0, 0,
};

enum { DEPTH = 64, ROOM = 4 * TANDREKILY_RECORD_SIZE };

// A big-endian number of so many bytes.
static uint64_t number(const uint8_t *at, size_t bytes) {
    uint64_t n = 0;
    while (bytes-- > 0) n = n << 8 | *at++;
    return n;
}

static void show(const uint8_t *record) {
    unsigned errors = record[TANDREKILY_RECORD_ERRORS];
    printf("code %" PRIu64 ", ", number(record + TANDREKILY_RECORD_CODE, 4));
    printf("kind %u, ", record[TANDREKILY_RECORD_KIND]);
    printf("length %" PRIu64 ", ", number(record + TANDREKILY_RECORD_LENGTH, 3));
    printf("value %" PRIu64 ", ", number(record + TANDREKILY_RECORD_VALUE, 8));
    printf("error flags %u%s\n", errors, errors & TANDREKILY_DATA_LENGTH ? " (DataLength)" : "");
}

static int refused(const char *what, const uint64_t *result) {
    printf("%s refused: answer %" PRIu64 ", amount %" PRIu64 "\n", what, result[TANDREKILY_NUMBER], result[TANDREKILY_AMOUNT]);
    return 1;
}

int main(void) {
    uint8_t store[ROOM], again[sizeof p8];
    uint64_t read[TANDREKILY_RESULT], written[TANDREKILY_RESULT];

    tandrekily_message(false, DEPTH, p8, sizeof p8, store, sizeof store, read);
    if (read[TANDREKILY_NUMBER] != TANDREKILY_ACCEPTED) return refused("decoding", read);
    for (uint64_t i = 0; i < read[TANDREKILY_RECORDS]; i++) show(store + i * TANDREKILY_RECORD_SIZE);

    tandrekily_write((uint8_t)read[TANDREKILY_MESSAGE_FLAGS], (uint32_t)read[TANDREKILY_COMMAND_CODE],
                     (uint32_t)read[TANDREKILY_APPLICATION_ID], (uint32_t)read[TANDREKILY_HOP_BY_HOP],
                     (uint32_t)read[TANDREKILY_END_TO_END], store, read[TANDREKILY_RECORDS] * TANDREKILY_RECORD_SIZE, p8,
                     sizeof p8, again, sizeof again, written);
    if (written[TANDREKILY_NUMBER] != TANDREKILY_ACCEPTED) return refused("writing", written);
    bool same = written[TANDREKILY_LENGTH] == sizeof p8 && memcmp(again, p8, sizeof p8) == 0;
    printf("written back: %" PRIu64 " bytes, %s\n", written[TANDREKILY_LENGTH], same ? "the same" : "not the same");
    return same ? 0 : 1;
}
