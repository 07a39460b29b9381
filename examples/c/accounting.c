// Reads RADIUS packets of accounting: prints type, kind and value of each attribute, then writes the packet back and compares it.
// The files are named by the arguments, and `-` is standard input; in each, packets stand one after the other. Without an argument it
// reads the packet below. Exits with 1 if packets can't be followed to the last byte or don't come back the same, and with 2 if a file
// can't be read.
#include "tandrekily.h"
#include <inttypes.h>
#include <stdio.h>
#include <stdlib.h>
#include <string.h>

enum { FIRST_ROOM = 65536 };

// A session has ended: an Accounting-Request (RFC 2866, section 4.1).
static const uint8_t held[] = {
    4, 7, 0, 136, 0x9B, 0x1F, 0x43, 0x68, 0x4A, 0xD0, 0x25, 0xE7, 0x70, 0x8C, 0x11, 0xB2, 0x5E, 0x36, 0xC9, 0x0A,
    1, 19, 'a', 'l', 'i', 'c', 'e', '@', 'e', 'x', 'a', 'm', 'p', 'l', 'e', '.', 'n', 'e', 't', // User-Name
    4, 6, 192, 0, 2, 16,                                                                        // NAS-IP-Address
    5, 6, 0, 0, 0, 20,                                                                          // NAS-Port
    6, 6, 0, 0, 0, 2,                                                                           // Service-Type: Framed
    7, 6, 0, 0, 0, 1,                                                                           // Framed-Protocol: PPP
    8, 6, 198, 51, 100, 7,                                                                      // Framed-IP-Address
    25, 5, 0x00, 0xFF, 0x5C,                                                                    // Class
    40, 6, 0, 0, 0, 2,                                                                          // Acct-Status-Type: Stop
    41, 6, 0, 0, 0, 0,                                                                          // Acct-Delay-Time
    42, 6, 0, 0x10, 0, 0,                                                                       // Acct-Input-Octets
    43, 6, 0x01, 0x20, 0, 0,                                                                    // Acct-Output-Octets
    44, 10, '0', '0', '0', '0', 'A', '3', 'F', '1',                                             // Acct-Session-Id
    45, 6, 0, 0, 0, 1,                                                                          // Acct-Authentic: RADIUS
    46, 5, 0, 0, 240,                                                                           // Acct-Session-Time, of 3 bytes
    49, 6, 0, 0, 0, 1,                                                                          // Acct-Terminate-Cause
    61, 6, 0, 0, 0, 5,                                                                          // NAS-Port-Type: Virtual
    87, 5, 'p', 'p', '3',                                                                       // NAS-Port-Id, of RFC 2869
};

// ---- records

// A big-endian number of so many bytes.
static uint64_t number(const uint8_t *at, size_t bytes) {
    uint64_t n = 0;
    while (bytes-- > 0) n = n << 8 | *at++;
    return n;
}

// What isn't printable ASCII stands as \xNN. So does a backslash, or two values could look the same.
static void show_bytes(const uint8_t *bytes, size_t length) {
    for (size_t i = 0; i < length; i++) {
        if (bytes[i] >= ' ' && bytes[i] <= '~' && bytes[i] != '\\') putchar(bytes[i]);
        else printf("\\x%02X", bytes[i]);
    }
}

static void show_errors(unsigned errors, uint64_t value) {
    if (errors & TANDREKILY_DATA_VALUE) printf(" (DataValue, from byte %" PRIu64 " on)", value);
    if (errors & TANDREKILY_DATA_LENGTH) printf(" (DataLength)");
}

// What has no number in its record is shown by its data, which the record's place and length name.
static void show(const uint8_t *record, const uint8_t *packet) {
    const uint8_t *data = packet + number(record + TANDREKILY_RECORD_PLACE, 4);
    size_t length = (size_t)number(record + TANDREKILY_RECORD_LENGTH, 3) - TANDREKILY_ATTRIBUTE_HEAD;
    uint64_t value = number(record + TANDREKILY_RECORD_VALUE, 8);
    unsigned kind = record[TANDREKILY_RECORD_KIND];
    printf("type %" PRIu64 ", kind %u: ", number(record + TANDREKILY_RECORD_CODE, 4), kind);
    if (kind == TANDREKILY_UNSIGNED_32) printf("%" PRIu64, value);
    else if (kind == TANDREKILY_ADDRESS) printf("%u.%u.%u.%u", data[0], data[1], data[2], data[3]);
    else show_bytes(data, length);
    show_errors(record[TANDREKILY_RECORD_ERRORS], value);
    putchar('\n');
}

// ---- packets

static int refused(const char *what, const uint64_t *result) {
    printf("%s refused: answer %" PRIu64 ", amount %" PRIu64 "\n", what, result[TANDREKILY_NUMBER], result[TANDREKILY_AMOUNT]);
    return 1;
}

static int write_back(const uint64_t *read, const uint8_t *authenticator, const uint8_t *table, const uint8_t *packet) {
    uint8_t again[TANDREKILY_RADIUS_MOST];
    uint64_t written[TANDREKILY_RADIUS_RESULT];
    size_t length = (size_t)read[TANDREKILY_LENGTH];
    tandrekily_radius_write((uint8_t)read[TANDREKILY_RADIUS_CODE], (uint8_t)read[TANDREKILY_RADIUS_IDENTIFIER], authenticator, table,
                            (size_t)read[TANDREKILY_RECORDS] * TANDREKILY_RECORD_SIZE, packet, length, again, sizeof again, written);
    if (written[TANDREKILY_NUMBER] != TANDREKILY_ACCEPTED) return refused("writing", written);
    bool same = written[TANDREKILY_LENGTH] == length && memcmp(again, packet, length) == 0;
    printf("written back: %" PRIu64 " bytes, %s\n", written[TANDREKILY_LENGTH], same ? "the same" : "not the same");
    return same ? 0 : 1;
}

// From packet to packet by their lengths: where one is refused, the place of the next isn't known.
static int follow(const uint8_t *bytes, size_t length) {
    static uint8_t store[TANDREKILY_RADIUS_RECORDS * TANDREKILY_RECORD_SIZE];
    uint8_t authenticator[TANDREKILY_AUTHENTICATOR];
    uint64_t read[TANDREKILY_RADIUS_RESULT];
    for (size_t at = 0; at < length; at += (size_t)read[TANDREKILY_LENGTH]) {
        tandrekily_radius(bytes + at, length - at, store, sizeof store, authenticator, read);
        if (read[TANDREKILY_NUMBER] != TANDREKILY_ACCEPTED) return refused("decoding", read);
        printf("code %" PRIu64 ", identifier %" PRIu64 ", ", read[TANDREKILY_RADIUS_CODE], read[TANDREKILY_RADIUS_IDENTIFIER]);
        printf("%" PRIu64 " attributes, error flags %" PRIu64 "\n", read[TANDREKILY_RECORDS], read[TANDREKILY_ERRORS]);
        for (uint64_t i = 0; i < read[TANDREKILY_RECORDS]; i++) show(store + i * TANDREKILY_RECORD_SIZE, bytes + at);
        if (write_back(read, authenticator, store, bytes + at) != 0) return 1;
    }
    return 0;
}

// ---- files

// All bytes of a file, or null where there is no memory for them.
static uint8_t *contents(FILE *file, size_t *length) {
    size_t room = FIRST_ROOM;
    uint8_t *bytes = malloc(room);
    while (bytes != NULL && (*length += fread(bytes + *length, 1, room - *length, file)) == room) {
        uint8_t *more = realloc(bytes, room *= 2);
        if (more == NULL) free(bytes);
        bytes = more;
    }
    return bytes;
}

static int follow_file(const char *name) {
    int status = 2;
    size_t length = 0;
    FILE *file = strcmp(name, "-") == 0 ? stdin : fopen(name, "rb");
    uint8_t *bytes = file == NULL ? NULL : contents(file, &length);
    if (bytes == NULL || ferror(file)) perror(name);
    else status = follow(bytes, length);
    free(bytes);
    if (file != NULL && file != stdin) fclose(file);
    return status;
}

int main(int count, char **arguments) {
    if (count < 2) return follow(held, sizeof held);
    int status = 0;
    for (int i = 1; i < count && status == 0; i++) status = follow_file(arguments[i]);
    return status;
}
