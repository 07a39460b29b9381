// Indexes a file of messages by Session-Id: prints where each message stands, how long it is, and its Session-Id. It decodes none.
// The file is named by the argument; without one it indexes the messages below. Exits with 1 if the messages can't be followed to
// the last byte, and with 2 if the file can't be read.
#include "tandrekily.h"
#include <inttypes.h>
#include <stdio.h>
#include <stdlib.h>

enum { SESSION_ID = 263, FIRST_ROOM = 65536 };

static const uint8_t held[] = {
    // A Session-Id of 7 bytes, and one of padding.
    1, 0, 0, 36, 0x80, 0, 1, 19, 0, 0, 0, 0, 0, 0, 0, 1, 0, 0, 0, 1,
    0, 0, 1, 7, 0x40, 0, 0, 15, 'a', '.', 'b', ';', '1', ';', '2', 0,
    // A Session-Id with two bytes that are not ASCII.
    1, 0, 0, 36, 0x00, 0, 1, 19, 0, 0, 0, 0, 0, 0, 0, 2, 0, 0, 0, 2,
    0, 0, 1, 7, 0x40, 0, 0, 16, 0xC3, 0xA9, '.', 'b', ';', '1', ';', '3',
    // No AVP.
    1, 0, 0, 20, 0x80, 0, 1, 24, 0, 0, 0, 0, 0, 0, 0, 3, 0, 0, 0, 3,
    // An AVP with the code, but of the vendor 10415.
    1, 0, 0, 36, 0x80, 0, 1, 19, 0, 0, 0, 0, 0, 0, 0, 4, 0, 0, 0, 4,
    0, 0, 1, 7, 0xC0, 0, 0, 16, 0, 0, 0x28, 0xAF, 'a', '.', 'b', ';',
    // An AVP whose length is a byte more than what is left of the message.
    1, 0, 0, 32, 0x80, 0, 1, 19, 0, 0, 0, 0, 0, 0, 0, 5, 0, 0, 0, 5,
    0, 0, 1, 8, 0x40, 0, 0, 13, 'a', '.', 'b', ';',
};

// What isn't printable ASCII stands as \xNN. So does a backslash, or two Session-Ids could look the same.
static void show(const uint8_t *text, size_t length) {
    for (size_t i = 0; i < length; i++) {
        if (text[i] >= ' ' && text[i] <= '~' && text[i] != '\\') putchar(text[i]);
        else printf("\\x%02X", text[i]);
    }
}

static void show_session(const uint8_t *message, size_t length) {
    uint64_t avp[TANDREKILY_OUTLINE];
    tandrekily_find(message, length, SESSION_ID, avp);
    bool has_vendor = avp[TANDREKILY_OUTLINE_FLAGS] & TANDREKILY_AVP_VENDOR_BIT;
    size_t head = has_vendor ? TANDREKILY_AVP_HEAD_WITH_VENDOR : TANDREKILY_AVP_HEAD;
    if (avp[TANDREKILY_OUTLINE_NUMBER] != TANDREKILY_ACCEPTED) {
        printf("no Session-Id before the AVPs break off");
    } else if (!avp[TANDREKILY_OUTLINE_FOUND]) {
        printf("no Session-Id");
    } else if (avp[TANDREKILY_OUTLINE_VENDOR] != 0) {
        printf("no Session-Id found, the first AVP with its code has vendor %" PRIu64, avp[TANDREKILY_OUTLINE_VENDOR]);
    } else {
        printf("Session-Id ");
        show(message + avp[TANDREKILY_OUTLINE_PLACE], (size_t)avp[TANDREKILY_OUTLINE_LENGTH] - head);
    }
    putchar('\n');
}

static int stop(size_t at, const uint64_t *refusal) {
    uint64_t number = refusal[TANDREKILY_NUMBER];
    printf("at %zu: stopped, ", at);
    if (number == TANDREKILY_INCOMPLETE) printf("incomplete, bytes absent: %" PRIu64 "\n", refusal[TANDREKILY_AMOUNT]);
    else if (number == TANDREKILY_NOT_VERSION) printf("no message of version 1 starts here\n");
    else printf("the message's length is shorter than its header\n");
    return 1;
}

// From message to message by the header's length: where a header is refused, the place of the next message isn't known.
static int follow(const uint8_t *bytes, size_t length) {
    uint64_t header[TANDREKILY_RESULT];
    for (size_t at = 0; at < length; at += (size_t)header[TANDREKILY_MESSAGE_LENGTH]) {
        tandrekily_header(bytes + at, length - at, header);
        if (header[TANDREKILY_NUMBER] != TANDREKILY_ACCEPTED) return stop(at, header);
        printf("at %zu: %" PRIu64 " bytes, ", at, header[TANDREKILY_MESSAGE_LENGTH]);
        show_session(bytes + at, length - at);
    }
    return 0;
}

// All bytes of a file, or null where there is no memory for them.
static uint8_t *contents(FILE *file, size_t *length) {
    size_t room = FIRST_ROOM;
    uint8_t *bytes = malloc(room);
    while (bytes != NULL && (*length += fread(bytes + *length, 1, room - *length, file)) == room) {
        uint8_t *more = realloc(bytes, room *= 2);
        if (more == NULL) free(bytes);
        bytes = more;
    }
    return bytes;
}

int main(int count, char **arguments) {
    if (count < 2) return follow(held, sizeof held);
    int status = 2;
    size_t length = 0;
    FILE *file = fopen(arguments[1], "rb");
    uint8_t *bytes = file == NULL ? NULL : contents(file, &length);
    if (bytes == NULL || ferror(file)) perror(arguments[1]);
    else status = follow(bytes, length);
    free(bytes);
    if (file != NULL) fclose(file);
    return status;
}
