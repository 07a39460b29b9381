// `stack BYTES`: decodes a message of 16 MiB with 1.4 million AVPs and one nested to the limit, in the sawp reading and by an edition, and
// a RADIUS packet of 4,096 bytes, and writes them back, on a stack of so many bytes. Pages that can't be touched lie below it, so a stack too small is a crash.
#define _DEFAULT_SOURCE
#include "messages.h"
#include "packets.h"
#include "tandrekily.h"
#include <inttypes.h>
#include <stdio.h>
#include <stdlib.h>
#include <string.h>
#include <sys/mman.h>
#include <ucontext.h>

enum { DEPTH = 64, ROOM = 1400000 * TANDREKILY_RECORD_SIZE, GUARD = 1 << 20, UNTOUCHED = 0xA5 };

static uint8_t input[MESSAGE_MOST], store[ROOM], out[MESSAGE_MOST];
static size_t length;
static uint32_t edition; // 0 for the sawp reading
static uint64_t read[TANDREKILY_RESULT], written[TANDREKILY_RESULT];

static void stop(const char *why) {
    fprintf(stderr, "stack: %s\n", why);
    exit(1);
}

// ---- on the small stack: nothing but the library is called

static void round_trip(void) {
    if (edition == 0) tandrekily_message(false, DEPTH, input, length, store, sizeof store, read);
    else tandrekily_message_by(edition, DEPTH, input, length, store, sizeof store, read);
    tandrekily_write((uint8_t)read[TANDREKILY_MESSAGE_FLAGS], (uint32_t)read[TANDREKILY_COMMAND_CODE],
                     (uint32_t)read[TANDREKILY_APPLICATION_ID], (uint32_t)read[TANDREKILY_HOP_BY_HOP],
                     (uint32_t)read[TANDREKILY_END_TO_END], store, read[TANDREKILY_RECORDS] * TANDREKILY_RECORD_SIZE, input,
                     length, out, sizeof out, written);
}

static void packet_trip(void) {
    uint8_t authenticator[TANDREKILY_AUTHENTICATOR];
    tandrekily_radius(input, length, store, sizeof store, authenticator, read);
    tandrekily_radius_write((uint8_t)read[TANDREKILY_RADIUS_CODE], (uint8_t)read[TANDREKILY_RADIUS_IDENTIFIER], authenticator, store,
                            read[TANDREKILY_RECORDS] * TANDREKILY_RECORD_SIZE, input, length, out, sizeof out, written);
}

// ---- on the process's own

static uint8_t *stack_of(size_t bytes) {
    uint8_t *at = mmap(NULL, GUARD + bytes, PROT_READ | PROT_WRITE, MAP_PRIVATE | MAP_ANONYMOUS, -1, 0);
    if (at == MAP_FAILED || mprotect(at, GUARD, PROT_NONE) != 0) stop("no memory for the stack");
    return at + GUARD;
}

// Runs a round trip on the stack and answers how many of its bytes were touched; it grows downwards.
static size_t touched(void (*trip)(void), uint8_t *stack, size_t bytes) {
    ucontext_t here, there;
    memset(stack, UNTOUCHED, bytes);
    if (getcontext(&there) != 0) stop("no context");
    there.uc_stack.ss_sp = stack;
    there.uc_stack.ss_size = bytes;
    there.uc_link = &here;
    makecontext(&there, trip, 0);
    if (swapcontext(&here, &there) != 0) stop("no other context");
    size_t low = 0;
    while (low < bytes && stack[low] == UNTOUCHED) low++;
    return bytes - low;
}

static void check(const char *name, void (*trip)(void), uint64_t records, uint64_t tried, size_t bytes, uint8_t *stack) {
    memset(out, UNTOUCHED, sizeof out);
    size_t used = touched(trip, stack, bytes);
    if (read[TANDREKILY_NUMBER] != TANDREKILY_ACCEPTED || read[TANDREKILY_LENGTH] != length) stop("the message is refused");
    if (read[TANDREKILY_RECORDS] != records || read[TANDREKILY_TRIED] != tried) stop("other records, or other headers tried");
    if (written[TANDREKILY_NUMBER] != TANDREKILY_ACCEPTED || written[TANDREKILY_LENGTH] != length) stop("the table is refused");
    if (memcmp(out, input, length) != 0) stop("what was written is another message");
    printf("%s: %zu bytes, %" PRIu64 " records, %" PRIu64 " headers tried; written back the same; %zu of %zu bytes of stack touched\n",
           name, length, records, tried, used, bytes);
    fflush(stdout);
}

static void check_both(size_t bytes, uint8_t *stack) {
    length = message_nested(input, DEPTH);
    check("nested 64 deep", round_trip, DEPTH, DEPTH, bytes, stack);
    length = message_extremal(input, MESSAGE_MOST);
    check("16 MiB", round_trip, (length - 20) / 12, (length - 20) / 6, bytes, stack);
}

int main(int count, char **words) {
    if (count != 2) stop("usage: stack BYTES");
    size_t bytes = strtoul(words[1], NULL, 10);
    uint8_t *stack = stack_of(bytes);
    check_both(bytes, stack);
    edition = TANDREKILY_RFC_8506;
    puts("by RFC 8506:");
    check_both(bytes, stack);
    puts("RADIUS:");
    length = packet_small(input, PACKET_MOST);
    check("attributes without data", packet_trip, (length - 20) / 2, (length - 20) / 2, bytes, stack);
    return 0;
}
