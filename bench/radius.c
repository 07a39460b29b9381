// `radius ours|by_hand decode|write typical|small N`: decodes the packet N times, or decodes it once and writes it N times, with the
// library or with the loop by hand. Prints its bytes, the records, and the bytes that each decoding cleared or each writing wrote.
// `radius compare N`: has both answer N packets and N tables, of which many are broken. Prints how many of each were accepted.
// What both answer and write must be the same, to the last byte that was lent; else it exits with 1.
#include "by_hand.h"
#include "packets.h"
#include "random.h"
#include "tandrekily.h"
#include <inttypes.h>
#include <stdio.h>
#include <stdlib.h>
#include <string.h>

typedef void decoder(const uint8_t *, size_t, uint8_t *, size_t, uint8_t *, uint64_t *);
typedef void writer(uint8_t, uint8_t, const uint8_t *, const uint8_t *, size_t, const uint8_t *, size_t, uint8_t *, size_t,
                    uint64_t *);

enum { RECORD = TANDREKILY_RECORD_SIZE, ROOM = 2048 * RECORD, LENT = 0xA5 };

// What is lent, and what came of it.
struct lent {
    uint8_t store[ROOM], authenticator[TANDREKILY_AUTHENTICATOR], out[PACKET_MOST + 64];
    uint64_t result[TANDREKILY_RADIUS_RESULT];
};

static struct lent ours, by_hand;
static uint8_t input[PACKET_MOST + 64];

static void stop(const char *why) {
    fprintf(stderr, "radius: %s\n", why);
    exit(1);
}

static void lend(struct lent *lent) {
    memset(lent, LENT, sizeof *lent);
}

static void same(const char *what) {
    if (memcmp(&ours, &by_hand, sizeof ours) != 0) stop(what);
}

// ---- one packet, measured

static void decode(decoder *with, struct lent *lent, size_t length, size_t room) {
    with(input, length, lent->store, room, lent->authenticator, lent->result);
}

static void encode(writer *with, struct lent *lent, const uint64_t *read, size_t length) {
    with((uint8_t)read[TANDREKILY_RADIUS_CODE], (uint8_t)read[TANDREKILY_RADIUS_IDENTIFIER], lent->authenticator, lent->store,
         (size_t)read[TANDREKILY_RECORDS] * RECORD, input, length, lent->out, sizeof lent->out, lent->result);
}

// Both decode it once, and one of them goes on to so many times.
static void measure_decoding(bool library, size_t length, size_t room, int times) {
    decode(tandrekily_radius, &ours, length, room);
    decode(by_hand_radius, &by_hand, length, room);
    if (ours.result[TANDREKILY_NUMBER] != TANDREKILY_ACCEPTED) stop("the packet is refused");
    struct lent *lent = library ? &ours : &by_hand;
    for (; times > 1; times--) decode(library ? tandrekily_radius : by_hand_radius, lent, length, room);
    same("the packet is read in two ways");
}

static void measure_writing(bool library, size_t length, int times) {
    uint64_t read[TANDREKILY_RADIUS_RESULT];
    memcpy(read, ours.result, sizeof read);
    encode(tandrekily_radius_write, &ours, read, length);
    encode(by_hand_radius_write, &by_hand, read, length);
    struct lent *lent = library ? &ours : &by_hand;
    for (; times > 1; times--) encode(library ? tandrekily_radius_write : by_hand_radius_write, lent, read, length);
    same("the packet is written in two ways");
    if (ours.result[TANDREKILY_LENGTH] != length || memcmp(ours.out, input, length) != 0) stop("what was written is another packet");
}

// Room for the records that are needed, rounded up to a multiple of 64.
static size_t room_for(size_t length) {
    decode(tandrekily_radius, &ours, length, 0);
    if (ours.result[TANDREKILY_NUMBER] != TANDREKILY_NO_RECORDS) stop("the packet is refused, or has no records");
    size_t room = (size_t)(ours.result[TANDREKILY_AMOUNT] + 63) / 64 * 64 * RECORD;
    lend(&ours);
    return room;
}

static void measure(bool library, bool writing, bool small, int times) {
    size_t length = small ? packet_small(input, PACKET_MOST) : packet_typical(input);
    size_t room = room_for(length);
    measure_decoding(library, length, room, writing ? 1 : times);
    uint64_t records = ours.result[TANDREKILY_RECORDS];
    if (writing) measure_writing(library, length, times);
    printf("%zu %" PRIu64 " %zu\n", length, records, writing ? length : room - (size_t)records * RECORD);
}

// ---- many packets and tables, compared

// Attributes that cover the packet. Now and then a byte or the length is changed, or some of it is absent.
static size_t any_packet(void) {
    static const size_t bounds[] = {19, 20, PACKET_MOST, PACKET_MOST + 1};
    size_t length = 20 + below(4) * below(300);
    for (size_t i = 0; i < sizeof input; i++) input[i] = any_byte();
    for (size_t at = 20, left; (left = length - at) > 1; at += input[at + 1]) {
        size_t size = below(3) == 0 ? 4 : below(12);
        input[at] = (uint8_t)below(70);
        input[at + 1] = (uint8_t)(size + 3 < left ? size + 2 : left < 255 ? left : 200);
    }
    if (below(8) == 0) input[20 + below(length)] = (uint8_t)(below(2) == 0 ? below(4) : any_byte());
    size_t stated = below(16) != 0 ? length : below(2) == 0 ? bounds[below(4)] : below(PACKET_MOST + 64);
    input[2] = (uint8_t)(stated >> 8);
    input[3] = (uint8_t)stated;
    return below(8) == 0 ? below(sizeof input) : length + below(3);
}

static bool compare_packets(void) {
    size_t length = any_packet();
    size_t room = below(8) == 0 ? below(ROOM) : below(200) * RECORD + below(2);
    lend(&ours);
    lend(&by_hand);
    decode(tandrekily_radius, &ours, length, room);
    decode(by_hand_radius, &by_hand, length, room);
    same("a packet is read in two ways");
    return ours.result[TANDREKILY_NUMBER] == TANDREKILY_ACCEPTED;
}

// Good records, but for their places. Now and then a bit is changed, or bytes are left over.
static size_t any_table(uint8_t *table) {
    size_t records = below(4) == 0 ? below(40) * below(60) % 2048 : below(20);
    memset(table, 0, ROOM);
    for (size_t i = 0; i < records; i++) {
        uint8_t *record = table + i * RECORD;
        record[TANDREKILY_RECORD_CODE + 3] = any_byte();
        record[TANDREKILY_RECORD_LENGTH + 2] = (uint8_t)(2 + below(records < 40 ? 254 : 3));
        record[TANDREKILY_RECORD_PLACE + 2] = (uint8_t)below(15);
        record[TANDREKILY_RECORD_PLACE + 3] = any_byte();
        record[TANDREKILY_RECORD_DEPTH] = 1;
        memset(record + TANDREKILY_RECORD_PARENT, 0xFF, 4);
    }
    if (records > 0 && below(3) == 0) table[below(records * RECORD)] ^= (uint8_t)(1 << below(8));
    return records * RECORD + (below(16) == 0 ? below(RECORD) : 0);
}

// All of the input, some of it, or to where the data of the first record end, or a byte less.
static size_t any_pool(const uint8_t *record) {
    size_t place = (size_t)record[TANDREKILY_RECORD_PLACE + 2] << 8 | record[TANDREKILY_RECORD_PLACE + 3];
    size_t end = place + record[TANDREKILY_RECORD_LENGTH + 2];
    if (below(2) == 0) return sizeof input;
    return below(2) == 0 || end < 3 || end > sizeof input ? below(sizeof input) : end - 2 - below(2);
}

static bool compare_tables(void) {
    static uint8_t table[ROOM];
    size_t table_length = any_table(table);
    size_t pool_length = any_pool(table);
    size_t room = below(4) == 0 ? below(sizeof ours.out) : sizeof ours.out;
    lend(&ours);
    lend(&by_hand);
    tandrekily_radius_write(4, 7, input, table, table_length, input, pool_length, ours.out, room, ours.result);
    by_hand_radius_write(4, 7, input, table, table_length, input, pool_length, by_hand.out, room, by_hand.result);
    same("a table is written in two ways");
    return ours.result[TANDREKILY_NUMBER] == TANDREKILY_ACCEPTED;
}

static void compare(int times) {
    int packets = 0, tables = 0;
    for (; times > 0; times--) {
        packets += compare_packets();
        tables += compare_tables();
    }
    printf("%d %d\n", packets, tables);
}

int main(int count, char **words) {
    lend(&ours);
    lend(&by_hand);
    if (count == 3 && strcmp(words[1], "compare") == 0) {
        compare(atoi(words[2]));
        return 0;
    }
    if (count != 5) stop("usage: radius ours|by_hand decode|write typical|small N, or radius compare N");
    measure(strcmp(words[1], "ours") == 0, strcmp(words[2], "write") == 0, strcmp(words[3], "small") == 0, atoi(words[4]));
    return 0;
}
