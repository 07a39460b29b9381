// Decodes an answer of credit-control by RFC 8506, prints its AVPs as a tree, and says of each amount that it grants in which groups
// it stands and for which service it is. A record's parent is the index of its group, so nothing here looks for a group's end.
#include "tandrekily.h"
#include <inttypes.h>
#include <stdio.h>

enum { CC_TOTAL_OCTETS = 421, RATING_GROUP = 432, VALUE_DIGITS = 447 };
enum { DEPTH = 64, MOST = 32 };

// It grants 10.50 euro for Rating-Group 100, and 5,000,000 octets for Rating-Group 200.
static const uint8_t answer[176] = {
    1, 0, 0, 176, 0x40, 0, 1, 0x10, 0, 0, 0, 4, 0, 0, 0, 1, 0, 0, 0, 1,
    0, 0, 1, 0x07, 0x40, 0, 0, 15, 'a', '.', 'b', ';', '1', ';', '2', 0, // Session-Id
    0, 0, 1, 0xA0, 0x40, 0, 0, 12, 0, 0, 0, 1,                           // CC-Request-Type: INITIAL_REQUEST
    0, 0, 1, 0xC8, 0x40, 0, 0, 84,                                       // Multiple-Services-Credit-Control
    0, 0, 1, 0xAF, 0x40, 0, 0, 64,                                       // . Granted-Service-Unit
    0, 0, 1, 0x9D, 0x40, 0, 0, 56,                                       // . . CC-Money
    0, 0, 1, 0xBD, 0x40, 0, 0, 36,                                       // . . . Unit-Value
    0, 0, 1, 0xBF, 0x40, 0, 0, 16, 0, 0, 0, 0, 0, 0, 0x04, 0x1A,         // . . . . Value-Digits: 1050
    0, 0, 1, 0xAD, 0x40, 0, 0, 12, 0xFF, 0xFF, 0xFF, 0xFE,               // . . . . Exponent: -2
    0, 0, 1, 0xA9, 0x40, 0, 0, 12, 0, 0, 0x03, 0xD2,                     // . . . Currency-Code: 978, euro
    0, 0, 1, 0xB0, 0x40, 0, 0, 12, 0, 0, 0, 100,                         // . Rating-Group: 100
    0, 0, 1, 0xC8, 0x40, 0, 0, 44,                                       // Multiple-Services-Credit-Control
    0, 0, 1, 0xAF, 0x40, 0, 0, 24,                                       // . Granted-Service-Unit
    0, 0, 1, 0xA5, 0x40, 0, 0, 16, 0, 0, 0, 0, 0, 0x4C, 0x4B, 0x40,      // . . CC-Total-Octets: 5,000,000
    0, 0, 1, 0xB0, 0x40, 0, 0, 12, 0, 0, 0, 200,                         // . Rating-Group: 200
};

// ---- records

// A big-endian number of so many bytes.
static uint64_t number(const uint8_t *at, size_t bytes) {
    uint64_t n = 0;
    while (bytes-- > 0) n = n << 8 | *at++;
    return n;
}

static const uint8_t *record(const uint8_t *table, uint32_t index) {
    return table + (size_t)index * TANDREKILY_RECORD_SIZE;
}

static uint32_t code_of(const uint8_t *table, uint32_t index) {
    return (uint32_t)number(record(table, index) + TANDREKILY_RECORD_CODE, 4);
}

static uint32_t parent_of(const uint8_t *table, uint32_t index) {
    return (uint32_t)number(record(table, index) + TANDREKILY_RECORD_PARENT, 4);
}

// ---- the tree

// How many members each group has: every record counts for its parent.
static void count_members(const uint8_t *table, uint32_t records, uint32_t *members) {
    for (uint32_t i = 0; i < records; i++) {
        uint32_t parent = parent_of(table, i);
        members[i] = 0;
        if (parent != TANDREKILY_TOP_LEVEL) members[parent]++;
    }
}

// A line says which group its AVP is in by one read, so it could be shown without the lines before it.
static void show_tree(const uint8_t *table, uint32_t records) {
    uint32_t members[MOST];
    count_members(table, records, members);
    for (uint32_t i = 0; i < records; i++) {
        int indent = 2 * (record(table, i)[TANDREKILY_RECORD_DEPTH] - 1);
        uint32_t parent = parent_of(table, i);
        printf("%*s%" PRIu32, indent, "", code_of(table, i));
        if (parent != TANDREKILY_TOP_LEVEL) printf(" in %" PRIu32, code_of(table, parent));
        if (members[i] > 0) printf(", members: %" PRIu32, members[i]);
        putchar('\n');
    }
}

// ---- amounts

// Prints the codes from the top level down to the record, which a walk up the parents meets the other way round. Returns the record
// at the top.
static uint32_t show_path(const uint8_t *table, uint32_t index) {
    uint32_t parent = parent_of(table, index);
    uint32_t top = parent == TANDREKILY_TOP_LEVEL ? index : show_path(table, parent);
    printf("%s%" PRIu32, top == index ? "" : " > ", code_of(table, index));
    return top;
}

// Prints the Rating-Group that is a member of a group. Is there one?
static bool show_service(const uint8_t *table, uint32_t records, uint32_t group) {
    for (uint32_t i = group + 1; i < records; i++) {
        if (parent_of(table, i) != group || code_of(table, i) != RATING_GROUP) continue;
        printf(", for Rating-Group %" PRIu64 "\n", number(record(table, i) + TANDREKILY_RECORD_VALUE, 8));
        return true;
    }
    puts(", for no Rating-Group");
    return false;
}

static bool show_amounts(const uint8_t *table, uint32_t records) {
    bool all = true;
    for (uint32_t i = 0; i < records; i++) {
        uint32_t code = code_of(table, i);
        if (code != VALUE_DIGITS && code != CC_TOTAL_OCTETS) continue;
        all &= show_service(table, records, show_path(table, i));
    }
    return all;
}

int main(void) {
    uint8_t store[MOST * TANDREKILY_RECORD_SIZE];
    uint64_t result[TANDREKILY_RESULT];

    tandrekily_message_by(TANDREKILY_RFC_8506, DEPTH, answer, sizeof answer, store, sizeof store, result);
    if (result[TANDREKILY_NUMBER] != TANDREKILY_ACCEPTED) {
        printf("refused: answer %" PRIu64 ", amount %" PRIu64 "\n", result[TANDREKILY_NUMBER], result[TANDREKILY_AMOUNT]);
        return 1;
    }
    show_tree(store, (uint32_t)result[TANDREKILY_RECORDS]);
    return show_amounts(store, (uint32_t)result[TANDREKILY_RECORDS]) ? 0 : 1;
}
