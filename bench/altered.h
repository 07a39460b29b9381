// Messages and tables that are altered at random, so that some are good and some are wrong in each way.
#ifndef ALTERED_H
#define ALTERED_H

#include <stddef.h>
#include <stdint.h>

// Makes a message of AVPs of all codes and returns its length. `out` has MESSAGE_MOST bytes.
size_t any_message(uint8_t *out);

// Changes a message in one way, and returns its new length.
size_t alter_message(uint8_t *message, size_t length);

// Changes one record or two, and returns how many there are then. The table has at least one.
size_t alter_table(uint8_t *table, size_t records);

// Sets the paddings and parents that the other fields ask for (docs/FORMAT.md, 8.3), so that rules tested before these matter too.
void mend_table(uint8_t *table, size_t records);

#endif
