/* The least work of some calls, to time beside the archive: the records' rules tested on their bytes in place, with
 * nothing unpacked, then what the call does. */
#ifndef FLOOR_H
#define FLOOR_H

#include <stdbool.h>
#include <stddef.h>
#include <stdint.h>

/* Returned where the call is none of those that stand here. */
enum { FLOOR_OTHER = 99 };

/* Whether records keep the rules 7.22 to 7.27 (docs/RULES.md), which refusal 1 tests. */
bool floor_sound(const uint8_t *records);

/* What gateway_feed does with a C-ECHO to Verification that comes in one fragment while idle, and with a data fragment
 * that is not the last one and fits. */
uint32_t floor_feed(uint8_t *records, size_t records_length, uint8_t *message, size_t message_length,
                    const uint8_t *fragment, size_t fragment_length, uint8_t *command, size_t command_length,
                    uint8_t *data, size_t data_length, uint8_t *report, size_t report_length);

#endif
