/* The gateway itself, asked what it does: the archive's calls on records of our own. */
#ifndef ASKING_H
#define ASKING_H

#include "../../include/gateway.h"
#include "live.h"
#include "reasons.h"

struct gateway {
    uint8_t records[GATEWAY_RECORDS];
    uint8_t *message;
    size_t message_length;
    uint8_t command[GATEWAY_COMMAND], data[GATEWAY_DATA], report[GATEWAY_REPORT];
};

/* Records that were not started. */
struct gateway *new_gateway(void);
void free_gateway(struct gateway *g);

/* Each returns what the archive returned. */
uint32_t start_gateway(struct gateway *g, const uint8_t *root, size_t root_length, uint32_t serial, uint32_t picture);
uint32_t open_gateway(struct gateway *g, uint32_t context, uint32_t syntax, size_t message_length);
uint32_t close_gateway(struct gateway *g);
uint32_t take_from_gateway(struct gateway *g);

/* What a fragment came to, of the worst of which the program's exit status tells. */
enum outcome { FINE, FAILED, NOT_EXPLAINED };

/* Feeds a fragment and says what came of it, and why by the rules; nothing where the message goes on. Where reason and
 * answer differ it says so plainly. */
enum outcome feed_gateway(struct gateway *g, const uint8_t *fragment, size_t length, struct reason *r);

/* Whether an association is open; whether nothing of a message is collected; whether all of its command is. */
bool is_open(const struct gateway *g);
bool is_idle(const struct gateway *g);
bool is_in_data(const struct gateway *g);

#endif
