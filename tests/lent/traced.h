/* A host that makes the calls of kept traces. */
#ifndef TRACED_H
#define TRACED_H

#include <stddef.h>
#include <stdint.h>

#include "../../include/gateway.h"

/* What it holds. */
extern uint8_t records[GATEWAY_RECORDS], message[GATEWAY_MESSAGE_MOST];
extern size_t message_length;

/* Its own call, not on a copy. */
uint32_t own_feed(const uint8_t *fragment, size_t size);

/* Makes the calls of a trace, from records that are all zeros on. Before each feed the function is called with its
 * fragment. */
void make_trace(const char *path, void (*before_feed)(const uint8_t *fragment, size_t size));

#endif
