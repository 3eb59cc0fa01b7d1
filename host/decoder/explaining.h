/* What a feed must come to by the rules, found from the records and the fragment alone. The archive decides; this says
 * why. */
#ifndef EXPLAINING_H
#define EXPLAINING_H

#include "reasons.h"

/* The records as they were before the feed, the message buffer as it was after, and the fragment. */
void explain_feed(const uint8_t *records, const uint8_t *message, const uint8_t *fragment, size_t length,
                  struct reason *r);

#endif
