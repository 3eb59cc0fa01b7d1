/* What a capture tells of itself: which fragments are responses, the root of the gateway that answered, the syntax. */
#ifndef LEARNING_H
#define LEARNING_H

#include "captures.h"
#include "live.h"

/* Marks the fragments of responses: of messages with a Command Field of 8000H and above. */
void mark_responses(struct capture *c);

/* The root and serial of the first UID that a response to N-CREATE names and no request sent; false where there is none
 * that this gateway could have made. */
bool learn_root(const struct capture *c, struct uid *root, uint32_t *serial, size_t *dump_at);

/* The syntax of the first data set from a part on, by its first element: a VR stands behind the tag in explicit VR. 0
 * where there is no data set. */
uint32_t guess_syntax(const struct capture *c, size_t from, size_t *dump_at);

/* The same of a bare data set. */
uint32_t guess_set_syntax(const uint8_t *bytes, size_t n);

#endif
