/* A capture gone through from its first message on: every PDU, fragment and set is shown, every request is fed to the
 * gateway, and what came of it is said. */
#ifndef CONVERSATIONS_H
#define CONVERSATIONS_H

#include "asking.h"
#include "captures.h"
#include "pieces.h"

/* What the user gave; 0 and NULL where it was left to the program. */
struct wishes {
    const char *root;
    uint32_t serial, picture;
    uint32_t syntax;
    uint32_t context;
    size_t buffer; /* the message buffer's length */
    bool alone;    /* each message meets fresh records */
};

enum outcome go_through(struct capture *c, const struct wishes *w);

/* Shows a set and what the proved reader says of it. */
enum outcome show_read(const char *what, const struct pieces *set, uint32_t syntax);

#endif
