/* A host that serves a console, for the benchmarks. */
#ifndef SERVED_H
#define SERVED_H

#include "../host/console.h"

/* Fragments one behind another. */
struct fragments {
    struct data_set bytes;
    size_t *ends;
    size_t count;
};

struct fragments no_fragments(size_t bytes, size_t count);
void keep_fragment(struct fragments *f, const uint8_t *fragment, size_t length);

/* Starts, opens with a message buffer of so many bytes in the console's syntax, and serves it until it wishes for this.
 * The fragments are kept, unless NULL is given. Ends the program where anything fails. */
void serve_until(struct console *c, enum wish wish, size_t room, struct fragments *kept);

/* The host's calls, for timing. A response is that of a request that was done. */
void served_start(void);
void served_open(size_t room, uint32_t syntax);
uint32_t served_feed(const uint8_t *fragment, size_t length);
/* The status that the fragment is answered with, which may be a failure. */
uint16_t served_answer(const uint8_t *fragment, size_t length);
void served_take(void);
void served_close(void);

#endif
