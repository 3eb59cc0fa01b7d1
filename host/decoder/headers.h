/* The headers of a set, kept to look attributes up. */
#ifndef HEADERS_H
#define HEADERS_H

#include "walk.h"

struct headers {
    const uint8_t *bytes; /* the set's, which are not copied */
    struct header *all;
    size_t count, room;
    struct walked walked;
};

struct headers keep_headers(const uint8_t *bytes, size_t n, bool explicit_vr);
void free_headers(struct headers *h);

/* A list of elements, of the set itself or of an item: those of one depth, from one header to before another. */
struct list {
    const struct headers *of;
    size_t from, to;
    int depth;
};

struct list whole_list(const struct headers *h);

/* The element of a tag in a list; NULL where there is none. */
const struct header *find_header(const struct list *l, uint32_t tag);

/* How many items a sequence has, and the list of the first. */
size_t count_items(const struct list *l, const struct header *sequence, struct list *first);

/* A value, whose bytes are the header's length. */
const uint8_t *value_of(const struct list *l, const struct header *h);

#endif
