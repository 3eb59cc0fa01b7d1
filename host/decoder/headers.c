#include "headers.h"

#include <stdlib.h>

#include "dumps.h"

static void keep(void *with, const struct header *h)
{
    struct headers *kept = with;
    if (kept->count == kept->room) {
        kept->room = kept->room == 0 ? 64 : 2 * kept->room;
        kept->all = realloc(kept->all, kept->room * sizeof *kept->all);
        if (kept->all == NULL)
            stop("no memory");
    }
    kept->all[kept->count++] = *h;
}

struct headers keep_headers(const uint8_t *bytes, size_t n, bool explicit_vr)
{
    struct headers h = { .bytes = bytes };
    h.walked = walk_set(bytes, n, explicit_vr, keep, &h);
    return h;
}

void free_headers(struct headers *h)
{
    free(h->all);
}

struct list whole_list(const struct headers *h)
{
    return (struct list){ h, 0, h->count, 0 };
}

const struct header *find_header(const struct list *l, uint32_t tag)
{
    for (size_t i = l->from; i < l->to; i++) {
        const struct header *h = &l->of->all[i];
        if (h->part == ELEMENT && h->depth == l->depth && h->tag == tag)
            return h;
    }
    return NULL;
}

/* Where what stands behind a header and deeper than it ends. */
static size_t end_below(const struct list *l, size_t at)
{
    size_t end = at + 1;
    while (end < l->to && l->of->all[end].depth > l->of->all[at].depth)
        end++;
    return end;
}

size_t count_items(const struct list *l, const struct header *sequence, struct list *first)
{
    size_t at = (size_t)(sequence - l->of->all), end = end_below(l, at), count = 0;
    for (size_t i = at + 1; i < end; i++) {
        if (l->of->all[i].part != ITEM || l->of->all[i].depth != sequence->depth + 1)
            continue;
        if (count++ == 0)
            *first = (struct list){ l->of, i + 1, end_below(l, i), sequence->depth + 2 };
    }
    return count;
}

const uint8_t *value_of(const struct list *l, const struct header *h)
{
    return l->of->bytes + h->at + h->size;
}
