#include "pieces.h"

#include <stdio.h>
#include <stdlib.h>

struct pieces new_pieces(size_t room)
{
    return (struct pieces){ new_data_set(room, IMPLICIT), NULL, 0, 0 };
}

void free_pieces(struct pieces *p)
{
    free_data_set(&p->set);
    free(p->all);
}

static void make_room(struct pieces *p)
{
    p->room = p->room == 0 ? 16 : 2 * p->room;
    p->all = realloc(p->all, p->room * sizeof *p->all);
    if (p->all == NULL) {
        fprintf(stderr, "decode: no memory\n");
        exit(2);
    }
}

void put_piece(struct pieces *p, const uint8_t *bytes, size_t n, size_t dump_at)
{
    if (p->count == p->room)
        make_room(p);
    p->all[p->count++] = (struct piece){ p->set.n, dump_at };
    put_bytes(&p->set, bytes, n);
}

void empty_pieces(struct pieces *p)
{
    p->set.n = 0;
    p->count = 0;
}

/* The last piece that begins at or before the place: the pieces stand in order. */
size_t place_in_dump(const struct pieces *p, size_t at)
{
    size_t low = 0, high = p->count;
    while (high - low > 1) {
        size_t middle = low + (high - low) / 2;
        if (p->all[middle].at <= at)
            low = middle;
        else
            high = middle;
    }
    return p->count == 0 ? at : p->all[low].dump_at + (at - p->all[low].at);
}
