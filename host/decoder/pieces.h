/* A command set or data set put together from the pieces in which it stands in a dump. */
#ifndef PIECES_H
#define PIECES_H

#include "../data_sets.h"

/* A piece: where it begins in the set and in the dump. */
struct piece {
    size_t at, dump_at;
};

struct pieces {
    struct data_set set;
    struct piece *all;
    size_t count, room;
};

/* An empty one, with room for so many bytes. */
struct pieces new_pieces(size_t room);
void free_pieces(struct pieces *p);

void put_piece(struct pieces *p, const uint8_t *bytes, size_t n, size_t dump_at);
void empty_pieces(struct pieces *p);

/* Where a place of the set stands in the dump. */
size_t place_in_dump(const struct pieces *p, size_t at);

#endif
