/* A command set or data set walked header by header, as the rules read it. */
#ifndef WALK_H
#define WALK_H

#include <stdbool.h>
#include <stddef.h>
#include <stdint.h>

#include "../data_sets.h"
#include "dictionary.h"

#define UNDEFINED 0xFFFFFFFFu
#define ITEM_TAG 0xFFFEE000u
#define ITEM_END_TAG 0xFFFEE00Du
#define SEQUENCE_END_TAG 0xFFFEE0DDu
#define PIXEL_DATA 0x7FE00010u

/* The refusals, by rule 5.1 to 5.7. */
enum { READ = 0, CUT = 1, ODD = 2, ORDER = 3, WRONG_VR = 4, NOT_DEFINED = 5, MISPLACED = 6, TOO_DEEP = 7 };

enum part { ELEMENT, ITEM, ITEM_END, SEQUENCE_END };

/* A header that was read. Elements of the set itself stand at depth 0, the items of their sequences at 1, what those
 * hold at 2, and so on; a delimiter stands as deep as what it ends. */
struct header {
    enum part part;
    uint32_t tag, length;
    const struct form *form; /* of an element: how it is read; NULL: unknown in explicit VR */
    size_t at, size;         /* where it begins in the set, and its own bytes */
    int depth;
};

/* A sequence that the walk is in: where it begins, how many items of it have begun, and where the last of them did. */
struct level {
    uint32_t tag;
    size_t at, items, item_at;
};

/* Where the walk ended: at the end of the set, or at the first header at fault. */
struct walked {
    uint32_t refusal;
    size_t headers;            /* how many were passed, the one at fault not among them */
    size_t at, left;           /* of a refusal: the header's place, and the bytes up to the end of what holds it */
    bool loose;                /* whether what holds it has an undefined length */
    struct header header;      /* the one at fault, as far as it was read */
    uint64_t floor;            /* the least tag that may stand there; 0 where any may */
    struct level path[LEVELS]; /* the sequences that it lies in, the outermost first */
};

/* A refusal as the proved reader gives it: its number, the header's place, and how many sequences that lies in. All are
 * 0 where a set is read whole. */
struct stopped {
    uint32_t refusal;
    size_t place;
    uint32_t depth;
};

struct stopped stopped_of(const struct walked *w);
bool same_stop(struct stopped a, struct stopped b);

/* What the proved reader tells of any set: where it stopped, and how many headers it passed. */
struct reading {
    struct stopped stopped;
    size_t headers;
};

struct reading reading_of(const struct walked *w);
bool same_reading(struct reading a, struct reading b);

typedef void visit(void *with, const struct header *h);

/* Shows every header that is passed to a visitor, in order. */
struct walked walk_set(const uint8_t *bytes, size_t n, bool explicit_vr, visit *visit, void *with);

/* Whether a tag that the rules name may have this VR. */
bool is_vr_of(const struct named *row, const struct form *form);

/* The tag whose two numbers stand here. */
uint32_t tag_at(const uint8_t *p);

#endif
