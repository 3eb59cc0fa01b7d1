/* Elements (PS3.5): the reader of lists, elements and items, finding, and writing. */
#ifndef ELEMENTS_H
#define ELEMENTS_H

#include <stdbool.h>
#include <stddef.h>
#include <stdint.h>

#include "uids.h"

enum syntax { IMPLICIT = 1, EXPLICIT = 2 };

#define TAG(group, element) ((uint32_t)(group) << 16 | (uint32_t)(element))

/* A stretch of a command or data set: a list of elements, a sequence of items, or a value. */
struct part {
    const uint8_t *bytes; /* the whole command or data set: places count from here */
    enum syntax syntax;
    size_t from;
    size_t to;      /* its end; where its length is undefined, the end of what encloses it */
    bool undefined; /* a delimiter closes it */
    int depth;      /* the sequences it lies in, itself counted */
};

/* An element, an item, or the delimiter that closes the list or sequence. */
struct element {
    uint32_t tag;
    bool closes;
    bool sequence;
    struct part value;
    size_t next; /* the place after it */
};

struct part whole_list(const uint8_t *bytes, size_t length, enum syntax syntax);

/* The reader's refusal: "number, place and depth". */
struct refusal {
    int number;   /* 1 to 7; 0: nothing is refused, and the rest says nothing */
    size_t place; /* of the first byte of the header at fault, or where a cut one should begin */
    int depth;    /* the sequences that this header lies in */
};

/* Reads the list to its end, or to the first header at fault. Read or refused, `passed` says "how
   many headers it passed: one for each element, item or delimiter read whole"; `next`, the
   place after the list, is set only where nothing is refused. */
struct refusal read_list(const struct part *list, size_t *next, size_t *passed);

/* In a list that has been read: its first element, and the element of this tag. */
bool find_first(const struct part *list, struct element *found);
bool find(const struct part *list, uint32_t tag, struct element *found);

/* In a sequence that has been read: how many items, and the list in the first of them. */
size_t count_items(const struct part *sequence, struct part *first);

/* Number values, little endian. */
uint16_t number_16(const uint8_t *bytes);
uint32_t number_32(const uint8_t *bytes);

/* Writing: defined lengths. The caller keeps tags ascending. */
struct writer {
    uint8_t *bytes;
    size_t length;
    enum syntax syntax;
};

void write_16(struct writer *w, uint16_t number);
void write_32(struct writer *w, uint32_t number);
void write_us(struct writer *w, uint32_t tag, uint16_t number);
void write_ul(struct writer *w, uint32_t tag, uint32_t number);
void write_ui(struct writer *w, uint32_t tag, const struct uid *uid);
void write_sq(struct writer *w, uint32_t tag, uint32_t length);
void write_item(struct writer *w, uint32_t length);
uint32_t ui_element_length(const struct uid *uid);

#endif
