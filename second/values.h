/* Values of attributes: found in a list, spaces taken off, and read as words and numbers. */
#ifndef VALUES_H
#define VALUES_H

#include "elements.h"

enum { LABEL_MOST = 64 };

/* How many characters count, by VR: all, without trailing spaces, or without spaces at both ends. */
enum spaces { ALL_COUNT, TRAILING_DO_NOT, OUTER_DO_NOT };

enum presence { ABSENT, EMPTY, PRESENT };

struct value {
    const uint8_t *bytes;
    size_t length;
    size_t place; /* in the message buffer */
};

enum presence find_value(const struct part *list, uint32_t tag, enum spaces spaces,
                         struct value *value);

/* CS: the number of the word among those allowed; -1 for none of them. */
int word_of(const struct value *value, const char *const *words, int count);

/* IS: whether PS3.5 reads it as one number, and the number. */
bool integer_of(const struct value *value, int64_t *number);

/* US: whether it is one number, and the number. */
bool short_of(const struct value *value, uint16_t *number);

/* LO, as Label has it. */
bool is_label(const struct value *value);

/* A film's format: its text, and how many boxes it has. */
enum { FORMAT_MOST = 15 };

struct format {
    char text[FORMAT_MOST + 1];
    unsigned boxes;
};

/* ST `STANDARD\C,R`, or by R-1 `ROW\r1,r2,..` or `COL\c1,c2,..`. */
bool format_of(const struct value *value, struct format *format);

#endif
