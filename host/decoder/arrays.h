/* Bytes as C writes them: arrays, and strings of escapes. */
#ifndef ARRAYS_H
#define ARRAYS_H

#include "../data_sets.h"
#include "scanning.h"

/* Puts the numbers between braces, of one array or of several; of a text without braces, all of it. */
void read_arrays(struct scan *s, struct data_set *bytes);

/* Puts the bytes of "\x00\x01" .., with quotes or without, in one line or in several. */
void read_escapes(struct scan *s, struct data_set *bytes);

#endif
