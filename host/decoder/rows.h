/* Dumps in rows, each with an offset before its bytes: xxd, hexdump -C, od -Ax -tx1, Wireshark. */
#ifndef ROWS_H
#define ROWS_H

#include "../data_sets.h"
#include "scanning.h"

/* Whether the line here is such a row: an offset of 4 to 8 digits, and a colon or bytes that are written otherwise. */
bool is_row(const struct scan *s);

/* Puts the bytes of all rows; the offset of the first. */
size_t read_rows(struct scan *s, struct data_set *bytes);

#endif
