/* A plain reader of element lists, to compare with and to time beside. */
#ifndef PLAIN_READER_H
#define PLAIN_READER_H

#include <stddef.h>
#include <stdint.h>

/* How a reading went: of a refusal the first byte of the header at fault, from the data set's start, and how many
   sequences that header lies in; and how many headers were passed, of elements, items and delimiters. */
struct plain_reading {
    size_t place;
    uint32_t depth;
    size_t headers;
};

/* Reads n bytes as one data set; syntax 1 is implicit VR, 2 explicit. Returns 0 where it is read whole; 1 to 7 for the
   refusal; 8 for another syntax. Place and depth are written with 1 to 7 alone, the number of headers with 0 too, and
   the header at fault is not counted. */
uint32_t plain_data_set(const uint8_t *bytes, size_t n, uint32_t syntax, struct plain_reading *reading);

#endif
