/* The pixels that a host stores, under their picture's number. */
#ifndef PICTURES_H
#define PICTURES_H

#include <stddef.h>
#include <stdint.h>

struct picture {
    uint32_t number; /* 0: none */
    size_t length;
    uint8_t *pixels;
};

/* Copies the pixels; ends the program where there is no memory. */
void store_picture(uint32_t number, const uint8_t *pixels, size_t length);

/* NULL where there is none of this number. */
const struct picture *stored_picture(uint32_t number);

/* Frees what neither a box nor an entry of the queue names any more. An entry that was taken names nothing: its
 * pictures are freed once it is printed, and not before. */
void free_unnamed(const uint8_t *records);

#endif
