/* What the archive libinspect.a exports. */
#ifndef INSPECT_H
#define INSPECT_H

#include <stddef.h>
#include <stdint.h>

#ifdef __cplusplus
extern "C" {
#endif

/* How many bytes the buffer has at least, and where things stand in it, little endian, four bytes each: of a number that
   needs more, in a data set of 4 GiB or longer, the lowest four. */
enum {
    INSPECT_READING_PLACE = 0,   /* the first byte of the header at fault, from the data set's start */
    INSPECT_READING_DEPTH = 4,   /* how many sequences that header lies in, 0 to 4 */
    INSPECT_READING_HEADERS = 8, /* how many headers were passed, of elements, items and delimiters; at most n / 8 */
    INSPECT_READING = 12
};

/* Reads n bytes as one data set; syntax 1 is implicit VR, 2 explicit. Returns 0 where it is read whole; 1 to 7 for the
   refusal; 8 for another syntax; 9 for a buffer that is too short. Place and depth are written with 1 to 7 alone, the
   number of headers with 0 too, and the header at fault is not counted. */
uint32_t inspect_data_set(const uint8_t *bytes, size_t n, uint32_t syntax, uint8_t *reading, size_t reading_length);

#ifdef __cplusplus
}
#endif

#endif
