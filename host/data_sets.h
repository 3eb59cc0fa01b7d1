/* Data sets made in memory, for the console, the tests and the benchmark, and what the gateway wrote read back. */
#ifndef DATA_SETS_H
#define DATA_SETS_H

#include <stdbool.h>
#include <stddef.h>
#include <stdint.h>

enum { IMPLICIT = 1, EXPLICIT = 2 };

/* How many sequences may stand in one another. */
enum { LEVELS = 4 };

struct data_set {
    uint8_t *bytes;
    size_t n, room;
    bool explicit_vr;
};

/* An empty one with room for so many bytes; ends the program where there is none. */
struct data_set new_data_set(size_t room, uint32_t syntax);
void free_data_set(struct data_set *d);

/* Each of these ends the program where the room is used up. A VR is two letters. */
void put_bytes(struct data_set *d, const uint8_t *bytes, size_t n);
void put_number(struct data_set *d, uint32_t x, int width);
void put_tag(struct data_set *d, uint32_t tag);
void put_header(struct data_set *d, uint32_t tag, const char *vr, uint32_t length);
void put_element(struct data_set *d, uint32_t tag, const char *vr, const uint8_t *value, uint32_t length);

/* A text, padded to an even length: a UID with a zero, any other with a space. A number of two bytes. */
void put_text(struct data_set *d, uint32_t tag, const char *vr, const char *text);
void put_us(struct data_set *d, uint32_t tag, uint16_t value);

/* A sequence or an item is opened, filled and closed by what open gave; loose for an undefined length. */
size_t open_sequence(struct data_set *d, uint32_t tag, bool loose);
void close_sequence(struct data_set *d, size_t opened, bool loose);
size_t open_item(struct data_set *d, bool loose);
void close_item(struct data_set *d, size_t opened, bool loose);

/* Elements with values of length bytes, at most 8, one tag after another, from (0030,0000) on. */
struct data_set long_list(uint32_t syntax, size_t count, uint32_t length);

/* Sequences in one another: items[k] items on level k, and an empty element before each sequence and in the innermost
   items. */
struct data_set nest(uint32_t syntax, size_t room, const size_t items[], int levels, bool loose);

/* An element or an item, and where its value stands. */
struct element {
    uint32_t tag;
    const uint8_t *value;
    size_t length;
};

/* The one at a place of a sound list or sequence in which no length is undefined; the place moves past it. */
struct element next_element(const uint8_t *bytes, size_t *at, bool explicit_vr);

/* The element of a tag in such a list, without what items hold; its value is NULL where there is none. */
struct element find_element(const uint8_t *bytes, size_t n, uint32_t tag, bool explicit_vr);

/* A number, little endian. */
uint64_t number_at(const uint8_t *p, int width);

#endif
