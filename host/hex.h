/* Bytes in hexadecimal. */
#ifndef HEX_H
#define HEX_H

#include <stdbool.h>
#include <stddef.h>
#include <stdint.h>

/* The value of a digit; -1 for any other character. */
int hex_digit(int c);

/* The bytes of a word, of which there are half as many as characters; false where it is no such word. */
bool hex_bytes(const char *word, uint8_t *bytes);

#endif
