/* Buffers lent between guards. */
#ifndef LEND_H
#define LEND_H

#include <stdbool.h>
#include <stddef.h>
#include <stdint.h>

/* A buffer, and what it held when it was lent. */
struct lent {
    uint8_t *whole, *at, *before;
    size_t length;
};

/* A buffer of so many bytes that begins with those given, as many of them as fit. */
struct lent lend(const uint8_t *bytes, size_t given, size_t length);
void give_back(struct lent *l);

/* What it holds now is what it held when it was lent. */
void settle(struct lent *l);

/* The bytes around it have not changed. */
bool guarded(const struct lent *l);

/* Nothing has changed in it, or nothing from a place on, or nothing but between two places. */
bool untouched(const struct lent *l);
bool stays(const struct lent *l, size_t from);
bool stays_around(const struct lent *l, size_t from, size_t to);

#endif
