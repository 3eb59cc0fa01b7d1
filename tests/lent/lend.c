#include "lend.h"

#include <stdlib.h>
#include <string.h>

enum { GUARD = 64, PATTERN = 0xA5 };

struct lent lend(const uint8_t *bytes, size_t given, size_t length)
{
    struct lent l = { malloc(length + 2 * GUARD), NULL, malloc(length + 1), length };
    size_t size = given < length ? given : length;
    if (l.whole == NULL || l.before == NULL)
        exit(2);
    l.at = l.whole + GUARD;
    memset(l.whole, PATTERN, GUARD);
    memset(l.at + size, PATTERN, length - size + GUARD);
    if (size > 0)
        memcpy(l.at, bytes, size);
    settle(&l);
    return l;
}

void give_back(struct lent *l)
{
    free(l->whole);
    free(l->before);
}

void settle(struct lent *l)
{
    memcpy(l->before, l->at, l->length);
}

bool guarded(const struct lent *l)
{
    for (size_t i = 0; i < GUARD; i++)
        if (l->whole[i] != PATTERN || l->at[l->length + i] != PATTERN)
            return false;
    return true;
}

bool untouched(const struct lent *l)
{
    return stays(l, 0);
}

bool stays(const struct lent *l, size_t from)
{
    return from >= l->length || memcmp(l->at + from, l->before + from, l->length - from) == 0;
}

bool stays_around(const struct lent *l, size_t from, size_t to)
{
    return memcmp(l->at, l->before, from) == 0 && stays(l, to);
}
