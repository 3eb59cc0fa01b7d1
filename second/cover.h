/* Counting what a trial reached. COVER names a branch of the rules; CHECK is a row
   "test => number", counted where it applies. Without -DCOVERAGE nothing is counted. */
#ifndef COVER_H
#define COVER_H

#ifdef COVERAGE
#include <stddef.h>

struct cover_point {
    const char *name;
    unsigned long count;
    struct cover_point *next;
};

void cover_hit(struct cover_point *point);
void cover_print(void);

#define COVER(text)                                                                              \
    do {                                                                                         \
        static struct cover_point point_ = { text, 0, NULL };                                    \
        cover_hit(&point_);                                                                      \
    } while (0)
#else
#define COVER(text) ((void)0)
#define cover_print() ((void)0)
#endif

#define CHECK(applies, number, text)                                                             \
    do {                                                                                         \
        if (applies) {                                                                           \
            COVER(text);                                                                         \
            return number;                                                                       \
        }                                                                                        \
    } while (0)

#endif
