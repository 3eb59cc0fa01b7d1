/* Random data sets: sound ones, and damaged ones. */
#ifndef NOISE_H
#define NOISE_H

#include "../../host/data_sets.h"

/* A generator of numbers; its state is its seed, not 0. */
struct noise {
    uint64_t state;
};

/* A number below n, which is not 0. */
uint32_t below(struct noise *r, uint32_t n);

/* Up to 96 random bytes. */
void put_random(struct noise *r, struct data_set *d);

/* A sound list, but that sequences stand up to six deep in it. */
void put_grown(struct noise *r, struct data_set *d);

/* Changes a few bytes somewhere, or cuts. */
void damage(struct noise *r, struct data_set *d);

#endif
