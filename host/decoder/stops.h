/* A refused set in words: where the reading stopped, what stands there, and what was expected. */
#ifndef STOPS_H
#define STOPS_H

#include "walk.h"

struct words {
    char text[512];
};

/* What a refusal says of any set. */
const char *refusal_text(uint32_t refusal);

/* The number, the place and the depth: "refused with 3 at 84, in 1 sequence". */
struct words stop_words(struct stopped s);
struct words depth_words(uint32_t depth);

/* The same with the headers that were passed: "read whole, 12 headers", "refused with .., after 7 headers". */
struct words reading_words(struct reading r);
struct words headers_words(size_t headers);

/* All of a refusal in a sentence, with its rule. */
struct words refusal_words(const struct walked *w, const uint8_t *bytes);

/* What stands in the place of the header at fault; what should. */
struct words found_words(const struct walked *w, const uint8_t *bytes);
struct words expected_words(const struct walked *w);

/* The sequences that it lies in, the outermost first, with their items; empty in the set's own list. */
struct words path_words(const struct walked *w);

#endif
