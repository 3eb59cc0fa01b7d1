/* What a feed must come to by the rules of docs/RULES.md, and why. */
#ifndef REASONS_H
#define REASONS_H

#include "walk.h"

/* A film's line for each of eight films, and a fault's for each of eleven attributes, are not more. */
enum { REASON_MOST = 512, REASONS_MOST = 20 };

struct reason {
    uint32_t returned;      /* GATEWAY_RESPONSE, GATEWAY_DROPPED .. */
    uint32_t status;        /* of a response */
    unsigned check;         /* that gave a status other than success; else 0 */
    struct stopped stopped; /* where the reading stopped, of check 5 */
    char text[REASON_MOST];
    /* what else is wrong with the message, and did not decide */
    char also[REASONS_MOST][REASON_MOST];
    size_t also_count;
};

/* Says why. */
void say(struct reason *r, const char *format, ...);
void say_also(struct reason *r, const char *format, ...);

/* A status, by a check and for a reason. */
void answer(struct reason *r, uint32_t status, unsigned check, const char *format, ...);

/* A value's characters between quotes, the first of them where they are many. */
struct quoted {
    char text[160];
};

struct quoted quote(const uint8_t *value, size_t length);

#endif
