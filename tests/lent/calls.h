/* The five calls on lent buffers. Each call is judged: it returns the number that the rules' table of refusals
 * gives, or where there is none an answer that the fragment allows; guards stay; a refusal changes nothing, but for 5,
 * which leaves what close leaves; bytes past those written stay; what is left keeps the rules. The program ends where
 * one does not. */
#ifndef CALLS_H
#define CALLS_H

#include "lend.h"

enum call { START, OPEN, FEED, CLOSE, TAKE, CALLS };

enum { NUMBERS = 20, STATES = 5 };

/* How often each call returned each number, and how often a feed that was not refused met each collecting state. */
extern unsigned long returned[CALLS][NUMBERS], met[STATES];

/* Prints them, and ends the program where one was never reached. */
void print_counts(void);

/* The buffers of a feed. */
enum buffer { RECORDS, MESSAGE, COMMAND, DATA, REPORT, FRAGMENT, BUFFERS };

struct feed {
    struct lent lent[BUFFERS];
};

void give_feed_back(struct feed *f);

/* Each returns what the call returned. A root is known to be sound, or not. */
uint32_t try_start(struct lent *records, const char *root, bool root_sound, uint32_t serial, uint32_t picture);
uint32_t try_open(struct lent *records, struct lent *message, uint32_t context, uint32_t syntax);
uint32_t try_feed(struct feed *f);
uint32_t try_close(struct lent *records);
uint32_t try_take(struct lent *records, struct lent *entry);

/* Whether take refuses the records with 1. */
bool break_rule(const uint8_t *records);

#endif
