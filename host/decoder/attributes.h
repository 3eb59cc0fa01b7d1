/* Check 8: what a data set says for a session, a film or a box, by rules 7.1 to 7.13. */
#ifndef ATTRIBUTES_H
#define ATTRIBUTES_H

#include "headers.h"
#include "live.h"
#include "reasons.h"

/* What the image sequence of a box asks for. */
enum image { KEEPS, ERASES, FILLS };

/* An attribute at fault, with the status that it gives. */
struct fault {
    uint32_t status;
    char text[REASON_MOST];
};

/* What check 8 finds, and what later checks need of the data set. */
struct findings {
    uint32_t status;   /* 0, or that of the worst fault */
    size_t boxes;      /* of a film's format */
    uint32_t position; /* of a box */
    enum image image;
    struct fault faults[REASONS_MOST];
    size_t count;
};

void judge_session(const struct list *l, struct findings *f);
void judge_new_film(const struct list *l, const uint8_t *records, struct findings *f);
void judge_set_film(const struct list *l, struct findings *f);

/* A box of a film that has so many. */
void judge_box(const struct list *l, size_t boxes, struct findings *f);

#endif
