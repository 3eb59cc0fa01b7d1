#include "cover.h"

#include <stdio.h>

static struct cover_point *reached;

void cover_hit(struct cover_point *point)
{
    if (point->count++ == 0) {
        point->next = reached;
        reached = point;
    }
}

void cover_print(void)
{
    for (const struct cover_point *p = reached; p != NULL; p = p->next)
        fprintf(stderr, "%lu\t%s\n", p->count, p->name);
}
