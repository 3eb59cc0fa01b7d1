/* A whole small job (start, open, session, film, four boxes of 64 by 64, print, take, close) beside the second
 * program's code built alike. Both are fed the same fragments. */
#include <stdio.h>

#include "../include/gateway.h"
#include "second_side.h"
#include "served.h"
#include "timing.h"

enum { JOBS = 200, ROOM = 65536 };

static void second_jobs(void *given)
{
    const struct fragments *f = given;
    for (int i = 0; i < JOBS; i++)
        second_job(f->bytes.bytes, f->ends, f->count, ROOM);
}

static void archive_jobs(void *given)
{
    const struct fragments *f = given;
    for (int i = 0; i < JOBS; i++) {
        served_start();
        served_open(ROOM, IMPLICIT);
        for (size_t k = 0, from = 0; k < f->count; from = f->ends[k++])
            served_feed(f->bytes.bytes + from, f->ends[k] - from);
        served_take();
        served_close();
    }
}

static void compare(size_t piece, int rounds)
{
    char what[64];
    struct console console = new_console(IMPLICIT, 1, piece, 2, 2, 4);
    struct fragments f = no_fragments(4 * ROOM, 1000);
    console.wish = WISH_SESSION;
    serve_until(&console, WISH_DELETION, ROOM, &f);
    struct medians m = time_sides((struct sides){ second_jobs, archive_jobs, &f }, rounds);
    m.plain /= JOBS;
    m.archive /= JOBS;
    snprintf(what, sizeof what, "small job, %zu fragments", f.count);
    print_row(what, "the second program", m, 1.5);
    free_data_set(&f.bytes);
    free_console(&console);
}

int main(int argc, char **argv)
{
    int rounds = rounds_of(argc, argv);
    compare(CONSOLE_FRAGMENT, rounds);
    compare(1500, rounds);
    return 0;
}
