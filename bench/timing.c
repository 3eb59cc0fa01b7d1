#include "timing.h"

#include <stdio.h>
#include <stdlib.h>
#include <time.h>

enum { MOST_ROUNDS = 99 };

static double now(void)
{
    struct timespec t;
    clock_gettime(CLOCK_PROCESS_CPUTIME_ID, &t);
    return (double)t.tv_sec + 1e-9 * (double)t.tv_nsec;
}

static double timed(void (*side)(void *), void *given)
{
    double began = now();
    side(given);
    return now() - began;
}

static int ascending(const void *a, const void *b)
{
    double x = *(const double *)a, y = *(const double *)b;
    return (x > y) - (x < y);
}

static double median(double *seconds, int rounds)
{
    qsort(seconds, (size_t)rounds, sizeof *seconds, ascending);
    return seconds[rounds / 2];
}

struct medians time_sides(struct sides s, int rounds)
{
    double plain[MOST_ROUNDS], archive[MOST_ROUNDS];
    for (int i = 0; i < rounds; i++) {
        if (i % 2 == 0)
            plain[i] = timed(s.plain, s.given);
        archive[i] = timed(s.archive, s.given);
        if (i % 2 != 0)
            plain[i] = timed(s.plain, s.given);
    }
    return (struct medians){ median(plain, rounds), median(archive, rounds) };
}

void print_row(const char *what, const char *beside, struct medians m, double aim)
{
    printf("%s\t%s\t%.12f\t%.12f\t%g\n", what, beside, m.plain, m.archive, aim);
    fflush(stdout);
}

void print_alone(const char *what, double seconds, double aim)
{
    print_row(what, "", (struct medians){ 0, seconds }, aim);
}

int rounds_of(int argc, char **argv)
{
    int rounds = argc > 1 ? atoi(argv[1]) : 0;
    return rounds < 1 || rounds > MOST_ROUNDS ? 7 : rounds;
}

_Noreturn void stop(const char *why)
{
    fprintf(stderr, "bench: %s\n", why);
    exit(1);
}
