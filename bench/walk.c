/* The walk of 16 MiB of elements by the proved reader, beside the same walk in plain C. */
#include "../host/data_sets.h"
#include "../include/inspect.h"
#include "plain_reader.h"
#include "timing.h"

#define SIZE ((size_t)16 << 20)

static uint32_t syntax_of(const struct data_set *d)
{
    return d->explicit_vr ? EXPLICIT : IMPLICIT;
}

static void walk_plain(void *given)
{
    const struct data_set *d = given;
    struct plain_reading reading;
    if (plain_data_set(d->bytes, d->n, syntax_of(d), &reading) != 0)
        stop("plain C refuses a data set");
}

static void walk_archive(void *given)
{
    const struct data_set *d = given;
    uint8_t reading[INSPECT_READING];
    if (inspect_data_set(d->bytes, d->n, syntax_of(d), reading, sizeof reading) != 0)
        stop("the reader refuses a data set");
}

static void compare(const char *what, struct data_set d, int rounds)
{
    print_row(what, "the walk in plain C", time_sides((struct sides){ walk_plain, walk_archive, &d }, rounds), 2);
    free_data_set(&d);
}

static struct data_set items(uint32_t syntax, bool loose)
{
    size_t header = syntax == EXPLICIT ? 12 : 8;
    size_t counts[LEVELS] = { 1, 1, 1, 0 };
    size_t around = (LEVELS - 1) * (8 + header + 8 + (loose ? 16 : 0)) + 8 + header + 8;
    counts[LEVELS - 1] = (SIZE - around) / (loose ? 24 : 16);
    return nest(syntax, SIZE, counts, LEVELS, loose);
}

int main(int argc, char **argv)
{
    int rounds = rounds_of(argc, argv);
    compare("walk, implicit, empty elements", long_list(IMPLICIT, SIZE / 8, 0), rounds);
    compare("walk, explicit, empty elements", long_list(EXPLICIT, SIZE / 8, 0), rounds);
    compare("walk, implicit, values of 2 bytes", long_list(IMPLICIT, SIZE / 10, 2), rounds);
    compare("walk, explicit, values of 2 bytes", long_list(EXPLICIT, SIZE / 10, 2), rounds);
    compare("walk, implicit, items", items(IMPLICIT, false), rounds);
    compare("walk, explicit, items", items(EXPLICIT, false), rounds);
    compare("walk, implicit, items, undefined", items(IMPLICIT, true), rounds);
    compare("walk, explicit, items, undefined", items(EXPLICIT, true), rounds);
    return 0;
}
