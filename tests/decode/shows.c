/* Holds the walk that shows a set to the proved reader: `shows CALLS` draws so many random data sets, sound and
 * damaged, and ends with 1 where the two stop with different numbers, at different places, at different depths or after
 * different numbers of headers, or where a refusal or a depth did not come up. What is shown goes nowhere. */
#include <stdio.h>
#include <stdlib.h>

#include "../../host/decoder/show.h"
#include "../../host/decoder/stops.h"
#include "../../include/inspect.h"
#include "../walks/noise.h"

enum { ROOM = 1 << 20, ANSWERS = 8, DEPTHS = LEVELS + 1 };

static void draw(struct noise *r, struct data_set *d)
{
    d->n = 0;
    d->explicit_vr = below(r, 2) == 0;
    if (below(r, 8) == 0)
        put_random(r, d);
    else
        put_grown(r, d);
    for (uint32_t n = below(r, 4); n > 0; n--)
        damage(r, d);
}

static struct reading ask_reader(const struct data_set *d)
{
    uint8_t reading[INSPECT_READING] = { 0 };
    uint32_t refusal = inspect_data_set(d->bytes, d->n, d->explicit_vr ? EXPLICIT : IMPLICIT, reading, sizeof reading);
    struct stopped stopped = { refusal, (size_t)number_at(reading + INSPECT_READING_PLACE, 4),
                               (uint32_t)number_at(reading + INSPECT_READING_DEPTH, 4) };
    return (struct reading){ stopped, (size_t)number_at(reading + INSPECT_READING_HEADERS, 4) };
}

static struct reading show(struct pieces *set, const struct data_set *d)
{
    empty_pieces(set);
    put_piece(set, d->bytes, d->n, 0);
    struct walked walked = show_set(set, d->explicit_vr);
    return reading_of(&walked);
}

static void say_difference(struct reading shown, struct reading proved)
{
    fprintf(stderr, "decode: what is shown is %s, by the reader %s\n", reading_words(shown).text,
            reading_words(proved).text);
}

/* Whether each came up. */
static bool say_counts(const char *what, const unsigned long counts[], int n)
{
    bool all = true;
    fprintf(stderr, "decode: random data sets by the reader's %s 0 to %d:", what, n - 1);
    for (int i = 0; i < n; i++) {
        fprintf(stderr, " %lu", counts[i]);
        all = all && counts[i] > 0;
    }
    fprintf(stderr, "\n");
    return all;
}

int main(int argc, char **argv)
{
    unsigned long calls = argc > 1 ? strtoul(argv[1], NULL, 10) : 50000;
    unsigned long numbers[ANSWERS] = { 0 }, depths[DEPTHS] = { 0 };
    struct noise r = { 20260131 };
    struct data_set d = new_data_set(ROOM, IMPLICIT);
    struct pieces set = new_pieces(ROOM);
    if (freopen("/dev/null", "w", stdout) == NULL)
        return 2;
    for (unsigned long i = 0; i < calls; i++) {
        draw(&r, &d);
        struct reading proved = ask_reader(&d), shown = show(&set, &d);
        if (!same_reading(proved, shown) || proved.stopped.refusal >= ANSWERS || proved.stopped.depth >= DEPTHS) {
            say_difference(shown, proved);
            return 1;
        }
        numbers[proved.stopped.refusal]++;
        depths[proved.stopped.depth]++;
    }
    bool all = say_counts("numbers", numbers, ANSWERS) && say_counts("depths", depths, DEPTHS);
    free_data_set(&d);
    free_pieces(&set);
    return all ? 0 : 1;
}
