/* Feeding a picture of almost 16 MiB to a box, in fragments of one size, beside a plain copy of the same bytes in the
 * same pieces. */
#include <stdio.h>
#include <string.h>

#include "../include/gateway.h"
#include "served.h"
#include "timing.h"

/* 4,096 bytes are left for all but the pixels. */
enum { ROWS = 4095, COLUMNS = 4096, HEADER = 6, CONTEXT = 1 };

static uint8_t copied[GATEWAY_MESSAGE_MOST];

/* The N-SET of a box, cut so that each data fragment carries so many bytes. */
static struct fragments cut_request(const char *box, size_t piece)
{
    static uint8_t fragment[HEADER + GATEWAY_MESSAGE_MOST];
    struct fragments f = no_fragments(2 * GATEWAY_MESSAGE_MOST, 2 + GATEWAY_MESSAGE_MOST / piece);
    struct data_set set = new_data_set(GATEWAY_MESSAGE_MOST, IMPLICIT);
    make_command(&set, N_SET, IMAGE_BOX, box, 1, true);
    keep_fragment(&f, fragment, make_fragment(fragment, CONTEXT, true, true, set.bytes, set.n));
    set.n = 0;
    put_box(&set, 1, ROWS, COLUMNS, 128);
    for (size_t at = 0, size; at < set.n; at += size) {
        size = set.n - at < piece ? set.n - at : piece;
        keep_fragment(&f, fragment, make_fragment(fragment, CONTEXT, false, at + size == set.n, set.bytes + at, size));
    }
    free_data_set(&set);
    return f;
}

static void copy_all(void *given)
{
    const struct fragments *f = given;
    size_t to = 0;
    for (size_t i = 1; i < f->count; i++) {
        size_t from = f->ends[i - 1] + HEADER, size = f->ends[i] - from;
        memcpy(copied + to, f->bytes.bytes + from, size);
        to += size;
    }
    __asm__ volatile("" ::: "memory");
}

static void feed_all(void *given)
{
    const struct fragments *f = given;
    uint32_t n = GATEWAY_WAIT;
    for (size_t i = 0, from = 0; i < f->count; from = f->ends[i++])
        n = served_feed(f->bytes.bytes + from, f->ends[i] - from);
    if (n != GATEWAY_RESPONSE)
        stop("the last fragment brings no response");
}

static void compare(const char *box, size_t kib, double aim, int rounds)
{
    char what[64];
    struct fragments f = cut_request(box, kib * 1024);
    snprintf(what, sizeof what, "16 MiB picture, fragments of %zu KiB", kib);
    print_row(what, "a copy of the bytes", time_sides((struct sides){ copy_all, feed_all, &f }, rounds), aim);
    free_data_set(&f.bytes);
}

int main(int argc, char **argv)
{
    int rounds = rounds_of(argc, argv);
    struct console console = new_console(IMPLICIT, CONTEXT, CONSOLE_FRAGMENT, 1, 1, 1);
    serve_until(&console, WISH_PICTURE, GATEWAY_MESSAGE_MOST, NULL);
    compare(console.boxes[0], 4, 0, rounds);
    compare(console.boxes[0], 16, 0, rounds);
    compare(console.boxes[0], 128, 1.5, rounds);
    free_console(&console);
    return 0;
}
