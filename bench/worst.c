/* The feeds that take longest on a message buffer of 16 MiB, beside one walk of the same data set: an N-SET of a box
 * whose item begins with as much as fits of what is passed over, so that each walk over the item passes all of it.
 * Then the time of a header in both; and a text that is all spaces but for a letter, beside a copy of its bytes. */
#include <stdio.h>
#include <string.h>

#include "../include/gateway.h"
#include "../include/inspect.h"
#include "served.h"
#include "timing.h"

/* Behind what is passed over stand fewer bytes than AROUND. */
enum { HEADER = 6, CONTEXT = 1, AROUND = 256, LABEL_HEADER = 8, PROCESSING_FAILURE = 0x0110, REFUSED = 3 };

/* How often such a feed passes all of it: check 5; the attributes of the box are gathered, for which the sequence is
 * read through; its items are counted; and the attributes of its item are gathered. */
enum { PASSES = 4 };

/* A request: its command and its data set, each in one fragment, and what it is answered. */
struct request {
    uint8_t command[HEADER + 1024];
    size_t command_length, length;
    struct data_set data;
    uint16_t status;
    uint32_t refusal; /* what the reader says of the data set */
    uint32_t headers; /* how many headers it passes */
};

static uint8_t fragment[HEADER + GATEWAY_MESSAGE_MOST], copied[GATEWAY_MESSAGE_MOST];

/* Unnamed tags from (0001,0001) on: those of two references stand among them. */
static uint32_t next_tag(uint32_t tag)
{
    return tag + 1 == 0x00081150 || tag + 1 == 0x00081155 ? tag + 2 : tag + 1;
}

static void put_empty_elements(struct data_set *d, size_t stop)
{
    for (uint32_t tag = next_tag(0x00010000); d->n < stop; tag = next_tag(tag))
        put_header(d, tag, "US", 0);
}

/* Of defined length in explicit VR, whose headers have 12 bytes. */
static void put_empty_sequences(struct data_set *d, size_t stop)
{
    for (uint32_t tag = next_tag(0x00010000); d->n < stop; tag = next_tag(tag))
        put_header(d, tag, "SQ", 0);
}

/* A sequence of one item, which holds a sequence of one item, and so on; all of undefined length. */
static void put_nested(struct data_set *d, uint32_t tag, int levels)
{
    if (levels == 0)
        return;
    size_t sequence = open_sequence(d, tag, true), item = open_item(d, true);
    put_nested(d, tag, levels - 1);
    close_item(d, item, true);
    close_sequence(d, sequence, true);
}

static void put_nests(struct data_set *d, size_t stop)
{
    for (uint32_t tag = next_tag(0x00010000); d->n < stop; tag = next_tag(tag))
        put_nested(d, tag, LEVELS - 1);
}

/* Two pixels of 8 bits. A tag that is not above the one before it is refused. */
static void put_picture(struct data_set *d, bool refused)
{
    put_us(d, 0x00280002, 1);
    put_text(d, 0x00280004, "CS", "MONOCHROME2");
    put_us(d, 0x00280010, 1);
    put_us(d, 0x00280011, 2);
    put_us(d, 0x00280100, 8);
    put_us(d, 0x00280101, 8);
    put_us(d, 0x00280102, 7);
    put_us(d, refused ? 0x00280102 : 0x00280103, 0);
    put_element(d, 0x7FE00010, "OW", (const uint8_t *)"\200\200", 2);
}

static void put_box_with(struct data_set *d, void (*fill)(struct data_set *, size_t), bool refused)
{
    put_us(d, 0x20200010, 1);
    put_text(d, 0x20200020, "CS", "NORMAL");
    size_t sequence = open_sequence(d, 0x20200110, false), item = open_item(d, false);
    fill(d, GATEWAY_MESSAGE_MOST - AROUND);
    put_picture(d, refused);
    close_item(d, item, false);
    close_sequence(d, sequence, false);
}

static void put_spaces(struct data_set *d)
{
    size_t length = GATEWAY_MESSAGE_MOST - LABEL_HEADER;
    put_header(d, 0x20000050, "LO", (uint32_t)length);
    memset(d->bytes + d->n, ' ', length);
    d->bytes[d->n + length / 2] = 'A';
    d->n += length;
}

static void finish_request(struct request *r, const char *class, const char *instance)
{
    struct data_set command = new_data_set(1024, IMPLICIT);
    make_command(&command, N_SET, class, instance, 1, true);
    r->command_length = make_fragment(r->command, CONTEXT, true, true, command.bytes, command.n);
    r->length = make_fragment(fragment, CONTEXT, false, true, r->data.bytes, r->data.n);
    free_data_set(&command);
}

static void walk(void *given)
{
    struct request *r = given;
    uint8_t reading[INSPECT_READING];
    uint32_t syntax = r->data.explicit_vr ? EXPLICIT : IMPLICIT;
    if (inspect_data_set(r->data.bytes, r->data.n, syntax, reading, sizeof reading) != r->refusal)
        stop("the reader does not say of a data set what it should");
    r->headers = (uint32_t)number_at(reading + INSPECT_READING_HEADERS, 4);
}

static void feed(void *given)
{
    const struct request *r = given;
    if (served_feed(r->command, r->command_length) != GATEWAY_WAIT)
        stop("a command is refused");
    if (served_answer(fragment, r->length) != r->status)
        stop("a request is not answered as it should be");
}

static void copy(void *given)
{
    const struct request *r = given;
    memcpy(copied, r->data.bytes, r->data.n);
    __asm__ volatile("" ::: "memory");
}

static void compare_box(const char *what, uint32_t syntax, void (*fill)(struct data_set *, size_t), bool refused,
                        int rounds)
{
    char row[64];
    struct console console = new_console(syntax, CONTEXT, CONSOLE_FRAGMENT, 1, 1, 1);
    struct request r = { .data = new_data_set(GATEWAY_MESSAGE_MOST, syntax) };
    r.status = refused ? PROCESSING_FAILURE : 0;
    r.refusal = refused ? REFUSED : 0;
    serve_until(&console, WISH_PICTURE, GATEWAY_MESSAGE_MOST, NULL);
    put_box_with(&r.data, fill, refused);
    finish_request(&r, IMAGE_BOX, console.boxes[0]);
    struct medians m = time_sides((struct sides){ walk, feed, &r }, rounds);
    snprintf(row, sizeof row, "worst feed, %s", what);
    print_row(row, "one walk of it", m, 3);
    m.plain /= r.headers;
    m.archive /= (double)r.headers * (refused ? 1 : PASSES);
    snprintf(row, sizeof row, "a header, %s", what);
    print_row(row, "in one walk", m, 0);
    free_data_set(&r.data);
    free_console(&console);
}

static void compare_text(int rounds)
{
    struct console console = new_console(IMPLICIT, CONTEXT, CONSOLE_FRAGMENT, 1, 1, 1);
    struct request r = { .data = new_data_set(GATEWAY_MESSAGE_MOST, IMPLICIT) };
    serve_until(&console, WISH_PICTURE, GATEWAY_MESSAGE_MOST, NULL);
    put_spaces(&r.data);
    finish_request(&r, FILM_SESSION, console.session);
    struct medians m = time_sides((struct sides){ copy, feed, &r }, rounds);
    print_row("worst feed, a label of spaces", "a copy of the bytes", m, 0);
    free_data_set(&r.data);
    free_console(&console);
}

int main(int argc, char **argv)
{
    int rounds = rounds_of(argc, argv);
    compare_box("implicit, empty elements", IMPLICIT, put_empty_elements, false, rounds);
    compare_box("explicit, empty elements", EXPLICIT, put_empty_elements, false, rounds);
    compare_box("explicit, empty sequences", EXPLICIT, put_empty_sequences, false, rounds);
    compare_box("implicit, nested, undefined", IMPLICIT, put_nests, false, rounds);
    compare_box("explicit, nested, undefined", EXPLICIT, put_nests, false, rounds);
    compare_box("implicit, refused at its end", IMPLICIT, put_empty_elements, true, rounds);
    compare_text(rounds);
    return 0;
}
