/* The cost of a call on full records: taking an entry, and the N-SET of a box with a picture; and, beside copying as
 * many bytes as the records have, looking up a UID as long as a made one can be, which differs from those of all 288
 * boxes at its end alone. */
#include <string.h>

#include "../host/console.h"
#include "../include/gateway.h"
#include "../tests/lent/full.h"
#include "timing.h"

enum { CALLS = 2000, CONTEXT = 1, NO_SUCH_INSTANCE = 0x0112, SIDE = 32 };

#define LAST_BOX "1.9.7.396"
#define LONG_ROOT "1.2.826.0.1.3680043.10.1234.5.6.7.8.9.10"

static uint8_t full[GATEWAY_RECORDS], records[GATEWAY_RECORDS], entry[GATEWAY_ENTRY];
static uint8_t message[GATEWAY_MESSAGE_LEAST], fragment[CONSOLE_FRAGMENT], picture[CONSOLE_FRAGMENT];
static size_t picture_length;
static uint8_t command[GATEWAY_COMMAND], data[GATEWAY_DATA], report[GATEWAY_REPORT];

/* A copy that the compiler leaves where it is. */
static void copy(void)
{
    memcpy(records, full, sizeof records);
    __asm__ volatile("" ::: "memory");
}

static void copies(void *given)
{
    (void)given;
    for (int i = 0; i < CALLS; i++)
        copy();
}

/* Each take is on records that are full again. */
static void copies_and_takes(void *given)
{
    (void)given;
    for (int i = 0; i < CALLS; i++) {
        copy();
        if (gateway_take(records, sizeof records, entry, sizeof entry) != GATEWAY_DONE)
            stop("a take is refused");
    }
}

static uint32_t feed(const uint8_t *bytes, size_t length)
{
    return gateway_feed(records, sizeof records, message, sizeof message, bytes, length, command, sizeof command, data,
                        sizeof data, report, sizeof report);
}

/* A request for an instance that is not live leaves the records as they are. */
static void copies_and_look_ups(void *given)
{
    const size_t *length = given;
    for (int i = 0; i < CALLS; i++) {
        copy();
        if (feed(fragment, *length) != GATEWAY_RESPONSE ||
            number_at(report + GATEWAY_REPORT_STATUS, 2) != NO_SUCH_INSTANCE)
            stop("an instance is found that is not live");
    }
}

/* The command and the data set, a fragment each. */
static void copies_and_sets(void *given)
{
    const size_t *length = given;
    for (int i = 0; i < CALLS; i++) {
        copy();
        if (feed(fragment, *length) != GATEWAY_WAIT || feed(picture, picture_length) != GATEWAY_RESPONSE ||
            number_at(report + GATEWAY_REPORT_NOTE, 2) != GATEWAY_NOTE_PICTURE)
            stop("a box is not set");
    }
}

/* Of one call, and of one copy before it. */
static struct medians time_calls(void (*calls)(void *), size_t length, int rounds)
{
    struct medians m = time_sides((struct sides){ copies, calls, &length }, rounds);
    return (struct medians){ m.plain / CALLS, (m.archive - m.plain) / CALLS };
}

/* The command of a box's N-SET; its length. */
static size_t put_command(const char *box, bool with_data)
{
    struct data_set request = new_data_set(GATEWAY_MESSAGE_LEAST, IMPLICIT);
    make_command(&request, N_SET, IMAGE_BOX, box, 1, with_data);
    size_t length = make_fragment(fragment, CONTEXT, true, true, request.bytes, request.n);
    free_data_set(&request);
    return length;
}

/* The N-SET of the last film's last box; its command's length. */
static size_t put_request(void)
{
    struct data_set box = new_data_set(GATEWAY_MESSAGE_LEAST, IMPLICIT);
    put_box(&box, GATEWAY_BOXES, SIDE, SIDE, 128);
    picture_length = make_fragment(picture, CONTEXT, false, true, box.bytes, box.n);
    free_data_set(&box);
    return put_command(LAST_BOX, true);
}

/* Gives the records a long root; the request's length. */
static size_t lengthen(void)
{
    full[0] = sizeof LONG_ROOT - 1;
    memcpy(full + 1, LONG_ROOT, sizeof LONG_ROOT - 1);
    return put_command(LONG_ROOT ".999", false);
}

int main(int argc, char **argv)
{
    int rounds = rounds_of(argc, argv);
    fill_records(full);
    print_alone("a take on full records", time_calls(copies_and_takes, 0, rounds).archive, 2e-6);
    print_alone("N-SET of a box on full records", time_calls(copies_and_sets, put_request(), rounds).archive, 5.6e-6);
    struct medians look_up = time_calls(copies_and_look_ups, lengthen(), rounds);
    print_row("a look-up among 288 boxes", "a copy of the records", look_up, 0);
    return 0;
}
