/* Calls beside their floor, the least work that they can do (floor.h): a C-ECHO on empty and on full records, and a
 * data fragment on full ones. Both answer alike, and write the same. */
#include <string.h>

#include "../host/console.h"
#include "../include/gateway.h"
#include "../tests/lent/full.h"
#include "floor.h"
#include "timing.h"

enum { CALLS = 4000, CONTEXT = 1, ROOM = 65536, DATA_BYTES = 16384, HEADER = 6 };

typedef uint32_t feed_call(uint8_t *, size_t, uint8_t *, size_t, const uint8_t *, size_t, uint8_t *, size_t, uint8_t *,
                           size_t, uint8_t *, size_t);

/* What a feed is lent. */
struct lent {
    uint8_t records[GATEWAY_RECORDS], message[ROOM];
    uint8_t command[GATEWAY_COMMAND], data[GATEWAY_DATA], report[GATEWAY_REPORT];
};

static struct lent lent;
static uint8_t fragment[HEADER + DATA_BYTES];
static size_t fragment_length;

static uint32_t feed_by(feed_call *feed, struct lent *l)
{
    return feed(l->records, sizeof l->records, l->message, sizeof l->message, fragment, fragment_length, l->command,
                sizeof l->command, l->data, sizeof l->data, l->report, sizeof l->report);
}

/* Of the records a C-ECHO changes nothing, and a data fragment the number of bytes, which is set back. */
static void feeds_by(feed_call *feed, uint32_t due)
{
    for (int i = 0; i < CALLS; i++) {
        memset(lent.records + GATEWAY_AT_GOT, 0, 4);
        if (feed_by(feed, &lent) != due)
            stop("a fragment is not answered as it should be");
    }
}

static void by_floor(void *due)
{
    feeds_by(floor_feed, *(uint32_t *)due);
}

static void by_archive(void *due)
{
    feeds_by(gateway_feed, *(uint32_t *)due);
}

static void hold_alike(void)
{
    static struct lent other;
    other = lent;
    struct lent before = lent;
    if (feed_by(floor_feed, &lent) != feed_by(gateway_feed, &other) || memcmp(&lent, &other, sizeof lent) != 0)
        stop("the floor does not do what the archive does");
    lent = before;
}

static void compare(const char *what, uint32_t due, double aim, int rounds)
{
    hold_alike();
    struct medians m = time_sides((struct sides){ by_floor, by_archive, &due }, rounds);
    m.plain /= CALLS;
    m.archive /= CALLS;
    print_row(what, "the floor in plain C", m, aim);
}

/* The fragment is a command without an instance, with a data set to come or not. */
static void put_command(uint16_t field, const char *class, bool with_data)
{
    struct data_set command = new_data_set(1024, IMPLICIT);
    make_command(&command, field, class, NULL, 7, with_data);
    fragment_length = make_fragment(fragment, CONTEXT, true, true, command.bytes, command.n);
    free_data_set(&command);
}

/* Full records whose message buffer has room for the data. */
static void fill(void)
{
    uint32_t room = ROOM;
    fill_records(lent.records);
    memcpy(lent.records + GATEWAY_AT_ROOM, &room, sizeof room);
}

/* N-CREATE of a session, whose command is there and whose data set is to come. */
static void await_data(void)
{
    static const uint8_t bytes[DATA_BYTES];
    put_command(N_CREATE, FILM_SESSION, true);
    if (feed_by(gateway_feed, &lent) != GATEWAY_WAIT)
        stop("a command is refused");
    fragment_length = make_fragment(fragment, CONTEXT, false, false, bytes, sizeof bytes);
}

int main(int argc, char **argv)
{
    int rounds = rounds_of(argc, argv);
    if (gateway_start(lent.records, sizeof lent.records, (const uint8_t *)"1.9.7", 5, 1, 1) != GATEWAY_DONE ||
        gateway_open(lent.records, sizeof lent.records, lent.message, ROOM, CONTEXT, IMPLICIT) != GATEWAY_DONE)
        stop("start or open is refused");
    put_command(C_ECHO, VERIFICATION, false);
    compare("C-ECHO on empty records", GATEWAY_RESPONSE, 2, rounds);
    fill();
    compare("C-ECHO on full records", GATEWAY_RESPONSE, 1.5, rounds);
    await_data();
    compare("16 KiB of data on full records", GATEWAY_WAIT, 1.3, rounds);
    return 0;
}
