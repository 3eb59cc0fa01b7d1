#include "served.h"

#include <stdlib.h>

#include "../include/gateway.h"
#include "timing.h"

enum { CONTEXT = 1 };

static uint8_t records[GATEWAY_RECORDS], message[GATEWAY_MESSAGE_MOST];
static uint8_t command[GATEWAY_COMMAND], data[GATEWAY_DATA], report[GATEWAY_REPORT], entry[GATEWAY_ENTRY];
static size_t message_length;

struct fragments no_fragments(size_t bytes, size_t count)
{
    struct fragments f = { new_data_set(bytes, IMPLICIT), malloc(count * sizeof *f.ends), 0 };
    if (f.ends == NULL)
        stop("no memory");
    return f;
}

void keep_fragment(struct fragments *f, const uint8_t *fragment, size_t length)
{
    put_bytes(&f->bytes, fragment, length);
    f->ends[f->count++] = f->bytes.n;
}

void served_start(void)
{
    if (gateway_start(records, sizeof records, (const uint8_t *)"1.9.7", 5, 1, 1) != GATEWAY_DONE)
        stop("start is refused");
}

void served_open(size_t room, uint32_t syntax)
{
    message_length = room;
    if (gateway_open(records, sizeof records, message, room, CONTEXT, syntax) != GATEWAY_DONE)
        stop("open is refused");
}

static uint32_t feed(const uint8_t *fragment, size_t length)
{
    return gateway_feed(records, sizeof records, message, message_length, fragment, length, command, sizeof command,
                        data, sizeof data, report, sizeof report);
}

uint32_t served_feed(const uint8_t *fragment, size_t length)
{
    uint32_t n = feed(fragment, length);
    if (n != GATEWAY_WAIT && (n != GATEWAY_RESPONSE || number_at(report + GATEWAY_REPORT_STATUS, 2) != 0))
        stop("a fragment is refused, or a request fails");
    return n;
}

uint16_t served_answer(const uint8_t *fragment, size_t length)
{
    if (feed(fragment, length) != GATEWAY_RESPONSE)
        stop("a fragment brings no response");
    return (uint16_t)number_at(report + GATEWAY_REPORT_STATUS, 2);
}

void served_take(void)
{
    if (gateway_take(records, sizeof records, entry, sizeof entry) != GATEWAY_DONE)
        stop("take is refused");
}

void served_close(void)
{
    if (gateway_close(records, sizeof records) != GATEWAY_DONE)
        stop("close is refused");
}

void serve_until(struct console *c, enum wish wish, size_t room, struct fragments *kept)
{
    uint8_t fragment[CONSOLE_FRAGMENT];
    served_start();
    served_open(room, c->syntax);
    while (c->wish != wish || !c->answered) {
        size_t length = console_sends(c, fragment);
        if (kept != NULL)
            keep_fragment(kept, fragment, length);
        if (served_feed(fragment, length) == GATEWAY_RESPONSE)
            console_hears(c, 0, command, number_at(report + GATEWAY_REPORT_COMMAND, 2), data,
                          number_at(report + GATEWAY_REPORT_DATA, 2));
    }
}
