#include "second_side.h"

#include "../second/calls.h"
#include "timing.h"

static struct gateway gateway;

void second_job(const uint8_t *fragments, const size_t *ends, size_t count, size_t room)
{
    struct response response;
    enum answer answer;
    uint8_t entry[ENTRY_BYTES];
    if (call_start(&gateway, (const uint8_t *)"1.9.7", 5, 1, 1) != 0 || call_open(&gateway, 1, IMPLICIT, room) != 0)
        stop("the second program refuses start or open");
    for (size_t i = 0, from = 0; i < count; from = ends[i++])
        if (call_feed(&gateway, fragments + from, ends[i] - from, &answer, &response) != 0 ||
            (answer != WAIT && (answer != RESPONSE || response.status != 0)))
            stop("the second program refuses a fragment, or a request fails");
    if (call_take(&gateway, entry) != 0 || call_close(&gateway) != 0)
        stop("the second program refuses take or close");
}
