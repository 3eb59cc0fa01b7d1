/* Stands between decode and the archives, and changes what they answer as LIE says: decode must not explain it away. */
#include <stdlib.h>
#include <string.h>

#include "../../include/gateway.h"
#include "../../include/inspect.h"

uint32_t __real_gateway_feed(uint8_t *records, size_t records_length, uint8_t *message, size_t message_length,
                             const uint8_t *fragment, size_t fragment_length, uint8_t *command, size_t command_length,
                             uint8_t *data, size_t data_length, uint8_t *report, size_t report_length);
uint32_t __real_inspect_data_set(const uint8_t *bytes, size_t n, uint32_t syntax, uint8_t *reading,
                                 size_t reading_length);

static int lies(const char *what)
{
    const char *lie = getenv("LIE");
    return lie != NULL && strcmp(lie, what) == 0;
}

static void lie_at(uint8_t *byte, const char *what)
{
    if (lies(what))
        *byte ^= 1;
}

/* "note" makes one of a stop of none, and none of it. */
static void change_report(uint8_t *report)
{
    lie_at(report + GATEWAY_REPORT_STATUS, "status");
    lie_at(report + GATEWAY_REPORT_REFUSAL, "note's number");
    lie_at(report + GATEWAY_REPORT_STOP, "note's place");
    lie_at(report + GATEWAY_REPORT_DEPTH, "note's depth");
    if (lies("note"))
        report[GATEWAY_REPORT_NOTE] ^= GATEWAY_NOTE_STOPPED;
}

uint32_t __wrap_gateway_feed(uint8_t *records, size_t records_length, uint8_t *message, size_t message_length,
                             const uint8_t *fragment, size_t fragment_length, uint8_t *command, size_t command_length,
                             uint8_t *data, size_t data_length, uint8_t *report, size_t report_length)
{
    uint32_t n = __real_gateway_feed(records, records_length, message, message_length, fragment, fragment_length,
                                     command, command_length, data, data_length, report, report_length);
    if (n == GATEWAY_RESPONSE)
        change_report(report);
    return n == GATEWAY_RESPONSE && lies("returned") ? GATEWAY_DROPPED : n;
}

uint32_t __wrap_inspect_data_set(const uint8_t *bytes, size_t n, uint32_t syntax, uint8_t *reading,
                                 size_t reading_length)
{
    uint32_t refusal = __real_inspect_data_set(bytes, n, syntax, reading, reading_length);
    if (refusal != 0) {
        lie_at(reading + INSPECT_READING_PLACE, "place");
        lie_at(reading + INSPECT_READING_DEPTH, "depth");
    }
    lie_at(reading + INSPECT_READING_HEADERS, "headers");
    return lies("number") ? refusal + 1 : refusal;
}
