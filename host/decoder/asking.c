#include "asking.h"

#include <stdio.h>
#include <stdlib.h>
#include <string.h>

#include "../data_sets.h"
#include "dumps.h"
#include "explaining.h"
#include "names.h"
#include "stops.h"

struct gateway *new_gateway(void)
{
    struct gateway *g = calloc(1, sizeof *g);
    if (g == NULL || (g->message = calloc(GATEWAY_MESSAGE_LEAST, 1)) == NULL)
        stop("no memory");
    g->message_length = GATEWAY_MESSAGE_LEAST;
    return g;
}

void free_gateway(struct gateway *g)
{
    free(g->message);
    free(g);
}

uint32_t start_gateway(struct gateway *g, const uint8_t *root, size_t root_length, uint32_t serial, uint32_t picture)
{
    return gateway_start(g->records, sizeof g->records, root, root_length, serial, picture);
}

/* A message buffer past the limit is lent one byte too long: any such length is refused alike. */
uint32_t open_gateway(struct gateway *g, uint32_t context, uint32_t syntax, size_t message_length)
{
    size_t length = message_length > GATEWAY_MESSAGE_MOST ? GATEWAY_MESSAGE_MOST + 1 : message_length;
    uint8_t *lent = calloc(length + 1, 1);
    if (lent == NULL)
        stop("no memory");
    uint32_t n = gateway_open(g->records, sizeof g->records, lent, length, context, syntax);
    if (n != GATEWAY_DONE) {
        free(lent);
        return n;
    }
    free(g->message);
    g->message = lent;
    g->message_length = length;
    return n;
}

uint32_t close_gateway(struct gateway *g)
{
    return gateway_close(g->records, sizeof g->records);
}

uint32_t take_from_gateway(struct gateway *g)
{
    uint8_t entry[GATEWAY_ENTRY];
    return gateway_take(g->records, sizeof g->records, entry, sizeof entry);
}

bool is_open(const struct gateway *g)
{
    return g->records[GATEWAY_AT_OPEN] == 1;
}

bool is_idle(const struct gateway *g)
{
    return g->records[GATEWAY_AT_COLLECTING] == 0;
}

bool is_in_data(const struct gateway *g)
{
    return g->records[GATEWAY_AT_COLLECTING] >= 3;
}

static void show_response(const struct gateway *g, uint32_t status, const struct reason *r)
{
    const char *name = status_name(status);
    printf("gateway: %04XH", (unsigned)status);
    if (r->check != 0)
        printf(", check %u", r->check);
    printf(": %s", r->text);
    if (number_at(g->report + GATEWAY_REPORT_NOTE, 2) == GATEWAY_NOTE_PICTURE)
        printf(", %u bytes of pixels at %u of the data set", (unsigned)number_at(g->report + GATEWAY_REPORT_LENGTH, 4),
               (unsigned)number_at(g->report + GATEWAY_REPORT_PLACE, 4));
    if (r->check != 0 && name != NULL)
        printf(" [%s]", name);
    putchar('\n');
}

static enum outcome show_answer(const struct gateway *g, uint32_t returned, uint32_t status, const struct reason *r)
{
    switch (returned) {
    case GATEWAY_WAIT:
        return FINE;
    case GATEWAY_DROPPED:
        printf("gateway: dropped: %s\n", r->text);
        return FAILED;
    case GATEWAY_IGNORED:
        printf("gateway: ignored: %s\n", r->text);
        return FINE;
    case GATEWAY_RESPONSE:
        show_response(g, status, r);
        return status == 0 || status >> 12 == 0xB ? FINE : FAILED;
    case GATEWAY_BAD_FRAGMENT:
        printf("gateway: refused with 5: %s; the association ends as by close\n", r->text);
        return FAILED;
    default:
        printf("gateway: refused with %u: %s\n", (unsigned)returned, r->text);
        return FAILED;
    }
}

/* The rules as this program reads them must give what the archive answered. */
static enum outcome report_difference(uint32_t returned, uint32_t status, const struct reason *r)
{
    printf("gateway: returned %u with status %04XH, and the reason found is for %u with %04XH: %s: "
           "please report this dump\n",
           (unsigned)returned, (unsigned)status, (unsigned)r->returned, (unsigned)r->status, r->text);
    return NOT_EXPLAINED;
}

/* Where the reading stopped, by the note of a response. */
static struct stopped stopped_by_note(const uint8_t *report)
{
    if (number_at(report + GATEWAY_REPORT_NOTE, 2) != GATEWAY_NOTE_STOPPED)
        return (struct stopped){ READ, 0, 0 };
    return (struct stopped){ (uint32_t)number_at(report + GATEWAY_REPORT_REFUSAL, 4),
                             (size_t)number_at(report + GATEWAY_REPORT_STOP, 4),
                             (uint32_t)number_at(report + GATEWAY_REPORT_DEPTH, 4) };
}

/* The note of a stop comes with check 5 alone, and with what the reason found. */
static bool note_fits(const uint8_t *report, const struct reason *r)
{
    bool noted = number_at(report + GATEWAY_REPORT_NOTE, 2) == GATEWAY_NOTE_STOPPED;
    return noted == (r->stopped.refusal != READ) && same_stop(stopped_by_note(report), r->stopped);
}

static enum outcome report_other_note(const uint8_t *report, const struct reason *r)
{
    printf("gateway: %04XH; by its note the data set is %s, and the reason found is: %s: please report this dump\n",
           (unsigned)r->status, stop_words(stopped_by_note(report)).text, r->text);
    return NOT_EXPLAINED;
}

enum outcome feed_gateway(struct gateway *g, const uint8_t *fragment, size_t length, struct reason *r)
{
    uint8_t before[GATEWAY_RECORDS];
    memcpy(before, g->records, sizeof before);
    uint32_t returned =
        gateway_feed(g->records, sizeof g->records, g->message, g->message_length, fragment, length, g->command,
                     sizeof g->command, g->data, sizeof g->data, g->report, sizeof g->report);
    uint32_t status = returned == GATEWAY_RESPONSE ? (uint32_t)number_at(g->report + GATEWAY_REPORT_STATUS, 2) : 0;
    explain_feed(before, g->message, fragment, length, r);
    if (r->returned != returned || r->status != status)
        return report_difference(returned, status, r);
    if (returned == GATEWAY_RESPONSE && !note_fits(g->report, r))
        return report_other_note(g->report, r);
    enum outcome outcome = show_answer(g, returned, status, r);
    for (size_t i = 0; i < r->also_count; i++)
        printf("         also: %s\n", r->also[i]);
    return outcome;
}
