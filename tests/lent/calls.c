#include "calls.h"

#include <stdio.h>
#include <stdlib.h>
#include <string.h>

#include "../../host/data_sets.h"
#include "../../include/gateway.h"
#include "../../include/gateway_records.h"

enum { IDLE, IN_COMMAND, SKIPPING_COMMAND, IN_DATA, SKIPPING_DATA, COMMAND_MOST = 1024, HEADER = 6 };

#define ONE(n) (1u << (n))

static const char *const calls[CALLS] = { "start", "open", "feed", "close", "take" };
static const char *const states[STATES] = { "idle", "in command", "skipping command", "in data", "skipping data" };

/* The numbers that a call may return. */
static const uint32_t numbers[CALLS] = {
    [START] = ONE(0) | ONE(2) | ONE(3),
    [OPEN] = ONE(0) | ONE(1) | ONE(2) | ONE(3),
    [FEED] = ONE(1) | ONE(2) | ONE(4) | ONE(5) | ONE(16) | ONE(17) | ONE(18) | ONE(19),
    [CLOSE] = ONE(0) | ONE(1) | ONE(2) | ONE(4),
    [TAKE] = ONE(0) | ONE(1) | ONE(2) | ONE(6),
};

unsigned long returned[CALLS][NUMBERS], met[STATES];

static _Noreturn void fail(enum call call, uint32_t n, const char *why)
{
    fprintf(stderr, "lent: %s returned %u: %s\n", calls[call], (unsigned)n, why);
    exit(1);
}

void print_counts(void)
{
    for (int call = 0; call < CALLS; call++)
        for (uint32_t n = 0; n < NUMBERS; n++) {
            if (!(numbers[call] & ONE(n)))
                continue;
            printf("lent: %9lu  %s %u\n", returned[call][n], calls[call], (unsigned)n);
            if (returned[call][n] == 0)
                fail((enum call)call, n, "never reached");
        }
    for (int state = 0; state < STATES; state++) {
        printf("lent: %9lu  feeds that were not refused, %s\n", met[state], states[state]);
        if (met[state] == 0)
            fail(FEED, 0, "a collecting state was never reached");
    }
}

/* A number of those that are due. */
static void judge(enum call call, uint32_t n, uint32_t due)
{
    if (n >= NUMBERS || !(due & ONE(n)))
        fail(call, n, "not the number that is due");
    returned[call][n]++;
}

/* Whether records break a rule, as take and as close have it, on a copy. What take says of them is what other calls are
 * held to, and take to what close says. */

bool break_rule(const uint8_t *records)
{
    uint8_t copy[GATEWAY_RECORDS], entry[GATEWAY_ENTRY];
    memcpy(copy, records, sizeof copy);
    return gateway_take(copy, sizeof copy, entry, sizeof entry) == GATEWAY_BROKEN;
}

static bool broken_for_close(const uint8_t *records)
{
    uint8_t copy[GATEWAY_RECORDS];
    memcpy(copy, records, sizeof copy);
    return gateway_close(copy, sizeof copy) == GATEWAY_BROKEN;
}

/* The records after a call: all of them where it was refused, and what stands behind them anyway. */
static void judge_records(enum call call, uint32_t n, const struct lent *records, bool refused)
{
    if (!guarded(records))
        fail(call, n, "wrote around the records");
    if (!stays(records, refused ? 0 : GATEWAY_RECORDS))
        fail(call, n, "changed records that it should not");
    if (!refused && break_rule(records->at))
        fail(call, n, "the records break a rule afterwards");
}

/* The first line of the table of refusals that holds for the records alone: 2, 1 or none. */
static uint32_t records_refusal(const struct lent *records, bool (*broken)(const uint8_t *))
{
    if (records->length < GATEWAY_RECORDS)
        return GATEWAY_SHORT;
    return broken(records->at) ? GATEWAY_BROKEN : GATEWAY_DONE;
}

static bool is_open(const struct lent *records)
{
    return records->at[GATEWAY_AT_OPEN] != 0;
}

static bool message_wrong(const struct lent *records, const struct lent *message)
{
    return message->length < GATEWAY_MESSAGE_LEAST || message->length > GATEWAY_MESSAGE_MOST ||
           (is_open(records) && message->length != number_at(records->at + GATEWAY_AT_ROOM, 4));
}

uint32_t try_start(struct lent *records, const char *root, bool root_sound, uint32_t serial, uint32_t picture)
{
    struct lent text = lend((const uint8_t *)root, strlen(root), strlen(root));
    uint32_t due = GATEWAY_DONE;
    if (records->length < GATEWAY_RECORDS)
        due = GATEWAY_SHORT;
    else if (!root_sound || serial == 0 || picture == 0)
        due = GATEWAY_BAD_ARGUMENT;
    uint32_t n = gateway_start(records->at, records->length, text.at, text.length, serial, picture);
    judge(START, n, ONE(due));
    judge_records(START, n, records, n != GATEWAY_DONE);
    if (!guarded(&text) || !untouched(&text))
        fail(START, n, "changed the root");
    give_back(&text);
    return n;
}

static uint32_t open_due(const struct lent *records, const struct lent *message, uint32_t context, uint32_t syntax)
{
    uint32_t refusal = records_refusal(records, break_rule);
    if (refusal != GATEWAY_DONE)
        return refusal;
    if (message_wrong(records, message))
        return GATEWAY_SHORT;
    bool bad = context % 2 == 0 || context > 255 || syntax < 1 || syntax > 2;
    return bad || is_open(records) ? GATEWAY_BAD_ARGUMENT : GATEWAY_DONE;
}

uint32_t try_open(struct lent *records, struct lent *message, uint32_t context, uint32_t syntax)
{
    uint32_t due = open_due(records, message, context, syntax);
    uint32_t n = gateway_open(records->at, records->length, message->at, message->length, context, syntax);
    judge(OPEN, n, ONE(due));
    judge_records(OPEN, n, records, n != GATEWAY_DONE);
    if (!guarded(message) || !untouched(message))
        fail(OPEN, n, "changed the message buffer");
    return n;
}

uint32_t try_close(struct lent *records)
{
    uint32_t due = records_refusal(records, break_rule);
    if (due == GATEWAY_DONE && !is_open(records))
        due = GATEWAY_NOT_OPEN;
    uint32_t n = gateway_close(records->at, records->length);
    judge(CLOSE, n, ONE(due));
    judge_records(CLOSE, n, records, n != GATEWAY_DONE);
    return n;
}

static uint32_t take_due(const struct lent *records, const struct lent *entry)
{
    uint32_t refusal = records_refusal(records, broken_for_close);
    if (refusal != GATEWAY_DONE)
        return refusal;
    if (entry->length < GATEWAY_ENTRY)
        return GATEWAY_SHORT;
    return records->at[GATEWAY_AT_QUEUED_COUNT] == 0 ? GATEWAY_QUEUE_EMPTY : GATEWAY_DONE;
}

uint32_t try_take(struct lent *records, struct lent *entry)
{
    uint32_t due = take_due(records, entry);
    uint32_t n = gateway_take(records->at, records->length, entry->at, entry->length);
    judge(TAKE, n, ONE(due));
    judge_records(TAKE, n, records, n != GATEWAY_DONE);
    if (!guarded(entry) || !stays(entry, n == GATEWAY_DONE ? GATEWAY_ENTRY : 0))
        fail(TAKE, n, "changed bytes of the entry that it should not");
    return n;
}

/* Feed. */

void give_feed_back(struct feed *f)
{
    for (int i = 0; i < BUFFERS; i++)
        give_back(&f->lent[i]);
}

static bool header_wrong(const struct lent *records, const struct lent *fragment)
{
    const uint8_t *p = fragment->at;
    if (fragment->length < HEADER)
        return true;
    uint64_t n = (uint64_t)p[0] << 24 | (uint64_t)p[1] << 16 | (uint64_t)p[2] << 8 | p[3];
    return n < 2 || n + 4 != fragment->length || p[4] != records->at[GATEWAY_AT_CONTEXT] || (p[5] & 0xFC) != 0;
}

static uint32_t feed_refusal(const struct feed *f)
{
    const struct lent *records = &f->lent[RECORDS];
    uint32_t refusal = records_refusal(records, break_rule);
    if (refusal != GATEWAY_DONE)
        return refusal;
    if (message_wrong(records, &f->lent[MESSAGE]) || f->lent[COMMAND].length < GATEWAY_COMMAND ||
        f->lent[DATA].length < GATEWAY_DATA || f->lent[REPORT].length < GATEWAY_REPORT)
        return GATEWAY_SHORT;
    if (!is_open(records))
        return GATEWAY_NOT_OPEN;
    return header_wrong(records, &f->lent[FRAGMENT]) ? GATEWAY_BAD_FRAGMENT : GATEWAY_DONE;
}

static bool of_command(const struct feed *f)
{
    return f->lent[FRAGMENT].at[5] & 1;
}

static bool last(const struct feed *f)
{
    return f->lent[FRAGMENT].at[5] & 2;
}

static uint8_t state_before(const struct feed *f)
{
    return f->lent[RECORDS].before[GATEWAY_AT_COLLECTING];
}

/* A last command fragment is answered by what the whole command says. */
static uint32_t command_due(const struct feed *f)
{
    size_t used = state_before(f) == IN_COMMAND ? number_at(f->lent[RECORDS].before + GATEWAY_AT_USED, 2) : 0;
    if (!last(f))
        return ONE(GATEWAY_WAIT);
    if (state_before(f) == SKIPPING_COMMAND || f->lent[FRAGMENT].length - HEADER > COMMAND_MOST - used)
        return ONE(GATEWAY_DROPPED);
    return ONE(GATEWAY_WAIT) | ONE(GATEWAY_DROPPED) | ONE(GATEWAY_RESPONSE);
}

static uint32_t data_due(const struct feed *f)
{
    switch (state_before(f)) {
    case IDLE:
        return ONE(GATEWAY_IGNORED);
    case IN_COMMAND:
    case SKIPPING_COMMAND:
        return ONE(GATEWAY_DROPPED);
    default:
        return last(f) ? ONE(GATEWAY_RESPONSE) : ONE(GATEWAY_WAIT);
    }
}

static uint32_t feed_due(const struct feed *f)
{
    uint32_t refusal = feed_refusal(f);
    if (refusal != GATEWAY_DONE)
        return ONE(refusal);
    met[state_before(f)]++;
    return of_command(f) ? command_due(f) : data_due(f);
}

/* A data fragment that fits is laid behind what is there; nothing else is written to the message buffer. */
static void judge_message(const struct feed *f, uint32_t n)
{
    const struct lent *message = &f->lent[MESSAGE], *fragment = &f->lent[FRAGMENT];
    size_t got = 0, size = 0;
    if (n >= GATEWAY_WAIT && !of_command(f) && state_before(f) == IN_DATA) {
        got = number_at(f->lent[RECORDS].before + GATEWAY_AT_GOT, 4);
        size = fragment->length - HEADER <= message->length - got ? fragment->length - HEADER : 0;
    }
    if (!guarded(message) || !stays_around(message, got, got + size))
        fail(FEED, n, "changed bytes of the message buffer that it should not");
    if (size > 0 && memcmp(message->at + got, fragment->at + HEADER, size) != 0)
        fail(FEED, n, "did not lay the data behind what is there");
}

static void judge_answers(const struct feed *f, uint32_t n)
{
    const struct lent *report = &f->lent[REPORT];
    bool response = n == GATEWAY_RESPONSE;
    size_t command = response ? number_at(report->at + GATEWAY_REPORT_COMMAND, 2) : 0;
    size_t data = response ? number_at(report->at + GATEWAY_REPORT_DATA, 2) : 0;
    if (!guarded(&f->lent[COMMAND]) || !guarded(&f->lent[DATA]) || !guarded(report))
        fail(FEED, n, "wrote around an answer buffer");
    if (!stays(report, response ? GATEWAY_REPORT : 0))
        fail(FEED, n, "changed bytes of the report that it should not");
    if (command > GATEWAY_COMMAND || data > GATEWAY_DATA)
        fail(FEED, n, "reports more than its buffers hold");
    if (!stays(&f->lent[COMMAND], command) || !stays(&f->lent[DATA], data))
        fail(FEED, n, "changed bytes of an answer that it should not");
}

/* Refusal 5 leaves what close leaves. */
static void judge_closed(const struct feed *f)
{
    uint8_t closed[GATEWAY_RECORDS];
    memcpy(closed, f->lent[RECORDS].before, sizeof closed);
    if (gateway_close(closed, sizeof closed) != GATEWAY_DONE || memcmp(closed, f->lent[RECORDS].at, sizeof closed) != 0)
        fail(FEED, GATEWAY_BAD_FRAGMENT, "does not leave what close leaves");
}

static bool failed(const struct feed *f)
{
    uint32_t status = (uint32_t)number_at(f->lent[REPORT].at + GATEWAY_REPORT_STATUS, 2);
    return status != 0 && status >> 12 != 0xB;
}

/* Only a request that was done changes more than the message half collected. */
static void judge_core(const struct feed *f, uint32_t n)
{
    const struct lent *records = &f->lent[RECORDS];
    bool done = n == GATEWAY_RESPONSE && !failed(f);
    if (!done && memcmp(records->at, records->before, GATEWAY_AT_COLLECTING) != 0)
        fail(FEED, n, "changed records though no request was done");
}

uint32_t try_feed(struct feed *f)
{
    struct lent *l = f->lent;
    uint32_t due = feed_due(f);
    uint32_t n = gateway_feed(l[RECORDS].at, l[RECORDS].length, l[MESSAGE].at, l[MESSAGE].length, l[FRAGMENT].at,
                              l[FRAGMENT].length, l[COMMAND].at, l[COMMAND].length, l[DATA].at, l[DATA].length,
                              l[REPORT].at, l[REPORT].length);
    judge(FEED, n, due);
    judge_records(FEED, n, &l[RECORDS], n < GATEWAY_WAIT && n != GATEWAY_BAD_FRAGMENT);
    judge_message(f, n);
    judge_answers(f, n);
    if (n == GATEWAY_BAD_FRAGMENT)
        judge_closed(f);
    if (n >= GATEWAY_WAIT)
        judge_core(f, n);
    if (!guarded(&l[FRAGMENT]) || !untouched(&l[FRAGMENT]))
        fail(FEED, n, "changed the fragment");
    return n;
}
