/* Every buffer lent to every call, walked: `lent CALLS EACH TRACE ..`. CALLS starts, opens, closes and takes on any
 * bytes as records; each byte of several records changed in turn; message buffers filled to the brim; each collecting
 * state with buffers of every length about their limits, and with CALLS / 100 hostile feeds; then the traces are made,
 * and before each of their feeds EACH hostile ones on damaged copies of what the host holds. calls.h says how each call
 * is judged. */
#include <stdio.h>
#include <stdlib.h>
#include <string.h>

#include "../../host/console.h"
#include "../../include/gateway.h"
#include "../../include/gateway_records.h"
#include "../walks/noise.h"
#include "calls.h"
#include "full.h"
#include "traced.h"

enum { HEADER = 6, COMMAND_BIT = 1, LAST_BIT = 2, PIECE = 131072, POOL = 16384 };

static struct noise noise = { 1 };

static bool sometimes(uint32_t n)
{
    return below(&noise, n) == 0;
}

/* Random bytes, at most POOL of them, cut from a pool. */
static void put_noise(uint8_t *bytes, size_t n)
{
    static uint8_t pool[2 * POOL];
    if (pool[0] == 0)
        for (size_t i = 0; i < sizeof pool; i++)
            pool[i] = (uint8_t)(1 + below(&noise, 255));
    memcpy(bytes, pool + below(&noise, POOL), n);
}

static size_t about(size_t limit)
{
    switch (below(&noise, 8)) {
    case 0:
        return limit - 1;
    case 1:
        return limit + 1 + below(&noise, 40);
    case 2:
        return below(&noise, (uint32_t)limit);
    default:
        return limit;
    }
}

static void flip_bit(struct lent *l)
{
    if (l->length > 0)
        l->at[below(&noise, (uint32_t)l->length)] ^= (uint8_t)(1u << below(&noise, 8));
}

/* The records: as they are, with a few bits flipped, or random; of any length. */
static struct lent lend_records(void)
{
    struct lent l = lend(records, sizeof records, about(sizeof records));
    if (sometimes(16))
        put_noise(l.at, l.length);
    else if (sometimes(2))
        for (uint32_t flips = 1 + below(&noise, 3); flips > 0; flips--)
            flip_bit(&l);
    settle(&l);
    return l;
}

static struct lent lend_message(void)
{
    static const size_t lengths[] = { 0, 1, GATEWAY_MESSAGE_LEAST - 1, GATEWAY_MESSAGE_LEAST,
                                      GATEWAY_MESSAGE_LEAST + 1 };
    size_t length = message_length;
    if (sometimes(6))
        length = lengths[below(&noise, sizeof lengths / sizeof *lengths)];
    else if (sometimes(2000))
        length = GATEWAY_MESSAGE_MOST + below(&noise, 2);
    return lend(message, message_length, length);
}

static struct lent lend_noise(size_t length)
{
    struct lent l = lend(NULL, 0, length);
    put_noise(l.at, length);
    settle(&l);
    return l;
}

/* Any bytes as records. */

static void hostile_start(void)
{
    static const struct {
        const char *text;
        bool sound;
    } roots[] = {
        { "1.9.7", true },
        { "1.9.70", true },
        { "0", true },
        { "1234567890.1234567890.1234567890.1234567", true },
        { "1234567890.1234567890.1234567890.12345678", false },
        { "", false },
        { "1.9.7.", false },
        { "01.2", false },
    };
    uint32_t i = below(&noise, sizeof roots / sizeof *roots);
    struct lent r = lend_records();
    try_start(&r, roots[i].text, roots[i].sound, sometimes(4) ? 0 : below(&noise, UINT32_MAX),
              sometimes(4) ? 0 : below(&noise, UINT32_MAX));
    give_back(&r);
}

static void hostile_open(void)
{
    struct lent r = lend_records(), m = lend_message();
    try_open(&r, &m, below(&noise, 300), below(&noise, 4));
    give_back(&r);
    give_back(&m);
}

static void hostile_close(void)
{
    struct lent r = lend_records();
    try_close(&r);
    give_back(&r);
}

static void hostile_take(void)
{
    struct lent r = lend_records(), e = lend_noise(about(GATEWAY_ENTRY));
    try_take(&r, &e);
    give_back(&r);
    give_back(&e);
}

static void hostile_calls(unsigned long calls)
{
    static void (*const kinds[])(void) = { hostile_start, hostile_open, hostile_close, hostile_take };
    while (calls-- > 0)
        kinds[below(&noise, 4)]();
}

/* Each byte of the records changed in turn: another state that keeps the rules, or refusal 1. */
static void change_each_byte(const char *which)
{
    static const uint8_t changes[] = { 0x01, 0x80, 0xFF };
    unsigned long taken = 0, broken = 0;
    for (size_t i = 0; i < sizeof records; i++)
        for (size_t j = 0; j < sizeof changes; j++) {
            records[i] ^= changes[j];
            *(break_rule(records) ? &broken : &taken) += 1;
            records[i] ^= changes[j];
        }
    printf("lent: %s: %lu changed bytes taken as other records, %lu refused with 1\n", which, taken, broken);
}

/* One kind of records, which are taken as they are. */
static void walk_records(const char *which, unsigned long calls)
{
    if (break_rule(records)) {
        fprintf(stderr, "lent: %s records are refused\n", which);
        exit(1);
    }
    hostile_calls(calls);
    change_each_byte(which);
}

/* Feeds. */

static struct lent lend_fragment(uint8_t control, const uint8_t *bytes, size_t size)
{
    struct lent l = lend(NULL, 0, HEADER + size);
    for (int i = 0; i < 4; i++)
        l.at[i] = (uint8_t)((size + 2) >> 8 * (3 - i));
    l.at[4] = records[GATEWAY_AT_CONTEXT];
    l.at[5] = control;
    if (size > 0)
        memcpy(l.at + HEADER, bytes, size);
    settle(&l);
    return l;
}

/* All that the host holds, with buffers of the lengths that they need. */
static struct feed exact_feed(struct lent fragment)
{
    struct feed f = { { [RECORDS] = lend(records, sizeof records, sizeof records),
                        [MESSAGE] = lend(message, message_length, message_length),
                        [COMMAND] = lend_noise(GATEWAY_COMMAND),
                        [DATA] = lend_noise(GATEWAY_DATA),
                        [REPORT] = lend_noise(GATEWAY_REPORT),
                        [FRAGMENT] = fragment } };
    return f;
}

/* A fragment of the run, damaged or not; a sound header before a data set or before noise; or noise alone. */
static struct lent hostile_fragment(const uint8_t *next, size_t length)
{
    static struct data_set grown;
    uint8_t bytes[2048], control = (uint8_t)below(&noise, 4);
    if (grown.bytes == NULL)
        grown = new_data_set(1 << 20, IMPLICIT);
    if (length > 0 && sometimes(2)) {
        struct lent l = lend(next, length, sometimes(8) ? about(length) : length);
        if (sometimes(2))
            flip_bit(&l);
        settle(&l);
        return l;
    }
    size_t size = below(&noise, sometimes(3) ? sizeof bytes : 40);
    put_noise(bytes, size);
    if (sometimes(3)) {
        grown.n = 0;
        grown.explicit_vr = sometimes(2);
        put_grown(&noise, &grown);
        return lend_fragment(control, grown.bytes, grown.n);
    }
    return sometimes(5) ? lend(bytes, size, size) : lend_fragment(control, bytes, size);
}

static void replace(struct lent *l, struct lent other)
{
    give_back(l);
    *l = other;
}

/* A fragment that is hostile, and now and then records or a buffer's length that are. */
static void hostile_feed(const uint8_t *next, size_t length)
{
    static const size_t limits[BUFFERS] = {
        [COMMAND] = GATEWAY_COMMAND, [DATA] = GATEWAY_DATA, [REPORT] = GATEWAY_REPORT
    };
    struct feed f = exact_feed(hostile_fragment(next, length));
    enum buffer answer = COMMAND + below(&noise, 3);
    if (sometimes(4))
        replace(&f.lent[RECORDS], lend_records());
    if (sometimes(8))
        replace(&f.lent[MESSAGE], lend_message());
    if (sometimes(6))
        replace(&f.lent[answer], lend_noise(about(limits[answer])));
    try_feed(&f);
    give_feed_back(&f);
}

/* Two feeds that were not refused for a buffer have written the same. */
static bool wrote_alike(const struct feed *a, const struct feed *b, uint32_t answer)
{
    const uint8_t *report = a->lent[REPORT].at;
    if (memcmp(a->lent[RECORDS].at, b->lent[RECORDS].at, GATEWAY_RECORDS) != 0)
        return false;
    if (answer != GATEWAY_RESPONSE)
        return true;
    return memcmp(report, b->lent[REPORT].at, GATEWAY_REPORT) == 0 &&
           memcmp(a->lent[COMMAND].at, b->lent[COMMAND].at, number_at(report + GATEWAY_REPORT_COMMAND, 2)) == 0 &&
           memcmp(a->lent[DATA].at, b->lent[DATA].at, number_at(report + GATEWAY_REPORT_DATA, 2)) == 0;
}

/* One buffer with another length than it needs: where that is no refusal, it changes nothing of the answer. */
static void try_length(const struct feed *exact, uint32_t answer, enum buffer buffer, size_t length)
{
    const struct lent *fragment = &exact->lent[FRAGMENT];
    struct feed f = exact_feed(lend(fragment->at, fragment->length, fragment->length));
    replace(&f.lent[buffer], lend(f.lent[buffer].at, f.lent[buffer].length, length));
    uint32_t n = try_feed(&f);
    if (n != GATEWAY_SHORT && (n != answer || !wrote_alike(exact, &f, answer))) {
        fprintf(stderr, "lent: buffer %d of %zu bytes: %u, and not as %u\n", buffer, length, (unsigned)n,
                (unsigned)answer);
        exit(1);
    }
    give_feed_back(&f);
}

static void walk_lengths(const uint8_t *fragment, size_t size)
{
    struct feed exact = exact_feed(lend(fragment, size, size));
    uint32_t answer = try_feed(&exact);
    for (enum buffer buffer = RECORDS; buffer < FRAGMENT; buffer++) {
        size_t needed = exact.lent[buffer].length;
        size_t lengths[] = { 0, 1, needed / 2, needed - 2, needed - 1, needed, needed + 1, needed + 2, needed + 100 };
        for (size_t i = 0; i < sizeof lengths / sizeof *lengths; i++)
            try_length(&exact, answer, buffer, lengths[i]);
    }
    give_feed_back(&exact);
}

static void expect(const char *what, uint32_t n, uint32_t due)
{
    if (n == due)
        return;
    fprintf(stderr, "lent: %s: %u in the place of %u\n", what, (unsigned)n, (unsigned)due);
    exit(1);
}

static void open_own(size_t room)
{
    message_length = room;
    memset(message, 0x5A, room);
    expect("start", gateway_start(records, sizeof records, (const uint8_t *)"1.9.7", 5, 1, 1), GATEWAY_DONE);
    expect("open", gateway_open(records, sizeof records, message, room, 1, GATEWAY_EXPLICIT), GATEWAY_DONE);
}

/* N-CREATE of a session, with a data set to come. */
static void begin_session(void)
{
    struct data_set d = new_data_set(1024, IMPLICIT);
    make_command(&d, N_CREATE, FILM_SESSION, NULL, 1, true);
    struct lent command = lend_fragment(COMMAND_BIT | LAST_BIT, d.bytes, d.n);
    expect("a command", own_feed(command.at, command.length), GATEWAY_WAIT);
    give_back(&command);
    free_data_set(&d);
}

static const uint8_t zeros[PIECE];

/* A fragment of zeros that is not the last one. */
static void feed_zeros(uint8_t control, size_t size)
{
    struct lent piece = lend_fragment(control, zeros, size);
    expect("a fragment", own_feed(piece.at, piece.length), GATEWAY_WAIT);
    give_back(&piece);
}

static void fill_to(size_t end)
{
    for (size_t got = 0, size; got < end; got += size) {
        size = end - got < PIECE ? end - got : PIECE;
        feed_zeros(0, size);
    }
}

static void reach(int state)
{
    open_own(GATEWAY_MESSAGE_LEAST);
    switch (state) {
    case 1:
        feed_zeros(COMMAND_BIT, 600);
        break;
    case 2:
        feed_zeros(COMMAND_BIT, 1025);
        break;
    case 3:
        begin_session();
        fill_to(1000);
        break;
    case 4:
        begin_session();
        feed_zeros(0, GATEWAY_MESSAGE_LEAST + 1);
        break;
    default:
        break;
    }
    expect("the collecting state", records[GATEWAY_AT_COLLECTING], (uint32_t)state);
}

/* In each collecting state: each kind of fragment, empty or not, with buffers of all lengths, and hostile feeds. */
static void walk_states(unsigned long feeds)
{
    for (int state = 0; state < STATES; state++) {
        reach(state);
        for (uint8_t control = 0; control < 4; control++)
            for (size_t size = 0; size <= 8; size += 8) {
                struct lent fragment = lend_fragment(control, zeros, size);
                walk_lengths(fragment.at, fragment.length);
                give_back(&fragment);
            }
        for (unsigned long i = 0; i < feeds; i++)
            hostile_feed(zeros, 0);
    }
}

/* Data up to a few bytes before the message buffer's end, then fragments that end before it, at it and past it. */
static void fill_to_the_brim(size_t room)
{
    static const uint8_t bytes[8] = "UNREADY";
    open_own(room);
    begin_session();
    fill_to(room - 3);
    for (size_t size = 0; size <= 6; size++)
        for (uint8_t control = 0; control <= LAST_BIT; control += LAST_BIT) {
            struct feed f = exact_feed(lend_fragment(control, bytes, size));
            try_feed(&f);
            expect("room", f.lent[RECORDS].at[GATEWAY_AT_COLLECTING], control != 0 ? 0 : size <= 3 ? 3 : 4);
            give_feed_back(&f);
        }
}

/* Traces. */

static bool tried[STATES][4];
static uint32_t hostile_each;

/* Buffers of every length are tried once in a trace for each state and kind of fragment. */
static void walk_feed(const uint8_t *fragment, size_t size)
{
    uint8_t state = records[GATEWAY_AT_COLLECTING], control = size > 5 ? fragment[5] % 4 : 0;
    for (uint32_t i = 0; i < hostile_each; i++)
        hostile_feed(fragment, size);
    if (!tried[state][control])
        walk_lengths(fragment, size);
    tried[state][control] = true;
}

static void walk_trace(const char *path, uint32_t each)
{
    memset(tried, 0, sizeof tried);
    hostile_each = each;
    make_trace(path, walk_feed);
}

static void walk_all_records(unsigned long calls)
{
    memset(records, 0xEE, sizeof records);
    gateway_start(records, sizeof records, (const uint8_t *)"1.9.7", 5, 1, 1);
    walk_records("started", calls / 4);
    open_own(GATEWAY_MESSAGE_LEAST);
    walk_records("open", calls / 4);
    begin_session();
    fill_to(1000);
    walk_records("in data", 0);
    fill_records(records);
    walk_records("full", calls / 4);
    gateway_close(records, sizeof records);
    walk_records("full and closed", calls - 3 * (calls / 4));
}

int main(int argc, char **argv)
{
    if (argc < 4) {
        fprintf(stderr, "usage: lent CALLS EACH TRACE ..\n");
        return 2;
    }
    unsigned long all = 0;
    walk_all_records(strtoul(argv[1], NULL, 10));
    fill_to_the_brim(GATEWAY_MESSAGE_LEAST);
    fill_to_the_brim(GATEWAY_MESSAGE_MOST);
    walk_states(strtoul(argv[1], NULL, 10) / 100);
    for (int i = 3; i < argc; i++)
        walk_trace(argv[i], (uint32_t)strtoul(argv[2], NULL, 10));
    print_counts();
    for (int call = 0; call < CALLS; call++)
        for (int n = 0; n < NUMBERS; n++)
            all += returned[call][n];
    printf("%lu passed, 0 failed\n", all);
    return 0;
}
