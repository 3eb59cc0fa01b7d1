#include "captures.h"

#include <stdlib.h>
#include <string.h>

#include "headers.h"
#include "pdus.h"

enum { COMMAND_SET_BEGIN = 8 };

const char *content_text(enum content content)
{
    static const char *const texts[] = { "", "a stream of PDUs", "fragments", "a command set", "a data set", "calls" };
    return texts[content];
}

uint32_t big_endian(const uint8_t *p, int width)
{
    uint32_t n = 0;
    for (int i = 0; i < width; i++)
        n = n << 8 | p[i];
    return n;
}

bool header_is_sound(const struct capture_part *p)
{
    return p->n >= FRAGMENT_HEADER && p->n - 4 == big_endian(p->bytes, 4) && (p->bytes[5] & NO_BITS) == 0;
}

bool is_command(const struct capture_part *p)
{
    return p->bytes[5] & COMMAND_BIT;
}

bool is_last(const struct capture_part *p)
{
    return p->bytes[5] & LAST_BIT;
}

/* Telling apart. */

/* A PDU's type, a zero byte, and a length that its kind may have. */
static bool looks_like_pdu(const uint8_t *p, size_t n)
{
    if (n < PDU_HEADER || p[1] != 0)
        return false;
    uint32_t length = big_endian(p + 2, 4);
    switch (p[0]) {
    case A_ASSOCIATE_RQ:
    case A_ASSOCIATE_AC:
        return length >= ASSOCIATE_LEAST && length < 1 << 20;
    case P_DATA_TF:
        return n < PDU_HEADER + 4 || (length >= FRAGMENT_HEADER && big_endian(p + PDU_HEADER, 4) <= length - 4);
    default:
        return p[0] > 0 && p[0] <= A_ABORT && length == 4;
    }
}

static bool looks_like_command_set(const uint8_t *p, size_t n)
{
    return n >= COMMAND_SET_BEGIN && memcmp(p, "\0\0\0\0\4\0\0\0", COMMAND_SET_BEGIN) == 0;
}

/* A sound header, or any behind which a command set begins. */
static bool looks_like_fragment(const uint8_t *p, size_t n)
{
    if (n < FRAGMENT_HEADER)
        return false;
    return looks_like_command_set(p + FRAGMENT_HEADER, n - FRAGMENT_HEADER) ||
           (big_endian(p, 4) >= 2 && big_endian(p, 4) <= n - 4 && p[4] % 2 == 1 && (p[5] & NO_BITS) == 0);
}

static void pass(void *with, const struct header *h)
{
    (void)with;
    (void)h;
}

/* An element of a group above 0000 that is read, in one of the syntaxes. */
static bool looks_like_data_set(const uint8_t *p, size_t n)
{
    return n >= 8 && tag_at(p) >> 16 != 0 &&
           (walk_set(p, n, false, pass, NULL).at > 0 || walk_set(p, n, true, pass, NULL).at > 0);
}

static void tell_apart(const struct dump *d, struct capture *c)
{
    const uint8_t *p = d->bytes.bytes;
    size_t n = d->bytes.n;
    if (looks_like_pdu(p, n)) {
        c->content = PDUS;
        c->why = "the first bytes are the type and the length of a PDU";
    } else if (looks_like_command_set(p, n)) {
        c->content = COMMAND_SET;
        c->why = "it begins with (0000,0000)";
    } else if (looks_like_fragment(p, n)) {
        c->content = FRAGMENTS;
        c->why = "the first bytes are the header of a fragment";
    } else if (looks_like_data_set(p, n)) {
        c->content = DATA_SET;
        c->why = "it begins with an element";
    } else {
        stop(
            "%s: at offset %zXH: neither a PDU, a fragment, a command set nor a data set begins here; -p, -f, -c or -d "
            "says which it is",
            d->name, d->first);
    }
}

/* Splitting. */

struct capture_part *put_part(struct capture *c, enum part_kind kind, const uint8_t *bytes, size_t n, size_t dump_at)
{
    if (c->count == c->room) {
        c->room = c->room == 0 ? 64 : 2 * c->room;
        c->parts = realloc(c->parts, c->room * sizeof *c->parts);
        if (c->parts == NULL)
            stop("no memory");
    }
    c->parts[c->count] = (struct capture_part){ .kind = kind, .bytes = bytes, .n = n, .dump_at = dump_at };
    return &c->parts[c->count++];
}

/* What is left of a dump behind a place. */
struct left {
    const uint8_t *bytes;
    size_t n, dump_at;
};

static void move(struct left *l, size_t n)
{
    *l = (struct left){ l->bytes + n, l->n - n, l->dump_at + n };
}

/* A header that tells more bytes than there are, or fewer than 2, takes all that is left. */
static void split_fragments(struct capture *c, struct left l)
{
    while (l.n > 0) {
        size_t n = l.n >= FRAGMENT_HEADER ? (size_t)big_endian(l.bytes, 4) + 4 : l.n;
        if (n < FRAGMENT_HEADER || n > l.n)
            n = l.n;
        put_part(c, A_FRAGMENT, l.bytes, n, l.dump_at);
        move(&l, n);
    }
}

/* The fragments of one PDU, or of what the dump has of it. */
static bool split_p_data(struct capture *c, struct left l, bool whole)
{
    while (l.n > 0) {
        size_t n = l.n >= 4 ? (size_t)big_endian(l.bytes, 4) + 4 : SIZE_MAX;
        bool fits = n >= FRAGMENT_HEADER && n <= l.n;
        if (!fits) {
            put_part(c, whole ? NOT_READABLE : CUT_SHORT, l.bytes, l.n, l.dump_at)->why =
                "a presentation data value does not fit its PDU";
            return false;
        }
        put_part(c, A_FRAGMENT, l.bytes, n, l.dump_at);
        move(&l, n);
    }
    return true;
}

static void split_pdus(struct capture *c, struct left l)
{
    while (l.n > 0) {
        if (l.n >= PDU_HEADER && !looks_like_pdu(l.bytes, l.n)) {
            put_part(c, NOT_READABLE, l.bytes, l.n, l.dump_at)->why = "no PDU of PS3.8 begins here";
            return;
        }
        size_t told = l.n < PDU_HEADER ? SIZE_MAX : PDU_HEADER + (size_t)big_endian(l.bytes + 2, 4);
        bool whole = told <= l.n;
        size_t n = whole ? told : l.n;
        put_part(c, whole ? A_PDU : CUT_SHORT, l.bytes, n, l.dump_at);
        if (l.n >= PDU_HEADER && l.bytes[0] == P_DATA_TF &&
            !split_p_data(c, (struct left){ l.bytes + PDU_HEADER, n - PDU_HEADER, l.dump_at + PDU_HEADER }, whole))
            return;
        move(&l, n);
    }
}

/* A bare command set is handed over as one fragment, with a header that is not in the dump. */
static void make_fragment(struct capture *c, const struct left *l)
{
    uint32_t n = (uint32_t)l->n + 2;
    uint8_t header[FRAGMENT_HEADER] = { (uint8_t)(n >> 24),    (uint8_t)(n >> 16), (uint8_t)(n >> 8), (uint8_t)n, 1,
                                        COMMAND_BIT | LAST_BIT };
    c->made = malloc(FRAGMENT_HEADER + l->n);
    if (c->made == NULL)
        stop("no memory");
    memcpy(c->made, header, FRAGMENT_HEADER);
    memcpy(c->made + FRAGMENT_HEADER, l->bytes, l->n);
    put_part(c, A_FRAGMENT, c->made, FRAGMENT_HEADER + l->n, l->dump_at - FRAGMENT_HEADER);
}

struct capture split_dump(const struct dump *d, enum content content)
{
    struct capture c = { .name = d->name, .content = content };
    struct left l = { d->bytes.bytes, d->bytes.n, d->first };
    if (content == CONTENT_TOLD_APART)
        tell_apart(d, &c);
    if (c.content == PDUS)
        split_pdus(&c, l);
    else if (c.content == FRAGMENTS)
        split_fragments(&c, l);
    else if (c.content == COMMAND_SET)
        make_fragment(&c, &l);
    return c;
}

void free_capture(struct capture *c)
{
    free(c->parts);
    free(c->made);
}
