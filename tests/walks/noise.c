#include "noise.h"

#include <string.h>

/* xorshift64*, the high half */
static uint32_t next(struct noise *r) {
    r->state ^= r->state >> 12;
    r->state ^= r->state << 25;
    r->state ^= r->state >> 27;
    return (uint32_t)(r->state * 0x2545F4914F6CDD1Du >> 32);
}

uint32_t below(struct noise *r, uint32_t n) { return next(r) % n; }

static bool one_in(struct noise *r, uint32_t n) { return below(r, n) == 0; }

void put_random(struct noise *r, struct data_set *d) {
    for (uint32_t n = below(r, 97); n > 0; n--) put_number(d, below(r, 256), 1);
}

struct kind {
    uint32_t tag;
    const char *vr;
};

/* Tags that ascend; those of SQ hold items. */
static const struct kind kinds[] = {
    {0x00000002, "UI"}, {0x00080005, "CS"}, {0x00081150, "UI"}, {0x00081155, "UI"}, {0x00090010, "LO"},
    {0x00091002, "OB"}, {0x00091006, "SQ"}, {0x00280002, "US"}, {0x00280034, "IS"}, {0x00400260, "SQ"},
    {0x20000010, "IS"}, {0x20000050, "LO"}, {0x20100010, "ST"}, {0x20100500, "SQ"}, {0x20100510, "SQ"},
    {0x20200010, "US"}, {0x20200110, "SQ"}, {0x20510010, "UT"}, {0x7FE00010, "OW"}, {0xFFFCFFFC, "OB"},
};

static void grow_list(struct noise *r, struct data_set *d, int depth);

static void grow_sequence(struct noise *r, struct data_set *d, uint32_t tag, int depth) {
    bool loose = one_in(r, 2);
    size_t sequence = open_sequence(d, tag, loose);
    for (uint32_t items = below(r, 3); items > 0; items--) {
        bool loose_item = one_in(r, 2);
        size_t item = open_item(d, loose_item);
        grow_list(r, d, depth + 1);
        close_item(d, item, loose_item);
    }
    close_sequence(d, sequence, loose);
}

static void grow_list(struct noise *r, struct data_set *d, int depth) {
    static const uint8_t value[8] = "1.9.7.10";
    for (size_t i = 0; i < sizeof kinds / sizeof *kinds; i++) {
        bool nests = strcmp(kinds[i].vr, "SQ") == 0;
        if (!one_in(r, nests && depth < 6 ? 3 : 8)) continue;
        if (nests && depth < 6)
            grow_sequence(r, d, kinds[i].tag, depth);
        else if (!nests)
            put_element(d, kinds[i].tag, kinds[i].vr, value, 2 * below(r, 5));
    }
}

void put_grown(struct noise *r, struct data_set *d) { grow_list(r, d, (int)below(r, 6)); }

/* What is laid over the bytes: lengths, tags of items and their ends, VRs. */
static const char *const patches[] = {
    "\xFF\xFF\xFF\xFF", "\xFE\xFF\xFF\xFF", "\xFE\xFF\x00\xE0", "\xFE\xFF\x0D\xE0", "\xFE\xFF\xDD\xE0", "\xFE\xFF\x01\x00",
    "SQ\x00\x00",       "OB\x00\x00",       "UN\x00\x00",       "US\x02\x00",       "ZZ\x02\x00",       "\x20\x20\x10\x01",
    "\x10\x20\x00\x05", "\x00\x00\x00\x00", "\x03\x00\x00\x00", "\x10\x00\x00\x00",
};

static void lay_patch(struct noise *r, struct data_set *d, size_t at) {
    const char *patch = patches[below(r, sizeof patches / sizeof *patches)];
    size_t left = d->n - at;
    memcpy(d->bytes + at, patch, left < 4 ? left : 4);
}

void damage(struct noise *r, struct data_set *d) {
    if (d->n == 0) return;
    size_t at = below(r, (uint32_t)d->n);
    switch (below(r, 5)) {
    case 0: d->bytes[at] ^= (uint8_t)(1u << below(r, 8)); break;
    case 1: d->bytes[at] = (uint8_t)below(r, 256); break;
    case 2: d->bytes[at & ~(size_t)1] += 2; break;
    case 3: lay_patch(r, d, at & ~(size_t)1); break;
    default:
        if (one_in(r, 3)) d->n = at;
    }
}
