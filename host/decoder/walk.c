#include "walk.h"

#include <string.h>

uint32_t tag_at(const uint8_t *p)
{
    return (uint32_t)(number_at(p, 2) << 16 | number_at(p + 2, 2));
}

/* Elements of an item lie in as many sequences as the item's own header. */
struct stopped stopped_of(const struct walked *w)
{
    if (w->refusal == READ)
        return (struct stopped){ READ, 0, 0 };
    return (struct stopped){ w->refusal, w->at, (uint32_t)(w->header.depth + 1) / 2 };
}

bool same_stop(struct stopped a, struct stopped b)
{
    return a.refusal == b.refusal && a.place == b.place && a.depth == b.depth;
}

struct reading reading_of(const struct walked *w)
{
    return (struct reading){ stopped_of(w), w->headers };
}

bool same_reading(struct reading a, struct reading b)
{
    return same_stop(a.stopped, b.stopped) && a.headers == b.headers;
}

/* The set that is walked, by whom, the sequences that the walk is in, and how it ended. */
struct source {
    const uint8_t *bytes;
    bool explicit_vr;
    visit *visit;
    void *with;
    struct level path[LEVELS];
    struct walked walked;
};

/* What holds elements or items: up to its end, or before that to a delimiter where its length is undefined. */
struct inside {
    size_t end;
    bool loose;
    int depth;
};

/* Judging headers, in the order of rule 5.8. */

static void read_implicit(const uint8_t *p, struct header *h)
{
    const struct named *row = named_tag(h->tag);
    h->size = 8;
    h->length = (uint32_t)number_at(p + 4, 4);
    h->form = row != NULL ? form_of(row->vr) : h->length == UNDEFINED ? form_of("SQ") : &opaque;
}

/* An unknown VR has a header of 8 bytes. */
static bool read_explicit(const uint8_t *p, size_t left, struct header *h)
{
    h->form = form_of((const char *)p + 4);
    h->size = h->form == NULL ? 8 : h->form->header;
    if (left < h->size)
        return false;
    h->length = (uint32_t)(h->size == 12 ? number_at(p + 8, 4) : number_at(p + 6, 2));
    return true;
}

bool is_vr_of(const struct named *row, const struct form *form)
{
    return strcmp(row->vr, form->vr) == 0 || (row->tag == PIXEL_DATA && strcmp(form->vr, "OB") == 0);
}

static bool vr_wrong(const uint8_t *p, const struct header *h)
{
    const struct named *row = named_tag(h->tag);
    if (h->form == NULL || (h->size == 12 && number_at(p + 6, 2) != 0))
        return true;
    return row != NULL && !is_vr_of(row, h->form);
}

static uint32_t judge_length(uint32_t length, size_t left, bool may_be_undefined)
{
    if (length == UNDEFINED)
        return may_be_undefined ? READ : NOT_DEFINED;
    if (length % 2 != 0)
        return ODD;
    return length > left ? CUT : READ;
}

static uint32_t read_element(const struct source *s, const struct inside *in, uint64_t floor, struct header *h)
{
    const uint8_t *p = s->bytes + h->at;
    size_t left = in->end - h->at;
    if (left < 8)
        return CUT;
    h->tag = tag_at(p);
    if (h->tag >> 16 == 0xFFFE)
        return MISPLACED;
    if (!s->explicit_vr)
        read_implicit(p, h);
    else if (!read_explicit(p, left, h))
        return CUT;
    if (h->tag < floor)
        return ORDER;
    if (s->explicit_vr && vr_wrong(p, h))
        return WRONG_VR;
    uint32_t refusal = judge_length(h->length, left - h->size, h->form->kind == SEQUENCE);
    if (refusal == READ && h->form->kind == SEQUENCE && in->depth == 2 * LEVELS)
        return TOO_DEEP;
    return refusal;
}

static uint32_t read_item(const struct source *s, const struct inside *in, struct header *h)
{
    size_t left = in->end - h->at;
    if (left < 8)
        return CUT;
    h->tag = tag_at(s->bytes + h->at);
    if (h->tag != ITEM_TAG)
        return MISPLACED;
    h->length = (uint32_t)number_at(s->bytes + h->at + 4, 4);
    return judge_length(h->length, left - h->size, true);
}

static bool refuse(struct source *s, const struct inside *in, const struct header *h, uint64_t floor, uint32_t refusal)
{
    s->walked = (struct walked){ refusal, s->walked.headers, h->at, in->end - h->at, in->loose, *h, floor, { { 0 } } };
    memcpy(s->walked.path, s->path, sizeof s->path);
    return false;
}

static void pass(struct source *s, const struct header *h)
{
    s->walked.headers++;
    s->visit(s->with, h);
}

/* Whether a list or a sequence ends here; its delimiter is passed. */
static bool ends(struct source *s, size_t *at, const struct inside *in, enum part part)
{
    const uint8_t *p = s->bytes + *at;
    struct header h = { part, part == ITEM_END ? ITEM_END_TAG : SEQUENCE_END_TAG, 0, NULL, *at, 8, in->depth };
    if (!in->loose)
        return *at == in->end;
    if (in->end - *at < 8 || tag_at(p) != h.tag || number_at(p + 4, 4) != 0)
        return false;
    pass(s, &h);
    *at += 8;
    return true;
}

/* What stands behind a header, one level deeper. */
static struct inside below_header(const struct inside *in, const struct header *h)
{
    bool loose = h->length == UNDEFINED;
    return (struct inside){ loose ? in->end : h->at + h->size + h->length, loose, in->depth + 1 };
}

static bool walk_list(struct source *s, size_t *at, const struct inside *in);

static bool walk_items(struct source *s, size_t *at, const struct inside *in)
{
    struct level *level = &s->path[in->depth / 2];
    while (!ends(s, at, in, SEQUENCE_END)) {
        struct header h = { ITEM, 0, 0, NULL, *at, 8, in->depth };
        uint32_t refusal = read_item(s, in, &h);
        if (refusal != READ)
            return refuse(s, in, &h, 0, refusal);
        pass(s, &h);
        level->items++;
        level->item_at = h.at;
        *at += h.size;
        struct inside list = below_header(in, &h);
        if (!walk_list(s, at, &list))
            return false;
    }
    return true;
}

/* Sequences stand at depths 0, 2, 4 and 6, their items one deeper. */
static bool walk_list(struct source *s, size_t *at, const struct inside *in)
{
    uint64_t floor = 0;
    while (!ends(s, at, in, ITEM_END)) {
        struct header h = { ELEMENT, 0, 0, NULL, *at, 8, in->depth };
        uint32_t refusal = read_element(s, in, floor, &h);
        if (refusal != READ)
            return refuse(s, in, &h, floor, refusal);
        pass(s, &h);
        floor = (uint64_t)h.tag + 1;
        *at += h.size;
        struct inside items = below_header(in, &h);
        if (h.form->kind != SEQUENCE) {
            *at = items.end;
            continue;
        }
        s->path[in->depth / 2] = (struct level){ h.tag, h.at, 0, 0 };
        if (!walk_items(s, at, &items))
            return false;
    }
    return true;
}

struct walked walk_set(const uint8_t *bytes, size_t n, bool explicit_vr, visit *visit, void *with)
{
    struct source s = { bytes, explicit_vr, visit, with, { { 0 } }, { .refusal = READ, .at = n } };
    struct inside whole = { n, false, 0 };
    size_t at = 0;
    walk_list(&s, &at, &whole);
    return s.walked;
}
