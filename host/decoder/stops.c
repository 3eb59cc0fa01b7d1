#include "stops.h"

#include <inttypes.h>
#include <stdarg.h>
#include <stdio.h>
#include <string.h>

#include "../data_sets.h"

static void add(struct words *w, const char *format, ...)
{
    size_t at = strlen(w->text);
    va_list arguments;
    va_start(arguments, format);
    vsnprintf(w->text + at, sizeof w->text - at, format, arguments);
    va_end(arguments);
}

static void add_tag(struct words *w, uint32_t tag)
{
    add(w, "(%04X,%04X)", (unsigned)(tag >> 16), (unsigned)(tag & 0xFFFF));
}

const char *refusal_text(uint32_t refusal)
{
    static const char *const texts[] = {
        [READ] = "read whole",
        [CUT] = "cut short, or a value goes past the end of what holds it",
        [ODD] = "a length is odd",
        [ORDER] = "a tag is not above the one before it",
        [WRONG_VR] = "the VR is unknown or not the tag's, or the two bytes behind it are not zero",
        [NOT_DEFINED] = "an undefined length where none is allowed",
        [MISPLACED] = "an item or a delimiter that does not belong here, or no item where one must be",
        [TOO_DEEP] = "a fifth sequence within sequences",
    };
    return refusal < sizeof texts / sizeof *texts ? texts[refusal] : "unknown";
}

struct words depth_words(uint32_t depth)
{
    struct words w = { "in the set's own list" };
    if (depth > 0)
        snprintf(w.text, sizeof w.text, "in %" PRIu32 " sequence%s", depth, depth == 1 ? "" : "s within one another");
    return w;
}

struct words stop_words(struct stopped s)
{
    struct words w = { "read whole" };
    if (s.refusal == READ)
        return w;
    snprintf(w.text, sizeof w.text, "refused with %" PRIu32 " at %zu, ", s.refusal, s.place);
    add(&w, "%s", depth_words(s.depth).text);
    return w;
}

struct words headers_words(size_t headers)
{
    struct words w = { "" };
    add(&w, "%zu header%s", headers, headers == 1 ? "" : "s");
    return w;
}

struct words reading_words(struct reading r)
{
    struct words w = stop_words(r.stopped);
    add(&w, ", %s%s", r.stopped.refusal == READ ? "" : "after ", headers_words(r.headers).text);
    return w;
}

struct words refusal_words(const struct walked *w, const uint8_t *bytes)
{
    struct words all = stop_words(stopped_of(w));
    add(&all, ": %s: %s (rule 5.%" PRIu32 ")", refusal_text(w->refusal), found_words(w, bytes).text, w->refusal);
    return all;
}

/* Whether a header is at fault, and not the length of what stands behind it. */
static bool is_header_cut(const struct walked *w)
{
    return w->left < w->header.size;
}

/* Whether a delimiter is at fault that would end what holds it, were its length 0. */
static bool is_long_delimiter(const struct walked *w)
{
    return w->loose && w->header.tag == (w->header.part == ITEM ? SEQUENCE_END_TAG : ITEM_END_TAG);
}

/* What stands there. */

static void add_vr_found(struct words *found, const struct walked *w, const uint8_t *vr)
{
    const struct header *h = &w->header;
    if (h->form == NULL)
        add(found, "the bytes %02X %02X are no VR", vr[0], vr[1]);
    else if (h->size == 12 && number_at(vr + 2, 2) != 0)
        add(found, "behind %s stand %02X %02X", h->form->vr, vr[2], vr[3]);
    else
        add(found, "%s, where the tag has %s", h->form->vr, named_tag(h->tag)->vr);
}

static void add_cut_found(struct words *found, const struct walked *w)
{
    if (w->left == 0)
        add(found, "nothing is left");
    else if (is_header_cut(w))
        add(found, "%zu byte%s left for a header of %zu", w->left, w->left == 1 ? " is" : "s are", w->header.size);
    else
        add(found, "length %" PRIu32 ", %zu bytes are left", w->header.length, w->left - w->header.size);
}

struct words found_words(const struct walked *w, const uint8_t *bytes)
{
    struct words found = { "" };
    switch (w->refusal) {
    case CUT:
        add_cut_found(&found, w);
        break;
    case ODD:
        add(&found, "length %" PRIu32, w->header.length);
        break;
    case ORDER:
        add_tag(&found, w->header.tag);
        add(&found, " behind ");
        add_tag(&found, (uint32_t)(w->floor - 1));
        break;
    case WRONG_VR:
        add_vr_found(&found, w, bytes + w->at + 4);
        break;
    default:
        add_tag(&found, w->header.tag);
        if (w->refusal == MISPLACED && is_long_delimiter(w))
            add(&found, " with length %" PRIu64, number_at(bytes + w->at + 4, 4));
    }
    return found;
}

/* What was expected. */

/* The delimiter of what holds the header at fault, an item or a sequence of undefined length. */
static void add_delimiter(struct words *expected, const struct walked *w)
{
    const struct level *level = &w->path[stopped_of(w).depth - 1];
    bool of_sequence = w->header.part == ITEM;
    add(expected, "the delimiter ");
    add_tag(expected, of_sequence ? SEQUENCE_END_TAG : ITEM_END_TAG);
    add(expected, " of the %s at %zu", of_sequence ? "sequence" : "item", of_sequence ? level->at : level->item_at);
}

static void add_cut_expected(struct words *expected, const struct walked *w)
{
    if (w->left == 0)
        add_delimiter(expected, w);
    else if (is_header_cut(w))
        add(expected, "a header of %zu bytes, %zu %s left", w->header.size, w->left, w->left == 1 ? "is" : "are");
    else
        add(expected, "a length of at most %zu, the bytes that are left", w->left - w->header.size);
}

static void add_vr_expected(struct words *expected, const struct walked *w)
{
    const struct named *row = named_tag(w->header.tag);
    const struct form *form = w->header.form;
    if (row != NULL && (form == NULL || !is_vr_of(row, form)))
        add(expected, "VR %s%s, the tag's own", row->vr, row->tag == PIXEL_DATA ? " or OB" : "");
    else if (form == NULL)
        add(expected, "one of the VRs of rule 5.10");
    else
        add(expected, "two zero bytes behind %s", form->vr);
}

static void add_place_expected(struct words *expected, const struct walked *w)
{
    bool of_sequence = w->header.part == ITEM;
    if (is_long_delimiter(w)) {
        add(expected, "length 0 of ");
        add_delimiter(expected, w);
        return;
    }
    add(expected, of_sequence ? "an item " : "an element");
    if (of_sequence)
        add_tag(expected, ITEM_TAG);
    if (w->loose) {
        add(expected, " or ");
        add_delimiter(expected, w);
    }
}

struct words expected_words(const struct walked *w)
{
    struct words expected = { "" };
    switch (w->refusal) {
    case CUT:
        add_cut_expected(&expected, w);
        break;
    case ODD:
        add(&expected, "an even length");
        break;
    case ORDER:
        add(&expected, "a tag above ");
        add_tag(&expected, (uint32_t)(w->floor - 1));
        break;
    case WRONG_VR:
        add_vr_expected(&expected, w);
        break;
    case NOT_DEFINED:
        add(&expected, "a defined length");
        break;
    case MISPLACED:
        add_place_expected(&expected, w);
        break;
    default:
        add(&expected, "no sequence: %d are open already", LEVELS);
    }
    return expected;
}

/* The sequences around it. */

static void add_level(struct words *path, const struct level *level, bool in_item)
{
    const struct named *row = shown_tag(level->tag);
    if (in_item)
        add(path, "item %zu of ", level->items);
    add_tag(path, level->tag);
    add(path, "%s%s at %zu", row == NULL ? "" : " ", row == NULL ? "" : row->name, level->at);
    if (!in_item)
        add(path, ", behind %zu item%s", level->items, level->items == 1 ? "" : "s");
}

struct words path_words(const struct walked *w)
{
    struct words path = { "" };
    uint32_t depth = stopped_of(w).depth;
    for (uint32_t i = 0; i < depth; i++) {
        if (i > 0)
            add(&path, ", ");
        add_level(&path, &w->path[i], i + 1 < depth || w->header.part == ELEMENT);
    }
    return path;
}
