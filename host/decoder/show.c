#include "show.h"

#include <inttypes.h>
#include <stdio.h>
#include <string.h>

#include "names.h"
#include "stops.h"

enum { TEXT_SHOWN = 64, BYTES_SHOWN = 16, NUMBERS_SHOWN = 8, REFUSED_SHOWN = 12 };

enum { COMMAND_FIELD = 0x00000100, DATA_SET_TYPE = 0x00000800, STATUS = 0x00000900, NO_DATA_SET = 0x0101 };

/* Values. */

static void show_text(const uint8_t *value, size_t length)
{
    putchar('"');
    for (size_t i = 0; i < length && i < TEXT_SHOWN; i++)
        if (value[i] >= ' ' && value[i] <= '~')
            putchar(value[i]);
        else
            printf("<%02X>", value[i]);
    putchar('"');
    if (length > TEXT_SHOWN)
        printf(" ..");
}

static void show_bytes(const uint8_t *value, size_t length)
{
    for (size_t i = 0; i < length && i < BYTES_SHOWN; i++)
        printf(i == 0 ? "%02X" : " %02X", value[i]);
    if (length > BYTES_SHOWN)
        printf(" ..");
}

static void show_real(const uint8_t *value, uint8_t width)
{
    float four;
    double eight;
    memcpy(&four, value, sizeof four);
    if (width == 4) {
        printf("%g", (double)four);
        return;
    }
    memcpy(&eight, value, sizeof eight);
    printf("%g", eight);
}

static void show_number(const uint8_t *value, const struct form *form)
{
    uint64_t n = number_at(value, form->width), sign = (uint64_t)1 << (8 * form->width - 1);
    switch (form->kind) {
    case NUMBER:
        printf("%" PRIu64 " (%0*" PRIX64 "H)", n, 2 * form->width, n);
        break;
    case SIGNED:
        printf("%" PRId64, (int64_t)(n ^ sign) - (int64_t)sign);
        break;
    case TAGS:
        printf("(%04X,%04X)", (unsigned)(tag_at(value) >> 16), (unsigned)(tag_at(value) & 0xFFFF));
        break;
    default:
        show_real(value, form->width);
    }
}

static void show_value(const uint8_t *value, size_t length, const struct form *form)
{
    if (form->kind == TEXT) {
        show_text(value, length);
        return;
    }
    if (form->kind == BYTES || form->kind == SEQUENCE || length % form->width != 0) {
        show_bytes(value, length);
        return;
    }
    for (size_t i = 0; i < length / form->width && i < NUMBERS_SHOWN; i++) {
        if (i > 0)
            putchar(' ');
        show_number(value + i * form->width, form);
    }
    if (length / form->width > NUMBERS_SHOWN)
        printf(" ..");
}

/* What a value is called: a UID, an operation, a status. */
static const char *value_name(const uint8_t *value, size_t length, uint32_t tag, const struct form *form)
{
    if (strcmp(form->vr, "UI") == 0)
        return uid_name(value, value[length - 1] == 0 ? length - 1 : length);
    uint32_t number = length == 2 ? (uint32_t)number_at(value, 2) : UINT32_MAX;
    if (tag == COMMAND_FIELD)
        return field_name(number);
    if (tag == STATUS)
        return status_name(number);
    return tag == DATA_SET_TYPE && number == NO_DATA_SET ? "no data set" : NULL;
}

/* Headers. */

struct showing {
    const struct pieces *set;
    bool explicit_vr;
};

static void show_place(const struct showing *s, size_t at, int depth)
{
    printf("%08zX  %8zu  %*s", place_in_dump(s->set, at), at, 4 * depth, "");
}

static void show_length(uint32_t length)
{
    if (length == UNDEFINED)
        printf(" undefined");
    else
        printf(" %" PRIu32, length);
}

/* What is read as opaque is shown by the VR that PS3.6 gives it. */
static const struct form *shown_form(const struct header *h, const struct named *row)
{
    return h->form == &opaque && row != NULL ? form_of(row->vr) : h->form;
}

/* Tags that the rules do not name may have another VR than PS3.6 gives them. */
static void show_remarks(const struct showing *s, const struct header *h, const struct named *row)
{
    if (h->form == &opaque && row != NULL && strcmp(row->vr, "SQ") == 0)
        printf("  (passed over as one value)");
    if (s->explicit_vr && row != NULL && strstr(row->vr, h->form->vr) == NULL && named_tag(h->tag) == NULL)
        printf("  (by PS3.6 it is %s)", row->vr);
}

static void show_element(const struct showing *s, const struct header *h)
{
    const struct named *row = shown_tag(h->tag);
    const struct form *form = shown_form(h, row);
    const uint8_t *value = s->set->set.bytes + h->at + h->size;
    printf("(%04X,%04X) %s", (unsigned)(h->tag >> 16), (unsigned)(h->tag & 0xFFFF), form->vr);
    show_length(h->length);
    if (row != NULL)
        printf("  %s", row->name);
    else if (h->tag >> 16 & 1)
        printf("  private");
    if (h->form->kind != SEQUENCE && h->length > 0) {
        const char *name = value_name(value, h->length, h->tag, form);
        printf("  ");
        show_value(value, h->length, form);
        if (name != NULL)
            printf(" %s", name);
    }
    show_remarks(s, h, row);
}

static void show_header(void *with, const struct header *h)
{
    const struct showing *s = with;
    static const char *const parts[] = { "", "item", "end of item", "end of sequence" };
    show_place(s, h->at, h->depth);
    if (h->part == ELEMENT)
        show_element(s, h);
    else
        printf("(%04X,%04X) %s", (unsigned)(h->tag >> 16), (unsigned)(h->tag & 0xFFFF), parts[h->part]);
    if (h->part == ITEM)
        show_length(h->length);
    putchar('\n');
}

/* A header that is refused: as many bytes of it as there are. */
static void show_refused(const struct showing *s, const struct walked *w)
{
    show_place(s, w->at, w->header.depth);
    show_bytes(s->set->set.bytes + w->at, w->left < REFUSED_SHOWN ? w->left : REFUSED_SHOWN);
    printf("  <- here: %s\n", found_words(w, s->set->set.bytes).text);
}

struct walked show_set(const struct pieces *set, bool explicit_vr)
{
    struct showing s = { set, explicit_vr };
    struct walked w = walk_set(set->set.bytes, set->set.n, explicit_vr, show_header, &s);
    if (w.refusal != READ)
        show_refused(&s, &w);
    return w;
}
