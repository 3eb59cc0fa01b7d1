#include "elements.h"

#include <string.h>

#include "cover.h"

enum { DEEPEST = 4 };

#define UNDEFINED 0xFFFFFFFFu
#define ITEM TAG(0xFFFE, 0xE000)
#define ITEM_DELIMITER TAG(0xFFFE, 0xE00D)
#define SEQUENCE_DELIMITER TAG(0xFFFE, 0xE0DD)
#define PIXEL_DATA TAG(0x7FE0, 0x0010)

/* "The tags named here, each with its VR, form one table of 35 rows." */
static const struct named {
    uint32_t tag;
    char vr[3];
} table[35] = {
    { TAG(0x0000, 0x0000), "UL" }, { TAG(0x0000, 0x0002), "UI" }, { TAG(0x0000, 0x0003), "UI" },
    { TAG(0x0000, 0x0100), "US" }, { TAG(0x0000, 0x0110), "US" }, { TAG(0x0000, 0x0120), "US" },
    { TAG(0x0000, 0x0800), "US" }, { TAG(0x0000, 0x0900), "US" }, { TAG(0x0000, 0x1000), "UI" },
    { TAG(0x0000, 0x1001), "UI" }, { TAG(0x0000, 0x1008), "US" }, { TAG(0x0008, 0x1150), "UI" },
    { TAG(0x0008, 0x1155), "UI" }, { TAG(0x0028, 0x0002), "US" }, { TAG(0x0028, 0x0004), "CS" },
    { TAG(0x0028, 0x0010), "US" }, { TAG(0x0028, 0x0011), "US" }, { TAG(0x0028, 0x0100), "US" },
    { TAG(0x0028, 0x0101), "US" }, { TAG(0x0028, 0x0102), "US" }, { TAG(0x0028, 0x0103), "US" },
    { TAG(0x2000, 0x0010), "IS" }, { TAG(0x2000, 0x0020), "CS" }, { TAG(0x2000, 0x0030), "CS" },
    { TAG(0x2000, 0x0040), "CS" }, { TAG(0x2000, 0x0050), "LO" }, { TAG(0x2010, 0x0010), "ST" },
    { TAG(0x2010, 0x0040), "CS" }, { TAG(0x2010, 0x0060), "CS" }, { TAG(0x2010, 0x0500), "SQ" },
    { TAG(0x2010, 0x0510), "SQ" }, { TAG(0x2020, 0x0010), "US" }, { TAG(0x2020, 0x0020), "CS" },
    { TAG(0x2020, 0x0110), "SQ" }, { PIXEL_DATA, "OW" },
};

static const char *const known_vrs[] = { "AE", "AS", "AT", "CS", "DA", "DS", "DT", "FD", "FL",
                                         "IS", "LO", "LT", "OB", "OF", "OW", "PN", "SH", "SL",
                                         "SQ", "SS", "ST", "TM", "UI", "UL", "UN", "US", "UT" };

static const char *const long_form_vrs[] = { "OB", "OF", "OW", "SQ", "UN", "UT" };

static bool same_vr(const uint8_t *vr, const char *name)
{
    return vr[0] == (uint8_t)name[0] && vr[1] == (uint8_t)name[1];
}

static bool among(const uint8_t *vr, const char *const *names, size_t count)
{
    for (size_t i = 0; i < count; i++)
        if (same_vr(vr, names[i]))
            return true;
    return false;
}

static bool is_known(const uint8_t *vr)
{
    return among(vr, known_vrs, sizeof known_vrs / sizeof known_vrs[0]);
}

static bool is_long_form(const uint8_t *vr)
{
    return among(vr, long_form_vrs, sizeof long_form_vrs / sizeof long_form_vrs[0]);
}

/* The named tag's row; NULL for a tag that the document does not name. */
static const struct named *named(uint32_t tag)
{
    for (size_t i = 0; i < sizeof table / sizeof table[0]; i++)
        if (table[i].tag == tag)
            return &table[i];
    return NULL;
}

static bool vr_suits(const struct named *row, const uint8_t *vr)
{
    if (row == NULL || same_vr(vr, row->vr))
        return true;
    return row->tag == PIXEL_DATA && same_vr(vr, "OB");
}

uint16_t number_16(const uint8_t *bytes)
{
    return (uint16_t)(bytes[0] | bytes[1] << 8);
}

uint32_t number_32(const uint8_t *bytes)
{
    return (uint32_t)number_16(bytes) | (uint32_t)number_16(bytes + 2) << 16;
}

static uint32_t tag_at(const uint8_t *bytes)
{
    return TAG(number_16(bytes), number_16(bytes + 2));
}

struct part whole_list(const uint8_t *bytes, size_t length, enum syntax syntax)
{
    struct part list = { bytes, syntax, 0, length, false, 0 };
    return list;
}

/* The header at a place of a list, or between the items of a sequence, is at fault. */
static struct refusal refuse(int number, const struct part *around, size_t at)
{
    struct refusal refusal = { number, at, around->depth };
    return refusal;
}

static struct refusal no_refusal(void)
{
    struct refusal refusal = { 0, 0, 0 };
    return refusal;
}

/* What a header says of the bytes after it. */
struct extent {
    size_t header; /* its own bytes */
    uint32_t length;
    bool undefined;
    bool sequence; /* or an item: only these may be undefined */
};

static int judge_length(const struct part *around, size_t value, const struct extent *x)
{
    CHECK(x->undefined && !x->sequence, 5, "reader 5: undefined length not allowed");
    CHECK(!x->undefined && x->length % 2 == 1, 2, "reader 2: odd length");
    CHECK(!x->undefined && x->length > around->to - value, 1,
          "reader 1: value past the enclosing end");
    return 0;
}

static void set_value(struct element *e, const struct part *around, size_t value,
                      const struct extent *x)
{
    e->value = *around;
    e->value.from = value;
    e->value.to = x->undefined ? around->to : value + x->length;
    e->value.undefined = x->undefined;
    e->next = e->value.to;
}

/* Group FFFE in a list: only the item delimiter may stand there, to close it. */
static int read_delimiter(const struct part *list, size_t at, struct element *e)
{
    CHECK(!list->undefined, 6, "reader 6: group FFFE in a list of defined length");
    CHECK(e->tag != ITEM_DELIMITER, 6, "reader 6: group FFFE that does not close the list");
    CHECK(number_32(list->bytes + at + 4) != 0, 6, "reader 6: item delimiter with a length");
    COVER("list closed by its delimiter");
    e->closes = true;
    e->next = at + 8;
    return 0;
}

static int judge_vr(const struct named *row, const uint8_t *header)
{
    const uint8_t *vr = header + 4;
    CHECK(!is_known(vr), 4, "reader 4: unknown VR");
    CHECK(is_long_form(vr) && number_16(header + 6) != 0, 4, "reader 4: long-form bytes not zero");
    CHECK(!vr_suits(row, vr), 4, "reader 4: not the named tag's VR");
    return 0;
}

/* An element's length and whether it is a sequence, in explicit VR and in implicit VR. */
static void read_explicit(const uint8_t *header, struct extent *x)
{
    bool long_form = is_long_form(header + 4);
    x->header = long_form ? 12 : 8;
    x->length = long_form ? number_32(header + 8) : number_16(header + 6);
    x->undefined = long_form && x->length == UNDEFINED;
    x->sequence = same_vr(header + 4, "SQ");
}

static void read_implicit(const uint8_t *header, const struct named *row, struct extent *x)
{
    x->header = 8;
    x->length = number_32(header + 4);
    x->undefined = x->length == UNDEFINED;
    x->sequence = row != NULL ? strcmp(row->vr, "SQ") == 0 : x->undefined;
}

/* The header at a place of a list; `before` is the tag before it, -1 for none. The refusals in
   order: 1 cut short, 6, 3, 4, 5, 2, 1 past the end, 7. Only a list of undefined length is read on
   where no bytes are left: "a missing delimiter is a cut header". */
static int read_header(const struct part *list, size_t at, int64_t before, struct element *e)
{
    const uint8_t *header = list->bytes + at;
    size_t left = list->to - at;
    CHECK(left == 0, 1, "reader 1: item delimiter missing");
    CHECK(left < 8, 1, "reader 1: header cut short of 8 bytes");
    e->tag = tag_at(header);
    e->closes = false;
    bool has_vr = list->syntax == EXPLICIT && e->tag >> 16 != 0xFFFE;
    CHECK(has_vr && is_long_form(header + 4) && left < 12, 1,
          "reader 1: header cut short of 12 bytes");
    if (e->tag >> 16 == 0xFFFE)
        return read_delimiter(list, at, e);
    CHECK((int64_t)e->tag <= before, 3, "reader 3: tag not above the one before");
    const struct named *row = named(e->tag);
    int number = has_vr ? judge_vr(row, header) : 0;
    if (number != 0)
        return number;
    struct extent x;
    if (has_vr)
        read_explicit(header, &x);
    else
        read_implicit(header, row, &x);
    number = judge_length(list, at + x.header, &x);
    if (number != 0)
        return number;
    CHECK(x.sequence && list->depth == DEEPEST, 7, "reader 7: a fifth nested sequence");
    e->sequence = x.sequence;
    set_value(e, list, at + x.header, &x);
    return 0;
}

/* These call each other, and each adds the headers that it passes to `passed`. */
static struct refusal read_items(const struct part *sequence, size_t *next, size_t *passed);
static struct refusal read_elements(const struct part *list, size_t *next, size_t *passed);

/* An element of a list: its header, and the items that a sequence element holds. The header is
   passed before its items are read: it counts too where one of them is refused. */
static struct refusal read_element(const struct part *list, size_t at, int64_t before,
                                   struct element *e, size_t *passed)
{
    int number = read_header(list, at, before, e);
    if (number != 0)
        return refuse(number, list, at);
    (*passed)++;
    if (e->closes || !e->sequence)
        return no_refusal();
    if (e->value.undefined)
        COVER("sequence of undefined length");
    else
        COVER("sequence of defined length");
    e->value.depth++;
    return read_items(&e->value, &e->next, passed);
}

/* The header between items: an item's, or the closing delimiter. */
static int read_item_header(const struct part *sequence, size_t at, struct element *item)
{
    const uint8_t *header = sequence->bytes + at;
    CHECK(sequence->to == at, 1, "reader 1: sequence delimiter missing");
    CHECK(sequence->to - at < 8, 1, "reader 1: cut short between items");
    item->tag = tag_at(header);
    item->closes = false;
    uint32_t length = number_32(header + 4);
    if (item->tag == SEQUENCE_DELIMITER && sequence->undefined) {
        CHECK(length != 0, 6, "reader 6: sequence delimiter with a length");
        COVER("sequence closed by its delimiter");
        item->closes = true;
        item->next = at + 8;
        return 0;
    }
    CHECK(item->tag == SEQUENCE_DELIMITER, 6, "reader 6: delimiter in a sequence of defined length");
    CHECK(item->tag != ITEM, 6, "reader 6: neither item nor delimiter between items");
    struct extent x = { 8, length, length == UNDEFINED, true };
    int number = judge_length(sequence, at + 8, &x);
    if (number != 0)
        return number;
    if (x.undefined)
        COVER("item of undefined length");
    else
        COVER("item of defined length");
    set_value(item, sequence, at + 8, &x);
    return 0;
}

/* What stands between items: an item with its list, or the closing delimiter. */
static struct refusal read_item(const struct part *sequence, size_t at, struct element *item,
                                size_t *passed)
{
    int number = read_item_header(sequence, at, item);
    if (number != 0)
        return refuse(number, sequence, at);
    (*passed)++;
    if (item->closes)
        return no_refusal();
    return read_elements(&item->value, &item->next, passed);
}

static struct refusal read_items(const struct part *sequence, size_t *next, size_t *passed)
{
    size_t at = sequence->from;
    bool closed = false;
    while (!closed && (sequence->undefined || at < sequence->to)) {
        struct element item;
        struct refusal refusal = read_item(sequence, at, &item, passed);
        if (refusal.number != 0)
            return refusal;
        at = item.next;
        closed = item.closes;
    }
    *next = at;
    return no_refusal();
}

static struct refusal read_elements(const struct part *list, size_t *next, size_t *passed)
{
    size_t at = list->from;
    int64_t before = -1;
    bool closed = false;
    while (!closed && (list->undefined || at < list->to)) {
        struct element e;
        struct refusal refusal = read_element(list, at, before, &e, passed);
        if (refusal.number != 0)
            return refusal;
        at = e.next;
        before = e.tag;
        closed = e.closes;
    }
    *next = at;
    return no_refusal();
}

struct refusal read_list(const struct part *list, size_t *next, size_t *passed)
{
    *passed = 0;
    return read_elements(list, next, passed);
}

bool find_first(const struct part *list, struct element *found)
{
    size_t passed = 0;
    if (!list->undefined && list->from == list->to)
        return false;
    return read_element(list, list->from, -1, found, &passed).number == 0 && !found->closes;
}

bool find(const struct part *list, uint32_t tag, struct element *found)
{
    struct part rest = *list;
    while (find_first(&rest, found)) {
        if (found->tag == tag)
            return true;
        rest.from = found->next;
    }
    return false;
}

size_t count_items(const struct part *sequence, struct part *first)
{
    size_t at = sequence->from;
    size_t count = 0;
    size_t passed = 0;
    while (sequence->undefined || at < sequence->to) {
        struct element item;
        if (read_item(sequence, at, &item, &passed).number != 0 || item.closes)
            break;
        if (count++ == 0)
            *first = item.value;
        at = item.next;
    }
    return count;
}

void write_16(struct writer *w, uint16_t number)
{
    w->bytes[w->length++] = (uint8_t)number;
    w->bytes[w->length++] = (uint8_t)(number >> 8);
}

void write_32(struct writer *w, uint32_t number)
{
    write_16(w, (uint16_t)number);
    write_16(w, (uint16_t)(number >> 16));
}

static void write_tag(struct writer *w, uint32_t tag)
{
    write_16(w, (uint16_t)(tag >> 16));
    write_16(w, (uint16_t)tag);
}

/* The header of an element with a 16-bit length in explicit VR. */
static void write_header(struct writer *w, uint32_t tag, const char *vr, uint16_t length)
{
    write_tag(w, tag);
    if (w->syntax == IMPLICIT) {
        write_32(w, length);
        return;
    }
    w->bytes[w->length++] = (uint8_t)vr[0];
    w->bytes[w->length++] = (uint8_t)vr[1];
    write_16(w, length);
}

void write_us(struct writer *w, uint32_t tag, uint16_t number)
{
    write_header(w, tag, "US", 2);
    write_16(w, number);
}

void write_ul(struct writer *w, uint32_t tag, uint32_t number)
{
    write_header(w, tag, "UL", 4);
    write_32(w, number);
}

static uint16_t padded(const struct uid *uid)
{
    return (uint16_t)(uid->length + uid->length % 2);
}

uint32_t ui_element_length(const struct uid *uid)
{
    return 8u + padded(uid);
}

void write_ui(struct writer *w, uint32_t tag, const struct uid *uid)
{
    write_header(w, tag, "UI", padded(uid));
    memcpy(w->bytes + w->length, uid->text, uid->length);
    w->length += uid->length;
    if (uid->length % 2 == 1)
        w->bytes[w->length++] = 0;
}

void write_sq(struct writer *w, uint32_t tag, uint32_t length)
{
    write_tag(w, tag);
    if (w->syntax == EXPLICIT) {
        w->bytes[w->length++] = 'S';
        w->bytes[w->length++] = 'Q';
        write_16(w, 0);
    }
    write_32(w, length);
}

void write_item(struct writer *w, uint32_t length)
{
    write_tag(w, ITEM);
    write_32(w, length);
}
