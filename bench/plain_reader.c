/* Lists hold elements, sequences hold items, items hold lists. Siblings are walked by loops, nesting by recursion. */
#include "plain_reader.h"

#include <stdbool.h>

#define UNDEFINED 0xFFFFFFFFu
#define ITEM 0xFFFEE000u
#define ITEM_END 0xFFFEE00Du
#define SEQUENCE_END 0xFFFEE0DDu
#define PIXEL_DATA 0x7FE00010u
#define VR(a, b) (uint16_t)((a) | (b) << 8)

/* The refusals. */
enum { READ = 0, CUT = 1, ODD = 2, ORDER = 3, WRONG_VR = 4, NOT_DEFINED = 5, MISPLACED = 6, TOO_DEEP = 7, BAD_SYNTAX = 8 };

/* How many sequences may stand in one another. */
enum { DEPTH = 4 };

struct named {
    uint32_t tag;
    uint16_t vr;
};

static const struct named named[35] = {
    {0x00000000, VR('U', 'L')}, {0x00000002, VR('U', 'I')}, {0x00000003, VR('U', 'I')}, {0x00000100, VR('U', 'S')},
    {0x00000110, VR('U', 'S')}, {0x00000120, VR('U', 'S')}, {0x00000800, VR('U', 'S')}, {0x00000900, VR('U', 'S')},
    {0x00001000, VR('U', 'I')}, {0x00001001, VR('U', 'I')}, {0x00001008, VR('U', 'S')}, {0x00081150, VR('U', 'I')},
    {0x00081155, VR('U', 'I')}, {0x00280002, VR('U', 'S')}, {0x00280004, VR('C', 'S')}, {0x00280010, VR('U', 'S')},
    {0x00280011, VR('U', 'S')}, {0x00280100, VR('U', 'S')}, {0x00280101, VR('U', 'S')}, {0x00280102, VR('U', 'S')},
    {0x00280103, VR('U', 'S')}, {0x20000010, VR('I', 'S')}, {0x20000020, VR('C', 'S')}, {0x20000030, VR('C', 'S')},
    {0x20000040, VR('C', 'S')}, {0x20000050, VR('L', 'O')}, {0x20100010, VR('S', 'T')}, {0x20100040, VR('C', 'S')},
    {0x20100060, VR('C', 'S')}, {0x20100500, VR('S', 'Q')}, {0x20100510, VR('S', 'Q')}, {0x20200010, VR('U', 'S')},
    {0x20200020, VR('C', 'S')}, {0x20200110, VR('S', 'Q')}, {0x7FE00010, VR('O', 'W')},
};

struct form {
    uint16_t vr;
    uint8_t size; /* of the header in explicit VR */
};

static const struct form forms[27] = {
    {VR('A', 'E'), 8},  {VR('A', 'S'), 8}, {VR('A', 'T'), 8},  {VR('C', 'S'), 8},  {VR('D', 'A'), 8},
    {VR('D', 'S'), 8},  {VR('D', 'T'), 8}, {VR('F', 'D'), 8},  {VR('F', 'L'), 8},  {VR('I', 'S'), 8},
    {VR('L', 'O'), 8},  {VR('L', 'T'), 8}, {VR('O', 'B'), 12}, {VR('O', 'F'), 12}, {VR('O', 'W'), 12},
    {VR('P', 'N'), 8},  {VR('S', 'H'), 8}, {VR('S', 'L'), 8},  {VR('S', 'Q'), 12}, {VR('S', 'S'), 8},
    {VR('S', 'T'), 8},  {VR('T', 'M'), 8}, {VR('U', 'I'), 8},  {VR('U', 'L'), 8},  {VR('U', 'N'), 12},
    {VR('U', 'S'), 8},  {VR('U', 'T'), 12},
};

struct source {
    const uint8_t *bytes;
    bool explicit_vr;
    struct plain_reading *reading;
};

/* What stands under a header: a value, or a sequence's items, or an item's list. It ends at stop, or before it at a
   delimiter where loose. */
struct part {
    size_t from, stop;
    bool sequence, loose;
};

static uint16_t u16_at(const uint8_t *p) { return (uint16_t)(p[0] | p[1] << 8); }

static uint32_t u32_at(const uint8_t *p) { return u16_at(p) | (uint32_t)u16_at(p + 2) << 16; }

static uint32_t tag_at(const uint8_t *p) { return (uint32_t)u16_at(p) << 16 | u16_at(p + 2); }

/* The VR of a named tag, or 0. */
static uint16_t named_vr(uint32_t tag) {
    for (size_t i = 0; i < sizeof named / sizeof *named; i++)
        if (named[i].tag == tag) return named[i].vr;
    return 0;
}

/* The size of a known VR's explicit header, or 0. */
static uint8_t form_of(uint16_t vr) {
    for (size_t i = 0; i < sizeof forms / sizeof *forms; i++)
        if (forms[i].vr == vr) return forms[i].size;
    return 0;
}

static bool wrong_for_tag(uint32_t tag, uint16_t vr) {
    uint16_t known = named_vr(tag);
    return known != 0 && known != vr && !(tag == PIXEL_DATA && vr == VR('O', 'B'));
}

/* Judges a length: left is what stands after the header. */
static uint32_t judge_length(uint32_t length, size_t left, bool may_be_undefined) {
    if (length == UNDEFINED) return may_be_undefined ? READ : NOT_DEFINED;
    if (length % 2 != 0) return ODD;
    return length > left ? CUT : READ;
}

static void set_part(struct part *part, size_t from, size_t end, uint32_t length) {
    part->from = from;
    part->loose = length == UNDEFINED;
    part->stop = part->loose ? end : from + length;
}

static uint32_t implicit_header(const uint8_t *p, size_t at, size_t end, struct part *part) {
    uint32_t length = u32_at(p + 4);
    uint16_t vr = named_vr(tag_at(p));
    part->sequence = vr == VR('S', 'Q') || (vr == 0 && length == UNDEFINED);
    set_part(part, at + 8, end, length);
    return judge_length(length, end - at - 8, part->sequence);
}

static uint32_t explicit_header(const uint8_t *p, size_t at, size_t end, uint8_t size, struct part *part) {
    uint16_t vr = u16_at(p + 4);
    bool is_long = size == 12;
    if (size == 0 || (is_long && u16_at(p + 6) != 0) || wrong_for_tag(tag_at(p), vr)) return WRONG_VR;
    uint32_t length = is_long ? u32_at(p + 8) : u16_at(p + 6);
    part->sequence = vr == VR('S', 'Q');
    set_part(part, at + size, end, length);
    return judge_length(length, end - at - size, part->sequence);
}

/* Judges the header of an element; floor is the least tag allowed. */
static uint32_t element_header(const struct source *s, size_t at, size_t end, uint64_t floor, struct part *part) {
    const uint8_t *p = s->bytes + at;
    if (end - at < 8) return CUT;
    if (u16_at(p) == 0xFFFE) return MISPLACED;
    uint8_t size = s->explicit_vr ? form_of(u16_at(p + 4)) : 8;
    if (end - at < size) return CUT;
    if (tag_at(p) < floor) return ORDER;
    return s->explicit_vr ? explicit_header(p, at, end, size, part) : implicit_header(p, at, end, part);
}

static uint32_t item_header(const struct source *s, size_t at, size_t end, struct part *part) {
    const uint8_t *p = s->bytes + at;
    if (end - at < 8) return CUT;
    if (tag_at(p) != ITEM) return MISPLACED;
    set_part(part, at + 8, end, u32_at(p + 4));
    return judge_length(u32_at(p + 4), end - at - 8, true);
}

/* Whether a list or a sequence ends here; moves past its delimiter. */
static bool closes(const struct source *s, size_t *at, const struct part *part, uint32_t delimiter) {
    const uint8_t *p = s->bytes + *at;
    if (!part->loose) return *at == part->stop;
    if (part->stop - *at < 8 || tag_at(p) != delimiter || u32_at(p + 4) != 0) return false;
    s->reading->headers++;
    *at += 8;
    return true;
}

/* Says where a header is at fault; room is how many more sequences may stand in one another there. */
static uint32_t refuse(const struct source *s, size_t at, int room, uint32_t fault) {
    s->reading->place = at;
    s->reading->depth = (uint32_t)(DEPTH - room);
    return fault;
}

static uint32_t read_list(const struct source *s, size_t *at, const struct part *list, int room);

/* The items of a sequence; room is how many more sequences may stand in them. */
static uint32_t read_items(const struct source *s, size_t *at, const struct part *sequence, int room) {
    *at = sequence->from;
    while (!closes(s, at, sequence, SEQUENCE_END)) {
        struct part item;
        uint32_t fault = item_header(s, *at, sequence->stop, &item);
        if (fault != READ) return refuse(s, *at, room, fault);
        s->reading->headers++;
        fault = read_list(s, at, &item, room);
        if (fault != READ) return fault;
    }
    return READ;
}

/* The elements of a list; room is how many more sequences may stand in one another here. */
static uint32_t read_list(const struct source *s, size_t *at, const struct part *list, int room) {
    uint64_t floor = 0;
    *at = list->from;
    while (!closes(s, at, list, ITEM_END)) {
        struct part part;
        uint32_t fault = element_header(s, *at, list->stop, floor, &part);
        if (fault != READ) return refuse(s, *at, room, fault);
        floor = (uint64_t)tag_at(s->bytes + *at) + 1;
        if (!part.sequence) {
            s->reading->headers++;
            *at = part.stop;
            continue;
        }
        if (room == 0) return refuse(s, *at, room, TOO_DEEP);
        s->reading->headers++;
        fault = read_items(s, at, &part, room - 1);
        if (fault != READ) return fault;
    }
    return READ;
}

uint32_t plain_data_set(const uint8_t *bytes, size_t n, uint32_t syntax, struct plain_reading *reading) {
    if (syntax != 1 && syntax != 2) return BAD_SYNTAX;
    struct source s = {bytes, syntax == 2, reading};
    reading->headers = 0;
    struct part whole = {0, n, false, false};
    size_t at = 0;
    return read_list(&s, &at, &whole, DEPTH);
}
