/* The order of the tests is that of the records; one that fails ends them. Where a test is of many bytes, its loop has
 * no branches, so that the compiler makes vectors of it. */
#include "floor.h"

#include <string.h>

#include "../include/gateway.h"

#define UNDEFINED 0xFFFFFFFFu
#define ITEM 0xFFFEE000u
#define ITEM_END 0xFFFEE00Du
#define SEQUENCE_END 0xFFFEE0DDu
#define NOT_READ SIZE_MAX /* in the place of a place */
#define VERIFICATION "1.2.840.10008.1.1"

enum { UID_MOST = 64, COMMAND_MOST = GATEWAY_RECORDS - GATEWAY_AT_COMMAND };
enum { IDLE = 0, IN_COMMAND = 1, SKIPPING_COMMAND = 2, IN_DATA = 3, SKIPPING_DATA = 4 };
enum { FRAGMENT_HEADER = 6, LAST_OF_COMMAND = 3, MORE_DATA = 0 };
enum { ELEMENT_HEADER = 8, GROUP_LENGTH = 12, DEPTH = 4 };
enum { C_ECHO = 0x0030, N_SET = 0x0120, N_ACTION = 0x0130, N_CREATE = 0x0140, N_DELETE = 0x0150, RESPONSES = 0x8000 };
enum { NO_DATA_SET = 0x0101 };

/* Numbers, little endian as the machine. */

static inline uint16_t u16_at(const uint8_t *p)
{
    uint16_t n;
    memcpy(&n, p, sizeof n);
    return n;
}

static inline uint32_t u32_at(const uint8_t *p)
{
    uint32_t n;
    memcpy(&n, p, sizeof n);
    return n;
}

/* A next number has five bytes. */
static inline uint64_t next_at(const uint8_t *p)
{
    return u32_at(p) | (uint64_t)p[4] << 32;
}

static inline bool between(uint64_t least, uint64_t most, uint64_t n)
{
    return n - least <= most - least;
}

static inline bool all_zero(const uint8_t *p, size_t n)
{
    uint8_t any = 0;
    for (size_t i = 0; i < n; i++)
        any |= p[i];
    return any == 0;
}

/* Whether the places behind the first of a text are zeros; it has 64 of them, looked at by words. */
static inline bool zero_behind(const uint8_t *text, size_t used)
{
    uint64_t any = 0, word;
    size_t at = used;
    for (; at % sizeof word != 0; at++)
        any |= text[at];
    for (; at < GATEWAY_TEXT_BYTES; at += sizeof word) {
        memcpy(&word, text + at, sizeof word);
        any |= word;
    }
    return any == 0;
}

/* UIDs and names. */

/* Components of digits, parted by dots, each without a leading zero but 0 itself. */
static bool is_uid(const uint8_t *text, size_t n)
{
    size_t begun = 0; /* where the component begins */
    if (!between(1, UID_MOST, n))
        return false;
    for (size_t i = 0; i <= n; i++) {
        if (i < n && between('0', '9', text[i]))
            continue;
        if ((i < n && text[i] != '.') || i == begun || (text[begun] == '0' && i > begun + 1))
            return false;
        begun = i + 1;
    }
    return true;
}

/* What the rules of names, boxes and entries are told of the records. */
struct limits {
    const uint8_t *root;
    size_t root_length;
    uint64_t next_serial, next_picture;
};

static inline bool begins_with_root(const struct limits *l, const uint8_t *text, size_t n)
{
    return n > l->root_length && text[l->root_length] == '.' && memcmp(text, l->root, l->root_length) == 0;
}

static bool sent_name_sound(const struct limits *l, const uint8_t *name)
{
    const uint8_t *text = name + GATEWAY_NAME_TEXT;
    size_t n = name[GATEWAY_NAME_LENGTH];
    return is_uid(text, n) && zero_behind(text, n) && !begins_with_root(l, text, n);
}

static inline bool name_sound(const struct limits *l, const uint8_t *name)
{
    uint32_t serial = u32_at(name + GATEWAY_NAME_SERIAL);
    if (serial == 0)
        return sent_name_sound(l, name);
    return serial < l->next_serial && all_zero(name + GATEWAY_NAME_LENGTH, GATEWAY_NAME_BYTES - GATEWAY_NAME_LENGTH);
}

static bool numbers_sound(const struct limits *l, const uint8_t *records)
{
    uint64_t none_left = (uint64_t)UINT32_MAX + 1;
    return between(1, GATEWAY_ROOT_MOST, l->root_length) && is_uid(l->root, l->root_length) &&
           all_zero(l->root + l->root_length, GATEWAY_ROOT_BYTES - l->root_length) &&
           between(1, none_left, next_at(records + GATEWAY_AT_NEXT_SERIAL)) &&
           between(1, none_left, next_at(records + GATEWAY_AT_NEXT_PICTURE));
}

/* The session. */

/* Bytes 20H to 7EH without backslash, without spaces around them, then zeros. */
static bool label_sound(const uint8_t *label, size_t n)
{
    bool wrong = false;
    if (n > GATEWAY_TEXT_BYTES)
        return false;
    for (size_t i = 0; i < n; i++)
        wrong |= !between(' ', '~', label[i]) | (label[i] == '\\');
    if (wrong || (n > 0 && (label[0] == ' ' || label[n - 1] == ' ')))
        return false;
    return zero_behind(label, n);
}

static bool session_sound(const struct limits *l, const uint8_t *session)
{
    if (session[GATEWAY_SESSION_LIVE] == 0)
        return all_zero(session, GATEWAY_SESSION_BYTES);
    return session[GATEWAY_SESSION_LIVE] == 1 && name_sound(l, session + GATEWAY_SESSION_NAME) &&
           between(1, 99, session[GATEWAY_SESSION_COPIES]) &&
           session[GATEWAY_SESSION_PRIORITY] <= GATEWAY_PRIORITY_HIGH &&
           session[GATEWAY_SESSION_MEDIUM] <= GATEWAY_MEDIUM_BLUE_FILM &&
           session[GATEWAY_SESSION_DESTINATION] <= GATEWAY_DESTINATION_PROCESSOR &&
           label_sound(session + GATEWAY_SESSION_LABEL, session[GATEWAY_SESSION_LABEL_LENGTH]);
}

/* Films. */

/* How many boxes a film's format has; 0 where the format breaks a rule. */
static uint32_t boxes_of(const uint8_t *film)
{
    const uint8_t *counts = film + GATEWAY_FILM_COUNTS;
    uint32_t lines = film[GATEWAY_FILM_LINES], boxes = 0;
    bool wrong = film[GATEWAY_FILM_KIND] > GATEWAY_COL || !between(1, GATEWAY_LINES, lines);
    for (uint32_t i = 0; i < GATEWAY_LINES; i++) {
        wrong |= i < lines ? !between(1, 6, counts[i]) : counts[i] != 0;
        boxes += counts[i];
    }
    return wrong ? 0 : boxes;
}

static bool boxes_sound(const struct limits *l, const uint8_t *boxes, uint32_t count)
{
    uint32_t last_picture = (uint32_t)(l->next_picture - 1);
    bool wrong = false;
    for (uint32_t i = 0; i < count; i++) {
        const uint8_t *box = boxes + GATEWAY_BOX_BYTES * i;
        wrong |= (uint8_t)(box[GATEWAY_BOX_POSITION] - 1) >= count;
        wrong |= box[GATEWAY_BOX_POLARITY] > GATEWAY_POLARITY_REVERSE;
        wrong |= u32_at(box + GATEWAY_BOX_PICTURE) > last_picture;
    }
    return !wrong && all_zero(boxes + GATEWAY_BOX_BYTES * count, GATEWAY_BOX_BYTES * (GATEWAY_BOXES - count));
}

static bool film_sound(const struct limits *l, const uint8_t *film)
{
    uint32_t boxes = boxes_of(film), first = u32_at(film + GATEWAY_FILM_FIRST_BOX);
    return boxes != 0 && name_sound(l, film + GATEWAY_FILM_NAME) && film[GATEWAY_FILM_SESSION] < GATEWAY_SESSIONS &&
           film[GATEWAY_FILM_ORIENTATION] <= GATEWAY_ORIENTATION_LANDSCAPE &&
           film[GATEWAY_FILM_MAGNIFICATION] <= GATEWAY_MAGNIFICATION_CUBIC && first != 0 &&
           (uint64_t)first + boxes <= l->next_serial && boxes_sound(l, film + GATEWAY_FILM_BOXES, boxes);
}

static inline const uint8_t *film_at(const uint8_t *records, uint32_t i)
{
    return records + GATEWAY_AT_FILMS + GATEWAY_FILM_BYTES * i;
}

static bool films_sound(const struct limits *l, const uint8_t *records)
{
    uint32_t count = records[GATEWAY_AT_FILM_COUNT];
    if (count > GATEWAY_FILMS || (count > 0 && records[GATEWAY_AT_SESSION + GATEWAY_SESSION_LIVE] == 0))
        return false;
    for (uint32_t i = 0; i < count; i++)
        if (!film_sound(l, film_at(records, i)))
            return false;
    return all_zero(film_at(records, count), GATEWAY_FILM_BYTES * (GATEWAY_FILMS - count));
}

/* Live UIDs differ: made ones by their serials, sent ones by their texts. */

struct serials {
    uint64_t from, stop;
};

/* A session's or film's own serial: of a sent name none. */
static inline struct serials own_serial(const uint8_t *name)
{
    uint32_t serial = u32_at(name + GATEWAY_NAME_SERIAL);
    return (struct serials){ serial, (uint64_t)serial + (serial != 0) };
}

static bool apart(const struct serials *all, uint32_t count)
{
    for (uint32_t i = 0; i < count; i++)
        for (uint32_t j = 0; j < i; j++)
            if (all[i].from < all[j].stop && all[j].from < all[i].stop)
                return false;
    return true;
}

/* Serials are given in ascending order: where they stand in it, each is compared with the one before it alone. */
static bool serials_apart(const uint8_t *records)
{
    struct serials all[1 + 2 * GATEWAY_FILMS] = { own_serial(records + GATEWAY_AT_SESSION + GATEWAY_SESSION_NAME) };
    uint64_t stop = all[0].stop;
    uint32_t count = 1;
    bool ascending = true;
    for (uint32_t i = 0; i < records[GATEWAY_AT_FILM_COUNT]; i++) {
        const uint8_t *film = film_at(records, i);
        struct serials own = own_serial(film + GATEWAY_FILM_NAME);
        uint64_t first = u32_at(film + GATEWAY_FILM_FIRST_BOX);
        ascending &= (own.stop == 0 || stop <= own.from) && stop <= first && own.stop <= first;
        stop = first + boxes_of(film);
        all[count++] = own;
        all[count++] = (struct serials){ first, stop };
    }
    return ascending || apart(all, count);
}

static inline bool same_text(const uint8_t *a, const uint8_t *b)
{
    uint8_t n = a[GATEWAY_NAME_LENGTH];
    return n != 0 && n == b[GATEWAY_NAME_LENGTH] && memcmp(a + GATEWAY_NAME_TEXT, b + GATEWAY_NAME_TEXT, n) == 0;
}

static bool texts_apart(const uint8_t *records)
{
    const uint8_t *sent[1 + GATEWAY_FILMS];
    const uint8_t *session = records + GATEWAY_AT_SESSION + GATEWAY_SESSION_NAME;
    uint32_t count = 0;
    if (session[GATEWAY_NAME_LENGTH] != 0)
        sent[count++] = session;
    for (uint32_t i = 0; i < records[GATEWAY_AT_FILM_COUNT]; i++) {
        const uint8_t *name = film_at(records, i) + GATEWAY_FILM_NAME;
        for (uint32_t j = 0; j < count; j++)
            if (same_text(name, sent[j]))
                return false;
        if (name[GATEWAY_NAME_LENGTH] != 0)
            sent[count++] = name;
    }
    return true;
}

/* The queue. */

static bool entry_sound(const struct limits *l, const uint8_t *entry)
{
    uint32_t last_picture = (uint32_t)(l->next_picture - 1), wrong = 0;
    for (uint32_t i = 0; i < GATEWAY_BOXES; i++)
        wrong |= u32_at(entry + GATEWAY_QUEUED_PICTURES + GATEWAY_PICTURE_BYTES * i) > last_picture;
    return wrong == 0 && between(1, 99, entry[GATEWAY_QUEUED_COPIES]) && name_sound(l, entry + GATEWAY_QUEUED_NAME);
}

static bool queue_sound(const struct limits *l, const uint8_t *records)
{
    const uint8_t *entries = records + GATEWAY_AT_QUEUED;
    uint32_t count = records[GATEWAY_AT_QUEUED_COUNT];
    if (count > GATEWAY_QUEUED)
        return false;
    for (uint32_t i = 0; i < count; i++)
        if (!entry_sound(l, entries + GATEWAY_QUEUED_BYTES * i))
            return false;
    return all_zero(entries + GATEWAY_QUEUED_BYTES * count, GATEWAY_QUEUED_BYTES * (GATEWAY_QUEUED - count));
}

static bool opened_sound(const uint8_t *records)
{
    if (records[GATEWAY_AT_OPEN] == 0)
        return all_zero(records + GATEWAY_AT_OPEN, GATEWAY_AT_COLLECTING - GATEWAY_AT_OPEN);
    return records[GATEWAY_AT_OPEN] == 1 && records[GATEWAY_AT_CONTEXT] % 2 == 1 &&
           between(GATEWAY_IMPLICIT, GATEWAY_EXPLICIT, records[GATEWAY_AT_SYNTAX]) &&
           between(GATEWAY_MESSAGE_LEAST, GATEWAY_MESSAGE_MOST, u32_at(records + GATEWAY_AT_ROOM));
}

/* Commands. */

/* The elements that are looked at, by their tags; one without bytes is missing or empty. */
struct value {
    const uint8_t *at;
    size_t length;
};

struct command {
    struct value length, affected_class, requested_class, field, message, data_set, requested_instance, action;
};

static struct value *slot_of(struct command *c, uint32_t tag)
{
    switch (tag) {
    case 0x0000:
        return &c->length;
    case 0x0002:
        return &c->affected_class;
    case 0x0003:
        return &c->requested_class;
    case 0x0100:
        return &c->field;
    case 0x0110:
        return &c->message;
    case 0x0800:
        return &c->data_set;
    case 0x1001:
        return &c->requested_instance;
    case 0x1008:
        return &c->action;
    default:
        return NULL;
    }
}

/* A header in implicit VR. */
struct header {
    uint32_t tag, length;
};

static inline struct header header_at(const uint8_t *p)
{
    return (struct header){ (uint32_t)u16_at(p) << 16 | u16_at(p + 2), u32_at(p + 4) };
}

static inline bool closes(struct header h, uint32_t delimiter)
{
    return h.tag == delimiter && h.length == 0;
}

/* Whether a value of defined length stands between two places. */
static inline bool fits(struct header h, size_t from, size_t stop)
{
    return h.length % 2 == 0 && h.length <= stop - from;
}

/* The tags of rule 5.14 that are no sequences. An undefined length is refused in these, and makes any other one a
 * sequence. */
static bool is_value(uint32_t tag)
{
    static const uint32_t tags[] = { 0x00000000, 0x00000002, 0x00000003, 0x00000100, 0x00000110, 0x00000120, 0x00000800,
                                     0x00000900, 0x00001000, 0x00001001, 0x00001008, 0x00081150, 0x00081155, 0x00280002,
                                     0x00280004, 0x00280010, 0x00280011, 0x00280100, 0x00280101, 0x00280102, 0x00280103,
                                     0x20000010, 0x20000020, 0x20000030, 0x20000040, 0x20000050, 0x20100010, 0x20100040,
                                     0x20100060, 0x20200010, 0x20200020, 0x7FE00010 };
    bool any = false;
    for (size_t i = 0; i < sizeof tags / sizeof *tags; i++)
        any |= tags[i] == tag;
    return any;
}

static inline bool is_sequence(struct header h)
{
    return h.tag == 0x20100500 || h.tag == 0x20100510 || h.tag == 0x20200110 ||
           (h.length == UNDEFINED && !is_value(h.tag));
}

/* A command has no sequence as a rule. These two pass the items of one, or the elements of an item, up to the stop or
 * up to a delimiter before it where it is loose; the place behind, or NOT_READ. The depth is how many sequences they
 * stand in. */

static size_t past_items(const uint8_t *bytes, size_t at, size_t stop, bool loose, int depth);

static size_t past_elements(const uint8_t *bytes, size_t at, size_t stop, bool loose, int depth)
{
    uint64_t least = 0; /* that the next tag may be */
    while (at != NOT_READ && (loose || at < stop)) {
        if (stop - at < ELEMENT_HEADER)
            return NOT_READ;
        struct header h = header_at(bytes + at);
        at += ELEMENT_HEADER;
        if (loose && closes(h, ITEM_END))
            return at;
        bool open = h.length == UNDEFINED, sequence = is_sequence(h);
        if (h.tag >> 16 == ITEM >> 16 || h.tag < least || (sequence && depth == DEPTH))
            return NOT_READ;
        if (!(open && sequence) && !fits(h, at, stop))
            return NOT_READ;
        least = (uint64_t)h.tag + 1;
        size_t end = open ? stop : at + h.length;
        at = sequence ? past_items(bytes, at, end, open, depth + 1) : end;
    }
    return at;
}

static size_t past_items(const uint8_t *bytes, size_t at, size_t stop, bool loose, int depth)
{
    while (at != NOT_READ && (loose || at < stop)) {
        if (stop - at < ELEMENT_HEADER)
            return NOT_READ;
        struct header h = header_at(bytes + at);
        at += ELEMENT_HEADER;
        if (loose && closes(h, SEQUENCE_END))
            return at;
        bool open = h.length == UNDEFINED;
        if (h.tag != ITEM || (!open && !fits(h, at, stop)))
            return NOT_READ;
        at = past_elements(bytes, at, open ? stop : at + h.length, open, depth);
    }
    return at;
}

/* Reads a whole command; false where the reader refuses it or an element is not of group 0000. */
static bool read_command(const uint8_t *bytes, size_t n, struct command *c)
{
    uint32_t least = 0;
    *c = (struct command){ 0 };
    for (size_t at = 0; at < n;) {
        if (n - at < ELEMENT_HEADER)
            return false;
        struct header h = header_at(bytes + at);
        at += ELEMENT_HEADER;
        if (h.tag > 0xFFFF || h.tag < least)
            return false;
        least = h.tag + 1;
        if (h.length == UNDEFINED) {
            at = is_value(h.tag) ? NOT_READ : past_items(bytes, at, n, true, 1);
            if (at == NOT_READ)
                return false;
            continue;
        }
        if (!fits(h, at, n))
            return false;
        struct value *slot = slot_of(c, h.tag);
        if (slot != NULL)
            *slot = (struct value){ bytes + at, h.length };
        at += h.length;
    }
    return true;
}

/* A UI's characters, without its padding. */
static inline struct value unpadded(struct value v)
{
    bool padded = v.length > 0 && v.at[v.length - 1] == 0;
    return (struct value){ v.at, v.length - padded };
}

static bool has_uid(struct value v)
{
    struct value uid = unpadded(v);
    return is_uid(uid.at, uid.length);
}

/* Whether a command that was read has what its field needs. */
static bool has_needed(const struct command *c, size_t n)
{
    if (c->length.length != 4 || u32_at(c->length.at) != n - GROUP_LENGTH || c->field.length != 2 ||
        c->message.length != 2 || c->data_set.length != 2)
        return false;
    switch (u16_at(c->field.at)) {
    case C_ECHO:
    case N_CREATE:
        return has_uid(c->affected_class);
    case N_ACTION:
        return has_uid(c->requested_class) && has_uid(c->requested_instance) && c->action.length == 2;
    case N_SET:
    case N_DELETE:
        return has_uid(c->requested_class) && has_uid(c->requested_instance);
    default:
        return u16_at(c->field.at) < RESPONSES;
    }
}

static bool understand(const uint8_t *bytes, size_t n, struct command *c)
{
    return read_command(bytes, n, c) && has_needed(c, n);
}

/* The input. */

static bool input_sound(const uint8_t *records)
{
    struct command c;
    const uint8_t *command = records + GATEWAY_AT_COMMAND;
    uint32_t state = records[GATEWAY_AT_COLLECTING], used = u16_at(records + GATEWAY_AT_USED);
    uint32_t got = u32_at(records + GATEWAY_AT_GOT);
    if (used > COMMAND_MOST || !all_zero(command + used, COMMAND_MOST - used))
        return false;
    if (state != IDLE && records[GATEWAY_AT_OPEN] == 0)
        return false;
    switch (state) {
    case IDLE:
    case SKIPPING_COMMAND:
        return used == 0 && got == 0;
    case IN_COMMAND:
        return got == 0;
    case IN_DATA:
        return got <= u32_at(records + GATEWAY_AT_ROOM) && understand(command, used, &c);
    case SKIPPING_DATA:
        return got == 0 && understand(command, used, &c);
    default:
        return false;
    }
}

bool floor_sound(const uint8_t *records)
{
    struct limits l = { records + GATEWAY_AT_ROOT, records[GATEWAY_AT_ROOT_LENGTH],
                        next_at(records + GATEWAY_AT_NEXT_SERIAL), next_at(records + GATEWAY_AT_NEXT_PICTURE) };
    return numbers_sound(&l, records) && session_sound(&l, records + GATEWAY_AT_SESSION) && films_sound(&l, records) &&
           serials_apart(records) && texts_apart(records) && queue_sound(&l, records) && opened_sound(records) &&
           input_sound(records);
}

/* The calls. */

/* The response to a C-ECHO that is done: tag, length and value of each element. Only the message's number differs. */
static const char echoed[] = "\0\0\0\0" "\4\0\0\0" "\x42\0\0\0"               /* 66 bytes follow */
                             "\0\0\2\0" "\x12\0\0\0" VERIFICATION "\0"          /* the class, padded */
                             "\0\0\0\1" "\2\0\0\0" "\x30\x80"                   /* a response to C-ECHO */
                             "\0\0\x20\1" "\2\0\0\0" "\0\0"                      /* to which message */
                             "\0\0\0\x08" "\2\0\0\0" "\1\1"                      /* no data set */
                             "\0\0\0\x09" "\2\0\0\0" "\0\0";                     /* done */
enum { ECHOED = sizeof echoed - 1, ECHOED_MESSAGE = 56 };

/* A whole command is understood where it lies, and leaves the records idle, as they were. */
static uint32_t answer_echo(const uint8_t *bytes, size_t n, uint8_t *command, uint8_t *report)
{
    static const uint8_t done[GATEWAY_REPORT] = { [GATEWAY_REPORT_COMMAND] = ECHOED };
    struct command c;
    if (n > COMMAND_MOST || !understand(bytes, n, &c))
        return FLOOR_OTHER;
    struct value class = unpadded(c.affected_class);
    if (u16_at(c.field.at) != C_ECHO || u16_at(c.data_set.at) != NO_DATA_SET ||
        class.length != sizeof VERIFICATION - 1 || memcmp(class.at, VERIFICATION, class.length) != 0)
        return FLOOR_OTHER;
    memcpy(command, echoed, ECHOED);
    memcpy(command + ECHOED_MESSAGE, c.message.at, c.message.length);
    memcpy(report, done, sizeof done);
    return GATEWAY_RESPONSE;
}

static uint32_t append_data(uint8_t *records, uint8_t *message, size_t room, const uint8_t *bytes, size_t n)
{
    uint32_t got = u32_at(records + GATEWAY_AT_GOT);
    if (n > room - got)
        return FLOOR_OTHER;
    memcpy(message + got, bytes, n);
    got += (uint32_t)n;
    memcpy(records + GATEWAY_AT_GOT, &got, sizeof got);
    return GATEWAY_WAIT;
}

static bool header_sound(const uint8_t *records, const uint8_t *fragment, size_t length)
{
    return length >= FRAGMENT_HEADER && __builtin_bswap32(u32_at(fragment)) == length - 4 &&
           fragment[4] == records[GATEWAY_AT_CONTEXT];
}

uint32_t floor_feed(uint8_t *records, size_t records_length, uint8_t *message, size_t message_length,
                    const uint8_t *fragment, size_t fragment_length, uint8_t *command, size_t command_length,
                    uint8_t *data, size_t data_length, uint8_t *report, size_t report_length)
{
    (void)data;
    if (records_length < GATEWAY_RECORDS)
        return GATEWAY_SHORT;
    if (!floor_sound(records))
        return GATEWAY_BROKEN;
    if (records[GATEWAY_AT_OPEN] == 0 || message_length != u32_at(records + GATEWAY_AT_ROOM) ||
        command_length < GATEWAY_COMMAND || data_length < GATEWAY_DATA || report_length < GATEWAY_REPORT ||
        !header_sound(records, fragment, fragment_length))
        return FLOOR_OTHER;
    const uint8_t *bytes = fragment + FRAGMENT_HEADER;
    size_t n = fragment_length - FRAGMENT_HEADER;
    if (records[GATEWAY_AT_COLLECTING] == IDLE && fragment[5] == LAST_OF_COMMAND)
        return answer_echo(bytes, n, command, report);
    if (records[GATEWAY_AT_COLLECTING] == IN_DATA && fragment[5] == MORE_DATA)
        return append_data(records, message, message_length, bytes, n);
    return FLOOR_OTHER;
}
