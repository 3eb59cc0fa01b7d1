/* What stands in a dump: PDUs with fragments in them, or fragments alone, or a bare command set or data set. */
#ifndef CAPTURES_H
#define CAPTURES_H

#include "dumps.h"

enum content { CONTENT_TOLD_APART, PDUS, FRAGMENTS, COMMAND_SET, DATA_SET, CALLS };

/* PS3.8's header of a presentation data value: length, context, control byte. */
enum { FRAGMENT_HEADER = 6, COMMAND_BIT = 1, LAST_BIT = 2, NO_BITS = 0xFC };

enum part_kind { A_PDU, A_FRAGMENT, CUT_SHORT, NOT_READABLE, A_START, AN_OPEN, A_CLOSE, A_TAKE };

/* A PDU without its fragments, which come behind it; a fragment with its header; where the dump breaks off or cannot be
 * read; or another call than a feed, of a trace. */
struct capture_part {
    enum part_kind kind;
    const uint8_t *bytes;
    size_t n;
    size_t dump_at;      /* where it begins, by the dump's own count */
    const char *why;     /* of a part that is not readable */
    bool of_response;    /* a fragment that the console did not send: it is never fed */
    uint64_t numbers[3]; /* of start: serial and picture; of open: context, syntax and the message buffer's length */
};

struct capture {
    const char *name; /* of the dump */
    enum content content;
    const char *why; /* it was told apart so; NULL where it was given */
    struct capture_part *parts;
    size_t count, room;
    uint8_t *made; /* bytes that stand otherwise in the dump: of a bare command set, of a trace */
};

struct capture split_dump(const struct dump *d, enum content content);
void free_capture(struct capture *c);

/* Another part, of which bytes and numbers may be filled in. */
struct capture_part *put_part(struct capture *c, enum part_kind kind, const uint8_t *bytes, size_t n, size_t dump_at);

const char *content_text(enum content content);

/* Of a fragment. */
bool header_is_sound(const struct capture_part *p);
bool is_command(const struct capture_part *p);
bool is_last(const struct capture_part *p);

/* A number, big endian. */
uint32_t big_endian(const uint8_t *p, int width);

#endif
