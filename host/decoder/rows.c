#include "rows.h"

#include <inttypes.h>

#include "../hex.h"

enum { OFFSET_LEAST = 4, OFFSET_MOST = 8, HALF_ROW = 8, ROW = 16 };

/* What follows from the rows so far. Rows that are set in are those of the other direction, where Wireshark follows a
 * stream: they have offsets of their own. */
struct rows {
    struct data_set *bytes;
    uint64_t next[2]; /* the offset that follows, by direction */
    bool begun[2];
    size_t most;        /* bytes that a row may have: those of the block's first one */
    size_t row_at, row; /* where the last row's bytes begin, and how many they are */
    size_t first;       /* the offset of the first row */
    bool repeats;       /* a * stands behind the last row */
};

static bool is_offset(const struct scan *s)
{
    size_t digits = digits_here(s);
    return digits >= OFFSET_LEAST && digits <= OFFSET_MOST;
}

bool is_row(const struct scan *s)
{
    struct scan row = *s;
    skip_blanks(&row);
    size_t digits = digits_here(&row);
    if (!is_offset(&row))
        return false;
    row.at += digits;
    if (peek(&row) == ':')
        return true;
    size_t group = skip_blanks(&row) > 0 ? digits_here(&row) : 0;
    return group > 0 && group != digits;
}

static uint64_t take_offset(struct scan *s)
{
    uint64_t offset = 0;
    if (!is_offset(s))
        refuse_text(s, "no offset of 4 to 8 digits begins the row");
    for (size_t digits = digits_here(s); digits > 0; digits--) {
        offset = offset << 4 | (uint64_t)hex_digit(peek(s));
        step(s);
    }
    return offset;
}

/* A * stands for rows like the last one, up to the next offset. */
static void repeat_row(const struct scan *s, struct rows *r, uint64_t offset, int direction)
{
    uint64_t left = offset - r->next[direction];
    if (offset < r->next[direction] || left % r->row != 0)
        refuse_text(s, "the offset is not whole rows behind the *");
    if (left > r->bytes->room - r->bytes->n)
        refuse_text(s, "the dump has more than %zu bytes", r->bytes->room);
    for (; left > 0; left -= r->row)
        put_bytes(r->bytes, r->bytes->bytes + r->row_at, r->row);
    r->next[direction] = offset;
    r->repeats = false;
}

/* An offset of 0 begins another block, as where several packets are copied. */
static void heed_offset(const struct scan *s, struct rows *r, uint64_t offset, int direction)
{
    if (!r->begun[direction] && r->bytes->n == 0)
        r->first = (size_t)offset;
    if (r->repeats)
        repeat_row(s, r, offset, direction);
    if (r->begun[direction] && offset == 0)
        r->most = 0;
    else if (r->begun[direction] && offset != r->next[direction])
        refuse_text(s, "the offset is %" PRIX64 "H, and %" PRIX64 "H follows", offset, r->next[direction]);
    if (!r->begun[direction] && r->bytes->n > 0 && offset != 0)
        refuse_text(s, "the first offset of rows that are set in is not 0");
    r->begun[direction] = true;
    r->next[direction] = offset;
}

static void put_row_byte(struct scan *s, struct rows *r)
{
    if (r->most > 0 && r->row == r->most)
        refuse_text(s, "the row has more than %zu bytes", r->most);
    put_number(r->bytes, take_byte(s), 1);
    r->row++;
}

/* xxd: groups of whole bytes with one space between two, and two before the text. */
static void read_groups(struct scan *s, struct rows *r)
{
    size_t blanks = skip_blanks(s);
    while (blanks > 0 && !at_line_end(s)) {
        if (digits_here(s) % 2 != 0)
            refuse_text(s, "half a byte in a group, or a character that is no hexadecimal digit");
        do
            put_row_byte(s, r);
        while (digits_here(s) > 0);
        if (at_line_end(s) || peek_behind(s, 1) == ' ')
            return;
        blanks = skip_blanks(s);
        if (blanks == 0)
            refuse_text(s, "a character that is no hexadecimal digit");
    }
}

/* In a row of xxd that is not filled up with blanks, the text must not contradict the bytes: those of xxd -e are
 * swapped. */
static void compare_text(struct scan *s, const struct rows *r)
{
    struct scan end = *s;
    skip_line(&end);
    if (end.at - s->at < 2 || end.at - s->at - 2 > r->row)
        return;
    step(s);
    step(s);
    for (size_t i = 0; i < r->row && !at_line_end(s); i++, step(s))
        if (peek(s) != '.' && peek(s) != r->bytes->bytes[r->row_at + i])
            refuse_text(s, "the text is not that of the bytes: they are swapped (xxd -e), or the dump was changed; "
                           "without its text it is read as it stands");
}

/* Whether bytes go on behind these blanks: after one, or after two in the middle of a row. Behind others the text
 * stands. */
static bool bytes_go_on(const struct scan *s, const struct rows *r, size_t blanks)
{
    return blanks == 1 || (blanks == 2 && r->row == HALF_ROW && digits_here(s) == 2);
}

/* hexdump -C, od, Wireshark: single bytes. */
static void read_single_bytes(struct scan *s, struct rows *r)
{
    size_t blanks = skip_blanks(s);
    if (blanks == 0 && !at_line_end(s))
        refuse_text(s, "no blank behind the offset");
    while (!at_line_end(s) && (r->row == 0 || bytes_go_on(s, r, blanks))) {
        if (digits_here(s) > 2)
            refuse_text(s,
                        "a group of %zu digits: hexdump without -C and od -tx2 swap bytes; take hexdump -C or "
                        "od -Ax -tx1 (or --as hex where no row has an offset)",
                        digits_here(s));
        put_row_byte(s, r);
        blanks = skip_blanks(s);
        if (blanks == 0 && !at_line_end(s))
            refuse_text(s, "a character that is no hexadecimal digit");
    }
}

/* Rows of single bytes may begin with a short one, where a packet is short. */
static void read_row_bytes(struct scan *s, struct rows *r)
{
    size_t least = ROW;
    if (peek(s) == ':') {
        step(s);
        read_groups(s, r);
        compare_text(s, r);
        least = 1;
    } else {
        read_single_bytes(s, r);
    }
    if (r->most == 0)
        r->most = r->row < least ? least : r->row;
}

static void read_row(struct scan *s, struct rows *r)
{
    int direction = skip_blanks(s) > 0;
    struct scan offset_here = *s;
    uint64_t offset = take_offset(s);
    heed_offset(&offset_here, r, offset, direction);
    r->row_at = r->bytes->n;
    r->row = 0;
    read_row_bytes(s, r);
    r->next[direction] = offset + r->row;
    skip_line(s);
}

static void read_star(struct scan *s, struct rows *r)
{
    skip_blanks(s);
    if (r->row == 0)
        refuse_text(s, "a * without a row before it");
    step(s);
    skip_blanks(s);
    if (!at_line_end(s))
        refuse_text(s, "a character that is no hexadecimal digit");
    r->repeats = true;
}

static void read_line(struct scan *s, struct rows *r)
{
    struct scan line = *s;
    skip_blanks(&line);
    if (peek(&line) == '#' || at_line_end(&line))
        skip_line(s);
    else if (peek(&line) == '*')
        read_star(s, r);
    else
        read_row(s, r);
}

size_t read_rows(struct scan *s, struct data_set *bytes)
{
    struct rows r = { .bytes = bytes };
    while (peek(s) != -1) {
        read_line(s, &r);
        skip_line_end(s);
    }
    if (r.repeats)
        refuse_text(s, "no offset behind the *");
    return r.first;
}
