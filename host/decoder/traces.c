#include "traces.h"

#include <stdlib.h>
#include <string.h>

#include "scanning.h"

static bool take_word(struct scan *s, const char *word)
{
    size_t n = strlen(word);
    if (s->n - s->at < n || memcmp(s->text + s->at, word, n) != 0)
        return false;
    s->at += n;
    skip_blanks(s);
    return true;
}

static uint64_t take_number(struct scan *s, uint64_t most)
{
    uint64_t number = 0;
    if (peek(s) < '0' || peek(s) > '9')
        refuse_text(s, "no number");
    for (; peek(s) >= '0' && peek(s) <= '9'; step(s)) {
        uint64_t digit = (uint64_t)(peek(s) - '0');
        if (number > (most - digit) / 10)
            refuse_text(s, "a number that is too large");
        number = number * 10 + digit;
    }
    skip_blanks(s);
    return number;
}

/* Bytes, which stand behind those of the lines before; - is none. */
static size_t take_bytes(struct scan *s, struct capture *c, size_t *made)
{
    size_t from = *made;
    if (peek(s) == '-')
        step(s);
    else
        while (!at_line_end(s) && peek(s) != ' ')
            c->made[(*made)++] = take_byte(s);
    skip_blanks(s);
    return *made - from;
}

static void take_call(struct scan *s, struct capture *c, size_t *made)
{
    const uint8_t *bytes = c->made + *made;
    size_t at = *made;
    if (take_word(s, "feed")) {
        put_part(c, A_FRAGMENT, bytes, take_bytes(s, c, made), at);
    } else if (take_word(s, "start")) {
        struct capture_part *p = put_part(c, A_START, bytes, take_bytes(s, c, made), at);
        p->numbers[0] = take_number(s, UINT32_MAX);
        p->numbers[1] = take_number(s, UINT32_MAX);
    } else if (take_word(s, "open")) {
        struct capture_part *p = put_part(c, AN_OPEN, bytes, 0, at);
        p->numbers[0] = take_number(s, UINT32_MAX);
        p->numbers[1] = take_number(s, UINT32_MAX);
        p->numbers[2] = take_number(s, UINT64_MAX);
    } else if (take_word(s, "close")) {
        put_part(c, A_CLOSE, bytes, 0, at);
    } else if (take_word(s, "take")) {
        put_part(c, A_TAKE, bytes, 0, at);
    } else {
        refuse_text(s, "no call");
    }
    if (!at_line_end(s))
        refuse_text(s, "too many words");
}

struct capture split_trace(const struct dump *d)
{
    struct scan s = scan_text(d->name, d->bytes.bytes, d->bytes.n);
    struct capture c = { .name = d->name, .content = CALLS, .made = malloc(d->bytes.n) };
    size_t made = 0;
    if (c.made == NULL)
        stop("no memory");
    while (peek(&s) != -1) {
        take_call(&s, &c, &made);
        skip_line_end(&s);
    }
    return c;
}
