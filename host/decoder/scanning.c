#include "scanning.h"

#include <stdarg.h>
#include <stdio.h>
#include <stdlib.h>

#include "../hex.h"

struct scan scan_text(const char *name, const uint8_t *text, size_t n)
{
    return (struct scan){ name, text, n, 0, 1, 0 };
}

int peek_behind(const struct scan *s, size_t characters)
{
    return s->n - s->at > characters ? s->text[s->at + characters] : -1;
}

int peek(const struct scan *s)
{
    return peek_behind(s, 0);
}

void step(struct scan *s)
{
    bool line_ends = peek(s) == '\n';
    s->at++;
    if (line_ends) {
        s->line++;
        s->line_at = s->at;
    }
}

static bool is_blank(int c)
{
    return c == ' ' || c == '\t';
}

size_t skip_blanks(struct scan *s)
{
    size_t from = s->at;
    while (is_blank(peek(s)))
        step(s);
    return s->at - from;
}

void skip_space(struct scan *s)
{
    while (is_blank(peek(s)) || peek(s) == '\r' || peek(s) == '\n' || peek(s) == '\f')
        step(s);
}

bool at_line_end(const struct scan *s)
{
    return peek(s) == -1 || peek(s) == '\n' || (peek(s) == '\r' && peek_behind(s, 1) == '\n');
}

void skip_line(struct scan *s)
{
    while (!at_line_end(s))
        step(s);
}

void skip_line_end(struct scan *s)
{
    if (peek(s) == '\r')
        step(s);
    if (peek(s) == '\n')
        step(s);
}

size_t digits_here(const struct scan *s)
{
    size_t n = 0;
    while (hex_digit(peek_behind(s, n)) >= 0)
        n++;
    return n;
}

static bool ends_word(int c)
{
    return c == -1 || is_blank(c) || c == '\r' || c == '\n';
}

uint8_t take_byte(struct scan *s)
{
    int high = hex_digit(peek(s)), low = hex_digit(peek_behind(s, 1));
    if (high < 0)
        refuse_text(s, "a character that is no hexadecimal digit");
    if (low < 0 && ends_word(peek_behind(s, 1)))
        refuse_text(s, "half a byte");
    step(s);
    if (low < 0)
        refuse_text(s, "a character that is no hexadecimal digit");
    step(s);
    return (uint8_t)(high << 4 | low);
}

_Noreturn void refuse_text(const struct scan *s, const char *format, ...)
{
    va_list arguments;
    fflush(stdout);
    fprintf(stderr, "decode: %s:%zu:%zu: ", s->name, s->line, s->at - s->line_at + 1);
    va_start(arguments, format);
    vfprintf(stderr, format, arguments);
    va_end(arguments);
    fputc('\n', stderr);
    exit(2);
}
