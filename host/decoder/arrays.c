#include "arrays.h"

#include "../hex.h"

static bool here(const struct scan *s, const char *two)
{
    return peek(s) == two[0] && peek_behind(s, 1) == two[1];
}

static void skip_comment(struct scan *s)
{
    struct scan begun = *s;
    step(s);
    step(s);
    while (!here(s, "*/")) {
        if (peek(s) == -1)
            refuse_text(&begun, "a comment that does not end");
        step(s);
    }
    step(s);
    step(s);
}

/* Past blanks, line ends and comments. */
static void skip_between(struct scan *s)
{
    for (skip_space(s); here(s, "/*") || here(s, "//"); skip_space(s)) {
        if (here(s, "//"))
            skip_line(s);
        else
            skip_comment(s);
    }
}

static bool is_digit(int c)
{
    return c >= '0' && c <= '9';
}

static bool is_word(int c)
{
    return is_digit(c) || (c >= 'a' && c <= 'z') || (c >= 'A' && c <= 'Z') || c == '_';
}

static uint32_t take_hexadecimal(struct scan *s)
{
    uint32_t value = 0;
    step(s);
    step(s);
    size_t digits = digits_here(s);
    if (digits == 0 || digits > 2)
        refuse_text(s, "0x with %zu digits: a byte has one or two", digits);
    for (; digits > 0; digits--, step(s))
        value = value << 4 | (uint32_t)hex_digit(peek(s));
    return value;
}

static uint32_t take_decimal(struct scan *s)
{
    struct scan begun = *s;
    uint32_t value = 0;
    for (; is_digit(peek(s)); step(s)) {
        value = value * 10 + (uint32_t)(peek(s) - '0');
        if (value > 0xFF)
            refuse_text(&begun, "a number that is no byte");
    }
    if (peek(&begun) == '0' && s->at - begun.at > 1)
        refuse_text(&begun, "a number with a leading zero, which C reads as octal");
    return value;
}

static uint32_t take_number(struct scan *s)
{
    if (!is_digit(peek(s)))
        refuse_text(s, "no number");
    uint32_t value = here(s, "0x") || here(s, "0X") ? take_hexadecimal(s) : take_decimal(s);
    if (peek(s) == 'u' || peek(s) == 'U')
        step(s);
    if (is_word(peek(s)))
        refuse_text(s, "a character that belongs to no number");
    return value;
}

/* Numbers up to a closing brace or the end of the text. */
static void read_numbers(struct scan *s, struct data_set *bytes)
{
    skip_between(s);
    while (peek(s) != '}' && peek(s) != -1) {
        put_number(bytes, take_number(s), 1);
        skip_between(s);
        if (peek(s) == ',')
            step(s);
        skip_between(s);
    }
}

/* Outside of braces there are names, types, lengths: no bytes. */
static void skip_to_brace(struct scan *s)
{
    for (skip_between(s); peek(s) != '{' && peek(s) != -1; skip_between(s)) {
        if (peek(s) == '}')
            refuse_text(s, "a brace that closes nothing");
        step(s);
    }
}

void read_arrays(struct scan *s, struct data_set *bytes)
{
    struct scan whole = *s;
    skip_to_brace(s);
    if (peek(s) == -1) {
        *s = whole;
        read_numbers(s, bytes);
        return;
    }
    for (; peek(s) != -1; skip_to_brace(s)) {
        struct scan brace = *s;
        step(s);
        read_numbers(s, bytes);
        if (peek(s) != '}')
            refuse_text(&brace, "a brace that is not closed");
        step(s);
    }
}

/* A backslash at the end of a line goes on in the next. */
static void skip_between_escapes(struct scan *s)
{
    for (skip_space(s); peek(s) == '"' || here(s, "\\\n") || here(s, "\\\r"); skip_space(s))
        step(s);
}

void read_escapes(struct scan *s, struct data_set *bytes)
{
    for (skip_between_escapes(s); peek(s) != -1; skip_between_escapes(s)) {
        if (!here(s, "\\x"))
            refuse_text(s, "no \\x before a byte");
        step(s);
        step(s);
        put_number(bytes, take_byte(s), 1);
    }
}
