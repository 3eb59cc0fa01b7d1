#include "dumps.h"

#include <stdarg.h>
#include <stdio.h>
#include <stdlib.h>
#include <string.h>

#include "arrays.h"
#include "rows.h"
#include "scanning.h"

/* A file may have so many bytes, and rows that a * stands for may make so many. */
enum { FILE_FIRST = 1 << 20, FILE_MOST = 1 << 30, ROWS_MOST = 64 << 20 };

static const struct {
    const char *word, *text;
} kinds[] = {
    [TOLD_APART] = { "", "" },
    [BINARY] = { "binary", "binary" },
    [HEX] = { "hex", "plain hex" },
    [ROWS] = { "rows", "rows with offsets" },
    [ESCAPES] = { "escapes", "an escaped string" },
    [ARRAYS] = { "arrays", "C arrays" },
    [TRACE] = { "trace", "a trace of calls" },
};

enum dump_kind kind_of(const char *word)
{
    for (size_t i = BINARY; i < sizeof kinds / sizeof *kinds; i++)
        if (strcmp(kinds[i].word, word) == 0)
            return (enum dump_kind)i;
    return TOLD_APART;
}

const char *kind_text(enum dump_kind kind)
{
    return kinds[kind].text;
}

_Noreturn void stop(const char *format, ...)
{
    va_list arguments;
    fflush(stdout);
    fprintf(stderr, "decode: ");
    va_start(arguments, format);
    vfprintf(stderr, format, arguments);
    va_end(arguments);
    fputc('\n', stderr);
    exit(2);
}

static void make_room(struct data_set *text)
{
    text->room *= 2;
    text->bytes = realloc(text->bytes, text->room);
    if (text->bytes == NULL)
        stop("no memory");
}

static struct data_set read_file(const char *name, FILE *file)
{
    struct data_set text = new_data_set(FILE_FIRST, IMPLICIT);
    size_t n;
    while ((n = fread(text.bytes + text.n, 1, text.room - text.n, file)) > 0) {
        text.n += n;
        if (text.n > FILE_MOST)
            stop("%s: more than %d bytes", name, FILE_MOST);
        if (text.n == text.room)
            make_room(&text);
    }
    if (ferror(file))
        stop("%s: cannot be read", name);
    return text;
}

/* A control character that no text has. A command set, a data set and a PDU always have some. */
static bool is_binary(const struct data_set *text)
{
    for (size_t i = 0; i < text->n; i++)
        if (text->bytes[i] < ' ' && memchr("\t\n\r\f", text->bytes[i], 4) == NULL)
            return true;
    return false;
}

/* Windows writes text in UTF-16 where a shell redirects it. */
static bool is_utf_16(const struct data_set *text)
{
    return text->n >= 2 && (memcmp(text->bytes, "\xFF\xFE", 2) == 0 || memcmp(text->bytes, "\xFE\xFF", 2) == 0);
}

/* The files of tcpdump and Wireshark: DICOM is deep within them. */
static bool is_packet_capture(const struct data_set *text)
{
    static const char marks[][5] = { "\xD4\xC3\xB2\xA1", "\xA1\xB2\xC3\xD4", "\x4D\x3C\xB2\xA1", "\x0A\x0D\x0D\x0A" };
    for (size_t i = 0; i < sizeof marks / sizeof *marks; i++)
        if (text->n >= 4 && memcmp(text->bytes, marks[i], 4) == 0)
            return true;
    return false;
}

static void refuse_other_files(const char *name, const struct data_set *text)
{
    if (is_utf_16(text))
        stop("%s: at offset 0: text in UTF-16; save it as UTF-8, or give --as binary", name);
    if (is_packet_capture(text))
        stop("%s: at offset 0: a capture of packets; in Wireshark follow its TCP stream, show it raw and save that",
             name);
}

/* To the first line that is neither empty nor a comment. */
static void skip_comments(struct scan *s)
{
    for (skip_space(s); peek(s) == '#'; skip_space(s))
        skip_line(s);
}

static bool begins(const struct scan *s, const char *word)
{
    return s->n - s->at >= strlen(word) && memcmp(s->text + s->at, word, strlen(word)) == 0;
}

/* Whether a brace or 0x stands before the next comment: only arrays have them. */
static bool has_array(const struct scan *s)
{
    for (size_t i = s->at; i < s->n && s->text[i] != '#'; i++)
        if (s->text[i] == '{' || (s->text[i] == '0' && i + 1 < s->n && (s->text[i + 1] | 0x20) == 'x'))
            return true;
    return false;
}

static enum dump_kind kind_of_text(const struct scan *text)
{
    struct scan s = *text;
    skip_comments(&s);
    if (begins(&s, "start ") || begins(&s, "open "))
        return TRACE;
    if (is_row(&s))
        return ROWS;
    if (begins(&s, "\\x") || begins(&s, "\"\\x"))
        return ESCAPES;
    return has_array(&s) ? ARRAYS : HEX;
}

/* Words of whole bytes, and # begins a comment. */
static void read_hex(struct scan *s, struct data_set *bytes)
{
    for (skip_space(s); peek(s) != -1; skip_space(s)) {
        if (peek(s) == '#')
            skip_line(s);
        else
            put_number(bytes, take_byte(s), 1);
    }
}

/* Windows puts a mark before UTF-8. */
static void skip_mark(struct scan *s)
{
    if (begins(s, "\xEF\xBB\xBF"))
        s->at += 3;
}

static void read_text(struct scan *s, struct dump *d)
{
    switch (d->kind) {
    case ROWS:
        d->first = read_rows(s, &d->bytes);
        break;
    case ESCAPES:
        read_escapes(s, &d->bytes);
        break;
    case ARRAYS:
        read_arrays(s, &d->bytes);
        break;
    default:
        read_hex(s, &d->bytes);
    }
}

static struct dump read_open(const char *name, FILE *file, enum dump_kind kind)
{
    struct data_set text = read_file(name, file);
    struct scan s = scan_text(name, text.bytes, text.n);
    struct dump d = { name, kind, text, 0 };
    skip_mark(&s);
    if (kind == TOLD_APART) {
        refuse_other_files(name, &text);
        d.kind = is_binary(&text) ? BINARY : kind_of_text(&s);
    }
    if (d.kind == BINARY || d.kind == TRACE)
        return d;
    d.bytes = new_data_set(text.n > ROWS_MOST ? text.n : ROWS_MOST, IMPLICIT);
    read_text(&s, &d);
    free_data_set(&text);
    return d;
}

struct dump read_dump(const char *name, enum dump_kind kind)
{
    FILE *file = name == NULL ? stdin : fopen(name, "rb");
    if (file == NULL) {
        perror(name);
        exit(2);
    }
    struct dump d = read_open(name == NULL ? "standard input" : name, file, kind);
    if (file != stdin)
        fclose(file);
    return d;
}
