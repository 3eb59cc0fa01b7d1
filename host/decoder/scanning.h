/* A text that is read character by character. What cannot be read is refused with line and column. */
#ifndef SCANNING_H
#define SCANNING_H

#include <stdbool.h>
#include <stddef.h>
#include <stdint.h>

struct scan {
    const char *name; /* of the file */
    const uint8_t *text;
    size_t n, at;
    size_t line, line_at; /* the line's number, from 1, and where it begins */
};

struct scan scan_text(const char *name, const uint8_t *text, size_t n);

/* The character here, or so many behind it; -1 past the end of the text. */
int peek(const struct scan *s);
int peek_behind(const struct scan *s, size_t characters);

/* Past one character. */
void step(struct scan *s);

/* Past spaces and tabs; how many. Past line ends too. Past all that is left of the line, but not its end. */
size_t skip_blanks(struct scan *s);
void skip_space(struct scan *s);
void skip_line(struct scan *s);

/* Past the end of a line. */
void skip_line_end(struct scan *s);

/* At the end of a line or of the text. */
bool at_line_end(const struct scan *s);

/* How many hexadecimal digits stand here in a row. */
size_t digits_here(const struct scan *s);

/* The byte of two digits, which it steps past; refused where there are not two. */
uint8_t take_byte(struct scan *s);

/* Says what is wrong here, and ends the program with 2. */
_Noreturn void refuse_text(const struct scan *s, const char *format, ...);

#endif
