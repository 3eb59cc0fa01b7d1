/* Dumps: files of bytes, binary or written out in one of several ways. */
#ifndef DUMPS_H
#define DUMPS_H

#include "../data_sets.h"

enum dump_kind { TOLD_APART, BINARY, HEX, ROWS, ESCAPES, ARRAYS, TRACE };

struct dump {
    const char *name;
    enum dump_kind kind;
    struct data_set bytes; /* of a trace: its text */
    size_t first;          /* the offset of the first byte, by the dump's own count */
};

/* Reads a file whole, standard input where the name is NULL. The kind is told apart by its characters unless it is
 * given. Ends the program with 2 where it cannot be read: with line and column, or with the offset in a binary. */
struct dump read_dump(const char *name, enum dump_kind kind);

/* By the word that --as takes; TOLD_APART where there is none. And how it is called. */
enum dump_kind kind_of(const char *word);
const char *kind_text(enum dump_kind kind);

/* Says what is wrong, and ends the program with 2. */
_Noreturn void stop(const char *format, ...);

#endif
