/* The other end of an association, in the place of a network: a console that prints one film. */
#ifndef CONSOLE_H
#define CONSOLE_H

#include "data_sets.h"

/* A fragment has at most so many bytes, its header counted; and fewer, where the console is told so. */
enum { CONSOLE_FRAGMENT = 16384 };

enum { CONSOLE_BOXES = 36, CONSOLE_UID = 65 };

#define VERIFICATION "1.2.840.10008.1.1"
#define FILM_SESSION "1.2.840.10008.5.1.1.1"
#define FILM_BOX "1.2.840.10008.5.1.1.2"
#define IMAGE_BOX "1.2.840.10008.5.1.1.4"

enum { C_ECHO = 0x0030, N_SET = 0x0120, N_ACTION = 0x0130, N_CREATE = 0x0140, N_DELETE = 0x0150 };

/* The command set of a request, in the place of what was there. An instance that is NULL is left out; the action of an
 * N-ACTION is 1. */
void make_command(struct data_set *d, uint16_t field, const char *class, const char *instance, uint16_t number,
                  bool with_data);

/* The data set of an image box's N-SET: a position, and a picture of so many rows and columns of 8 bits, all of one
 * grey. */
void put_box(struct data_set *d, uint16_t position, uint16_t rows, uint16_t columns, uint8_t grey);

/* A fragment of a command or data set, the last one or not; its length. */
size_t make_fragment(uint8_t *fragment, uint8_t context, bool command, bool last, const uint8_t *bytes, size_t size);

/* What the console asks for, in order; the boxes one by one. */
enum wish { WISH_ECHO, WISH_SESSION, WISH_FILM, WISH_PICTURE, WISH_PRINT, WISH_DELETION, WISH_NOTHING };

struct console {
    uint32_t syntax;
    uint8_t context;
    size_t piece;                     /* how many bytes a fragment has at most */
    unsigned columns, rows, pictures; /* the film, and how many of its boxes are filled */
    enum wish wish;
    unsigned filled;
    uint16_t message; /* the number of its last request */
    struct data_set command, data;
    size_t command_sent, data_sent;
    bool answered; /* its last request is, or there was none */
    char session[CONSOLE_UID], film[CONSOLE_UID], boxes[CONSOLE_BOXES][CONSOLE_UID];
};

struct console new_console(uint32_t syntax, uint8_t context, size_t piece, unsigned columns, unsigned rows,
                           unsigned pictures);
void free_console(struct console *c);

/* The next fragment that arrives from it, and its length; 0 where it waits for a response, or is content. */
size_t console_sends(struct console *c, uint8_t fragment[CONSOLE_FRAGMENT]);

/* It is sent a response: on a failure it asks for nothing more. */
void console_hears(struct console *c, uint16_t status, const uint8_t *command, size_t command_length,
                   const uint8_t *data, size_t data_length);

#endif
