/* Collecting a message (PS3.8 data values): one fragment in, one answer out. */
#ifndef COLLECTING_H
#define COLLECTING_H

#include "requests.h"

enum { COMMAND_MOST = 1024 };

enum state { IDLE, IN_COMMAND, SKIPPING_COMMAND, IN_DATA, SKIPPING_DATA };

struct input {
    enum state state;
    size_t command_length;
    uint8_t command[COMMAND_MOST];
    struct request request; /* in data and skipping data */
    size_t data_length;
};

struct message_buffer {
    uint8_t *bytes;
    size_t length;
};

enum answer { WAIT, DROPPED, IGNORED, RESPONSE };

struct fragment {
    bool command;
    bool last;
    const uint8_t *bytes;
    size_t length;
};

/* Whether the fragment's header is right for this context, and what it says. */
bool read_fragment(const uint8_t *bytes, size_t length, uint8_t context, struct fragment *f);

enum answer collect(struct input *input, struct message_buffer *message, struct records *records,
                    enum syntax syntax, const struct fragment *f, struct response *response);

#endif
