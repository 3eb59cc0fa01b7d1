/* The five calls, each with its refusals in order. */
#ifndef CALLS_H
#define CALLS_H

#include "collecting.h"

enum { MESSAGE_LEAST = 4096, MESSAGE_MOST = 16777216 };

/* A taken entry: its pictures, ticket, copies and UID. */
enum { ENTRY_BYTES = BOXES_MOST * 4 + 2 + 2 + UID_MOST };

struct gateway {
    bool started; /* records exist */
    struct records records;
    bool open;
    uint8_t context;
    enum syntax syntax;
    struct input input;
    struct message_buffer message; /* its length fixed at open */
};

/* Each returns 0 when done, else the number of the refusal. */
int call_start(struct gateway *g, const uint8_t *root, size_t root_length, uint32_t next_serial,
               uint32_t next_picture);
int call_open(struct gateway *g, uint32_t context, uint32_t syntax, size_t message_length);
int call_feed(struct gateway *g, const uint8_t *bytes, size_t length, enum answer *answer,
              struct response *response);
int call_close(struct gateway *g);
int call_take(struct gateway *g, uint8_t entry[ENTRY_BYTES]);

void free_gateway(struct gateway *g);

#endif
