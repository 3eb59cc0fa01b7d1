#include "calls.h"

#include <stdio.h>
#include <stdlib.h>
#include <string.h>

#include "cover.h"

/* Drops session, films, boxes and input; queue and next numbers stay. */
static void end_association(struct gateway *g)
{
    delete_session(&g->records);
    memset(&g->input, 0, sizeof g->input);
    g->open = false;
    g->context = 0;
    free(g->message.bytes);
    g->message.bytes = NULL;
    g->message.length = 0;
}

void free_gateway(struct gateway *g)
{
    end_association(g);
}

int call_start(struct gateway *g, const uint8_t *root, size_t root_length, uint32_t next_serial,
               uint32_t next_picture)
{
    struct uid uid;
    CHECK(root_length > ROOT_MOST, 3, "start refused 3: root past 40 characters");
    CHECK(!uid_of_text(root, root_length, &uid), 3, "start refused 3: root is not a UID");
    CHECK(next_serial == 0, 3, "start refused 3: serial 0");
    CHECK(next_picture == 0, 3, "start refused 3: picture number 0");
    if (g->open)
        COVER("start: while open");
    end_association(g);
    memset(&g->records, 0, sizeof g->records);
    g->records.root = uid;
    g->records.next_serial = next_serial;
    g->records.next_picture = next_picture;
    g->started = true;
    COVER("start: done");
    return 0;
}

int call_open(struct gateway *g, uint32_t context, uint32_t syntax, size_t message_length)
{
    CHECK(!g->started, 1, "open refused 1: no records yet");
    CHECK(message_length < MESSAGE_LEAST, 2, "open refused 2: message buffer below 4,096");
    CHECK(message_length > MESSAGE_MOST, 2, "open refused 2: message buffer above 16,777,216");
    CHECK(g->open && message_length != g->message.length, 2,
          "open refused 2: another length while open");
    CHECK(context < 1 || context > 255, 3, "open refused 3: context not 1 to 255");
    CHECK(context % 2 == 0, 3, "open refused 3: context even");
    CHECK(syntax != IMPLICIT && syntax != EXPLICIT, 3, "open refused 3: neither syntax");
    CHECK(g->open, 3, "open refused 3: while open");
    g->message.bytes = malloc(message_length);
    if (g->message.bytes == NULL) {
        fprintf(stderr, "no memory for the message buffer\n");
        exit(2);
    }
    g->message.length = message_length;
    g->context = (uint8_t)context;
    g->syntax = (enum syntax)syntax;
    g->open = true;
    COVER("open: done");
    return 0;
}

int call_feed(struct gateway *g, const uint8_t *bytes, size_t length, enum answer *answer,
              struct response *response)
{
    struct fragment f;
    CHECK(!g->started, 1, "feed refused 1: no records yet");
    CHECK(!g->open, 4, "feed refused 4: not open");
    if (!read_fragment(bytes, length, g->context, &f)) {
        COVER("feed refused 5: the association ends");
        end_association(g);
        return 5;
    }
    *answer = collect(&g->input, &g->message, &g->records, g->syntax, &f, response);
    return 0;
}

int call_close(struct gateway *g)
{
    CHECK(!g->started, 1, "close refused 1: no records yet");
    CHECK(!g->open, 4, "close refused 4: not open");
    end_association(g);
    COVER("close: done");
    return 0;
}

/* 36 pictures of 4, ticket and copies of 2, the UID zero-filled to 64. */
int call_take(struct gateway *g, uint8_t bytes[ENTRY_BYTES])
{
    CHECK(!g->started, 1, "take refused 1: no records yet");
    CHECK(g->records.queue_count == 0, 6, "take refused 6: queue empty");
    struct entry entry = take_oldest(&g->records);
    struct writer w = { bytes, 0, IMPLICIT };
    for (unsigned i = 0; i < BOXES_MOST; i++)
        write_32(&w, entry.pictures[i]);
    write_16(&w, entry.ticket);
    write_16(&w, entry.copies);
    memset(bytes + w.length, 0, UID_MOST);
    memcpy(bytes + w.length, entry.film.text, entry.film.length);
    COVER("take: done");
    return 0;
}
