#include "collecting.h"

#include <string.h>

#include "cover.h"

bool read_fragment(const uint8_t *bytes, size_t length, uint8_t context, struct fragment *f)
{
    CHECK(length < 6, false, "header wrong: fewer than 6 bytes");
    uint32_t n = (uint32_t)bytes[0] << 24 | (uint32_t)bytes[1] << 16 | (uint32_t)bytes[2] << 8 |
                 bytes[3];
    CHECK(n < 2, false, "header wrong: n below 2");
    CHECK(n != length - 4, false, "header wrong: n+4 not the bytes given");
    CHECK(bytes[4] != context, false, "header wrong: another context");
    CHECK((bytes[5] & 0xFC) != 0, false, "header wrong: control bits 2 to 7 set");
    f->command = (bytes[5] & 1) != 0;
    f->last = (bytes[5] & 2) != 0;
    f->bytes = bytes + 6;
    f->length = n - 2;
    if (f->length == 0)
        COVER("fragment without bytes");
    return true;
}

/* The message is whole: its request is done, and the next is awaited. */
static enum answer finish(struct input *input, const struct message_buffer *message,
                          struct records *records, enum syntax syntax, struct response *response)
{
    struct data_set d = { message->bytes, input->data_length, input->state == SKIPPING_DATA,
                          syntax };
    answer_request(records, &input->request, &d, response);
    memset(input, 0, sizeof *input);
    return RESPONSE;
}

static enum answer drop(struct input *input)
{
    memset(input, 0, sizeof *input);
    return DROPPED;
}

/* A command fragment that is not in the middle of a command starts a new message. */
static void start_message(struct input *input)
{
    switch (input->state) {
    case IDLE: COVER("command fragment, idle: starts a message"); break;
    case IN_DATA: COVER("command fragment, in data: cuts off"); break;
    case SKIPPING_DATA: COVER("command fragment, skipping data: cuts off"); break;
    case IN_COMMAND: COVER("command fragment, in command: appends"); return;
    case SKIPPING_COMMAND: COVER("command fragment, skipping command: skipped"); return;
    }
    memset(input, 0, sizeof *input);
    input->state = IN_COMMAND;
}

static enum answer collect_command(struct input *input, const struct message_buffer *message,
                                   struct records *records, enum syntax syntax,
                                   const struct fragment *f, struct response *response)
{
    start_message(input);
    if (input->state == IN_COMMAND && f->length > COMMAND_MOST - input->command_length)
        input->state = SKIPPING_COMMAND;
    if (input->state == SKIPPING_COMMAND) {
        CHECK(!f->last, WAIT, "command past 1,024 bytes: wait");
        COVER("command past 1,024 bytes: dropped");
        return drop(input);
    }
    memcpy(input->command + input->command_length, f->bytes, f->length);
    input->command_length += f->length;
    CHECK(!f->last, WAIT, "command not whole: wait");
    if (!read_command(input->command, input->command_length, &input->request)) {
        COVER("command unreadable: dropped");
        return drop(input);
    }
    if (!input->request.data_set_comes) {
        COVER("command without data set: done at once");
        return finish(input, message, records, syntax, response);
    }
    input->state = IN_DATA;
    COVER("command with data set: wait");
    return WAIT;
}

static enum answer collect_data(struct input *input, struct message_buffer *message,
                                struct records *records, enum syntax syntax,
                                const struct fragment *f, struct response *response)
{
    CHECK(input->state == IDLE, IGNORED, "data fragment, idle: ignored");
    if (input->state == IN_COMMAND) {
        COVER("data fragment, in command: dropped");
        return drop(input);
    }
    if (input->state == SKIPPING_COMMAND) {
        COVER("data fragment, skipping command: dropped");
        return drop(input);
    }
    if (input->state == IN_DATA && f->length > message->length - input->data_length) {
        COVER("data fragment past the message buffer");
        input->state = SKIPPING_DATA;
    }
    if (input->state == IN_DATA && f->length > 0) {
        memcpy(message->bytes + input->data_length, f->bytes, f->length);
        input->data_length += f->length;
    }
    CHECK(!f->last && input->state == SKIPPING_DATA, WAIT, "skipping data: wait");
    CHECK(!f->last, WAIT, "data not whole: wait");
    return finish(input, message, records, syntax, response);
}

enum answer collect(struct input *input, struct message_buffer *message, struct records *records,
                    enum syntax syntax, const struct fragment *f, struct response *response)
{
    if (f->command)
        return collect_command(input, message, records, syntax, f, response);
    return collect_data(input, message, records, syntax, f, response);
}
