/* Requests: a readable command, the status checks in order, and the response. */
#ifndef REQUESTS_H
#define REQUESTS_H

#include "records.h"

enum { COMMAND_ANSWER_MOST = 256, DATA_ANSWER_MOST = 8192 };

enum operation { UNKNOWN_FIELD, C_ECHO, N_CREATE, N_SET, N_ACTION, N_DELETE };

/* The instance of an N-CREATE, in (0000,1000); an empty one is not sent. */
enum sent { NOT_SENT, SENT_BROKEN, SENT };

struct request {
    uint16_t field;
    uint16_t message_number;
    bool data_set_comes;
    enum operation operation;
    struct uid class_uid;
    struct uid instance; /* requested, or sent */
    enum sent sent;
    uint16_t action_type;
};

/* Whether the command is readable, and what it asks. */
bool read_command(const uint8_t *bytes, size_t length, struct request *q);

/* The data set as it was collected; none is an empty one. */
struct data_set {
    const uint8_t *bytes;
    size_t length;
    bool too_long;
    enum syntax syntax;
};

enum note { NO_NOTE, FILMS_QUEUED, PICTURE, READING_STOPPED };

struct response {
    uint16_t status;
    enum note note;
    uint32_t note_numbers[3]; /* films queued; picture, place, length; refusal, place, depth */
    size_t command_length;
    uint8_t command[COMMAND_ANSWER_MOST];
    size_t data_length;
    uint8_t data[DATA_ANSWER_MOST];
};

/* Does the request, if no check fails it, and writes the response. */
void answer_request(struct records *r, const struct request *q, const struct data_set *d,
                    struct response *response);

#endif
