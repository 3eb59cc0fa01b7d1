/* A command set read as a request, by rules 6.12 to 6.17. */
#ifndef REQUESTS_H
#define REQUESTS_H

#include "live.h"
#include "reasons.h"

enum operation { UNKNOWN_FIELD, C_ECHO, N_CREATE, N_SET, N_ACTION, N_DELETE };

struct request {
    uint32_t field, message, action;
    bool data_comes;
    enum operation operation;
    struct uid class_uid;
    struct uid instance;   /* requested, or sent with N-CREATE */
    bool sent, sent_sound; /* N-CREATE: a UID was sent, and keeps the rules of PS3.5 */
};

/* False where it is not readable, with the reason. */
bool read_request(const uint8_t *command, size_t n, struct request *q, struct reason *r);

/* Of a command set of any kind: its field, the message ID that it answers, its status; UINT32_MAX where it has none.
 * Whether a data set comes. */
uint32_t field_in(const uint8_t *command, size_t n);
uint32_t answered_in(const uint8_t *command, size_t n);
uint32_t status_in(const uint8_t *command, size_t n);
bool data_comes(const uint8_t *command, size_t n);

#endif
