#include "requests.h"

#include <inttypes.h>
#include <string.h>

#include "../../include/gateway.h"
#include "../data_sets.h"
#include "headers.h"
#include "stops.h"

enum {
    GROUP_LENGTH = 0x00000000,
    AFFECTED_CLASS = 0x00000002,
    REQUESTED_CLASS = 0x00000003,
    COMMAND_FIELD = 0x00000100,
    MESSAGE_ID = 0x00000110,
    ANSWERED_ID = 0x00000120,
    DATA_SET_TYPE = 0x00000800,
    STATUS = 0x00000900,
    AFFECTED_INSTANCE = 0x00001000,
    REQUESTED_INSTANCE = 0x00001001,
    ACTION_TYPE = 0x00001008,
};

enum { NO_DATA_SET = 0x0101, RESPONSES = 0x8000 };

static const char *name_of(uint32_t tag)
{
    return named_tag(tag)->name;
}

/* A number of two bytes that must be there; another rule speaks of those that all commands have. */
static bool need_number(const struct list *l, uint32_t tag, const char *missing, const char *wrong, uint32_t *number,
                        struct reason *r)
{
    const struct header *h = find_header(l, tag);
    if (h == NULL) {
        say(r, "%s (0000,%04X) is missing (rule %s)", name_of(tag), (unsigned)tag, missing);
        return false;
    }
    if (h->length != 2) {
        say(r, "%s (0000,%04X) has %" PRIu32 " bytes, not 2 (rule %s)", name_of(tag), (unsigned)tag, h->length, wrong);
        return false;
    }
    *number = (uint32_t)number_at(value_of(l, h), 2);
    return true;
}

static bool need_uid(const struct list *l, uint32_t tag, struct uid *uid, struct reason *r)
{
    const struct header *h = find_header(l, tag);
    if (h == NULL) {
        say(r, "%s (0000,%04X) is missing (rule 6.15)", name_of(tag), (unsigned)tag);
        return false;
    }
    if (!uid_of_value(value_of(l, h), h->length, uid)) {
        say(r, "%s (0000,%04X) %s breaks the rules of PS3.5 for UIDs (rule 6.16)", name_of(tag), (unsigned)tag,
            quote(value_of(l, h), h->length).text);
        return false;
    }
    return true;
}

static bool in_group_zero(const struct list *l, struct reason *r)
{
    for (size_t i = 0; i < l->to; i++) {
        const struct header *h = &l->of->all[i];
        if (h->part == ELEMENT && h->depth == 0 && h->tag >> 16 != 0) {
            say(r, "(%04X,%04X) at %zu is not of group 0000 (rule 6.12)", (unsigned)(h->tag >> 16),
                (unsigned)(h->tag & 0xFFFF), h->at);
            return false;
        }
    }
    return true;
}

static bool tells_its_length(const struct list *l, size_t n, struct reason *r)
{
    const struct header *h = find_header(l, GROUP_LENGTH);
    if (h == NULL) {
        say(r, "Command Group Length (0000,0000) is missing (rule 6.12)");
        return false;
    }
    if (h->length != 4) {
        say(r, "Command Group Length (0000,0000) has %" PRIu32 " bytes, not 4 (rule 6.12)", h->length);
        return false;
    }
    uint64_t told = number_at(value_of(l, h), 4), follow = n - (h->at + h->size + h->length);
    if (told != follow)
        say(r, "group length %" PRIu64 ", %" PRIu64 " follow (rule 6.12)", told, follow);
    return told == follow;
}

static enum operation operation_of(uint32_t field)
{
    switch (field) {
    case 0x0030:
        return C_ECHO;
    case 0x0120:
        return N_SET;
    case 0x0130:
        return N_ACTION;
    case 0x0140:
        return N_CREATE;
    case 0x0150:
        return N_DELETE;
    default:
        return UNKNOWN_FIELD;
    }
}

/* The UID of an N-CREATE is judged in check 6; an empty one is not sent. */
static void read_sent_uid(const struct list *l, struct request *q)
{
    const struct header *h = find_header(l, AFFECTED_INSTANCE);
    q->sent = h != NULL && h->length > 0;
    q->sent_sound = q->sent && uid_of_value(value_of(l, h), h->length, &q->instance);
}

/* What each known field needs. */
static bool read_operation(const struct list *l, struct request *q, struct reason *r)
{
    switch (q->operation) {
    case UNKNOWN_FIELD:
        return true;
    case C_ECHO:
        return need_uid(l, AFFECTED_CLASS, &q->class_uid, r);
    case N_CREATE:
        read_sent_uid(l, q);
        return need_uid(l, AFFECTED_CLASS, &q->class_uid, r);
    case N_SET:
    case N_DELETE:
        return need_uid(l, REQUESTED_CLASS, &q->class_uid, r) && need_uid(l, REQUESTED_INSTANCE, &q->instance, r);
    default:
        return need_uid(l, REQUESTED_CLASS, &q->class_uid, r) && need_uid(l, REQUESTED_INSTANCE, &q->instance, r) &&
               need_number(l, ACTION_TYPE, "6.15", "6.16", &q->action, r);
    }
}

static bool read_numbers(const struct list *l, struct request *q, struct reason *r)
{
    uint32_t type;
    if (!need_number(l, COMMAND_FIELD, "6.13", "6.13", &q->field, r) ||
        !need_number(l, MESSAGE_ID, "6.13", "6.13", &q->message, r) ||
        !need_number(l, DATA_SET_TYPE, "6.13", "6.13", &type, r))
        return false;
    q->data_comes = type != NO_DATA_SET;
    q->operation = operation_of(q->field);
    if (q->field >= RESPONSES)
        say(r, "Command Field %04XH is that of a response (rule 6.14)", (unsigned)q->field);
    return q->field < RESPONSES;
}

bool read_request(const uint8_t *command, size_t n, struct request *q, struct reason *r)
{
    struct headers h = keep_headers(command, n, false);
    struct list l = whole_list(&h);
    bool readable = false;
    memset(q, 0, sizeof *q);
    if (h.walked.refusal != READ)
        say(r, "the command set is %s", refusal_words(&h.walked, command).text);
    else
        readable =
            in_group_zero(&l, r) && tells_its_length(&l, n, r) && read_numbers(&l, q, r) && read_operation(&l, q, r);
    free_headers(&h);
    return readable;
}

static uint32_t number_in(const uint8_t *command, size_t n, uint32_t tag)
{
    struct headers kept = keep_headers(command, n, false);
    struct list l = whole_list(&kept);
    const struct header *h = find_header(&l, tag);
    uint32_t number = h != NULL && h->length == 2 ? (uint32_t)number_at(value_of(&l, h), 2) : UINT32_MAX;
    free_headers(&kept);
    return number;
}

uint32_t field_in(const uint8_t *command, size_t n)
{
    return number_in(command, n, COMMAND_FIELD);
}

uint32_t answered_in(const uint8_t *command, size_t n)
{
    return number_in(command, n, ANSWERED_ID);
}

uint32_t status_in(const uint8_t *command, size_t n)
{
    return number_in(command, n, STATUS);
}

bool data_comes(const uint8_t *command, size_t n)
{
    return number_in(command, n, DATA_SET_TYPE) != NO_DATA_SET;
}
