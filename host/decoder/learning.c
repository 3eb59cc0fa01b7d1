#include "learning.h"

#include <stdlib.h>
#include <string.h>

#include "../../include/gateway.h"
#include "headers.h"
#include "pdus.h"
#include "requests.h"

enum { RESPONSES = 0x8000, CREATE_REQUEST = 0x0140, CREATE_RESPONSE = 0x8140, AFFECTED_INSTANCE = 0x00001000 };

static bool is_sound_fragment(const struct capture_part *p)
{
    return p->kind == A_FRAGMENT && header_is_sound(p);
}

static const uint8_t *payload(const struct capture_part *p)
{
    return p->bytes + FRAGMENT_HEADER;
}

/* Commands, each put together from its fragments. */
struct commands {
    const struct capture *of;
    struct data_set set;
    size_t first, next; /* the part in which the command begins, and the one behind its last */
};

static struct commands new_commands(const struct capture *c)
{
    size_t room = 0;
    for (size_t i = 0; i < c->count; i++)
        room += c->parts[i].n;
    return (struct commands){ c, new_data_set(room + 1, IMPLICIT), 0, 0 };
}

/* The next whole command; false where there is none. A data fragment ends one that is not whole. */
static bool next_command(struct commands *c)
{
    c->set.n = 0;
    for (size_t i = c->next; i < c->of->count; i++) {
        const struct capture_part *p = &c->of->parts[i];
        if (!is_sound_fragment(p))
            continue;
        if (!is_command(p)) {
            c->set.n = 0;
            continue;
        }
        if (c->set.n == 0)
            c->first = i;
        put_bytes(&c->set, payload(p), p->n - FRAGMENT_HEADER);
        if (is_last(p)) {
            c->next = i + 1;
            return true;
        }
    }
    return false;
}

static void mark_command(struct capture *c, size_t from, size_t to)
{
    for (size_t i = from; i < to; i++)
        c->parts[i].of_response = true;
}

static void mark_data(struct capture *c, size_t from)
{
    for (size_t i = from; i < c->count; i++) {
        if (!is_sound_fragment(&c->parts[i]))
            continue;
        if (is_command(&c->parts[i]))
            return;
        c->parts[i].of_response = true;
        if (is_last(&c->parts[i]))
            return;
    }
}

void mark_responses(struct capture *c)
{
    struct commands all = new_commands(c);
    while (next_command(&all)) {
        uint32_t field = field_in(all.set.bytes, all.set.n);
        if (field == UINT32_MAX || field < RESPONSES)
            continue;
        mark_command(c, all.first, all.next);
        if (data_comes(all.set.bytes, all.set.n))
            mark_data(c, all.next);
    }
    free_data_set(&all.set);
}

/* The UID in (0000,1000) of a command with this field. */
static bool created_uid(const struct data_set *command, uint32_t field, struct uid *uid)
{
    struct headers kept = keep_headers(command->bytes, command->n, false);
    struct list l = whole_list(&kept);
    const struct header *h = find_header(&l, AFFECTED_INSTANCE);
    bool found =
        h != NULL && field_in(command->bytes, command->n) == field && uid_of_value(value_of(&l, h), h->length, uid);
    free_headers(&kept);
    return found;
}

static bool was_sent(const struct capture *c, const struct uid *uid)
{
    struct commands all = new_commands(c);
    struct uid sent;
    bool found = false;
    while (!found && next_command(&all))
        found = created_uid(&all.set, CREATE_REQUEST, &sent) && strcmp(sent.text, uid->text) == 0;
    free_data_set(&all.set);
    return found;
}

/* A UID as root, dot and serial. */
static bool split_uid(const struct uid *uid, struct uid *root, uint32_t *serial)
{
    const char *dot = strrchr(uid->text, '.');
    if (dot == NULL || dot - uid->text > GATEWAY_ROOT_MOST)
        return false;
    unsigned long long number = strtoull(dot + 1, NULL, 10);
    *root = *uid;
    root->text[dot - uid->text] = 0;
    *serial = (uint32_t)number;
    return strlen(dot + 1) <= 10 && number >= 1 && number <= UINT32_MAX;
}

bool learn_root(const struct capture *c, struct uid *root, uint32_t *serial, size_t *dump_at)
{
    struct commands all = new_commands(c);
    struct uid uid;
    bool found = false;
    while (!found && next_command(&all)) {
        found = created_uid(&all.set, CREATE_RESPONSE, &uid) && !was_sent(c, &uid) && split_uid(&uid, root, serial);
        *dump_at = c->parts[all.first].dump_at;
    }
    free_data_set(&all.set);
    return found;
}

uint32_t guess_set_syntax(const uint8_t *bytes, size_t n)
{
    if (n < 6)
        return 0;
    return form_of((const char *)bytes + 4) != NULL ? GATEWAY_EXPLICIT : GATEWAY_IMPLICIT;
}

/* The first data fragment, of the capture or behind a command, is the beginning of a data set. Another association has
 * its own syntax. */
uint32_t guess_syntax(const struct capture *c, size_t from, size_t *dump_at)
{
    bool begins = true;
    for (size_t i = from; i < c->count; i++) {
        const struct capture_part *p = &c->parts[i];
        if (p->kind == A_PDU && p->bytes[0] == A_ASSOCIATE_RQ)
            return 0;
        if (!is_sound_fragment(p))
            continue;
        uint32_t guess = is_command(p) ? 0 : guess_set_syntax(payload(p), p->n - FRAGMENT_HEADER);
        *dump_at = p->dump_at + FRAGMENT_HEADER;
        if (begins && guess != 0)
            return guess;
        begins = is_command(p);
    }
    return 0;
}
