#include "live.h"

#include <inttypes.h>
#include <stdio.h>
#include <string.h>

#include "../../include/gateway.h"
#include "../data_sets.h"

/* Digits up to a dot or the end, at least one, and no leading zero but 0 itself; 0 where it is not so. */
static size_t component(const uint8_t *text, size_t length)
{
    size_t n = 0;
    while (n < length && text[n] >= '0' && text[n] <= '9')
        n++;
    if ((n < length && text[n] != '.') || (n > 1 && text[0] == '0'))
        return 0;
    return n;
}

static bool is_uid(const uint8_t *text, size_t length)
{
    size_t at = 0;
    for (; at < length; at++) {
        size_t n = component(text + at, length - at);
        if (n == 0)
            return false;
        at += n;
        if (at == length)
            return length <= UID_MOST;
    }
    return false;
}

bool uid_of_value(const uint8_t *value, size_t length, struct uid *uid)
{
    if (length > 0 && value[length - 1] == 0)
        length--;
    if (!is_uid(value, length))
        return false;
    *uid = (struct uid){ { 0 } };
    memcpy(uid->text, value, length);
    return true;
}

struct uid root_of(const uint8_t *records)
{
    struct uid root = { { 0 } };
    memcpy(root.text, records + 1, records[0]);
    return root;
}

uint64_t next_serial(const uint8_t *records)
{
    return number_at(records + GATEWAY_AT_NEXT_SERIAL, GATEWAY_NEXT_BYTES);
}

uint64_t next_picture(const uint8_t *records)
{
    return number_at(records + GATEWAY_AT_NEXT_PICTURE, GATEWAY_NEXT_BYTES);
}

static struct uid made_uid(const uint8_t *records, uint64_t serial)
{
    struct uid uid;
    snprintf(uid.text, sizeof uid.text, "%.*s.%" PRIu32, GATEWAY_ROOT_MOST, root_of(records).text, (uint32_t)serial);
    return uid;
}

/* A name: the serial of a made UID, or the characters of one that was sent. */
static struct uid uid_named(const uint8_t *records, const uint8_t *name)
{
    struct uid sent = { { 0 } };
    uint64_t serial = number_at(name, 4);
    if (serial != 0)
        return made_uid(records, serial);
    memcpy(sent.text, name + GATEWAY_NAME_BYTES - GATEWAY_TEXT_BYTES, GATEWAY_TEXT_BYTES);
    return sent;
}

bool session_lives(const uint8_t *records)
{
    return records[GATEWAY_AT_SESSION] == 1;
}

struct uid session_uid(const uint8_t *records)
{
    return uid_named(records, records + GATEWAY_AT_SESSION + 1);
}

size_t film_count(const uint8_t *records)
{
    return records[GATEWAY_AT_FILM_COUNT];
}

const uint8_t *film_at(const uint8_t *records, size_t i)
{
    return records + GATEWAY_AT_FILMS + i * GATEWAY_FILM_BYTES;
}

struct uid film_uid(const uint8_t *records, size_t i)
{
    return uid_named(records, film_at(records, i) + GATEWAY_FILM_NAME);
}

size_t box_count(const uint8_t *film)
{
    size_t count = 0;
    for (size_t i = 0; i < film[GATEWAY_FILM_LINES]; i++)
        count += film[GATEWAY_FILM_COUNTS + i];
    return count;
}

/* The first box's serial stands before the boxes, in four bytes. */
struct uid box_uid(const uint8_t *records, size_t film, size_t box)
{
    return made_uid(records, number_at(film_at(records, film) + GATEWAY_FILM_BOXES - 4, 4) + box);
}

static const uint8_t *box_at(const uint8_t *film, size_t box)
{
    return film + GATEWAY_FILM_BOXES + box * GATEWAY_BOX_BYTES;
}

uint32_t box_picture(const uint8_t *film, size_t box)
{
    return (uint32_t)number_at(box_at(film, box) + GATEWAY_BOX_PICTURE, GATEWAY_PICTURE_BYTES);
}

uint32_t box_position(const uint8_t *film, size_t box)
{
    return box_at(film, box)[0];
}

size_t queued_count(const uint8_t *records)
{
    return records[GATEWAY_AT_QUEUED_COUNT];
}

static bool same(struct uid a, const struct uid *b)
{
    return strcmp(a.text, b->text) == 0;
}

static struct instance box_named(const uint8_t *records, size_t film, const struct uid *uid)
{
    for (size_t j = 0; j < box_count(film_at(records, film)); j++)
        if (same(box_uid(records, film, j), uid))
            return (struct instance){ A_BOX, film, j };
    return (struct instance){ NOBODY, 0, 0 };
}

struct instance instance_named(const uint8_t *records, const struct uid *uid)
{
    struct instance found = { NOBODY, 0, 0 };
    if (session_lives(records) && same(session_uid(records), uid))
        found.living = THE_SESSION;
    for (size_t i = 0; i < film_count(records) && found.living == NOBODY; i++)
        found = same(film_uid(records, i), uid) ? (struct instance){ A_FILM, i, 0 } : box_named(records, i, uid);
    return found;
}
