/* What the records hold: sessions, films and boxes that are live, and the next numbers. */
#ifndef LIVE_H
#define LIVE_H

#include <stdbool.h>
#include <stddef.h>
#include <stdint.h>

enum { UID_MOST = 64 };

/* A UID as text. */
struct uid {
    char text[UID_MOST + 1];
};

/* A UI value without its padding, where it keeps the rules of PS3.5. */
bool uid_of_value(const uint8_t *value, size_t length, struct uid *uid);

struct uid root_of(const uint8_t *records);
uint64_t next_serial(const uint8_t *records);
uint64_t next_picture(const uint8_t *records);

bool session_lives(const uint8_t *records);
struct uid session_uid(const uint8_t *records);

size_t film_count(const uint8_t *records);
const uint8_t *film_at(const uint8_t *records, size_t i);
struct uid film_uid(const uint8_t *records, size_t i);

size_t box_count(const uint8_t *film);
struct uid box_uid(const uint8_t *records, size_t film, size_t box);
uint32_t box_picture(const uint8_t *film, size_t box);
uint32_t box_position(const uint8_t *film, size_t box);

/* Films in the queue. */
size_t queued_count(const uint8_t *records);

/* Who has a UID. */
enum living { NOBODY, THE_SESSION, A_FILM, A_BOX };

struct instance {
    enum living living;
    size_t film, box;
};

struct instance instance_named(const uint8_t *records, const struct uid *uid);

#endif
