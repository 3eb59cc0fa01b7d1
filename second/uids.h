/* UIDs: 1 to 64 characters, by PS3.5; those made are root, dot, serial. */
#ifndef UIDS_H
#define UIDS_H

#include <stdbool.h>
#include <stddef.h>
#include <stdint.h>

enum { UID_MOST = 64, ROOT_MOST = 40 };

struct uid {
    uint8_t length;
    char text[UID_MOST];
};

/* Whether these characters, none of them padding, are a UID; and if so, it. */
bool uid_of_text(const uint8_t *text, size_t length, struct uid *uid);

/* The same of a UI value: one trailing 00H is padding. */
bool uid_of_value(const uint8_t *value, size_t length, struct uid *uid);

struct uid uid_of_literal(const char *text);
bool uid_equal(const struct uid *a, const struct uid *b);
bool uid_begins_with_root_and_dot(const struct uid *uid, const struct uid *root);
struct uid uid_made(const struct uid *root, uint32_t serial);

#endif
