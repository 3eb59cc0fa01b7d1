#include "uids.h"

#include <stdio.h>
#include <string.h>

#include "cover.h"

static bool is_digit(uint8_t c)
{
    return c >= '0' && c <= '9';
}

/* The length of the component at the front: digits up to a dot or the end, at least one, and
   no leading zero but 0 itself; 0 where it is not so. */
static size_t component(const uint8_t *text, size_t length)
{
    size_t n = 0;
    while (n < length && is_digit(text[n]))
        n++;
    CHECK(n == 0, 0, "UID broken: a component without digits");
    CHECK(n < length && text[n] != '.', 0, "UID broken: neither digit nor dot");
    CHECK(n > 1 && text[0] == '0', 0, "UID broken: leading zero");
    return n;
}

bool uid_of_text(const uint8_t *text, size_t length, struct uid *uid)
{
    CHECK(length == 0, false, "UID broken: no characters");
    CHECK(length > UID_MOST, false, "UID broken: more than 64 characters");
    size_t at = 0;
    for (;;) {
        size_t n = component(text + at, length - at);
        if (n == 0)
            return false;
        at += n;
        if (at == length)
            break;
        at++;
    }
    memset(uid, 0, sizeof *uid);
    memcpy(uid->text, text, length);
    uid->length = (uint8_t)length;
    return true;
}

bool uid_of_value(const uint8_t *value, size_t length, struct uid *uid)
{
    if (length > 0 && value[length - 1] == 0) {
        COVER("UID value with its padding");
        length--;
    }
    return uid_of_text(value, length, uid);
}

struct uid uid_of_literal(const char *text)
{
    struct uid uid;
    memset(&uid, 0, sizeof uid);
    uid.length = (uint8_t)strlen(text);
    memcpy(uid.text, text, uid.length);
    return uid;
}

bool uid_equal(const struct uid *a, const struct uid *b)
{
    return a->length == b->length && memcmp(a->text, b->text, a->length) == 0;
}

bool uid_begins_with_root_and_dot(const struct uid *uid, const struct uid *root)
{
    return uid->length > root->length && memcmp(uid->text, root->text, root->length) == 0 &&
           uid->text[root->length] == '.';
}

struct uid uid_made(const struct uid *root, uint32_t serial)
{
    char text[UID_MOST + 1];
    snprintf(text, sizeof text, "%.*s.%lu", (int)root->length, root->text, (unsigned long)serial);
    return uid_of_literal(text);
}
