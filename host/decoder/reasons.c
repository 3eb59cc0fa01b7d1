#include "reasons.h"

#include <stdarg.h>
#include <stdio.h>

#include "../../include/gateway.h"

enum { QUOTED_MOST = 36 };

void say(struct reason *r, const char *format, ...)
{
    va_list arguments;
    va_start(arguments, format);
    vsnprintf(r->text, sizeof r->text, format, arguments);
    va_end(arguments);
}

void say_also(struct reason *r, const char *format, ...)
{
    va_list arguments;
    if (r->also_count == REASONS_MOST)
        return;
    va_start(arguments, format);
    vsnprintf(r->also[r->also_count++], REASON_MOST, format, arguments);
    va_end(arguments);
}

void answer(struct reason *r, uint32_t status, unsigned check, const char *format, ...)
{
    va_list arguments;
    r->returned = GATEWAY_RESPONSE;
    r->status = status;
    r->check = check;
    va_start(arguments, format);
    vsnprintf(r->text, sizeof r->text, format, arguments);
    va_end(arguments);
}

struct quoted quote(const uint8_t *value, size_t length)
{
    struct quoted q = { "\"" };
    size_t at = 1;
    for (size_t i = 0; i < length && i < QUOTED_MOST; i++) {
        const char *format = value[i] >= ' ' && value[i] <= '~' ? "%c" : "<%02X>";
        at += (size_t)snprintf(q.text + at, sizeof q.text - at, format, value[i]);
    }
    snprintf(q.text + at, sizeof q.text - at, length > QUOTED_MOST ? "\" .." : "\"");
    return q;
}
