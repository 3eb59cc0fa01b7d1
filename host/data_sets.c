#include "data_sets.h"

#include <stdio.h>
#include <stdlib.h>
#include <string.h>

#define UNDEFINED 0xFFFFFFFFu

static void stop(const char *why) {
    fprintf(stderr, "data sets: %s\n", why);
    exit(2);
}

struct data_set new_data_set(size_t room, uint32_t syntax) {
    struct data_set d = {malloc(room), 0, room, syntax == EXPLICIT};
    if (d.bytes == NULL) stop("no memory");
    return d;
}

void free_data_set(struct data_set *d) {
    free(d->bytes);
    d->bytes = NULL;
}

void put_bytes(struct data_set *d, const uint8_t *bytes, size_t n) {
    if (d->room - d->n < n) stop("no room");
    if (n > 0) memcpy(d->bytes + d->n, bytes, n);
    d->n += n;
}

static void lay_number(uint8_t *p, uint32_t x, int width) {
    for (int i = 0; i < width; i++) p[i] = (uint8_t)(x >> 8 * i);
}

void put_number(struct data_set *d, uint32_t x, int width) {
    uint8_t bytes[4];
    lay_number(bytes, x, width);
    put_bytes(d, bytes, (size_t)width);
}

void put_tag(struct data_set *d, uint32_t tag) {
    put_number(d, tag >> 16, 2);
    put_number(d, tag & 0xFFFF, 2);
}

static bool is_long(const char *vr) {
    static const char long_forms[][3] = {"OB", "OF", "OW", "SQ", "UN", "UT"};
    for (size_t i = 0; i < sizeof long_forms / sizeof *long_forms; i++)
        if (memcmp(vr, long_forms[i], 2) == 0) return true;
    return false;
}

void put_header(struct data_set *d, uint32_t tag, const char *vr, uint32_t length) {
    put_tag(d, tag);
    if (!d->explicit_vr) {
        put_number(d, length, 4);
        return;
    }
    put_bytes(d, (const uint8_t *)vr, 2);
    if (is_long(vr)) {
        put_number(d, 0, 2);
        put_number(d, length, 4);
    } else {
        put_number(d, length, 2);
    }
}

void put_element(struct data_set *d, uint32_t tag, const char *vr, const uint8_t *value, uint32_t length) {
    put_header(d, tag, vr, length);
    put_bytes(d, value, length);
}

void put_text(struct data_set *d, uint32_t tag, const char *vr, const char *text) {
    uint32_t length = (uint32_t)strlen(text);
    put_header(d, tag, vr, length + length % 2);
    put_bytes(d, (const uint8_t *)text, length);
    if (length % 2 != 0) put_number(d, memcmp(vr, "UI", 2) == 0 ? 0 : ' ', 1);
}

void put_us(struct data_set *d, uint32_t tag, uint16_t value) {
    put_header(d, tag, "US", 2);
    put_number(d, value, 2);
}

/* Closes what was opened: by a delimiter, or by laying its length before it. */
static void close_part(struct data_set *d, size_t opened, bool loose, uint32_t delimiter) {
    if (loose) {
        put_tag(d, delimiter);
        put_number(d, 0, 4);
    } else {
        lay_number(d->bytes + opened - 4, (uint32_t)(d->n - opened), 4);
    }
}

size_t open_sequence(struct data_set *d, uint32_t tag, bool loose) {
    put_header(d, tag, "SQ", loose ? UNDEFINED : 0);
    return d->n;
}

void close_sequence(struct data_set *d, size_t opened, bool loose) { close_part(d, opened, loose, 0xFFFEE0DD); }

size_t open_item(struct data_set *d, bool loose) {
    put_tag(d, 0xFFFEE000);
    put_number(d, loose ? UNDEFINED : 0, 4);
    return d->n;
}

void close_item(struct data_set *d, size_t opened, bool loose) { close_part(d, opened, loose, 0xFFFEE00D); }

struct data_set long_list(uint32_t syntax, size_t count, uint32_t length) {
    static const uint8_t value[8];
    struct data_set d = new_data_set(count * (8 + length), syntax);
    for (size_t i = 0; i < count; i++) put_element(&d, 0x00300000 + (uint32_t)i, "US", value, length);
    return d;
}

static void put_nest(struct data_set *d, const size_t items[], int levels, bool loose) {
    put_element(d, 0x20200010, "US", NULL, 0);
    if (levels == 0) return;
    size_t sequence = open_sequence(d, 0x20200110, loose);
    for (size_t i = 0; i < items[0]; i++) {
        size_t item = open_item(d, loose);
        put_nest(d, items + 1, levels - 1, loose);
        close_item(d, item, loose);
    }
    close_sequence(d, sequence, loose);
}

struct data_set nest(uint32_t syntax, size_t room, const size_t items[], int levels, bool loose) {
    struct data_set d = new_data_set(room, syntax);
    put_nest(&d, items, levels, loose);
    return d;
}

uint64_t number_at(const uint8_t *p, int width) {
    uint64_t n = 0;
    while (width-- > 0) n = n << 8 | p[width];
    return n;
}

/* An item has no VR. */
struct element next_element(const uint8_t *bytes, size_t *at, bool explicit_vr) {
    const uint8_t *p = bytes + *at;
    struct element e = {(uint32_t)(number_at(p, 2) << 16 | number_at(p + 2, 2)), p + 8, number_at(p + 4, 4)};
    if (explicit_vr && e.tag >> 16 != 0xFFFE) {
        bool twelve = is_long((const char *)p + 4);
        e.length = twelve ? number_at(p + 8, 4) : number_at(p + 6, 2);
        e.value = twelve ? p + 12 : p + 8;
    }
    *at = (size_t)(e.value - bytes) + e.length;
    return e;
}

struct element find_element(const uint8_t *bytes, size_t n, uint32_t tag, bool explicit_vr) {
    for (size_t at = 0; at < n;) {
        struct element e = next_element(bytes, &at, explicit_vr);
        if (e.tag == tag) return e;
    }
    return (struct element){tag, NULL, 0};
}
