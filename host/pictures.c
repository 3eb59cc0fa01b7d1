#include "pictures.h"

#include <stdbool.h>
#include <stdio.h>
#include <stdlib.h>
#include <string.h>

#include "../include/gateway.h"
#include "../include/gateway_records.h"
#include "data_sets.h"

/* As many as the records can name, and those of the request at hand. */
enum { MOST = GATEWAY_FILMS * GATEWAY_BOXES + GATEWAY_QUEUED * GATEWAY_BOXES + 1 };

static struct picture pictures[MOST];

static struct picture *find(uint32_t number)
{
    for (size_t i = 0; i < MOST; i++)
        if (pictures[i].number == number)
            return &pictures[i];
    return NULL;
}

void store_picture(uint32_t number, const uint8_t *pixels, size_t length)
{
    struct picture *free_place = find(0);
    uint8_t *copy = malloc(length);
    if (free_place == NULL || copy == NULL) {
        fprintf(stderr, "no room for picture %u\n", (unsigned)number);
        exit(2);
    }
    memcpy(copy, pixels, length);
    *free_place = (struct picture){ number, length, copy };
}

const struct picture *stored_picture(uint32_t number)
{
    return number == 0 ? NULL : find(number);
}

static bool in_film(const uint8_t *film, uint32_t number)
{
    for (size_t i = 0; i < GATEWAY_BOXES; i++)
        if (number_at(film + GATEWAY_FILM_BOXES + i * GATEWAY_BOX_BYTES + GATEWAY_BOX_PICTURE, 4) == number)
            return true;
    return false;
}

static bool in_entry(const uint8_t *entry, uint32_t number)
{
    for (size_t i = 0; i < GATEWAY_BOXES; i++)
        if (number_at(entry + GATEWAY_QUEUED_PICTURES + 4 * i, 4) == number)
            return true;
    return false;
}

/* Places that are not used hold zeros, so all of them may be looked at. */
static bool named(const uint8_t *records, uint32_t number)
{
    for (size_t i = 0; i < GATEWAY_FILMS; i++)
        if (in_film(records + GATEWAY_AT_FILMS + i * GATEWAY_FILM_BYTES, number))
            return true;
    for (size_t i = 0; i < GATEWAY_QUEUED; i++)
        if (in_entry(records + GATEWAY_AT_QUEUED + i * GATEWAY_QUEUED_BYTES, number))
            return true;
    return false;
}

void free_unnamed(const uint8_t *records)
{
    for (size_t i = 0; i < MOST; i++)
        if (pictures[i].number != 0 && !named(records, pictures[i].number)) {
            free(pictures[i].pixels);
            pictures[i] = (struct picture){ 0, 0, NULL };
        }
}
