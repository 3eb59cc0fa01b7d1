#include "full.h"

#include <string.h>

#include "../../include/gateway.h"

static void put(uint8_t *records, size_t at, int width, uint64_t n)
{
    for (int i = 0; i < width; i++)
        records[at + i] = (uint8_t)(n >> 8 * i);
}

static void fill_session(uint8_t *session)
{
    session[GATEWAY_SESSION_LIVE] = 1;
    put(session, GATEWAY_SESSION_NAME, GATEWAY_SERIAL_BYTES, 1);
    session[GATEWAY_SESSION_COPIES] = 2;
    session[GATEWAY_SESSION_PRIORITY] = GATEWAY_PRIORITY_MED;
    session[GATEWAY_SESSION_LABEL_LENGTH] = 5;
    memcpy(session + GATEWAY_SESSION_LABEL, "LABEL", 5);
}

static void fill_film(uint8_t *film, uint32_t i)
{
    put(film, GATEWAY_FILM_NAME, GATEWAY_SERIAL_BYTES, 10 + 50 * i);
    film[GATEWAY_FILM_LINES] = 6;
    memset(film + GATEWAY_FILM_COUNTS, 6, GATEWAY_LINES);
    film[GATEWAY_FILM_MAGNIFICATION] = GATEWAY_MAGNIFICATION_BILINEAR;
    put(film, GATEWAY_FILM_FIRST_BOX, GATEWAY_SERIAL_BYTES, 11 + 50 * i);
    for (uint32_t j = 0; j < GATEWAY_BOXES; j++) {
        uint8_t *box = film + GATEWAY_FILM_BOXES + GATEWAY_BOX_BYTES * j;
        box[GATEWAY_BOX_POSITION] = (uint8_t)(j + 1);
        put(box, GATEWAY_BOX_PICTURE, GATEWAY_PICTURE_BYTES, GATEWAY_BOXES * i + j + 1);
    }
}

static void fill_entry(uint8_t *entry, uint32_t i)
{
    for (uint32_t p = 0; p < GATEWAY_BOXES; p++)
        put(entry, GATEWAY_PICTURE_BYTES * p, GATEWAY_PICTURE_BYTES, p + 1);
    put(entry, GATEWAY_QUEUED_TICKET, GATEWAY_TICKET_BYTES, i);
    entry[GATEWAY_QUEUED_COPIES] = 1;
    entry[GATEWAY_QUEUED_NAME + GATEWAY_NAME_LENGTH] = 9;
    memcpy(entry + GATEWAY_QUEUED_NAME + GATEWAY_NAME_TEXT, "1.9.70.15", 9);
}

void fill_records(uint8_t *records)
{
    memset(records, 0, GATEWAY_RECORDS);
    records[GATEWAY_AT_ROOT_LENGTH] = 5;
    memcpy(records + GATEWAY_AT_ROOT, "1.9.7", 5);
    put(records, GATEWAY_AT_NEXT_SERIAL, GATEWAY_NEXT_BYTES, 10000);
    put(records, GATEWAY_AT_NEXT_PICTURE, GATEWAY_NEXT_BYTES, 1000);
    put(records, GATEWAY_AT_NEXT_TICKET, GATEWAY_TICKET_BYTES, 16);
    fill_session(records + GATEWAY_AT_SESSION);
    records[GATEWAY_AT_FILM_COUNT] = GATEWAY_FILMS;
    for (uint32_t i = 0; i < GATEWAY_FILMS; i++)
        fill_film(records + GATEWAY_AT_FILMS + GATEWAY_FILM_BYTES * i, i);
    records[GATEWAY_AT_QUEUED_COUNT] = GATEWAY_QUEUED;
    for (uint32_t i = 0; i < GATEWAY_QUEUED; i++)
        fill_entry(records + GATEWAY_AT_QUEUED + GATEWAY_QUEUED_BYTES * i, i);
    records[GATEWAY_AT_OPEN] = records[GATEWAY_AT_CONTEXT] = records[GATEWAY_AT_SYNTAX] = 1;
    put(records, GATEWAY_AT_ROOM, 4, GATEWAY_MESSAGE_LEAST);
}
