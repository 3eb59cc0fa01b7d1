#include "sheets.h"

#include <stdbool.h>
#include <stdio.h>
#include <string.h>

#include "../include/gateway.h"
#include "../include/gateway_records.h"
#include "data_sets.h"

/* Lines of boxes, so many in each: rows or, with COL, columns. */
struct sheet {
    uint8_t kind, lines, counts[GATEWAY_LINES];
};

/* By ticket: those of the entries in the queue are sixteen in a row at most. */
static struct sheet sheets[GATEWAY_QUEUED];

static struct sheet *sheet_of(const uint8_t *ticket)
{
    return &sheets[number_at(ticket, 2) % GATEWAY_QUEUED];
}

/* The film that an entry was made of is live: the request that queued it was the last one. */
static void keep_layout(const uint8_t *records, const uint8_t *entry)
{
    struct sheet *sheet = sheet_of(entry + GATEWAY_QUEUED_TICKET);
    for (size_t i = 0; i < records[GATEWAY_AT_FILM_COUNT]; i++) {
        const uint8_t *film = records + GATEWAY_AT_FILMS + i * GATEWAY_FILM_BYTES;
        if (memcmp(film + GATEWAY_FILM_NAME, entry + GATEWAY_QUEUED_NAME, GATEWAY_NAME_BYTES) != 0)
            continue;
        sheet->kind = film[GATEWAY_FILM_KIND];
        sheet->lines = film[GATEWAY_FILM_LINES];
        memcpy(sheet->counts, film + GATEWAY_FILM_COUNTS, GATEWAY_LINES);
    }
}

void keep_layouts(const uint8_t *records, size_t queued)
{
    size_t count = records[GATEWAY_AT_QUEUED_COUNT];
    for (size_t i = count - queued; i < count; i++)
        keep_layout(records, records + GATEWAY_AT_QUEUED + i * GATEWAY_QUEUED_BYTES);
}

/* The position, from 0, of the box in a row and a column; -1 where there is none. */
static int box_at(const struct sheet *sheet, int row, int column)
{
    bool columns = sheet->kind == GATEWAY_COL;
    int line = columns ? column : row, place = columns ? row : column;
    if (row < 0 || line >= sheet->lines || place >= sheet->counts[line])
        return -1;
    for (int i = 0; i < line; i++)
        place += sheet->counts[i];
    return place;
}

/* A box is so wide that the longest number fits; with its left edge it takes one place more. */
enum { WIDTH = 12, STEP = WIDTH + 1 };

struct drawn {
    char text[GATEWAY_LINES * STEP + 2];
};

static struct drawn nothing_drawn(void)
{
    struct drawn d;
    memset(d.text, ' ', sizeof d.text);
    d.text[sizeof d.text - 1] = 0;
    return d;
}

static void show_drawn(struct drawn *d)
{
    size_t n = strlen(d->text);
    while (n > 0 && d->text[n - 1] == ' ')
        n--;
    printf("         %.*s\n", (int)n, d->text);
}

/* The edge between a row and the one above it. */
static void draw_edge(const struct sheet *sheet, int row)
{
    struct drawn d = nothing_drawn();
    for (int column = 0; column < GATEWAY_LINES; column++) {
        if (box_at(sheet, row - 1, column) < 0 && box_at(sheet, row, column) < 0)
            continue;
        memset(d.text + column * STEP, '-', STEP);
        d.text[column * STEP] = d.text[(column + 1) * STEP] = '+';
    }
    show_drawn(&d);
}

static void draw_row(const struct sheet *sheet, int row, const uint8_t *pictures)
{
    struct drawn d = nothing_drawn();
    for (int column = 0; column < GATEWAY_LINES; column++) {
        int at = box_at(sheet, row, column);
        if (at < 0)
            continue;
        char text[WIDTH + 1] = "empty";
        unsigned number = (unsigned)number_at(pictures + 4 * at, 4);
        if (number != 0)
            snprintf(text, sizeof text, "%u", number);
        size_t length = strlen(text);
        memcpy(d.text + column * STEP + 1 + (WIDTH - length) / 2, text, length);
        d.text[column * STEP] = d.text[(column + 1) * STEP] = '|';
    }
    show_drawn(&d);
}

static bool has_row(const struct sheet *sheet, int row)
{
    for (int column = 0; column < GATEWAY_LINES; column++)
        if (box_at(sheet, row, column) >= 0)
            return true;
    return false;
}

void draw_film(const uint8_t *entry)
{
    const struct sheet *sheet = sheet_of(entry + GATEWAY_ENTRY_TICKET);
    int row = 0;
    for (; has_row(sheet, row); row++) {
        draw_edge(sheet, row);
        draw_row(sheet, row, entry + GATEWAY_ENTRY_PICTURES);
    }
    draw_edge(sheet, row);
}
