#include "console.h"

#include <stdio.h>
#include <string.h>

enum { ROOM = 16384, SIDE = 64, HEADER = 6, GROUP_LENGTH = 12 };

struct console new_console(uint32_t syntax, uint8_t context, size_t piece, unsigned columns, unsigned rows,
                           unsigned pictures)
{
    struct console c = { .syntax = syntax, .context = context, .piece = piece, .columns = columns, .rows = rows };
    c.pictures = pictures;
    c.command = new_data_set(ROOM, IMPLICIT);
    c.data = new_data_set(ROOM, syntax);
    c.wish = WISH_ECHO;
    c.answered = true;
    return c;
}

void free_console(struct console *c)
{
    free_data_set(&c->command);
    free_data_set(&c->data);
}

/* (0000,0000) counts the bytes behind it, so it is written last. */
void make_command(struct data_set *d, uint16_t field, const char *class, const char *instance, uint16_t number,
                  bool with_data)
{
    d->n = GROUP_LENGTH;
    put_text(d, field == C_ECHO || field == N_CREATE ? 0x00000002 : 0x00000003, "UI", class);
    put_us(d, 0x00000100, field);
    put_us(d, 0x00000110, number);
    put_us(d, 0x00000800, with_data ? 0x0001 : 0x0101);
    if (instance != NULL)
        put_text(d, 0x00001001, "UI", instance);
    if (field == N_ACTION)
        put_us(d, 0x00001008, 1);
    size_t whole = d->n;
    d->n = 0;
    put_header(d, 0x00000000, "UL", 4);
    put_number(d, (uint32_t)(whole - GROUP_LENGTH), 4);
    d->n = whole;
}

static void ask(struct console *c, uint16_t field, const char *class, const char *instance)
{
    make_command(&c->command, field, class, instance, ++c->message, c->data.n > 0);
}

static void ask_for_session(struct console *c)
{
    put_text(&c->data, 0x20000010, "IS", "2");
    put_text(&c->data, 0x20000030, "CS", "BLUE FILM");
    ask(c, N_CREATE, FILM_SESSION, NULL);
}

static void ask_for_film(struct console *c)
{
    char format[32];
    snprintf(format, sizeof format, "STANDARD\\%u,%u", c->columns, c->rows);
    put_text(&c->data, 0x20100010, "ST", format);
    size_t sequence = open_sequence(&c->data, 0x20100500, false), item = open_item(&c->data, false);
    put_text(&c->data, 0x00081150, "UI", FILM_SESSION);
    put_text(&c->data, 0x00081155, "UI", c->session);
    close_item(&c->data, item, false);
    close_sequence(&c->data, sequence, false);
    ask(c, N_CREATE, FILM_BOX, NULL);
}

static void put_picture(struct data_set *d, uint16_t rows, uint16_t columns, uint8_t grey)
{
    uint32_t length = (uint32_t)rows * columns;
    put_us(d, 0x00280002, 1);
    put_text(d, 0x00280004, "CS", "MONOCHROME2");
    put_us(d, 0x00280010, rows);
    put_us(d, 0x00280011, columns);
    put_us(d, 0x00280100, 8);
    put_us(d, 0x00280101, 8);
    put_us(d, 0x00280102, 7);
    put_us(d, 0x00280103, 0);
    put_header(d, 0x7FE00010, "OW", length);
    for (uint32_t i = 0; i < length; i++)
        put_number(d, grey, 1);
}

void put_box(struct data_set *d, uint16_t position, uint16_t rows, uint16_t columns, uint8_t grey)
{
    put_us(d, 0x20200010, position);
    size_t sequence = open_sequence(d, 0x20200110, false), item = open_item(d, false);
    put_picture(d, rows, columns, grey);
    close_item(d, item, false);
    close_sequence(d, sequence, false);
}

static void ask_for_picture(struct console *c)
{
    put_box(&c->data, (uint16_t)(c->filled + 1), SIDE, SIDE, (uint8_t)(40 * (c->filled + 1)));
    ask(c, N_SET, IMAGE_BOX, c->boxes[c->filled++]);
}

/* Makes the next request, and says what comes behind it. */
static enum wish make_request(struct console *c)
{
    c->data.n = c->command_sent = c->data_sent = 0;
    switch (c->wish) {
    case WISH_ECHO:
        ask(c, C_ECHO, VERIFICATION, NULL);
        return WISH_SESSION;
    case WISH_SESSION:
        ask_for_session(c);
        return WISH_FILM;
    case WISH_FILM:
        ask_for_film(c);
        return c->pictures > 0 ? WISH_PICTURE : WISH_PRINT;
    case WISH_PICTURE:
        ask_for_picture(c);
        return c->filled < c->pictures ? WISH_PICTURE : WISH_PRINT;
    case WISH_PRINT:
        ask(c, N_ACTION, FILM_BOX, c->film);
        return WISH_DELETION;
    default:
        ask(c, N_DELETE, FILM_SESSION, c->session);
        return WISH_NOTHING;
    }
}

size_t make_fragment(uint8_t *fragment, uint8_t context, bool command, bool last, const uint8_t *bytes, size_t size)
{
    for (int i = 0; i < 4; i++)
        fragment[i] = (uint8_t)((size + 2) >> 8 * (3 - i));
    fragment[4] = context;
    fragment[5] = (uint8_t)((command ? 1 : 0) | (last ? 2 : 0));
    memcpy(fragment + HEADER, bytes, size);
    return HEADER + size;
}

/* A fragment of what is left of a set, of which so many bytes have been sent. */
static size_t cut(const struct console *c, const struct data_set *d, size_t *sent, bool command, uint8_t *fragment)
{
    size_t left = d->n - *sent, most = c->piece - HEADER, size = left < most ? left : most;
    size_t length = make_fragment(fragment, c->context, command, size == left, d->bytes + *sent, size);
    *sent += size;
    return length;
}

size_t console_sends(struct console *c, uint8_t fragment[CONSOLE_FRAGMENT])
{
    if (c->answered && c->wish == WISH_NOTHING)
        return 0;
    if (c->answered) {
        c->wish = make_request(c);
        c->answered = false;
    }
    if (c->command_sent < c->command.n)
        return cut(c, &c->command, &c->command_sent, true, fragment);
    if (c->data_sent < c->data.n)
        return cut(c, &c->data, &c->data_sent, false, fragment);
    return 0;
}

static void keep_uid(char uid[CONSOLE_UID], struct element e)
{
    memset(uid, 0, CONSOLE_UID);
    for (size_t i = 0; i < e.length && i < CONSOLE_UID - 1; i++)
        uid[i] = (char)e.value[i];
}

/* The data set of a created film: a sequence with an item for each box. */
static void keep_boxes(struct console *c, const uint8_t *data, size_t length)
{
    bool explicit_vr = c->syntax == EXPLICIT;
    struct element boxes = find_element(data, length, 0x20100510, explicit_vr);
    size_t at = 0;
    for (unsigned i = 0; i < CONSOLE_BOXES && at < boxes.length; i++) {
        struct element item = next_element(boxes.value, &at, explicit_vr);
        keep_uid(c->boxes[i], find_element(item.value, item.length, 0x00081155, explicit_vr));
    }
}

void console_hears(struct console *c, uint16_t status, const uint8_t *command, size_t command_length,
                   const uint8_t *data, size_t data_length)
{
    struct element instance = find_element(command, command_length, 0x00001000, false);
    c->answered = true;
    if (status != 0x0000 && status >> 12 != 0xB) {
        c->wish = WISH_NOTHING;
        return;
    }
    if (c->wish == WISH_FILM) /* the session is there, a film is to come */
        keep_uid(c->session, instance);
    if (data_length > 0) { /* only a created film has data */
        keep_uid(c->film, instance);
        keep_boxes(c, data, data_length);
    }
}
