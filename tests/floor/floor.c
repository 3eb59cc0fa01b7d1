/* The test of the records' rules in plain C beside refusal 1: `floor TRIES TRACE ..`. So many records in all, or some
 * more, are damaged: those before each feed of the traces, in which a run of calls left them, and full ones. What the
 * floor says of each, take says. */
#include <stdio.h>
#include <stdlib.h>
#include <string.h>

#include "../../bench/floor.h"
#include "../../host/console.h"
#include "../../include/gateway.h"
#include "../lent/calls.h"
#include "../lent/full.h"
#include "../lent/traced.h"
#include "../walks/noise.h"

enum { COMMAND_MOST = GATEWAY_RECORDS - GATEWAY_AT_COMMAND };

static struct noise noise = { 1 };
static uint8_t damaged[GATEWAY_RECORDS];
static unsigned long each; /* how many of the records before a feed are tried */

static bool sometimes(uint32_t n)
{
    return below(&noise, n) == 0;
}

static void put(size_t at, int width, uint64_t n)
{
    for (int i = 0; i < width; i++)
        damaged[at + i] = (uint8_t)(n >> 8 * i);
}

/* Adds a small number, or takes one away. */
static void move(size_t at, int width)
{
    uint32_t by = sometimes(2) ? 1 : below(&noise, 60);
    uint64_t n = number_at(damaged + at, width);
    put(at, width, sometimes(2) ? n + by : n - by);
}

static size_t film_at(uint32_t i)
{
    return GATEWAY_AT_FILMS + GATEWAY_FILM_BYTES * i;
}

static size_t entry_at(uint32_t i)
{
    return GATEWAY_AT_QUEUED + GATEWAY_QUEUED_BYTES * i;
}

/* One that is there, or the first that is not. */
static size_t some_film(void)
{
    return film_at(below(&noise, damaged[GATEWAY_AT_FILM_COUNT] % GATEWAY_FILMS + 1));
}

static size_t some_entry(void)
{
    return entry_at(below(&noise, damaged[GATEWAY_AT_QUEUED_COUNT] % GATEWAY_QUEUED + 1));
}

static size_t some_name(void)
{
    switch (below(&noise, 4)) {
    case 0:
        return GATEWAY_AT_SESSION + GATEWAY_SESSION_NAME;
    case 1:
        return some_entry() + GATEWAY_QUEUED_NAME;
    default:
        return some_film() + GATEWAY_FILM_NAME;
    }
}

/* The kinds of damage. */

static void flip_bits(void)
{
    for (uint32_t i = 1 + below(&noise, 3); i > 0; i--)
        damaged[below(&noise, sizeof damaged)] ^= (uint8_t)(1u << below(&noise, 8));
}

static void change_byte(void)
{
    damaged[below(&noise, sizeof damaged)] = (uint8_t)below(&noise, sometimes(2) ? 8 : 256);
}

/* A root of about as many characters as it may have; what is behind 40 are those of the next serial. */
static void lengthen_root(void)
{
    damaged[GATEWAY_AT_ROOT_LENGTH] = (uint8_t)(GATEWAY_ROOT_MOST - 2 + below(&noise, 5));
    memset(damaged + GATEWAY_AT_ROOT, 0, GATEWAY_ROOT_BYTES);
    memset(damaged + GATEWAY_AT_ROOT, '1', damaged[GATEWAY_AT_ROOT_LENGTH]);
}

/* The root, and the numbers that all serials and pictures are below. */
static void change_numbers(void)
{
    static const uint64_t ends[] = { 0, 1, UINT32_MAX, (uint64_t)UINT32_MAX + 1, (uint64_t)UINT32_MAX + 2 };
    size_t at = sometimes(2) ? GATEWAY_AT_NEXT_SERIAL : GATEWAY_AT_NEXT_PICTURE;
    if (sometimes(4))
        damaged[below(&noise, 8)] = (uint8_t)("0123456789.."[below(&noise, 12)]);
    else if (sometimes(4))
        move(GATEWAY_AT_ROOT_LENGTH, 1);
    else if (sometimes(4))
        lengthen_root();
    else if (sometimes(2))
        put(at, GATEWAY_NEXT_BYTES, ends[below(&noise, sizeof ends / sizeof *ends)]);
    else
        put(at, GATEWAY_NEXT_BYTES, below(&noise, 12000));
}

static void change_session(void)
{
    if (sometimes(8))
        memset(damaged + GATEWAY_AT_SESSION, 0, GATEWAY_SESSION_BYTES);
    damaged[GATEWAY_AT_SESSION + GATEWAY_SESSION_LIVE] ^= (uint8_t)sometimes(8);
    for (size_t at = GATEWAY_SESSION_COPIES; at < GATEWAY_SESSION_LABEL_LENGTH; at++)
        if (sometimes(4))
            damaged[GATEWAY_AT_SESSION + at] = (uint8_t)below(&noise, sometimes(4) ? 102 : 3);
}

/* Of any characters about those allowed, and of any length. */
static void change_label(void)
{
    static const char often[] = "  LABEL 7 \\~\177\037";
    size_t at = GATEWAY_AT_SESSION + GATEWAY_SESSION_LABEL, n = below(&noise, sometimes(2) ? 6 : 66);
    bool strange = sometimes(2);
    damaged[at - 1] = (uint8_t)n;
    memset(damaged + at, 0, GATEWAY_TEXT_BYTES);
    for (size_t i = 0; i < n && i < GATEWAY_TEXT_BYTES; i++)
        damaged[at + i] = strange ? (uint8_t)often[below(&noise, sizeof often)] : (uint8_t)(33 + below(&noise, 59));
    if (sometimes(8))
        damaged[at + below(&noise, GATEWAY_TEXT_BYTES)] = ' ';
}

/* A name gets a serial, or one more or less. */
static void change_serial(void)
{
    size_t name = some_name();
    if (sometimes(2))
        move(name + GATEWAY_NAME_SERIAL, GATEWAY_SERIAL_BYTES);
    else
        put(name + GATEWAY_NAME_SERIAL, GATEWAY_SERIAL_BYTES, below(&noise, 500));
    if (sometimes(2))
        memset(damaged + name + GATEWAY_NAME_LENGTH, 0, GATEWAY_NAME_BYTES - GATEWAY_NAME_LENGTH);
}

/* A name gets a text of digits and dots: a UID or almost one, often one that begins with the root. */
static void change_text(void)
{
    uint8_t *name = damaged + some_name(), *text = name + GATEWAY_NAME_TEXT;
    size_t root = damaged[GATEWAY_AT_ROOT_LENGTH] % (GATEWAY_ROOT_BYTES + 1);
    size_t n = below(&noise, sometimes(2) ? 12 : 66), alphabet = sometimes(2) ? 10 : 12;
    memset(name, 0, GATEWAY_NAME_BYTES);
    name[GATEWAY_NAME_LENGTH] = (uint8_t)n;
    for (size_t i = 0; i < n && i < GATEWAY_TEXT_BYTES; i++)
        text[i] = (uint8_t)("1234567890.:"[below(&noise, alphabet)]);
    if (sometimes(3))
        memcpy(text, damaged + GATEWAY_AT_ROOT, n < root ? n : root);
    if (sometimes(3))
        text[root] = '.';
}

static void copy_name(void)
{
    uint8_t *from = damaged + some_name(), *to = damaged + some_name();
    memmove(to, from, GATEWAY_NAME_BYTES);
    if (sometimes(3))
        to[GATEWAY_NAME_TEXT + below(&noise, 10)] ^= 1;
}

static void change_film(void)
{
    size_t film = some_film();
    switch (below(&noise, 6)) {
    case 0:
        move(film + GATEWAY_FILM_FIRST_BOX, GATEWAY_SERIAL_BYTES);
        break;
    case 1:
        put(film + GATEWAY_FILM_FIRST_BOX, GATEWAY_SERIAL_BYTES, below(&noise, 3));
        break;
    case 2:
        damaged[film + GATEWAY_FILM_SESSION + below(&noise, 3)] = (uint8_t)below(&noise, 8);
        break;
    case 3:
        damaged[film + GATEWAY_FILM_COUNTS + below(&noise, GATEWAY_LINES)] = (uint8_t)below(&noise, 8);
        break;
    case 4:
        damaged[film + GATEWAY_FILM_ORIENTATION + below(&noise, 2)] = (uint8_t)below(&noise, 5);
        break;
    default:
        move(film + GATEWAY_FILM_KIND + below(&noise, 2), 1);
    }
}

/* A film gets another format, with lines that are too long now and then, and its boxes. */
static void change_format(void)
{
    size_t film = some_film(), lines = 1 + below(&noise, GATEWAY_LINES), boxes = 0;
    damaged[film + GATEWAY_FILM_LINES] = (uint8_t)lines;
    memset(damaged + film + GATEWAY_FILM_COUNTS, 0, GATEWAY_LINES);
    memset(damaged + film + GATEWAY_FILM_BOXES, 0, GATEWAY_FILM_BYTES - GATEWAY_FILM_BOXES);
    for (size_t i = 0; i < lines; i++)
        boxes += damaged[film + GATEWAY_FILM_COUNTS + i] = (uint8_t)(1 + below(&noise, sometimes(8) ? 7 : 6));
    for (size_t i = 0; i < boxes && i < GATEWAY_BOXES; i++)
        damaged[film + GATEWAY_FILM_BOXES + GATEWAY_BOX_BYTES * i] = (uint8_t)(1 + below(&noise, (uint32_t)boxes));
}

static void change_box(void)
{
    size_t box = some_film() + GATEWAY_FILM_BOXES + GATEWAY_BOX_BYTES * below(&noise, GATEWAY_BOXES);
    if (sometimes(3))
        damaged[box + GATEWAY_BOX_POSITION] = (uint8_t)below(&noise, 40);
    else if (sometimes(2))
        damaged[box + GATEWAY_BOX_POLARITY] = (uint8_t)below(&noise, 3);
    else
        put(box + GATEWAY_BOX_PICTURE, GATEWAY_PICTURE_BYTES, below(&noise, sometimes(2) ? 1100 : UINT32_MAX));
}

/* A film more or less, or one over another; the rest is zeros or not. */
static void change_shelf(void)
{
    if (sometimes(2))
        memmove(damaged + some_film(), damaged + some_film(), GATEWAY_FILM_BYTES);
    if (sometimes(2))
        move(GATEWAY_AT_FILM_COUNT, 1);
    if (damaged[GATEWAY_AT_FILM_COUNT] < GATEWAY_FILMS && sometimes(2))
        memset(damaged + film_at(damaged[GATEWAY_AT_FILM_COUNT]), 0,
               GATEWAY_AT_QUEUED_COUNT - film_at(damaged[GATEWAY_AT_FILM_COUNT]));
}

static void change_queue(void)
{
    size_t picture = some_entry() + GATEWAY_PICTURE_BYTES * below(&noise, GATEWAY_BOXES);
    if (sometimes(3))
        memmove(damaged + some_entry(), damaged + some_entry(), GATEWAY_QUEUED_BYTES);
    else if (sometimes(2))
        damaged[some_entry() + GATEWAY_QUEUED_COPIES] = (uint8_t)below(&noise, 102);
    else
        put(picture, GATEWAY_PICTURE_BYTES, below(&noise, sometimes(2) ? 1100 : UINT32_MAX));
    if (sometimes(4))
        move(GATEWAY_AT_QUEUED_COUNT, 1);
    if (damaged[GATEWAY_AT_QUEUED_COUNT] < GATEWAY_QUEUED && sometimes(2))
        memset(damaged + entry_at(damaged[GATEWAY_AT_QUEUED_COUNT]), 0,
               GATEWAY_AT_OPEN - entry_at(damaged[GATEWAY_AT_QUEUED_COUNT]));
}

static void change_open(void)
{
    size_t at = GATEWAY_AT_OPEN + below(&noise, 3);
    if (sometimes(2))
        damaged[at] = (uint8_t)below(&noise, sometimes(2) ? 4 : 256);
    else
        put(GATEWAY_AT_ROOM, 4,
            below(&noise, 3) * (GATEWAY_MESSAGE_MOST / 2) + below(&noise, 4) * 2048 + below(&noise, 2));
}

/* The state, and the numbers of bytes. */
static void change_input(void)
{
    if (sometimes(2))
        damaged[GATEWAY_AT_COLLECTING] = (uint8_t)below(&noise, 6);
    if (sometimes(2))
        put(GATEWAY_AT_USED, 2, below(&noise, sometimes(2) ? 2 : 1030));
    if (sometimes(2))
        put(GATEWAY_AT_GOT, 4, below(&noise, sometimes(2) ? 2 : 10000));
    if (sometimes(2))
        memset(damaged + GATEWAY_AT_COMMAND, 0, COMMAND_MOST);
}

/* A sequence of one item with a sequence in it; tags that have a VR of their own may be values alone. */
static void put_nest(struct data_set *d, uint32_t tag)
{
    static const uint32_t within[] = { 0x00280010, 0x20200110, 0x00290010 };
    bool loose = !sometimes(4);
    size_t sequence = open_sequence(d, tag, true), item = open_item(d, loose);
    if (sometimes(2)) {
        put_grown(&noise, d);
    } else {
        size_t inner = open_sequence(d, within[below(&noise, 3)], loose);
        close_sequence(d, inner, loose);
    }
    close_item(d, item, loose);
    close_sequence(d, sequence, true);
}

/* Elements behind the others of a command: readable ones may have any of group 0000. */
static void put_more(struct data_set *d)
{
    static const uint32_t tags[] = { 0x00000900, 0x00001009, 0x00001009, 0x0000FFFF };
    uint32_t tag = tags[below(&noise, 4)], length = 1 + below(&noise, 4);
    if (sometimes(3))
        put_element(d, tag, "OB", (const uint8_t *)"MORE", length);
    else
        put_nest(d, tag);
}

/* A command of any field, readable or not, whose data are awaited or skipped. */
static void change_command(void)
{
    static const uint16_t fields[] = { C_ECHO, N_SET, N_ACTION, N_CREATE, N_DELETE, 0x0141, 0x8030, 0x7FFF };
    static struct data_set made, d;
    if (made.bytes == NULL) {
        made = new_data_set(COMMAND_MOST, IMPLICIT);
        d = new_data_set(1 << 20, IMPLICIT);
    }
    make_command(&made, fields[below(&noise, 8)], IMAGE_BOX, sometimes(4) ? NULL : "1.9.7.12", 7, !sometimes(2));
    d.n = 0;
    put_bytes(&d, made.bytes, made.n);
    if (!sometimes(3))
        put_more(&d);
    if (!sometimes(8))
        memcpy(d.bytes + 8, &(uint32_t){ (uint32_t)d.n - 12 }, 4);
    if (sometimes(2))
        damage(&noise, &d);
    if (d.n > COMMAND_MOST)
        return;
    memset(damaged + GATEWAY_AT_COLLECTING, 0, sizeof damaged - GATEWAY_AT_COLLECTING);
    damaged[GATEWAY_AT_COLLECTING] = (uint8_t)(3 + below(&noise, 2));
    put(GATEWAY_AT_USED, 2, d.n);
    memcpy(damaged + GATEWAY_AT_COMMAND, d.bytes, d.n);
}

struct kind {
    const char *what;
    void (*make)(void);
};

static const struct kind kinds[] = {
    { "bits", flip_bits },
    { "a byte", change_byte },
    { "root and numbers", change_numbers },
    { "the session", change_session },
    { "the label", change_label },
    { "a name's serial", change_serial },
    { "a name's text", change_text },
    { "a name copied", copy_name },
    { "a film", change_film },
    { "a film's format", change_format },
    { "a box", change_box },
    { "the films", change_shelf },
    { "the queue", change_queue },
    { "what open fixed", change_open },
    { "the input", change_input },
    { "the command", change_command },
};

enum { KINDS = sizeof kinds / sizeof *kinds };

/* How many of each kind came out sound, and how many broken. */
static unsigned long outcomes[KINDS][2];

/* A kind of damage on these records, and now and then one more before it. */
static void try_damage(const uint8_t *from)
{
    uint32_t kind = below(&noise, KINDS);
    memcpy(damaged, from, sizeof damaged);
    if (sometimes(4))
        kinds[below(&noise, KINDS)].make();
    kinds[kind].make();
    bool broken = break_rule(damaged);
    if (floor_sound(damaged) == broken) {
        fprintf(stderr, "floor: %s: records are %s for the floor, and take says otherwise\n", kinds[kind].what,
                broken ? "sound" : "broken");
        exit(1);
    }
    outcomes[kind][broken]++;
}

static void before_feed(const uint8_t *fragment, size_t size)
{
    (void)fragment;
    (void)size;
    for (unsigned long i = 0; i < each; i++)
        try_damage(records);
}

static void no_damage(const uint8_t *fragment, size_t size)
{
    (void)fragment;
    (void)size;
    each++;
}

/* How many feeds the traces have. */
static unsigned long feeds_of(char **traces, int count)
{
    each = 0;
    for (int i = 0; i < count; i++)
        make_trace(traces[i], no_damage);
    return each;
}

/* Prints what became of each kind, each of which has both; how many were tried. */
static unsigned long print_outcomes(void)
{
    unsigned long sound = 0, broken = 0;
    for (int i = 0; i < KINDS; i++) {
        printf("floor: %7lu sound, %7lu broken: %s\n", outcomes[i][false], outcomes[i][true], kinds[i].what);
        if (outcomes[i][false] == 0 || outcomes[i][true] == 0) {
            fprintf(stderr, "floor: %s: never sound, or never broken\n", kinds[i].what);
            exit(1);
        }
        sound += outcomes[i][false];
        broken += outcomes[i][true];
    }
    printf("floor: of %lu damaged records %lu are sound and %lu are refused with 1; the floor says the same\n",
           sound + broken, sound, broken);
    return sound + broken;
}

int main(int argc, char **argv)
{
    if (argc < 3) {
        fprintf(stderr, "usage: floor TRIES TRACE ..\n");
        return 2;
    }
    uint8_t full[GATEWAY_RECORDS];
    unsigned long tries = strtoul(argv[1], NULL, 10), feeds = feeds_of(argv + 2, argc - 2);
    fill_records(full);
    for (unsigned long i = 0; i < tries / 4; i++)
        try_damage(full);
    each = (tries - tries / 4) / feeds + 1;
    for (int i = 2; i < argc; i++)
        make_trace(argv[i], before_feed);
    printf("%lu passed, 0 failed\n", print_outcomes());
    return 0;
}
