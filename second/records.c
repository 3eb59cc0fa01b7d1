#include "records.h"

#include <stdio.h>
#include <string.h>

#include "classes.h"
#include "cover.h"

#define COUNT(words) ((int)(sizeof(words) / sizeof((words)[0])))

static const char *const priorities[] = { "LOW", "MED", "HIGH" };
static const char *const media[] = { "PAPER", "CLEAR FILM", "BLUE FILM" };
static const char *const destinations[] = { "MAGAZINE", "PROCESSOR" };
static const char *const orientations[] = { "PORTRAIT", "LANDSCAPE" };
static const char *const magnifications[] = { "NONE", "REPLICATE", "BILINEAR", "CUBIC" };
static const char *const polarities[] = { "NORMAL", "REVERSE" };
static const char *const photometrics[] = { "MONOCHROME1", "MONOCHROME2" };

struct session default_session(void)
{
    struct session s;
    memset(&s, 0, sizeof s);
    s.copies = 1;
    s.priority = 1;    /* MED */
    s.medium = 0;      /* PAPER */
    s.destination = 0; /* MAGAZINE */
    return s;
}

struct film default_film(void)
{
    struct film f;
    memset(&f, 0, sizeof f);
    f.orientation = 0;   /* PORTRAIT */
    f.magnification = 2; /* BILINEAR */
    return f;
}

unsigned box_count(const struct film *film)
{
    return film->format.boxes;
}

/* ---- live UIDs ---- */

struct film *film_of(struct records *r, const struct uid *uid)
{
    for (unsigned i = 0; i < r->film_count; i++)
        if (uid_equal(&r->films[i].uid, uid))
            return &r->films[i];
    return NULL;
}

struct box *box_of(struct records *r, const struct uid *uid, struct film **film)
{
    for (unsigned i = 0; i < r->film_count; i++)
        for (unsigned j = 0; j < box_count(&r->films[i]); j++)
            if (uid_equal(&r->films[i].boxes[j].uid, uid)) {
                *film = &r->films[i];
                return &r->films[i].boxes[j];
            }
    return NULL;
}

enum living lives(const struct records *r, const struct uid *uid)
{
    if (r->session_lives && uid_equal(&r->session.uid, uid))
        return AS_SESSION;
    for (unsigned i = 0; i < r->film_count; i++) {
        const struct film *film = &r->films[i];
        if (uid_equal(&film->uid, uid))
            return AS_FILM;
        for (unsigned j = 0; j < box_count(film); j++)
            if (uid_equal(&film->boxes[j].uid, uid))
                return AS_BOX;
    }
    return NOWHERE;
}

/* ---- check 8: three questions, each over the whole data set ---- */

struct findings {
    bool missing;
    bool empty;
    bool not_allowed;
};

static uint16_t check_8(const struct findings *f)
{
    CHECK(f->missing, 0x0120, "check 8: 0120H mandatory attribute missing");
    CHECK(f->empty, 0x0121, "check 8: 0121H mandatory attribute empty");
    CHECK(f->not_allowed, 0x0106, "check 8: 0106H value not allowed");
    return 0;
}

/* Notes what is wrong with a mandatory attribute; whether there is a value to judge. */
static bool mandatory(struct findings *f, enum presence presence)
{
    f->missing |= presence == ABSENT;
    f->empty |= presence == EMPTY;
    return presence == PRESENT;
}

static void allow(struct findings *f, bool allowed)
{
    f->not_allowed |= !allowed;
}

/* An optional CS: absent or empty keeps what stands. */
static void optional_word(struct findings *f, const struct part *list, uint32_t tag,
                          const char *const *words, int count, int *kept)
{
    struct value v;
    if (find_value(list, tag, OUTER_DO_NOT, &v) != PRESENT)
        return;
    int word = word_of(&v, words, count);
    allow(f, word >= 0);
    if (word >= 0)
        *kept = word;
}

static void read_copies(struct findings *f, const struct part *list, struct session *s)
{
    struct value v;
    int64_t number = 0;
    if (find_value(list, TAG(0x2000, 0x0010), OUTER_DO_NOT, &v) != PRESENT)
        return;
    bool allowed = integer_of(&v, &number) && number >= 1 && number <= 99;
    allow(f, allowed);
    if (allowed)
        s->copies = (unsigned)number;
}

static void read_label(struct findings *f, const struct part *list, struct session *s)
{
    struct value v;
    if (find_value(list, TAG(0x2000, 0x0050), OUTER_DO_NOT, &v) != PRESENT)
        return;
    bool allowed = is_label(&v);
    allow(f, allowed);
    if (!allowed)
        return;
    memset(s->label, 0, sizeof s->label);
    memcpy(s->label, v.bytes, v.length);
    s->label_length = v.length;
}

uint16_t read_session(const struct part *list, struct session *s)
{
    struct findings f = { false, false, false };
    read_copies(&f, list, s);
    optional_word(&f, list, TAG(0x2000, 0x0020), priorities, COUNT(priorities), &s->priority);
    optional_word(&f, list, TAG(0x2000, 0x0030), media, COUNT(media), &s->medium);
    optional_word(&f, list, TAG(0x2000, 0x0040), destinations, COUNT(destinations), &s->destination);
    read_label(&f, list, s);
    return check_8(&f);
}

static void read_format(struct findings *f, const struct part *list, struct film *film)
{
    struct value v;
    if (mandatory(f, find_value(list, TAG(0x2010, 0x0010), TRAILING_DO_NOT, &v)))
        allow(f, format_of(&v, &film->format));
}

/* A mandatory UI that must be this one; NULL where none would do. */
static void read_reference_uid(struct findings *f, const struct part *item, uint32_t tag,
                               const struct uid *wanted)
{
    struct value v;
    struct uid uid;
    if (!mandatory(f, find_value(item, tag, ALL_COUNT, &v)))
        return;
    bool sound = uid_of_value(v.bytes, v.length, &uid);
    if (!sound)
        COVER("reference: UID breaks PS3.5");
    allow(f, sound && wanted != NULL && uid_equal(&uid, wanted));
}

static void read_reference(struct findings *f, const struct part *list, const struct records *r)
{
    struct element e;
    struct part item;
    if (!find(list, TAG(0x2010, 0x0500), &e)) {
        COVER("reference: missing");
        f->missing = true;
        return;
    }
    size_t items = count_items(&e.value, &item);
    if (items == 0) {
        COVER("reference: no item is empty");
        f->empty = true;
    } else if (items > 1) {
        COVER("reference: more than one item");
        f->not_allowed = true;
    } else {
        struct uid session_class = uid_of_literal(SESSION_CLASS);
        read_reference_uid(f, &item, TAG(0x0008, 0x1150), &session_class);
        read_reference_uid(f, &item, TAG(0x0008, 0x1155),
                           r->session_lives ? &r->session.uid : NULL);
    }
}

static void read_film_options(struct findings *f, const struct part *list, struct film *film)
{
    optional_word(f, list, TAG(0x2010, 0x0040), orientations, COUNT(orientations),
                  &film->orientation);
    optional_word(f, list, TAG(0x2010, 0x0060), magnifications, COUNT(magnifications),
                  &film->magnification);
}

uint16_t read_new_film(const struct records *r, const struct part *list, struct film *film)
{
    struct findings f = { false, false, false };
    read_format(&f, list, film);
    read_reference(&f, list, r);
    read_film_options(&f, list, film);
    return check_8(&f);
}

/* "The first two in N-SET, even empty: 0106H." */
uint16_t read_set_film(const struct part *list, struct film *film)
{
    struct findings f = { false, false, false };
    struct element e;
    if (find(list, TAG(0x2010, 0x0010), &e)) {
        COVER("film N-SET: Format");
        f.not_allowed = true;
    }
    if (find(list, TAG(0x2010, 0x0500), &e)) {
        COVER("film N-SET: Referenced Film Session Sequence");
        f.not_allowed = true;
    }
    read_film_options(&f, list, film);
    return check_8(&f);
}

/* A mandatory US of an image item; 0 and not allowed where it is not one number. */
static uint16_t read_image_number(struct findings *f, const struct part *item, uint32_t tag)
{
    struct value v;
    uint16_t number = 0;
    if (mandatory(f, find_value(item, tag, ALL_COUNT, &v)))
        allow(f, short_of(&v, &number));
    return number;
}

/* "All of an item is mandatory." */
static void read_image_item(struct findings *f, const struct part *item,
                            struct image_request *image)
{
    struct value v;
    allow(f, read_image_number(f, item, TAG(0x0028, 0x0002)) == 1);
    if (mandatory(f, find_value(item, TAG(0x0028, 0x0004), OUTER_DO_NOT, &v)))
        allow(f, word_of(&v, photometrics, COUNT(photometrics)) >= 0);
    uint64_t rows = read_image_number(f, item, TAG(0x0028, 0x0010));
    uint64_t columns = read_image_number(f, item, TAG(0x0028, 0x0011));
    unsigned allocated = read_image_number(f, item, TAG(0x0028, 0x0100));
    unsigned stored = read_image_number(f, item, TAG(0x0028, 0x0101));
    unsigned high_bit = read_image_number(f, item, TAG(0x0028, 0x0102));
    allow(f, read_image_number(f, item, TAG(0x0028, 0x0103)) == 0);
    allow(f, rows >= 1 && columns >= 1);
    bool eight = allocated == 8 && stored == 8 && high_bit == 7;
    bool twelve = allocated == 16 && stored == 12 && high_bit == 11;
    allow(f, eight || twelve);
    if (!mandatory(f, find_value(item, TAG(0x7FE0, 0x0010), ALL_COUNT, &v)))
        return;
    uint64_t pixels = rows * columns * (eight ? 1 : 2);
    uint64_t length = pixels;
    if (pixels % 2 == 1) {
        /* "the length must then be the product plus one" */
        COVER("Pixel Data: the product is odd");
        length++;
    }
    allow(f, v.length == length);
    image->place = v.place;
    image->length = (size_t)pixels;
}

static void read_image_sequence(struct findings *f, const struct part *list,
                                struct image_request *image)
{
    struct element e;
    struct part item;
    image->what = KEEP;
    if (!find(list, TAG(0x2020, 0x0110), &e))
        return;
    size_t items = count_items(&e.value, &item);
    if (items == 0) {
        COVER("Image Sequence: no item erases");
        image->what = ERASE;
    } else if (items == 1) {
        COVER("Image Sequence: one item");
        image->what = FILL;
        read_image_item(f, &item, image);
    } else {
        COVER("Image Sequence: more than one item");
        f->not_allowed = true;
    }
}

uint16_t read_box(const struct part *list, unsigned positions, struct box *box,
                  struct image_request *image)
{
    struct findings f = { false, false, false };
    struct value v;
    uint16_t position = 0;
    if (mandatory(&f, find_value(list, TAG(0x2020, 0x0010), ALL_COUNT, &v)))
        allow(&f, short_of(&v, &position) && position >= 1 && position <= positions);
    box->position = position;
    optional_word(&f, list, TAG(0x2020, 0x0020), polarities, COUNT(polarities), &box->polarity);
    read_image_sequence(&f, list, image);
    return check_8(&f);
}

/* ---- numbers ---- */

uint64_t serials_left(const struct records *r)
{
    return NONE_LEFT - r->next_serial;
}

struct uid next_uid(struct records *r)
{
    return uid_made(&r->root, (uint32_t)r->next_serial++);
}

uint32_t next_picture(struct records *r)
{
    return (uint32_t)r->next_picture++;
}

/* Boxes in order, each at its place in row order. */
void make_boxes(struct records *r, struct film *film)
{
    for (unsigned i = 0; i < box_count(film); i++) {
        film->boxes[i].uid = next_uid(r);
        film->boxes[i].position = i + 1;
        film->boxes[i].polarity = 0; /* NORMAL */
    }
}

/* ---- deletion takes all below it ---- */

void delete_session(struct records *r)
{
    r->session_lives = false;
    memset(&r->session, 0, sizeof r->session);
    r->film_count = 0;
    memset(r->films, 0, sizeof r->films);
}

void delete_film(struct records *r, struct film *film)
{
    size_t after = (size_t)(r->films + r->film_count - (film + 1));
    memmove(film, film + 1, after * sizeof *film);
    r->film_count--;
    memset(&r->films[r->film_count], 0, sizeof *film);
}

/* ---- printing ---- */

/* The pictures of a film in position order; whether two filled boxes are at one position. */
static bool place_pictures(const struct film *film, uint32_t pictures[BOXES_MOST])
{
    bool collide = false;
    memset(pictures, 0, BOXES_MOST * sizeof *pictures);
    for (unsigned i = 0; i < box_count(film); i++) {
        const struct box *box = &film->boxes[i];
        if (box->picture == 0)
            continue;
        collide |= pictures[box->position - 1] != 0;
        pictures[box->position - 1] = box->picture;
    }
    return collide;
}

bool film_collides(const struct film *film)
{
    uint32_t pictures[BOXES_MOST];
    return place_pictures(film, pictures);
}

bool film_is_empty(const struct film *film)
{
    for (unsigned i = 0; i < box_count(film); i++)
        if (film->boxes[i].picture != 0)
            return false;
    return true;
}

void queue_film(struct records *r, const struct film *film)
{
    struct entry *entry = &r->queue[r->queue_count++];
    memset(entry, 0, sizeof *entry);
    place_pictures(film, entry->pictures);
    if (r->next_ticket == 0xFFFF)
        COVER("ticket 65,535");
    entry->ticket = r->next_ticket++;
    entry->copies = (uint16_t)r->session.copies;
    entry->film = film->uid;
}

struct entry take_oldest(struct records *r)
{
    struct entry oldest = r->queue[0];
    r->queue_count--;
    memmove(r->queue, r->queue + 1, r->queue_count * sizeof oldest);
    memset(&r->queue[r->queue_count], 0, sizeof oldest);
    return oldest;
}

/* ---- canonical text ---- */

static void dump_uid(const char *name, const struct uid *uid)
{
    printf(" %s=%.*s", name, (int)uid->length, uid->text);
}

static void dump_film(const struct film *film)
{
    printf("| film");
    dump_uid("uid", &film->uid);
    printf(" format=%s orientation=%s magnification=%s\n", film->format.text,
           orientations[film->orientation], magnifications[film->magnification]);
    for (unsigned i = 0; i < box_count(film); i++) {
        const struct box *box = &film->boxes[i];
        printf("| box");
        dump_uid("uid", &box->uid);
        printf(" position=%u polarity=%s picture=%lu\n", box->position, polarities[box->polarity],
               (unsigned long)box->picture);
    }
}

static void dump_session(const struct session *s)
{
    printf("| session");
    dump_uid("uid", &s->uid);
    printf(" copies=%u priority=%s medium=%s destination=%s label=%.*s\n", s->copies,
           priorities[s->priority], media[s->medium], destinations[s->destination],
           (int)s->label_length, s->label);
}

static void dump_entry(const struct entry *entry)
{
    printf("| entry ticket=%u copies=%u", entry->ticket, entry->copies);
    dump_uid("film", &entry->film);
    for (unsigned i = 0; i < BOXES_MOST; i++)
        printf(" %lu", (unsigned long)entry->pictures[i]);
    printf("\n");
}

void dump_records(const struct records *r)
{
    printf("| next");
    dump_uid("root", &r->root);
    printf(" serial=%llu picture=%llu ticket=%u\n", (unsigned long long)r->next_serial,
           (unsigned long long)r->next_picture, r->next_ticket);
    if (r->session_lives)
        dump_session(&r->session);
    for (unsigned i = 0; i < r->film_count; i++)
        dump_film(&r->films[i]);
    for (unsigned i = 0; i < r->queue_count; i++)
        dump_entry(&r->queue[i]);
}
