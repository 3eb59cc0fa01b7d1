/* The records: session, films, boxes, queue, next numbers, and what open fixed. */
#ifndef RECORDS_H
#define RECORDS_H

#include "values.h"

enum { FILMS_MOST = 8, BOXES_MOST = 36, QUEUE_MOST = 16 };

/* No number is left: the next would be past 4,294,967,295. */
#define NONE_LEFT 0x100000000u

struct session {
    struct uid uid;
    unsigned copies;
    int priority;    /* places in the lists of words */
    int medium;
    int destination;
    size_t label_length;
    char label[LABEL_MOST];
};

struct box {
    struct uid uid;
    unsigned position; /* 1 to the number of the film's boxes */
    int polarity;
    uint32_t picture; /* 0: not filled */
};

struct film {
    struct uid uid;
    struct format format;
    int orientation;
    int magnification;
    struct box boxes[BOXES_MOST]; /* as many as the format has */
};

struct entry {
    uint32_t pictures[BOXES_MOST]; /* in position order, 0 empty */
    uint16_t ticket;
    uint16_t copies;
    struct uid film;
};

struct records {
    struct uid root;
    uint64_t next_serial;
    uint64_t next_picture;
    uint16_t next_ticket;
    bool session_lives;
    struct session session;
    unsigned film_count;
    struct film films[FILMS_MOST]; /* in creation order */
    unsigned queue_count;
    struct entry queue[QUEUE_MOST]; /* oldest first */
};

/* Where a UID lives. */
enum living { NOWHERE, AS_SESSION, AS_FILM, AS_BOX };

enum living lives(const struct records *r, const struct uid *uid);
struct film *film_of(struct records *r, const struct uid *uid);
struct box *box_of(struct records *r, const struct uid *uid, struct film **film);
unsigned box_count(const struct film *film);

/* Check 8 for each data set: its status, or 0 with the new values in the record handed in. */
uint16_t read_session(const struct part *list, struct session *session);
uint16_t read_new_film(const struct records *r, const struct part *list, struct film *film);
uint16_t read_set_film(const struct part *list, struct film *film);

/* What the Image Sequence of a box's N-SET asks for. */
enum image { KEEP, ERASE, FILL };
struct image_request {
    enum image what;
    size_t place; /* of the pixels in the message buffer */
    size_t length; /* theirs, without a byte of padding */
};
uint16_t read_box(const struct part *list, unsigned positions, struct box *box,
                  struct image_request *image);

/* Serials. */
uint64_t serials_left(const struct records *r);
struct uid next_uid(struct records *r);
uint32_t next_picture(struct records *r);

/* Fresh values. */
struct session default_session(void);
struct film default_film(void);
void make_boxes(struct records *r, struct film *film);

void delete_session(struct records *r);
void delete_film(struct records *r, struct film *film);

/* Printing. */
bool film_collides(const struct film *film);
bool film_is_empty(const struct film *film);
void queue_film(struct records *r, const struct film *film);
struct entry take_oldest(struct records *r);

/* Canonical text of the records, for comparing runs. */
void dump_records(const struct records *r);

#endif
