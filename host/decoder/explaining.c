#include "explaining.h"

#include <inttypes.h>
#include <stdio.h>
#include <string.h>

#include "../../include/gateway.h"
#include "../data_sets.h"
#include "attributes.h"
#include "names.h"
#include "requests.h"
#include "stops.h"

enum { HEADER = 6, COMMAND_MOST = 1024, SYNTAX_AT = GATEWAY_AT_CONTEXT + 1 };

/* How far a message is collected (rule 4.3). */
enum { IDLE, IN_COMMAND, SKIPPING_COMMAND, IN_DATA, SKIPPING_DATA };

/* 4,294,967,296 as a next number says that none is left. */
#define NONE_LEFT 0x100000000u

/* A whole message, and the records that it meets. */
struct asked {
    const uint8_t *records;
    struct request request;
    const uint8_t *data; /* an empty set where none came */
    size_t data_length;
    bool too_long;
};

static const struct {
    const char *uid, *name;
    enum living living;
} classes[] = {
    { "1.2.840.10008.1.1", "Verification", NOBODY },
    { "1.2.840.10008.5.1.1.1", "Basic Film Session", THE_SESSION },
    { "1.2.840.10008.5.1.1.2", "Basic Film Box", A_FILM },
    { "1.2.840.10008.5.1.1.4", "Basic Grayscale Image Box", A_BOX },
};

enum sop_class { VERIFICATION, SESSION, FILM, BOX, UNKNOWN_CLASS };

static enum sop_class class_of(const struct uid *uid)
{
    for (size_t i = 0; i < UNKNOWN_CLASS; i++)
        if (strcmp(classes[i].uid, uid->text) == 0)
            return (enum sop_class)i;
    return UNKNOWN_CLASS;
}

static bool offers(enum sop_class class, enum operation operation)
{
    if (class == VERIFICATION)
        return operation == C_ECHO;
    if (class == BOX)
        return operation == N_SET;
    return operation != C_ECHO;
}

/* Check 6. */

static bool check_new_instance(const struct asked *a, struct reason *r)
{
    const struct request *q = &a->request;
    struct uid root = root_of(a->records);
    size_t n = strlen(root.text);
    if (!q->sent)
        return true;
    if (!q->sent_sound)
        answer(r, 0x0117, 6, "the UID sent in (0000,1000) breaks the rules of PS3.5 for UIDs (rule 6.6)");
    else if (strncmp(q->instance.text, root.text, n) == 0 && q->instance.text[n] == '.')
        answer(r, 0x0117, 6, "the UID sent, %s, begins with the root %s and a dot (rule 6.6)", q->instance.text,
               root.text);
    else if (instance_named(a->records, &q->instance).living != NOBODY)
        answer(r, 0x0111, 6, "the UID sent, %s, is live (rule 6.6)", q->instance.text);
    else
        return true;
    return false;
}

/* Who is live, for one who asks after somebody else. */
static void say_not_live(const uint8_t *records, const struct uid *uid, struct reason *r)
{
    size_t films = film_count(records);
    if (!session_lives(records))
        answer(r, 0x0112, 6, "%s is not live (rule 6.6); nothing is", uid->text);
    else
        answer(r, 0x0112, 6, "%s is not live (rule 6.6); session %s is, with %zu film%s", uid->text,
               session_uid(records).text, films, films == 1 ? "" : "s");
    for (size_t i = 0; i < films; i++)
        say_also(r, "film %s is live, with boxes %s to %s", film_uid(records, i).text, box_uid(records, i, 0).text,
                 box_uid(records, i, box_count(film_at(records, i)) - 1).text);
}

/* What check 8 would find in an N-SET were its instance live: of a message alone nothing is. */
static void judge_all_the_same(enum sop_class class, const struct list *l, struct reason *r)
{
    struct findings f = { 0 };
    if (class == SESSION)
        judge_session(l, &f);
    else if (class == FILM)
        judge_set_film(l, &f);
    else
        judge_box(l, GATEWAY_BOXES, &f);
    for (size_t i = 0; i < f.count; i++)
        say_also(r, "were it live, check 8 would give %04XH: %s", (unsigned)f.status, f.faults[i].text);
}

static bool check_instance(const struct asked *a, enum sop_class class, struct instance *named, struct reason *r)
{
    static const char *const called[] = { "nobody", "the session", "a film", "an image box" };
    const struct uid *uid = &a->request.instance;
    *named = instance_named(a->records, uid);
    if (named->living == NOBODY)
        say_not_live(a->records, uid, r);
    else if (named->living != classes[class].living)
        answer(r, 0x0119, 6, "%s is %s, not of the class %s (rule 6.6)", uid->text, called[named->living],
               classes[class].name);
    return named->living == classes[class].living;
}

/* Check 8: the first fault with the status that counts, and the others beside it. */
static bool no_faults(const struct findings *f, struct reason *r)
{
    size_t first = 0;
    if (f->status == 0)
        return true;
    while (f->faults[first].status != f->status)
        first++;
    answer(r, f->status, 8, "%s", f->faults[first].text);
    for (size_t i = 0; i < f->count; i++)
        if (i != first)
            say_also(r, "%s", f->faults[i].text);
    return false;
}

/* Creating, checks 8 and 9. */

/* The UID sent, or the one that is made of the next serial. */
static struct uid uid_for_created(const struct asked *a)
{
    struct uid made;
    snprintf(made.text, sizeof made.text, "%.*s.%" PRIu64, GATEWAY_ROOT_MOST, root_of(a->records).text,
             next_serial(a->records));
    return a->request.sent ? a->request.instance : made;
}

static bool serials_left(const struct asked *a, uint64_t needed, struct reason *r)
{
    uint64_t left = NONE_LEFT - next_serial(a->records);
    if (left < needed)
        answer(r, 0x0213, 9, "%" PRIu64 " serials are left, and %" PRIu64 " are needed (rule 6.9)", left, needed);
    return left >= needed;
}

static void explain_new_session(const struct asked *a, const struct list *l, struct reason *r)
{
    struct findings f = { 0 };
    judge_session(l, &f);
    if (!no_faults(&f, r))
        return;
    if (session_lives(a->records)) {
        answer(r, 0x0213, 9, "session %s is live, and there is one at a time (rule 6.9)", session_uid(a->records).text);
        return;
    }
    if (serials_left(a, a->request.sent ? 0 : 1, r))
        answer(r, 0x0000, 0, "session %s created", uid_for_created(a).text);
}

static void explain_new_film(const struct asked *a, const struct list *l, struct reason *r)
{
    struct findings f = { 0 };
    judge_new_film(l, a->records, &f);
    if (!no_faults(&f, r))
        return;
    if (film_count(a->records) == GATEWAY_FILMS) {
        answer(r, 0x0213, 9, "%d films are live, and there are no more at a time (rule 6.9)", GATEWAY_FILMS);
        return;
    }
    uint64_t own = a->request.sent ? 0 : 1, first = next_serial(a->records) + own;
    struct uid root = root_of(a->records);
    if (serials_left(a, f.boxes + own, r))
        answer(r, 0x0000, 0, "film %s created with %zu box%s, %s.%" PRIu64 " to %s.%" PRIu64, uid_for_created(a).text,
               f.boxes, f.boxes == 1 ? "" : "es", root.text, first, root.text, first + f.boxes - 1);
}

/* Setting, checks 8 and 9. */

static void explain_set_session(const struct asked *a, const struct list *l, struct reason *r)
{
    struct findings f = { 0 };
    judge_session(l, &f);
    if (no_faults(&f, r))
        answer(r, 0x0000, 0, "session %s set", a->request.instance.text);
}

static void explain_set_film(const struct asked *a, const struct list *l, struct reason *r)
{
    struct findings f = { 0 };
    judge_set_film(l, &f);
    if (no_faults(&f, r))
        answer(r, 0x0000, 0, "film %s set", a->request.instance.text);
}

static void explain_set_box(const struct asked *a, const struct list *l, const struct instance *box, struct reason *r)
{
    struct findings f = { 0 };
    const char *uid = a->request.instance.text;
    judge_box(l, box_count(film_at(a->records, box->film)), &f);
    if (!no_faults(&f, r))
        return;
    if (f.image == FILLS && next_picture(a->records) == NONE_LEFT)
        answer(r, 0x0213, 9, "no picture number is left (rule 6.9)");
    else if (f.image == FILLS)
        answer(r, 0x0000, 0, "box %s at position %u has picture %" PRIu64, uid, (unsigned)f.position,
               next_picture(a->records));
    else
        answer(r, 0x0000, 0, "box %s at position %u %s", uid, (unsigned)f.position,
               f.image == ERASES ? "is emptied" : "keeps its picture");
}

/* Printing, checks 10 and 11. */

/* The position at which two filled boxes of a film stand; 0 where there is none. */
static uint32_t colliding_position(const uint8_t *film)
{
    bool taken[GATEWAY_BOXES + 1] = { false };
    for (size_t j = 0; j < box_count(film); j++) {
        uint32_t position = box_position(film, j);
        if (box_picture(film, j) == 0)
            continue;
        if (taken[position])
            return position;
        taken[position] = true;
    }
    return 0;
}

static bool is_empty(const uint8_t *film)
{
    for (size_t j = 0; j < box_count(film); j++)
        if (box_picture(film, j) != 0)
            return false;
    return true;
}

static bool check_collision(const struct asked *a, size_t film, struct reason *r)
{
    uint32_t position = colliding_position(film_at(a->records, film));
    if (position != 0)
        answer(r, 0xC604, 10, "two filled boxes of film %s stand at position %u (rule 6.10)",
               film_uid(a->records, film).text, (unsigned)position);
    return position == 0;
}

/* So many films want into the queue; the status where they do not all fit. */
static bool check_room(const struct asked *a, size_t films, uint32_t status, struct reason *r)
{
    size_t room = GATEWAY_QUEUED - queued_count(a->records);
    if (room < films)
        answer(r, status, 10, "the queue has room for %zu film%s, and %zu %s to be printed (rule 6.10)", room,
               room == 1 ? "" : "s", films, films == 1 ? "is" : "are");
    return room >= films;
}

static void explain_print_session(const struct asked *a, struct reason *r)
{
    size_t films = film_count(a->records);
    if (films == 0)
        answer(r, 0xC600, 10, "session %s has no films (rule 6.10)", a->request.instance.text);
    for (size_t i = 0; i < films; i++)
        if (!check_collision(a, i, r))
            return;
    if (films == 0 || !check_room(a, films, 0xC601, r))
        return;
    for (size_t i = 0; i < films; i++) {
        if (!is_empty(film_at(a->records, i)))
            continue;
        answer(r, 0xB602, 11, "%zu film%s queued, and film %s has no filled box (rule 6.11)", films,
               films == 1 ? "" : "s", film_uid(a->records, i).text);
        return;
    }
    answer(r, 0x0000, 0, "%zu film%s queued", films, films == 1 ? "" : "s");
}

static void explain_print_film(const struct asked *a, size_t film, struct reason *r)
{
    if (!check_collision(a, film, r) || !check_room(a, 1, 0xC602, r))
        return;
    if (is_empty(film_at(a->records, film)))
        answer(r, 0xB603, 11, "film %s queued, and it has no filled box (rule 6.11)", a->request.instance.text);
    else
        answer(r, 0x0000, 0, "film %s queued", a->request.instance.text);
}

/* Checks 7 to 11 of an operation on a live instance. */
static void explain_use(const struct asked *a, enum sop_class class, const struct instance *named, const struct list *l,
                        struct reason *r)
{
    const struct request *q = &a->request;
    if (q->operation == N_DELETE)
        answer(r, 0x0000, 0, "%s %s deleted", class == SESSION ? "session" : "film", q->instance.text);
    else if (q->operation == N_ACTION && q->action != 1)
        answer(r, 0x0123, 7, "Action Type ID (0000,1008) is %u, not 1 (rule 6.7)", (unsigned)q->action);
    else if (q->operation == N_ACTION && class == SESSION)
        explain_print_session(a, r);
    else if (q->operation == N_ACTION)
        explain_print_film(a, named->film, r);
    else if (class == SESSION)
        explain_set_session(a, l, r);
    else if (class == FILM)
        explain_set_film(a, l, r);
    else
        explain_set_box(a, l, named, r);
}

/* Checks 6 to 11 of a request that names an instance. */
static void explain_named(const struct asked *a, enum sop_class class, const struct list *l, struct reason *r)
{
    struct instance named;
    if (check_instance(a, class, &named, r))
        explain_use(a, class, &named, l, r);
    else if (named.living == NOBODY && a->request.operation == N_SET)
        judge_all_the_same(class, l, r);
}

/* Checks 6 to 11 of a data set that is read. */
static void explain_read(const struct asked *a, enum sop_class class, const struct list *l, struct reason *r)
{
    if (a->request.operation == C_ECHO)
        answer(r, 0x0000, 0, "echoed");
    else if (a->request.operation != N_CREATE)
        explain_named(a, class, l, r);
    else if (!check_new_instance(a, r))
        return;
    else if (class == SESSION)
        explain_new_session(a, l, r);
    else
        explain_new_film(a, l, r);
}

/* Checks 4 and 5. */
static void explain_data(const struct asked *a, enum sop_class class, struct reason *r)
{
    if (a->too_long) {
        answer(r, 0x0213, 4,
               "the data set is longer than the message buffer, which has %" PRIu64 " bytes (rules 6.4, 4.10)",
               number_at(a->records + GATEWAY_AT_ROOM, 4));
        return;
    }
    struct headers h = keep_headers(a->data, a->data_length, a->records[SYNTAX_AT] == GATEWAY_EXPLICIT);
    struct list l = whole_list(&h);
    r->stopped = stopped_of(&h.walked);
    if (h.walked.refusal != READ)
        answer(r, 0x0110, 5, "%s", refusal_words(&h.walked, a->data).text);
    else
        explain_read(a, class, &l, r);
    free_headers(&h);
}

/* Checks 1 to 3. */
static void explain_request(const struct asked *a, struct reason *r)
{
    const struct request *q = &a->request;
    const char *name = field_name(q->field),
               *class_name = uid_name((const uint8_t *)q->class_uid.text, strlen(q->class_uid.text));
    enum sop_class class = class_of(&q->class_uid);
    if (q->operation == UNKNOWN_FIELD)
        answer(r, 0x0211, 1, "Command Field %04XH%s%s is none of the five operations (rule 6.1)", (unsigned)q->field,
               name == NULL ? "" : ", ", name == NULL ? "" : name);
    else if (class == UNKNOWN_CLASS)
        answer(r, 0x0118, 2, "class %s%s%s is none of the four (rule 6.2)", q->class_uid.text,
               class_name == NULL ? "" : ", ", class_name == NULL ? "" : class_name);
    else if (!offers(class, q->operation))
        answer(r, 0x0211, 3, "the class %s does not have this operation, %s (rule 6.3)", classes[class].name, name);
    else
        explain_data(a, class, r);
}

/* Collecting. */

/* Whether the header is right (rule 4.2). */
static bool check_header(const uint8_t *records, const uint8_t *p, size_t length, struct reason *r)
{
    if (length < HEADER) {
        say(r, "the fragment has %zu bytes, and its header alone has %d (rule 4.2)", length, HEADER);
        return false;
    }
    size_t n = (size_t)p[0] << 24 | (size_t)p[1] << 16 | (size_t)p[2] << 8 | p[3];
    if (n < 2)
        say(r, "the fragment's length is %zu, below 2 (rule 4.2)", n);
    else if (n + 4 != length)
        say(r, "the fragment's length is %zu, and %zu bytes follow it (rule 4.2)", n, length - 4);
    else if (p[4] != records[GATEWAY_AT_CONTEXT])
        say(r, "the context is %u, and %u is open (rule 4.2)", p[4], records[GATEWAY_AT_CONTEXT]);
    else if ((p[5] & 0xFC) != 0)
        say(r, "control bits 2 to 7 are set: %02XH (rule 4.2)", p[5]);
    else
        return true;
    return false;
}

static void explain_whole_command(const uint8_t *records, const uint8_t *command, size_t n, struct reason *r)
{
    struct asked a = { .records = records, .data = (const uint8_t *)"" };
    r->returned = GATEWAY_DROPPED;
    if (!read_request(command, n, &a.request, r))
        return;
    r->returned = GATEWAY_WAIT;
    say(r, "a data set must follow (rule 4.9)");
    if (!a.request.data_comes)
        explain_request(&a, r);
}

static void explain_command(const uint8_t *records, const uint8_t *p, size_t n, struct reason *r)
{
    uint8_t command[COMMAND_MOST];
    unsigned state = records[GATEWAY_AT_COLLECTING];
    bool goes_on = state == IN_COMMAND || state == SKIPPING_COMMAND, last = (p[5] & 2) != 0;
    size_t used = goes_on ? (size_t)number_at(records + GATEWAY_AT_USED, 2) : 0;
    if (state == SKIPPING_COMMAND || n > COMMAND_MOST - used) {
        r->returned = last ? GATEWAY_DROPPED : GATEWAY_WAIT;
        say(r, "the command set is longer than %d bytes (rule 4.6)", COMMAND_MOST);
        return;
    }
    r->returned = GATEWAY_WAIT;
    say(r, "the last fragment of the command set must follow (rule 4.12)");
    if (!last)
        return;
    memcpy(command, records + GATEWAY_AT_COMMAND, used);
    memcpy(command + used, p + HEADER, n);
    explain_whole_command(records, command, used + n, r);
}

static void explain_data_fragment(const uint8_t *records, const uint8_t *message, const uint8_t *p, size_t n,
                                  struct reason *r)
{
    unsigned state = records[GATEWAY_AT_COLLECTING];
    uint64_t got = number_at(records + GATEWAY_AT_GOT, 4), room = number_at(records + GATEWAY_AT_ROOM, 4);
    struct asked a = { .records = records, .data = message, .data_length = (size_t)got + n };
    struct reason unused = { 0 };
    if (state == IDLE) {
        r->returned = GATEWAY_IGNORED;
        say(r, "data that belongs to no message (rule 4.11)");
        return;
    }
    if (state == IN_COMMAND || state == SKIPPING_COMMAND) {
        r->returned = GATEWAY_DROPPED;
        say(r, "data came before the last fragment of the command set (rule 4.7)");
        return;
    }
    r->returned = GATEWAY_WAIT;
    say(r, "the last fragment of the data set must follow (rule 4.12)");
    if ((p[5] & 2) == 0)
        return;
    a.too_long = state == SKIPPING_DATA || n > room - got;
    if (read_request(records + GATEWAY_AT_COMMAND, (size_t)number_at(records + GATEWAY_AT_USED, 2), &a.request,
                     &unused))
        explain_request(&a, r);
}

void explain_feed(const uint8_t *records, const uint8_t *message, const uint8_t *fragment, size_t length,
                  struct reason *r)
{
    memset(r, 0, sizeof *r);
    if (records[0] == 0) {
        r->returned = GATEWAY_BROKEN;
        say(r, "there was no start (rule 3.1)");
    } else if (records[GATEWAY_AT_OPEN] != 1) {
        r->returned = GATEWAY_NOT_OPEN;
        say(r, "no association is open (rule 3.4)");
    } else if (!check_header(records, fragment, length, r)) {
        r->returned = GATEWAY_BAD_FRAGMENT;
    } else if (fragment[5] & 1) {
        explain_command(records, fragment, length - HEADER, r);
    } else {
        explain_data_fragment(records, message, fragment, length - HEADER, r);
    }
}
