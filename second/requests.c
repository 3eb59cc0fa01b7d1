#include "requests.h"

#include <string.h>

#include "classes.h"
#include "cover.h"

/* ---- a readable command ---- */

/* A US of the command that must be there, in 2 bytes. */
static bool need_number(const struct part *list, uint32_t tag, uint16_t *number)
{
    struct element e;
    CHECK(!find(list, tag, &e), false, "unreadable: number missing");
    CHECK(e.value.to - e.value.from != 2, false, "unreadable: number not 2 bytes");
    *number = number_16(e.value.bytes + e.value.from);
    return true;
}

/* A UI of the command that must be there, by PS3.5. */
static bool need_uid(const struct part *list, uint32_t tag, struct uid *uid)
{
    struct element e;
    CHECK(!find(list, tag, &e), false, "unreadable: UID missing");
    bool sound = uid_of_value(e.value.bytes + e.value.from, e.value.to - e.value.from, uid);
    CHECK(!sound, false, "unreadable: UID breaks PS3.5");
    return true;
}

/* "elements all in group 0000", of the command's own list. */
static bool all_in_group_0000(const struct part *list)
{
    struct part rest = *list;
    struct element e;
    while (find_first(&rest, &e)) {
        if (e.tag >> 16 != 0x0000)
            return false;
        rest.from = e.next;
    }
    return true;
}

/* The first element is (0000,0000), 4 bytes, equal to the bytes after it. */
static bool begins_with_group_length(const struct part *list)
{
    struct element e;
    if (!find_first(list, &e) || e.tag != TAG(0x0000, 0x0000))
        return false;
    if (e.value.to - e.value.from != 4)
        return false;
    return number_32(e.value.bytes + e.value.from) == list->to - e.next;
}

static enum operation operation_of(uint16_t field)
{
    switch (field) {
    case 0x0030: return C_ECHO;
    case 0x0140: return N_CREATE;
    case 0x0120: return N_SET;
    case 0x0130: return N_ACTION;
    case 0x0150: return N_DELETE;
    default: return UNKNOWN_FIELD;
    }
}

/* (0000,1000) of an N-CREATE, judged in check 6. */
static void read_sent_instance(const struct part *list, struct request *q)
{
    struct element e;
    q->sent = NOT_SENT;
    if (!find(list, TAG(0x0000, 0x1000), &e))
        return;
    size_t length = e.value.to - e.value.from;
    if (length == 0) {
        COVER("N-CREATE: an empty UID is not sent");
        return;
    }
    bool sound = uid_of_value(e.value.bytes + e.value.from, length, &q->instance);
    q->sent = sound ? SENT : SENT_BROKEN;
}

/* What known fields need beside the three numbers. */
static bool read_operation(const struct part *list, struct request *q)
{
    switch (q->operation) {
    case UNKNOWN_FIELD:
        return true;
    case C_ECHO:
        return need_uid(list, TAG(0x0000, 0x0002), &q->class_uid);
    case N_CREATE:
        read_sent_instance(list, q);
        return need_uid(list, TAG(0x0000, 0x0002), &q->class_uid);
    case N_SET:
    case N_DELETE:
        return need_uid(list, TAG(0x0000, 0x0003), &q->class_uid) &&
               need_uid(list, TAG(0x0000, 0x1001), &q->instance);
    case N_ACTION:
        return need_uid(list, TAG(0x0000, 0x0003), &q->class_uid) &&
               need_uid(list, TAG(0x0000, 0x1001), &q->instance) &&
               need_number(list, TAG(0x0000, 0x1008), &q->action_type);
    }
    return false;
}

bool read_command(const uint8_t *bytes, size_t length, struct request *q)
{
    struct part list = whole_list(bytes, length, IMPLICIT);
    size_t next;
    size_t passed;
    uint16_t type;
    memset(q, 0, sizeof *q);
    CHECK(read_list(&list, &next, &passed).number != 0, false,
          "unreadable: refused by the reader");
    CHECK(!all_in_group_0000(&list), false, "unreadable: element outside group 0000");
    CHECK(!begins_with_group_length(&list), false, "unreadable: group length");
    if (!need_number(&list, TAG(0x0000, 0x0100), &q->field) ||
        !need_number(&list, TAG(0x0000, 0x0110), &q->message_number) ||
        !need_number(&list, TAG(0x0000, 0x0800), &type))
        return false;
    CHECK(q->field >= 0x8000, false, "unreadable: field 8000H and above");
    q->data_set_comes = type != 0x0101;
    q->operation = operation_of(q->field);
    return read_operation(&list, q);
}

/* ---- status checks ---- */

enum class { UNKNOWN_CLASS, VERIFICATION, SESSION, FILM, BOX };

static enum class class_of(const struct uid *uid)
{
    static const char *const uids[] = { VERIFICATION_CLASS, SESSION_CLASS, FILM_CLASS, BOX_CLASS };
    for (int i = 0; i < 4; i++) {
        struct uid known = uid_of_literal(uids[i]);
        if (uid_equal(&known, uid))
            return (enum class)(VERIFICATION + i);
    }
    return UNKNOWN_CLASS;
}

static bool offers(enum class class, enum operation operation)
{
    switch (class) {
    case VERIFICATION: return operation == C_ECHO;
    case SESSION:
    case FILM: return operation != C_ECHO;
    case BOX: return operation == N_SET;
    case UNKNOWN_CLASS: break;
    }
    return false;
}

/* What a request leaves to be told: one that is done, or one that check 5 fails. */
struct outcome {
    struct uid created;
    const struct film *created_film; /* NULL: no data set */
    enum note note;
    uint32_t note_numbers[3];
};

/* Number and depth as two digits: each number at each depth that it can have. The fifth sequence,
   7, lies in four. */
static void cover_refusal(const struct refusal *refusal)
{
    switch (refusal->number * 10 + refusal->depth) {
    case 10: COVER("stopped: refusal 1 at depth 0"); break;
    case 11: COVER("stopped: refusal 1 at depth 1"); break;
    case 12: COVER("stopped: refusal 1 at depth 2"); break;
    case 13: COVER("stopped: refusal 1 at depth 3"); break;
    case 14: COVER("stopped: refusal 1 at depth 4"); break;
    case 20: COVER("stopped: refusal 2 at depth 0"); break;
    case 21: COVER("stopped: refusal 2 at depth 1"); break;
    case 22: COVER("stopped: refusal 2 at depth 2"); break;
    case 23: COVER("stopped: refusal 2 at depth 3"); break;
    case 24: COVER("stopped: refusal 2 at depth 4"); break;
    case 30: COVER("stopped: refusal 3 at depth 0"); break;
    case 31: COVER("stopped: refusal 3 at depth 1"); break;
    case 32: COVER("stopped: refusal 3 at depth 2"); break;
    case 33: COVER("stopped: refusal 3 at depth 3"); break;
    case 34: COVER("stopped: refusal 3 at depth 4"); break;
    case 40: COVER("stopped: refusal 4 at depth 0"); break;
    case 41: COVER("stopped: refusal 4 at depth 1"); break;
    case 42: COVER("stopped: refusal 4 at depth 2"); break;
    case 43: COVER("stopped: refusal 4 at depth 3"); break;
    case 44: COVER("stopped: refusal 4 at depth 4"); break;
    case 50: COVER("stopped: refusal 5 at depth 0"); break;
    case 51: COVER("stopped: refusal 5 at depth 1"); break;
    case 52: COVER("stopped: refusal 5 at depth 2"); break;
    case 53: COVER("stopped: refusal 5 at depth 3"); break;
    case 54: COVER("stopped: refusal 5 at depth 4"); break;
    case 60: COVER("stopped: refusal 6 at depth 0"); break;
    case 61: COVER("stopped: refusal 6 at depth 1"); break;
    case 62: COVER("stopped: refusal 6 at depth 2"); break;
    case 63: COVER("stopped: refusal 6 at depth 3"); break;
    case 64: COVER("stopped: refusal 6 at depth 4"); break;
    case 74: COVER("stopped: refusal 7 at depth 4"); break;
    }
}

/* "The host's note on a check 5 response carries number, place and depth." */
static uint16_t check_5(const struct part *list, struct outcome *o)
{
    size_t next;
    size_t passed;
    struct refusal refusal = read_list(list, &next, &passed);
    if (refusal.number == 0)
        return 0;
    cover_refusal(&refusal);
    o->note = READING_STOPPED;
    o->note_numbers[0] = (uint32_t)refusal.number;
    o->note_numbers[1] = (uint32_t)refusal.place;
    o->note_numbers[2] = (uint32_t)refusal.depth;
    COVER("check 5: 0110H data unreadable");
    return 0x0110;
}

static uint16_t check_6_create(const struct records *r, const struct request *q)
{
    CHECK(q->sent == SENT_BROKEN, 0x0117, "check 6: 0117H sent UID breaks PS3.5");
    CHECK(q->sent == SENT && uid_begins_with_root_and_dot(&q->instance, &r->root), 0x0117,
          "check 6: 0117H sent UID begins with root and a dot");
    CHECK(q->sent == SENT && lives(r, &q->instance) != NOWHERE, 0x0111,
          "check 6: 0111H sent UID is live");
    return 0;
}

static uint16_t check_6_live(const struct records *r, const struct request *q, enum class class)
{
    enum living living = lives(r, &q->instance);
    enum living wanted = class == SESSION ? AS_SESSION : class == FILM ? AS_FILM : AS_BOX;
    CHECK(living == NOWHERE, 0x0112, "check 6: 0112H not live");
    CHECK(living != wanted, 0x0119, "check 6: 0119H live in another class");
    return 0;
}

/* The sent UID, or one made of the next serial. */
static struct uid uid_for_created(struct records *r, const struct request *q)
{
    return q->sent == SENT ? q->instance : next_uid(r);
}

static uint16_t create_session(struct records *r, const struct request *q, const struct part *list,
                               struct outcome *o)
{
    struct session session = default_session();
    uint16_t status = read_session(list, &session);
    if (status != 0)
        return status;
    CHECK(r->session_lives, 0x0213, "check 9: 0213H second session");
    CHECK(q->sent == NOT_SENT && serials_left(r) < 1, 0x0213,
          "check 9: 0213H too few serials for a session");
    session.uid = uid_for_created(r, q);
    r->session = session;
    r->session_lives = true;
    o->created = session.uid;
    COVER("done: session created");
    return 0x0000;
}

static uint16_t create_film(struct records *r, const struct request *q, const struct part *list,
                            struct outcome *o)
{
    struct film film = default_film();
    uint16_t status = read_new_film(r, list, &film);
    if (status != 0)
        return status;
    CHECK(r->film_count == FILMS_MOST, 0x0213, "check 9: 0213H ninth film");
    uint64_t needed = box_count(&film) + (q->sent == NOT_SENT ? 1u : 0u);
    CHECK(serials_left(r) < needed, 0x0213, "check 9: 0213H too few serials for a film");
    film.uid = uid_for_created(r, q);
    make_boxes(r, &film);
    r->films[r->film_count] = film;
    o->created = film.uid;
    o->created_film = &r->films[r->film_count++];
    COVER("done: film created");
    return 0x0000;
}

static uint16_t set_session(struct records *r, const struct part *list)
{
    struct session session = r->session;
    uint16_t status = read_session(list, &session);
    if (status != 0)
        return status;
    r->session = session;
    COVER("done: session set");
    return 0x0000;
}

static uint16_t set_film(struct records *r, const struct request *q, const struct part *list)
{
    struct film *live = film_of(r, &q->instance);
    struct film film = *live;
    uint16_t status = read_set_film(list, &film);
    if (status != 0)
        return status;
    *live = film;
    COVER("done: film set");
    return 0x0000;
}

static uint16_t set_box(struct records *r, const struct request *q, const struct part *list,
                        struct outcome *o)
{
    struct film *film;
    struct box *live = box_of(r, &q->instance, &film);
    struct box box = *live;
    struct image_request image;
    uint16_t status = read_box(list, box_count(film), &box, &image);
    if (status != 0)
        return status;
    CHECK(image.what == FILL && r->next_picture == NONE_LEFT, 0x0213,
          "check 9: 0213H no picture number left");
    if (image.what == ERASE)
        box.picture = 0;
    if (image.what == FILL) {
        box.picture = next_picture(r);
        o->note = PICTURE;
        o->note_numbers[0] = box.picture;
        o->note_numbers[1] = (uint32_t)image.place;
        o->note_numbers[2] = (uint32_t)image.length;
    }
    *live = box;
    COVER("done: box set");
    return 0x0000;
}

static uint16_t print_session(struct records *r, struct outcome *o)
{
    bool some_empty = false;
    CHECK(r->film_count == 0, 0xC600, "check 10: C600H print session without films");
    for (unsigned i = 0; i < r->film_count; i++)
        CHECK(film_collides(&r->films[i]), 0xC604, "check 10: C604H positions collide (session)");
    CHECK(QUEUE_MOST - r->queue_count < r->film_count, 0xC601,
          "check 10: C601H too little queue room (session)");
    for (unsigned i = 0; i < r->film_count; i++) {
        some_empty |= film_is_empty(&r->films[i]);
        queue_film(r, &r->films[i]);
    }
    o->note = FILMS_QUEUED;
    o->note_numbers[0] = r->film_count;
    CHECK(some_empty, 0xB602, "check 11: B602H a film has no filled box (session)");
    COVER("done: session printed");
    return 0x0000;
}

static uint16_t print_film(struct records *r, const struct request *q, struct outcome *o)
{
    const struct film *film = film_of(r, &q->instance);
    CHECK(film_collides(film), 0xC604, "check 10: C604H positions collide (film)");
    CHECK(r->queue_count == QUEUE_MOST, 0xC602, "check 10: C602H too little queue room (film)");
    queue_film(r, film);
    o->note = FILMS_QUEUED;
    o->note_numbers[0] = 1;
    CHECK(film_is_empty(film), 0xB603, "check 11: B603H the film has no filled box");
    COVER("done: film printed");
    return 0x0000;
}

static uint16_t delete_instance(struct records *r, const struct request *q, enum class class)
{
    if (class == SESSION) {
        COVER("done: session deleted");
        delete_session(r);
    } else {
        COVER("done: film deleted");
        delete_film(r, film_of(r, &q->instance));
    }
    return 0x0000;
}

/* Checks 7 to 11 of an operation on a live instance. */
static uint16_t use_instance(struct records *r, const struct request *q, enum class class,
                             const struct part *list, struct outcome *o)
{
    if (q->operation == N_DELETE)
        return delete_instance(r, q, class);
    if (q->operation == N_ACTION) {
        CHECK(q->action_type != 1, 0x0123, "check 7: 0123H action type not 1");
        return class == SESSION ? print_session(r, o) : print_film(r, q, o);
    }
    if (class == SESSION)
        return set_session(r, list);
    return class == FILM ? set_film(r, q, list) : set_box(r, q, list, o);
}

static uint16_t decide(struct records *r, const struct request *q, const struct data_set *d,
                       struct outcome *o)
{
    CHECK(q->operation == UNKNOWN_FIELD, 0x0211, "check 1: 0211H unknown field");
    enum class class = class_of(&q->class_uid);
    CHECK(class == UNKNOWN_CLASS, 0x0118, "check 2: 0118H unknown class");
    CHECK(!offers(class, q->operation), 0x0211, "check 3: 0211H class lacks the operation");
    CHECK(d->too_long, 0x0213, "check 4: 0213H data too long");
    struct part list = whole_list(d->bytes, d->length, d->syntax);
    uint16_t status = check_5(&list, o);
    if (status != 0)
        return status;
    if (q->operation == C_ECHO) {
        COVER("done: C-ECHO");
        return 0x0000;
    }
    status = q->operation == N_CREATE ? check_6_create(r, q) : check_6_live(r, q, class);
    if (status != 0)
        return status;
    if (q->operation != N_CREATE)
        return use_instance(r, q, class, &list, o);
    return class == SESSION ? create_session(r, q, &list, o) : create_film(r, q, &list, o);
}

/* ---- the response ---- */

/* "The instance is the one created, requested, or sent"; NULL where the response has none. */
static const struct uid *response_instance(const struct request *q, const struct outcome *o)
{
    switch (q->operation) {
    case N_CREATE:
        if (o->created.length > 0)
            return &o->created;
        CHECK(q->sent == SENT, &q->instance, "response: failed create with the sent instance");
        COVER("response: failed create without instance");
        return NULL;
    case N_SET:
    case N_ACTION:
    case N_DELETE:
        return &q->instance;
    case C_ECHO:
    case UNKNOWN_FIELD:
        break;
    }
    return NULL;
}

static void write_command(const struct request *q, const struct outcome *o, bool with_data,
                          struct response *response)
{
    uint8_t after[COMMAND_ANSWER_MOST]; /* the elements that the group length counts */
    struct writer w = { after, 0, IMPLICIT };
    const struct uid *instance = response_instance(q, o);
    if (q->operation != UNKNOWN_FIELD)
        write_ui(&w, TAG(0x0000, 0x0002), &q->class_uid);
    write_us(&w, TAG(0x0000, 0x0100), (uint16_t)(q->field + 0x8000));
    write_us(&w, TAG(0x0000, 0x0120), q->message_number);
    write_us(&w, TAG(0x0000, 0x0800), with_data ? 0x0001 : 0x0101);
    write_us(&w, TAG(0x0000, 0x0900), response->status);
    if (instance != NULL)
        write_ui(&w, TAG(0x0000, 0x1000), instance);
    if (q->operation == N_ACTION)
        write_us(&w, TAG(0x0000, 0x1008), q->action_type);
    struct writer all = { response->command, 0, IMPLICIT };
    write_ul(&all, TAG(0x0000, 0x0000), (uint32_t)w.length);
    memcpy(response->command + all.length, after, w.length);
    response->command_length = all.length + w.length;
}

/* Referenced Image Box Sequence, an item per box in order. */
static void write_created_film(const struct film *film, enum syntax syntax,
                               struct response *response)
{
    struct uid box_class = uid_of_literal(BOX_CLASS);
    struct writer w = { response->data, 0, syntax };
    uint32_t all = 0;
    for (unsigned i = 0; i < box_count(film); i++)
        all += 8 + ui_element_length(&box_class) + ui_element_length(&film->boxes[i].uid);
    write_sq(&w, TAG(0x2010, 0x0510), all);
    for (unsigned i = 0; i < box_count(film); i++) {
        const struct uid *uid = &film->boxes[i].uid;
        write_item(&w, ui_element_length(&box_class) + ui_element_length(uid));
        write_ui(&w, TAG(0x0008, 0x1150), &box_class);
        write_ui(&w, TAG(0x0008, 0x1155), uid);
    }
    response->data_length = w.length;
}

void answer_request(struct records *r, const struct request *q, const struct data_set *d,
                    struct response *response)
{
    struct outcome o;
    memset(&o, 0, sizeof o);
    response->status = decide(r, q, d, &o);
    response->note = o.note;
    memcpy(response->note_numbers, o.note_numbers, sizeof o.note_numbers);
    write_command(q, &o, o.created_film != NULL, response);
    response->data_length = 0;
    if (o.created_film != NULL)
        write_created_film(o.created_film, d->syntax, response);
}
