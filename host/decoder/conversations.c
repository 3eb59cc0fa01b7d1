#include "conversations.h"

#include <stdio.h>
#include <stdlib.h>
#include <string.h>

#include "../../include/inspect.h"
#include "learning.h"
#include "names.h"
#include "pdus.h"
#include "requests.h"
#include "show.h"
#include "stops.h"

#define ROOT "1.9.7"

struct conversation {
    const struct capture *capture;
    const struct wishes *wishes;
    struct gateway *gateway;
    struct association association;
    struct pieces command, data, response; /* what is collected of a request, and of a response */
    struct uid root;
    uint32_t serial, picture, syntax;
    unsigned fragments, messages;
    bool opened;               /* an association was opened since the last A-ASSOCIATE-RQ; of a trace: always */
    uint32_t answered, status; /* the last message ID that the gateway answered, and its status */
    struct reason reason;
    enum outcome worst;
};

static void note(struct conversation *c, enum outcome outcome)
{
    if (outcome > c->worst)
        c->worst = outcome;
}

/* Sets. */

static const char *vr_text(uint32_t syntax)
{
    return syntax == GATEWAY_EXPLICIT ? "explicit VR" : "implicit VR";
}

/* What the proved reader says. */
static struct reading ask_reader(const struct data_set *set, uint32_t syntax)
{
    uint8_t reading[INSPECT_READING] = { 0 };
    uint32_t refusal = inspect_data_set(set->bytes, set->n, syntax, reading, sizeof reading);
    struct stopped stopped = { refusal, (size_t)number_at(reading + INSPECT_READING_PLACE, 4),
                               (uint32_t)number_at(reading + INSPECT_READING_DEPTH, 4) };
    return (struct reading){ stopped, (size_t)number_at(reading + INSPECT_READING_HEADERS, 4) };
}

/* A console may send the other syntax than the one that was negotiated. */
static void show_other_syntax(const struct pieces *set, uint32_t syntax)
{
    uint32_t other = syntax == GATEWAY_EXPLICIT ? GATEWAY_IMPLICIT : GATEWAY_EXPLICIT;
    if (ask_reader(&set->set, other).stopped.refusal == READ)
        printf("(in %s it would be read whole)\n", vr_text(other));
}

static void show_reading(const struct pieces *set, struct reading r)
{
    struct stopped s = r.stopped;
    if (s.refusal == READ)
        puts(reading_words(r).text);
    else
        printf("refused with %u at %zu, %zXH in the dump, %s, after %s: %s (rule 5.%u)\n", (unsigned)s.refusal, s.place,
               place_in_dump(set, s.place), depth_words(s.depth).text, headers_words(r.headers).text,
               refusal_text(s.refusal), (unsigned)s.refusal);
}

/* What a header at fault lies in, and what was expected in its place. */
static void show_expected(const struct walked *w)
{
    if (stopped_of(w).depth > 0)
        printf("         within: %s\n", path_words(w).text);
    printf("         expected: %s\n", expected_words(w).text);
}

enum outcome show_read(const char *what, const struct pieces *set, uint32_t syntax)
{
    printf("%s of %zu bytes, %s\n", what, set->set.n, vr_text(syntax));
    if (set->set.n > 0)
        puts("    dump       set");
    struct walked walked = show_set(set, syntax == GATEWAY_EXPLICIT);
    struct reading reading = ask_reader(&set->set, syntax);
    show_reading(set, reading);
    if (!same_reading(reading, reading_of(&walked))) {
        printf("what is shown is %s: please report this dump\n", reading_words(reading_of(&walked)).text);
        return NOT_EXPLAINED;
    }
    if (reading.stopped.refusal == READ)
        return FINE;
    show_expected(&walked);
    show_other_syntax(set, syntax);
    return FAILED;
}

static void show_whole(struct conversation *c, const char *what, struct pieces *set, uint32_t syntax)
{
    note(c, show_read(what, set, syntax));
    empty_pieces(set);
}

/* Starting and opening. */

static void start(struct conversation *c)
{
    uint32_t n = start_gateway(c->gateway, (const uint8_t *)c->root.text, strlen(c->root.text), c->serial, c->picture);
    if (n != GATEWAY_DONE)
        stop("start is refused with %u: the root is no UID of 1 to %d characters, or a number is 0", (unsigned)n,
             GATEWAY_ROOT_MOST);
}

static bool is_known_syntax(uint8_t syntax)
{
    return syntax == GATEWAY_IMPLICIT || syntax == GATEWAY_EXPLICIT;
}

/* A VR stands behind the first tag of a data set in explicit VR. */
static uint32_t guess_and_say(const struct conversation *c, size_t from)
{
    size_t dump_at;
    uint32_t guess = guess_syntax(c->capture, from, &dump_at);
    if (guess == 0)
        puts("implicit VR, guessed: there is no data set that shows it");
    else
        printf("%s, guessed: %s VR stands behind the first tag of the data set at %zXH\n", vr_text(guess),
               guess == GATEWAY_EXPLICIT ? "a" : "no", dump_at);
    return guess == 0 ? GATEWAY_IMPLICIT : guess;
}

/* The syntax of a context, and how it is known. */
static uint32_t choose_syntax(const struct conversation *c, uint8_t context, size_t from)
{
    uint8_t accepted = c->association.accepted[context], proposed = c->association.proposed[context];
    if (c->wishes->syntax != 0) {
        printf("%s, as given\n", vr_text(c->wishes->syntax));
        return c->wishes->syntax;
    }
    if (is_known_syntax(accepted)) {
        printf("%s, by the A-ASSOCIATE-AC\n", vr_text(accepted));
        return accepted;
    }
    if (accepted == 0 && is_known_syntax(proposed)) {
        printf("%s, the only one that the A-ASSOCIATE-RQ proposes\n", vr_text(proposed));
        return proposed;
    }
    if (accepted != 0)
        printf("by the A-ASSOCIATE-AC a transfer syntax that the gateway does not take; ");
    return guess_and_say(c, from);
}

static void open_association(struct conversation *c, const struct capture_part *p)
{
    uint32_t context = c->wishes->context != 0 ? c->wishes->context : p->n > 4 ? p->bytes[4] : 1;
    printf("open: context %u, ", (unsigned)context);
    c->syntax = choose_syntax(c, (uint8_t)context, (size_t)(p - c->capture->parts));
    uint32_t n = open_gateway(c->gateway, context, c->syntax, c->wishes->buffer);
    if (n != GATEWAY_DONE) {
        printf("gateway: open is refused with %u: a context is odd, 1 to 255 (rules 3.%u, 3.10)\n", (unsigned)n,
               (unsigned)n);
        note(c, FAILED);
    }
    c->opened = true;
}

/* What is not whole where the dump or the association ends. */
static void finish(struct conversation *c)
{
    if (!is_open(c->gateway) || is_idle(c->gateway))
        return;
    if (c->command.set.n > 0)
        show_whole(c, "command set, not whole,", &c->command, GATEWAY_IMPLICIT);
    if (c->data.set.n > 0)
        show_whole(c, "data set, not whole,", &c->data, c->syntax);
    printf("gateway: waits: %s\n", c->reason.text);
}

static void close_association(struct conversation *c, const char *why)
{
    finish(c);
    if (!is_open(c->gateway))
        return;
    printf("close: %s\n", why);
    close_gateway(c->gateway);
}

/* Fragments. */

static void show_fragment(struct conversation *c, const struct capture_part *p)
{
    printf("fragment %u at %zXH: ", ++c->fragments, p->dump_at);
    if (p->n < FRAGMENT_HEADER) {
        printf("%zu bytes, no header\n", p->n);
        return;
    }
    printf("context %u, %s%s, %zu bytes\n", p->bytes[4], is_command(p) ? "command" : "data", is_last(p) ? ", last" : "",
           p->n - FRAGMENT_HEADER);
}

static void collect(struct pieces *set, const struct capture_part *p)
{
    put_piece(set, p->bytes + FRAGMENT_HEADER, p->n - FRAGMENT_HEADER, p->dump_at + FRAGMENT_HEADER);
}

/* What a response of the capture says, and where it is not what the gateway asked here says. */
static void compare_response(struct conversation *c)
{
    const struct data_set *set = &c->response.set;
    uint32_t field = field_in(set->bytes, set->n), status = status_in(set->bytes, set->n);
    uint32_t message = answered_in(set->bytes, set->n);
    const char *name = field_name(field), *meaning = status_name(status);
    printf("response: %s to message ID %u", name == NULL ? "of an unknown operation" : name, (unsigned)message);
    if (status <= UINT16_MAX)
        printf(", %04XH", (unsigned)status);
    if (meaning != NULL)
        printf(" [%s]", meaning);
    if (c->answered == message && c->status != status)
        printf(", where the gateway asked here answered %04XH", (unsigned)c->status);
    puts("; not fed: it is no request (rule 6.14)");
}

static void show_response_part(struct conversation *c, const struct capture_part *p)
{
    collect(&c->response, p);
    if (!is_last(p))
        return;
    if (!is_command(p)) {
        show_whole(c, "data set of a response", &c->response, c->syntax);
        return;
    }
    note(c, show_read("command set of a response", &c->response, GATEWAY_IMPLICIT));
    compare_response(c);
    empty_pieces(&c->response);
}

/* A command that begins while a data set is collected cuts that message off. */
static void show_cut_off(struct conversation *c)
{
    if (c->data.set.n > 0)
        show_whole(c, "data set, cut off,", &c->data, c->syntax);
    puts("gateway: cut off: the message before has no last fragment of its data set, and is not answered (rule 4.4)");
    note(c, FAILED);
}

static void begin_message(struct conversation *c)
{
    if (is_in_data(c->gateway))
        show_cut_off(c);
    printf("\nmessage %u\n", ++c->messages);
    empty_pieces(&c->command);
    empty_pieces(&c->data);
    if (!c->wishes->alone || c->capture->content == CALLS)
        return;
    start(c);
    c->opened = false;
}

static void show_request_part(struct conversation *c, const struct capture_part *p)
{
    if (!header_is_sound(p))
        return;
    if (is_command(p))
        collect(&c->command, p);
    else
        collect(&c->data, p);
    if (!is_last(p))
        return;
    if (is_command(p))
        show_whole(c, "command set", &c->command, GATEWAY_IMPLICIT);
    else
        show_whole(c, "data set", &c->data, c->syntax);
}

static bool begins_message(const struct conversation *c, const struct capture_part *p)
{
    return !p->of_response && header_is_sound(p) && is_command(p) && (is_idle(c->gateway) || is_in_data(c->gateway));
}

static void feed(struct conversation *c, const struct capture_part *p)
{
    note(c, feed_gateway(c->gateway, p->bytes, p->n, &c->reason));
    if (c->reason.returned != GATEWAY_RESPONSE)
        return;
    c->answered = answered_in(c->gateway->command, number_at(c->gateway->report + GATEWAY_REPORT_COMMAND, 2));
    c->status = c->reason.status;
}

/* With --context, the fragments of other contexts are passed over. */
static bool is_passed_over(const struct conversation *c, const struct capture_part *p)
{
    return c->wishes->context != 0 && c->capture->content != CALLS && p->n > 4 && p->bytes[4] != c->wishes->context;
}

static void go_through_fragment(struct conversation *c, const struct capture_part *p)
{
    if (is_passed_over(c, p)) {
        show_fragment(c, p);
        puts("passed over: it is of another context");
        return;
    }
    if (begins_message(c, p))
        begin_message(c);
    if (!c->opened)
        open_association(c, p);
    if (c->capture->content != COMMAND_SET)
        show_fragment(c, p);
    if (p->of_response) {
        show_response_part(c, p);
        return;
    }
    show_request_part(c, p);
    if (!is_open(c->gateway) && c->capture->content != CALLS)
        puts("not fed: no association is open");
    else
        feed(c, p);
}

/* Parts. */

static void go_through_pdu(struct conversation *c, const struct capture_part *p)
{
    putchar('\n');
    show_pdu(p->bytes, p->n, p->dump_at, &c->association);
    switch (p->bytes[0]) {
    case A_ASSOCIATE_RQ:
        close_association(c, "another association begins");
        c->opened = false;
        break;
    case A_RELEASE_RQ:
        close_association(c, "the association is released");
        break;
    case A_ABORT:
        close_association(c, "the association is aborted");
        break;
    default:
        break;
    }
}

/* A call of a trace, other than feed. */
static void make_call(struct conversation *c, const struct capture_part *p)
{
    static const char *const calls[] = {
        [A_START] = "start", [AN_OPEN] = "open", [A_CLOSE] = "close", [A_TAKE] = "take"
    };
    uint32_t n;
    if (p->kind == A_START)
        n = start_gateway(c->gateway, p->bytes, p->n, (uint32_t)p->numbers[0], (uint32_t)p->numbers[1]);
    else if (p->kind == AN_OPEN)
        n = open_gateway(c->gateway, (uint32_t)p->numbers[0], (uint32_t)p->numbers[1], p->numbers[2]);
    else if (p->kind == A_CLOSE)
        n = close_gateway(c->gateway);
    else
        n = take_from_gateway(c->gateway);
    if (p->kind == AN_OPEN && n == GATEWAY_DONE)
        c->syntax = (uint32_t)p->numbers[1];
    if (n == GATEWAY_DONE)
        printf("\n%s: done\n", calls[p->kind]);
    else
        printf("\n%s: refused with %u (rule 3.%u)\n", calls[p->kind], (unsigned)n, (unsigned)n);
    note(c, n == GATEWAY_DONE ? FINE : FAILED);
}

static void go_through_part(struct conversation *c, const struct capture_part *p)
{
    switch (p->kind) {
    case A_PDU:
        go_through_pdu(c, p);
        break;
    case A_FRAGMENT:
        go_through_fragment(c, p);
        break;
    case CUT_SHORT:
        printf("cut short at %zXH: the dump has %zu bytes of it\n", p->dump_at, p->n);
        note(c, FAILED);
        break;
    case NOT_READABLE:
        stop("%s: at offset %zXH: %s", c->capture->name, p->dump_at, p->why);
    default:
        make_call(c, p);
    }
}

static void learn(struct conversation *c)
{
    size_t dump_at;
    struct uid root;
    uint32_t serial;
    const char *how = "";
    snprintf(c->root.text, sizeof c->root.text, "%s", c->wishes->root != NULL ? c->wishes->root : ROOT);
    c->serial = c->wishes->serial != 0 ? c->wishes->serial : 1;
    c->picture = c->wishes->picture != 0 ? c->wishes->picture : 1;
    if (c->wishes->root == NULL && c->wishes->serial == 0 && learn_root(c->capture, &root, &serial, &dump_at)) {
        c->root = root;
        c->serial = serial;
        how = ", root and serial by a response";
    }
    printf("start: root %s, next serial %u, next picture %u, message buffer of %zu bytes%s\n", c->root.text,
           (unsigned)c->serial, (unsigned)c->picture, c->wishes->buffer, how);
    if (*how != 0)
        printf("       (the N-CREATE response at %zXH names a UID that no request sent)\n", dump_at);
}

static struct conversation new_conversation(const struct capture *capture, const struct wishes *w, size_t room)
{
    return (struct conversation){
        .capture = capture,
        .wishes = w,
        .gateway = new_gateway(),
        .command = new_pieces(room),
        .data = new_pieces(room),
        .response = new_pieces(room),
        .syntax = GATEWAY_IMPLICIT,
        .answered = UINT32_MAX,
        .opened = capture->content == CALLS,
    };
}

static enum outcome end_conversation(struct conversation *c)
{
    free_gateway(c->gateway);
    free_pieces(&c->command);
    free_pieces(&c->data);
    free_pieces(&c->response);
    return c->worst;
}

enum outcome go_through(struct capture *capture, const struct wishes *w)
{
    size_t room = 1;
    for (size_t i = 0; i < capture->count; i++)
        room += capture->parts[i].n;
    struct conversation c = new_conversation(capture, w, room);
    if (capture->content != CALLS) {
        mark_responses(capture);
        learn(&c);
        start(&c);
    }
    for (size_t i = 0; i < capture->count; i++)
        go_through_part(&c, &capture->parts[i]);
    finish(&c);
    return end_conversation(&c);
}
