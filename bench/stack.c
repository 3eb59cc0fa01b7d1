/* The stack that each call takes. It is made on a stack of its own that was painted before; how far down the paint is
 * gone is how much it took. What a call that does nothing takes is left out. */
#include <stdio.h>
#include <string.h>
#include <ucontext.h>

#include "../host/console.h"
#include "../include/gateway.h"
#include "../include/inspect.h"
#include "timing.h"

enum { STACK = 1 << 20, CONTEXT = 1, ROOM = 65536, READING = 64 };

static _Alignas(64) uint8_t stack[STACK];
static ucontext_t before, painted;

static uint8_t records[GATEWAY_RECORDS], message[ROOM], entry[GATEWAY_ENTRY];
static uint8_t command[GATEWAY_COMMAND], data[GATEWAY_DATA], report[GATEWAY_REPORT];
static uint8_t fragment[CONSOLE_FRAGMENT];
static size_t fragment_length;
static struct data_set nested;
static uint32_t returned;

static void call_painted(void (*call)(void), uint8_t paint)
{
    memset(stack, paint, sizeof stack);
    getcontext(&painted);
    painted.uc_stack.ss_sp = stack;
    painted.uc_stack.ss_size = sizeof stack;
    painted.uc_link = &before;
    makecontext(&painted, call, 0);
    swapcontext(&before, &painted);
}

/* How many bytes of the stack a call overwrote. */
static size_t overwritten(uint8_t paint)
{
    size_t left = 0;
    while (left < sizeof stack && stack[left] == paint)
        left++;
    if (left == 0)
        stop("a call takes more stack than it was given");
    return sizeof stack - left;
}

static void nothing(void)
{
}

/* Each time on the same records. The first time does not count, as functions of the C library may be bound in it; then
 * there are two paints, as one may be what is written. */
static size_t stack_of(void (*call)(void))
{
    uint8_t kept[GATEWAY_RECORDS];
    size_t most = 0;
    memcpy(kept, records, sizeof kept);
    for (int i = 0; i < 3; i++) {
        uint8_t paint = i % 2 == 0 ? 0xA5 : 0x5A;
        memcpy(records, kept, sizeof kept);
        call_painted(call, paint);
        size_t took = overwritten(paint);
        if (i > 0 && took > most)
            most = took;
    }
    return most - (call == nothing ? 0 : stack_of(nothing));
}

static void print_stack(const char *what, size_t bytes)
{
    printf("%-44s %7zu bytes of stack\n", what, bytes);
}

/* The calls. */

static void call_start(void)
{
    returned = gateway_start(records, sizeof records, (const uint8_t *)"1.9.7", 5, 1, 1);
}

static void call_open(void)
{
    returned = gateway_open(records, sizeof records, message, sizeof message, CONTEXT, IMPLICIT);
}

static void call_feed(void)
{
    returned = gateway_feed(records, sizeof records, message, sizeof message, fragment, fragment_length, command,
                            sizeof command, data, sizeof data, report, sizeof report);
}

static void call_take(void)
{
    returned = gateway_take(records, sizeof records, entry, sizeof entry);
}

static void call_close(void)
{
    returned = gateway_close(records, sizeof records);
}

static void call_inspect(void)
{
    static uint8_t reading[READING];
    returned = inspect_data_set(nested.bytes, nested.n, nested.explicit_vr ? EXPLICIT : IMPLICIT, reading,
                                sizeof reading);
}

static void measure(const char *what, void (*call)(void))
{
    size_t bytes = stack_of(call);
    if (returned != GATEWAY_DONE)
        stop("a call is refused");
    print_stack(what, bytes);
}

/* The console's next request, all its fragments: what the longest way down took. */
static void measure_request(const char *what, struct console *c)
{
    size_t most = 0;
    do {
        fragment_length = console_sends(c, fragment);
        size_t bytes = stack_of(call_feed);
        most = bytes > most ? bytes : most;
    } while (returned == GATEWAY_WAIT);
    if (returned != GATEWAY_RESPONSE || number_at(report + GATEWAY_REPORT_STATUS, 2) != 0)
        stop("a request fails");
    console_hears(c, 0, command, number_at(report + GATEWAY_REPORT_COMMAND, 2), data,
                  number_at(report + GATEWAY_REPORT_DATA, 2));
    print_stack(what, most);
}

static void measure_reader(const char *what, uint32_t syntax, bool loose)
{
    static const size_t items[LEVELS] = { 2, 2, 2, 2 };
    nested = nest(syntax, ROOM, items, LEVELS, loose);
    measure(what, call_inspect);
    free_data_set(&nested);
}

int main(void)
{
    struct console console = new_console(IMPLICIT, CONTEXT, CONSOLE_FRAGMENT, 6, 6, 1);
    measure("start", call_start);
    measure("open", call_open);
    measure_request("feed, C-ECHO", &console);
    measure_request("feed, N-CREATE of a session", &console);
    measure_request("feed, N-CREATE of a film of 36 boxes", &console);
    measure_request("feed, N-SET of a box with a picture", &console);
    measure_request("feed, N-ACTION of a film", &console);
    measure("take", call_take);
    measure_request("feed, N-DELETE of a session", &console);
    measure("close", call_close);
    measure_reader("inspect_data_set, four levels, implicit VR", IMPLICIT, false);
    measure_reader("inspect_data_set, four levels, explicit VR", EXPLICIT, true);
    free_console(&console);
    return 0;
}
