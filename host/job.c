/* A host to start from: `job NUMBERS` serves two consoles, prints the films that they queue, and is started anew
 * between the two. NUMBERS is the file in which the next numbers outlive a restart. The exit status is 0 where both
 * films were printed, 1 where one was not, 2 where the arguments are wrong.
 *
 * The order of calls: start once; for each association open, feed for each fragment, close; take whenever the imager is
 * ready. docs/HOST.md has each number returned, and what to do. */
#include <stdbool.h>
#include <stdio.h>
#include <stdlib.h>
#include <string.h>
#include <unistd.h>

#include "../include/gateway.h"
#include "../include/gateway_records.h"
#include "console.h"
#include "pictures.h"
#include "sheets.h"

/* What is asked of a new installation: a root of its own. */
#define ROOT "1.9.7"

/* As long as the longest data set that is taken: a picture of 1,024 by 1,024 with 8 bits, and some room around it. */
enum { MESSAGE = 1024 * 1024 + 4096 };

/* The consoles cut their messages into fragments of so many bytes. */
enum { PIECE = 1500 };

/* The records outlive associations. They and the message buffer are handed back as the last call left them. */
static uint8_t records[GATEWAY_RECORDS];
static uint8_t message[MESSAGE];

/* A response is written here. Nothing of it is needed once it is sent. */
static uint8_t command[GATEWAY_COMMAND], data[GATEWAY_DATA], report[GATEWAY_REPORT];

static const char *numbers_file;

/* Refusals that a sound host never meets: it stops, rather than serve with records or buffers that it cannot trust. */
static _Noreturn void stop(const char *call, uint32_t n)
{
    static const char *const why[] = {
        [GATEWAY_BROKEN] = "something has written over the records: start anew from the saved numbers",
        [GATEWAY_SHORT] = "a buffer is shorter than it must be, or the message buffer is not the one of open",
        [GATEWAY_BAD_ARGUMENT] = "root, number, context or syntax is wrong, or an association is open already",
        [GATEWAY_NOT_OPEN] = "no association is open",
    };
    fprintf(stderr, "%s is refused with %u: %s\n", call, (unsigned)n, n <= GATEWAY_NOT_OPEN ? why[n] : "not expected");
    exit(1);
}

/* Next numbers. They are saved before a response is sent: once it is, its UIDs are known outside. */

static uint64_t next_number(size_t at)
{
    return number_at(records + at, GATEWAY_NEXT_BYTES);
}

static bool write_numbers(FILE *file)
{
    return fprintf(file, "%llu %llu\n", (unsigned long long)next_number(GATEWAY_AT_NEXT_SERIAL),
                   (unsigned long long)next_number(GATEWAY_AT_NEXT_PICTURE)) > 0 &&
           fflush(file) == 0 && fsync(fileno(file)) == 0;
}

/* The new file takes the old one's place whole, so that a loss of power leaves one of the two. */
static void save_numbers(void)
{
    char fresh[4096];
    snprintf(fresh, sizeof fresh, "%s.new", numbers_file);
    FILE *file = fopen(fresh, "w");
    if (file == NULL || !write_numbers(file) || fclose(file) != 0 || rename(fresh, numbers_file) != 0) {
        perror(fresh);
        exit(1);
    }
}

/* A new installation has no file, and begins with 1. */
static void start(void)
{
    unsigned long long serial = 1, picture = 1;
    FILE *file = fopen(numbers_file, "r");
    if (file != NULL) {
        if (fscanf(file, "%llu %llu", &serial, &picture) != 2 || serial > UINT32_MAX || picture > UINT32_MAX) {
            fprintf(stderr, "%s: no numbers, or none left\n", numbers_file);
            exit(1);
        }
        fclose(file);
    }
    uint32_t n = gateway_start(records, sizeof records, (const uint8_t *)ROOT, strlen(ROOT), (uint32_t)serial,
                               (uint32_t)picture);
    if (n != GATEWAY_DONE)
        stop("start", n);
    printf("start    root %s, next serial %llu, next picture %llu\n", ROOT, serial, picture);
}

/* Responses. */

static const char *operation(uint32_t field)
{
    switch (field) {
    case 0x8030:
        return "C-ECHO";
    case 0x8120:
        return "N-SET";
    case 0x8130:
        return "N-ACTION";
    case 0x8140:
        return "N-CREATE";
    case 0x8150:
        return "N-DELETE";
    default:
        return "unknown";
    }
}

static void show_response(size_t command_length)
{
    struct element field = find_element(command, command_length, 0x00000100, false);
    struct element instance = find_element(command, command_length, 0x00001000, false);
    printf("out      %-8s %04XH", operation((uint32_t)number_at(field.value, 2)),
           (unsigned)number_at(report + GATEWAY_REPORT_STATUS, 2));
    if (instance.value != NULL)
        printf("  %.*s", (int)instance.length, (const char *)instance.value);
}

/* A data set could not be read: what field service looks up in a dump of it (docs/FIELD.md). */
static void show_stop(void)
{
    uint32_t refusal = (uint32_t)number_at(report + GATEWAY_REPORT_REFUSAL, 4);
    uint32_t place = (uint32_t)number_at(report + GATEWAY_REPORT_STOP, 4);
    uint32_t depth = (uint32_t)number_at(report + GATEWAY_REPORT_DEPTH, 4);
    printf("  reading stopped with %u at %u, depth %u", (unsigned)refusal, (unsigned)place, (unsigned)depth);
}

/* What a response asks of the host. The pixels stand in the message buffer until the next feed. */
static void heed_note(void)
{
    uint32_t films = (uint32_t)number_at(report + GATEWAY_REPORT_FILMS, 4);
    uint32_t picture = (uint32_t)number_at(report + GATEWAY_REPORT_PICTURE, 4);
    uint32_t place = (uint32_t)number_at(report + GATEWAY_REPORT_PLACE, 4);
    uint32_t length = (uint32_t)number_at(report + GATEWAY_REPORT_LENGTH, 4);
    switch (number_at(report + GATEWAY_REPORT_NOTE, 2)) {
    case GATEWAY_NOTE_QUEUED:
        keep_layouts(records, films);
        printf("  films queued: %u", (unsigned)films);
        break;
    case GATEWAY_NOTE_PICTURE:
        store_picture(picture, message + place, length);
        printf("  picture %u of %u bytes", (unsigned)picture, (unsigned)length);
        break;
    case GATEWAY_NOTE_STOPPED:
        show_stop();
        break;
    default:
        break;
    }
}

static void answer(struct console *console)
{
    size_t command_length = number_at(report + GATEWAY_REPORT_COMMAND, 2);
    size_t data_length = number_at(report + GATEWAY_REPORT_DATA, 2);
    show_response(command_length);
    heed_note();
    free_unnamed(records);
    save_numbers();
    console_hears(console, (uint16_t)number_at(report + GATEWAY_REPORT_STATUS, 2), command, command_length, data,
                  data_length);
    putchar('\n');
}

/* All fragments of a message stand in one line: the control byte says what they are. */
static void show_fragment(const uint8_t *fragment, size_t length)
{
    static bool in_data;
    bool of_command = length > 5 && fragment[5] & 1;
    printf("%s %zu", of_command ? "in       command" : in_data ? " +" : ", data", length);
    in_data = !of_command;
}

/* Hands a fragment over; false where the association has ended. */
static bool feed(struct console *console, const uint8_t *fragment, size_t length)
{
    show_fragment(fragment, length);
    uint32_t n = gateway_feed(records, sizeof records, message, sizeof message, fragment, length, command,
                              sizeof command, data, sizeof data, report, sizeof report);
    if (n == GATEWAY_WAIT)
        return true;
    puts(" bytes");
    switch (n) {
    case GATEWAY_RESPONSE:
        answer(console);
        return true;
    case GATEWAY_DROPPED: /* nobody can be told: there is no message number to answer */
        puts("         a message was dropped");
        return true;
    case GATEWAY_IGNORED:
        puts("         data of no message was ignored");
        return true;
    case GATEWAY_BAD_FRAGMENT: /* closed already; the peer is to be told by an A-ABORT */
        puts("         a fragment's header was wrong: abort");
        return false;
    default:
        stop("feed", n);
    }
}

/* An association, from its acceptance to its release. */
static void serve(struct console *console)
{
    uint8_t fragment[CONSOLE_FRAGMENT];
    size_t length;
    uint32_t n = gateway_open(records, sizeof records, message, sizeof message, console->context, console->syntax);
    if (n != GATEWAY_DONE)
        stop("open", n);
    printf("open     context %u, %s VR\n", (unsigned)console->context,
           console->syntax == IMPLICIT ? "implicit" : "explicit");
    while ((length = console_sends(console, fragment)) > 0)
        if (!feed(console, fragment, length))
            return;
    n = gateway_close(records, sizeof records);
    if (n != GATEWAY_DONE)
        stop("close", n);
    puts("close");
}

/* The imager: it needs the pixels of every picture that an entry names. */
static void print_film(const uint8_t *entry)
{
    size_t bytes = 0;
    for (size_t i = 0; i < GATEWAY_BOXES; i++) {
        const struct picture *picture = stored_picture((uint32_t)number_at(entry + GATEWAY_ENTRY_PICTURES + 4 * i, 4));
        bytes += picture == NULL ? 0 : picture->length;
    }
    printf("take     ticket %u, copies %u, film %.64s, %zu bytes of pixels\n",
           (unsigned)number_at(entry + GATEWAY_ENTRY_TICKET, 2), (unsigned)number_at(entry + GATEWAY_ENTRY_COPIES, 2),
           (const char *)entry + GATEWAY_ENTRY_UID, bytes);
    draw_film(entry);
}

/* How many films were printed. An empty queue is tried again when a note tells of films queued. */
static unsigned print_queue(void)
{
    uint8_t entry[GATEWAY_ENTRY];
    uint32_t n;
    unsigned films = 0;
    while ((n = gateway_take(records, sizeof records, entry, sizeof entry)) == GATEWAY_DONE) {
        print_film(entry);
        free_unnamed(records);
        films++;
    }
    if (n != GATEWAY_QUEUE_EMPTY)
        stop("take", n);
    return films;
}

/* Serves a console that wants one film; false where that was not printed. */
static bool job(uint32_t syntax, uint8_t context, unsigned columns, unsigned rows, unsigned pictures)
{
    struct console console = new_console(syntax, context, PIECE, columns, rows, pictures);
    serve(&console);
    free_unnamed(records);
    unsigned films = print_queue();
    free_console(&console);
    return films == 1;
}

int main(int argc, char **argv)
{
    if (argc != 2 || argv[1][0] == '-') {
        fprintf(stderr, "usage: job NUMBERS (the file in which the next numbers outlive a restart)\n");
        return 2;
    }
    numbers_file = argv[1];
    start();
    bool first = job(GATEWAY_IMPLICIT, 1, 2, 2, 4);
    puts("\nThe power goes and comes back: of the records nothing is left.\n");
    memset(records, 0xEE, sizeof records);
    start();
    bool second = job(GATEWAY_EXPLICIT, 3, 3, 1, 2);
    return first && second ? 0 : 1;
}
