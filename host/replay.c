/* Speaks the trace protocol over the archive: one call a line on standard input, one reply a line on standard output.
 *
 *   start ROOTHEX|- SERIAL PICTURE    open CONTEXT SYNTAX LENGTH    feed HEX|-    close    take
 *
 * A reply is out before the next line is read, wherever it goes to: programs talk to this one over pipes. A line that is
 * no call ends the program with status 2. */
#include <errno.h>
#include <stdint.h>
#include <stdio.h>
#include <stdlib.h>
#include <string.h>

#include "../include/gateway.h"
#include "data_sets.h"
#include "hex.h"

struct bytes {
    uint8_t *at;
    size_t length;
};

/* What the host keeps from call to call. */
static uint8_t records[GATEWAY_RECORDS];
static struct bytes message;

static _Noreturn void no_call(const char *why)
{
    fprintf(stderr, "replay: %s\n", why);
    exit(2);
}

static uint8_t *room_for(size_t length)
{
    uint8_t *at = calloc(length ? length : 1, 1);
    if (!at)
        no_call("no memory");
    return at;
}

/* The bytes of a word in hexadecimal; - is none. The caller frees them. */
static struct bytes from_hex(const char *word)
{
    if (!word)
        no_call("too few words");
    if (strcmp(word, "-") == 0)
        word = "";
    struct bytes b = { room_for(strlen(word) / 2), strlen(word) / 2 };
    if (strlen(word) % 2 || !hex_bytes(word, b.at))
        no_call("a word that is not hexadecimal");
    return b;
}

static void put_hex(const uint8_t *at, size_t length)
{
    static const char digits[] = "0123456789abcdef";
    if (length == 0)
        putchar('-');
    for (size_t i = 0; i < length; i++) {
        putchar(digits[at[i] >> 4]);
        putchar(digits[at[i] & 15]);
    }
}

static uint64_t number(const char *word, uint64_t most)
{
    if (!word || *word < '0' || *word > '9')
        no_call("a word that is no number");
    char *end;
    errno = 0;
    unsigned long long n = strtoull(word, &end, 10);
    if (*end || errno || n > most)
        no_call("a word that is no number");
    return n;
}

static char *next_word(void)
{
    return strtok(NULL, " ");
}

static void put_number_returned(uint32_t n)
{
    if (n == GATEWAY_DONE)
        puts("done");
    else
        printf("refused %u\n", (unsigned)n);
}

static void call_start(void)
{
    struct bytes root = from_hex(next_word());
    uint32_t serial = (uint32_t)number(next_word(), UINT32_MAX);
    uint32_t picture = (uint32_t)number(next_word(), UINT32_MAX);
    put_number_returned(gateway_start(records, sizeof records, root.at, root.length, serial, picture));
    free(root.at);
}

/* A message buffer past the limit is lent one byte too long: any such length is refused alike. */
static void call_open(void)
{
    uint32_t context = (uint32_t)number(next_word(), UINT32_MAX);
    uint32_t syntax = (uint32_t)number(next_word(), UINT32_MAX);
    uint64_t length = number(next_word(), UINT64_MAX);
    if (length > GATEWAY_MESSAGE_MOST)
        length = GATEWAY_MESSAGE_MOST + 1;
    struct bytes lent = { room_for((size_t)length), (size_t)length };
    uint32_t n = gateway_open(records, sizeof records, lent.at, lent.length, context, syntax);
    if (n == GATEWAY_DONE) {
        free(message.at);
        message = lent;
    } else {
        free(lent.at);
    }
    put_number_returned(n);
}

static void put_response(const uint8_t *command, const uint8_t *data, const uint8_t *report)
{
    printf("response %04x ", (unsigned)number_at(report + GATEWAY_REPORT_STATUS, 2));
    put_hex(command, number_at(report + GATEWAY_REPORT_COMMAND, 2));
    putchar(' ');
    put_hex(data, number_at(report + GATEWAY_REPORT_DATA, 2));
    switch (number_at(report + GATEWAY_REPORT_NOTE, 2)) {
    case GATEWAY_NOTE_NONE:
        puts(" none");
        break;
    case GATEWAY_NOTE_QUEUED:
        printf(" queued %u\n", (unsigned)number_at(report + GATEWAY_REPORT_FILMS, 4));
        break;
    case GATEWAY_NOTE_PICTURE:
        printf(" picture %u %u %u\n", (unsigned)number_at(report + GATEWAY_REPORT_PICTURE, 4),
               (unsigned)number_at(report + GATEWAY_REPORT_PLACE, 4),
               (unsigned)number_at(report + GATEWAY_REPORT_LENGTH, 4));
        break;
    case GATEWAY_NOTE_STOPPED:
        printf(" stopped %u %u %u\n", (unsigned)number_at(report + GATEWAY_REPORT_REFUSAL, 4),
               (unsigned)number_at(report + GATEWAY_REPORT_STOP, 4),
               (unsigned)number_at(report + GATEWAY_REPORT_DEPTH, 4));
        break;
    default:
        puts(" another note");
    }
}

static void call_feed(void)
{
    uint8_t command[GATEWAY_COMMAND], data[GATEWAY_DATA], report[GATEWAY_REPORT];
    struct bytes fragment = from_hex(next_word());
    uint32_t n = gateway_feed(records, sizeof records, message.at, message.length, fragment.at, fragment.length,
                              command, sizeof command, data, sizeof data, report, sizeof report);
    free(fragment.at);
    switch (n) {
    case GATEWAY_WAIT:
        puts("wait");
        break;
    case GATEWAY_DROPPED:
        puts("dropped");
        break;
    case GATEWAY_IGNORED:
        puts("ignored");
        break;
    case GATEWAY_RESPONSE:
        put_response(command, data, report);
        break;
    default:
        put_number_returned(n);
    }
}

static void call_take(void)
{
    uint8_t entry[GATEWAY_ENTRY];
    uint32_t n = gateway_take(records, sizeof records, entry, sizeof entry);
    if (n != GATEWAY_DONE) {
        put_number_returned(n);
        return;
    }
    fputs("entry ", stdout);
    put_hex(entry, sizeof entry);
    putchar('\n');
}

static void call(char *line)
{
    char *word = strtok(line, " ");
    if (!word)
        no_call("an empty line");
    if (strcmp(word, "start") == 0)
        call_start();
    else if (strcmp(word, "open") == 0)
        call_open();
    else if (strcmp(word, "feed") == 0)
        call_feed();
    else if (strcmp(word, "close") == 0)
        put_number_returned(gateway_close(records, sizeof records));
    else if (strcmp(word, "take") == 0)
        call_take();
    else
        no_call("an unknown call");
    if (next_word())
        no_call("too many words");
}

int main(int argc, char **argv)
{
    if (argc != 1) {
        fprintf(stderr, "usage: %s (without arguments: calls are read from standard input, a line each)\n", argv[0]);
        return 2;
    }
    char *line = NULL;
    size_t room = 0;
    ssize_t length;
    message = (struct bytes){ room_for(GATEWAY_MESSAGE_LEAST), GATEWAY_MESSAGE_LEAST };
    while ((length = getline(&line, &room, stdin)) > 0) {
        if (line[length - 1] == '\n')
            line[length - 1] = 0;
        call(line);
        fflush(stdout);
    }
    free(line);
    free(message.at);
    return 0;
}
