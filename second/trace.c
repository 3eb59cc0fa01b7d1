/* The second program: the rules once more. One call a line on standard input, one reply a line
   on standard output (tests/traces/README.md). With --dump the records follow the last reply, each
   of their lines after a bar. */
#include <inttypes.h>
#include <stdio.h>
#include <stdlib.h>
#include <string.h>

#include "calls.h"
#include "cover.h"

static void give_up(const char *why)
{
    fprintf(stderr, "bad trace: %s\n", why);
    exit(2);
}

static void *need(void *memory)
{
    if (memory == NULL)
        give_up("no memory");
    return memory;
}

/* The next line without its end; false after the last. The buffer grows as needed. */
static bool next_line(char **line, size_t *room)
{
    size_t length = 0;
    for (;;) {
        if (*room - length < 2) {
            *room = *room * 2 + 4096;
            *line = need(realloc(*line, *room));
        }
        size_t most = *room - length > 1 << 20 ? 1 << 20 : *room - length;
        if (fgets(*line + length, (int)most, stdin) == NULL)
            return length > 0;
        length += strlen(*line + length);
        if (length > 0 && (*line)[length - 1] == '\n') {
            (*line)[length - 1] = 0;
            return true;
        }
    }
}

/* The next word of the line, parted by single spaces; an end is no word. */
static char *next_word(char **rest)
{
    char *word = *rest;
    if (word == NULL || *word == 0)
        give_up("a word is missing");
    char *end = strchr(word, ' ');
    if (end != NULL)
        *end++ = 0;
    *rest = end;
    return word;
}

static uint64_t next_number(char **rest, uint64_t most)
{
    const char *word = next_word(rest);
    uint64_t number = 0;
    for (; *word != 0; word++) {
        if (*word < '0' || *word > '9')
            give_up("not a number");
        number = number * 10 + (uint64_t)(*word - '0');
        if (number > most)
            give_up("number too wide for the call");
    }
    return number;
}

static uint8_t digit_of(char c)
{
    if (c >= '0' && c <= '9')
        return (uint8_t)(c - '0');
    if (c >= 'a' && c <= 'f')
        return (uint8_t)(c - 'a' + 10);
    give_up("not lower-case hex");
    return 0;
}

/* HEX or -, in memory of exactly its size. */
static uint8_t *next_hex(char **rest, size_t *length)
{
    const char *word = next_word(rest);
    size_t digits = strcmp(word, "-") == 0 ? 0 : strlen(word);
    if (digits % 2 == 1)
        give_up("half a byte");
    *length = digits / 2;
    uint8_t *bytes = need(malloc(*length > 0 ? *length : 1));
    for (size_t i = 0; i < *length; i++)
        bytes[i] = (uint8_t)(digit_of(word[2 * i]) << 4 | digit_of(word[2 * i + 1]));
    return bytes;
}

static void put_hex(const uint8_t *bytes, size_t length)
{
    static const char digits[] = "0123456789abcdef";
    for (size_t i = 0; i < length; i++) {
        putchar(digits[bytes[i] >> 4]);
        putchar(digits[bytes[i] & 15]);
    }
    if (length == 0)
        putchar('-');
}

static void reply_done(int refusal)
{
    if (refusal == 0)
        puts("done");
    else
        printf("refused %d\n", refusal);
}

static void put_note(const char *name, const uint32_t numbers[3])
{
    printf(" %s %" PRIu32 " %" PRIu32 " %" PRIu32 "\n", name, numbers[0], numbers[1], numbers[2]);
}

static void reply_response(const struct response *r)
{
    printf("response %04x ", (unsigned)r->status);
    put_hex(r->command, r->command_length);
    putchar(' ');
    put_hex(r->data, r->data_length);
    switch (r->note) {
    case NO_NOTE: puts(" none"); break;
    case FILMS_QUEUED: printf(" queued %" PRIu32 "\n", r->note_numbers[0]); break;
    case PICTURE: put_note("picture", r->note_numbers); break;
    case READING_STOPPED: put_note("stopped", r->note_numbers); break;
    }
}

static void do_start(struct gateway *g, char *rest)
{
    size_t length;
    uint8_t *root = next_hex(&rest, &length);
    uint32_t serial = (uint32_t)next_number(&rest, UINT32_MAX);
    uint32_t picture = (uint32_t)next_number(&rest, UINT32_MAX);
    reply_done(call_start(g, root, length, serial, picture));
    free(root);
}

static void do_open(struct gateway *g, char *rest)
{
    uint32_t context = (uint32_t)next_number(&rest, UINT32_MAX);
    uint32_t syntax = (uint32_t)next_number(&rest, UINT32_MAX);
    size_t length = (size_t)next_number(&rest, SIZE_MAX / 16);
    reply_done(call_open(g, context, syntax, length));
}

static void do_feed(struct gateway *g, char *rest)
{
    size_t length;
    uint8_t *bytes = next_hex(&rest, &length);
    enum answer answer;
    struct response response;
    int refusal = call_feed(g, bytes, length, &answer, &response);
    free(bytes);
    if (refusal != 0) {
        reply_done(refusal);
        return;
    }
    switch (answer) {
    case WAIT: puts("wait"); break;
    case DROPPED: puts("dropped"); break;
    case IGNORED: puts("ignored"); break;
    case RESPONSE: reply_response(&response); break;
    }
}

static void do_take(struct gateway *g)
{
    uint8_t entry[ENTRY_BYTES];
    int refusal = call_take(g, entry);
    if (refusal != 0) {
        reply_done(refusal);
        return;
    }
    printf("entry ");
    put_hex(entry, sizeof entry);
    putchar('\n');
}

static void do_line(struct gateway *g, char *line)
{
    char *rest = line;
    const char *call = next_word(&rest);
    if (strcmp(call, "feed") == 0)
        do_feed(g, rest);
    else if (strcmp(call, "take") == 0)
        do_take(g);
    else if (strcmp(call, "open") == 0)
        do_open(g, rest);
    else if (strcmp(call, "close") == 0)
        reply_done(call_close(g));
    else if (strcmp(call, "start") == 0)
        do_start(g, rest);
    else
        give_up("unknown call");
}

int main(int argc, char **argv)
{
    bool dump = argc == 2 && strcmp(argv[1], "--dump") == 0;
    struct gateway *g = need(calloc(1, sizeof *g));
    char *line = NULL;
    size_t room = 0;
    if (argc > 1 && !dump)
        give_up("usage: second [--dump] < TRACE");
    while (next_line(&line, &room)) {
        do_line(g, line);
        fflush(stdout);
    }
    if (dump)
        dump_records(&g->records);
    cover_print();
    free(line);
    free_gateway(g);
    free(g);
    return 0;
}
