/* Shows what stands in a dump, and says what the gateway would do with it: docs/FIELD.md. The exit status is 0 where
 * all was read and nothing failed; 1 where a set was refused, a message dropped or cut off, or a failure answered; 2
 * where the dump cannot be read, the arguments are wrong, or an answer was not explained. */
#include <errno.h>
#include <getopt.h>
#include <stdio.h>
#include <stdlib.h>
#include <string.h>

#include "conversations.h"
#include "learning.h"
#include "traces.h"

enum { AS = 256, ALONE, ROOT_OF, SERIAL, PICTURE, CONTEXT, BUFFER };

static const struct option options[] = {
    { "as", required_argument, NULL, AS },           { "alone", no_argument, NULL, ALONE },
    { "root", required_argument, NULL, ROOT_OF },    { "serial", required_argument, NULL, SERIAL },
    { "picture", required_argument, NULL, PICTURE }, { "context", required_argument, NULL, CONTEXT },
    { "buffer", required_argument, NULL, BUFFER },   { NULL, 0, NULL, 0 },
};

struct arguments {
    enum dump_kind kind;
    enum content content;
    struct wishes wishes;
    const char *file;
};

static _Noreturn void usage(void)
{
    fprintf(stderr, "usage: decode [-i | -e] [-p | -f | -c | -d] [--as binary|hex|rows|escapes|arrays|trace] [--alone] "
                    "[--root ROOT] [--serial N] [--picture N] [--context N] [--buffer N] [FILE]\n");
    exit(2);
}

static uint32_t number_of(const char *word, uint32_t least, uint32_t most)
{
    char *end;
    errno = 0;
    unsigned long long n = strtoull(word, &end, 10);
    if (*word < '0' || *word > '9' || *end != 0 || errno != 0 || n < least || n > most)
        usage();
    return (uint32_t)n;
}

static void heed_long_option(int option, const char *word, struct arguments *a)
{
    switch (option) {
    case AS:
        a->kind = kind_of(word);
        if (a->kind == TOLD_APART)
            usage();
        break;
    case ALONE:
        a->wishes.alone = true;
        break;
    case ROOT_OF:
        a->wishes.root = word;
        break;
    case SERIAL:
        a->wishes.serial = number_of(word, 1, UINT32_MAX);
        break;
    case PICTURE:
        a->wishes.picture = number_of(word, 1, UINT32_MAX);
        break;
    case CONTEXT:
        a->wishes.context = number_of(word, 1, 255);
        break;
    case BUFFER:
        a->wishes.buffer = number_of(word, GATEWAY_MESSAGE_LEAST, GATEWAY_MESSAGE_MOST);
        break;
    default:
        usage();
    }
}

static void heed_option(int option, const char *word, struct arguments *a)
{
    switch (option) {
    case 'i':
        a->wishes.syntax = GATEWAY_IMPLICIT;
        break;
    case 'e':
        a->wishes.syntax = GATEWAY_EXPLICIT;
        break;
    case 'p':
        a->content = PDUS;
        break;
    case 'f':
        a->content = FRAGMENTS;
        break;
    case 'c':
        a->content = COMMAND_SET;
        break;
    case 'd':
        a->content = DATA_SET;
        break;
    default:
        heed_long_option(option, word, a);
    }
}

static bool is_root(const char *root)
{
    struct uid uid;
    return root == NULL ||
           (strlen(root) <= GATEWAY_ROOT_MOST && uid_of_value((const uint8_t *)root, strlen(root), &uid));
}

static struct arguments read_arguments(int argc, char **argv)
{
    struct arguments a = { .wishes.buffer = GATEWAY_MESSAGE_MOST };
    opterr = 0;
    for (int option; (option = getopt_long(argc, argv, "iepfcd", options, NULL)) != -1;)
        heed_option(option, optarg, &a);
    if (argc - optind > 1 || !is_root(a.wishes.root))
        usage();
    a.file = optind < argc ? argv[optind] : NULL;
    return a;
}

/* A bare data set meets no request: it is read alone. */
static enum outcome decode_data_set(const struct dump *d, uint32_t given)
{
    uint32_t guess = guess_set_syntax(d->bytes.bytes, d->bytes.n);
    uint32_t syntax = given != 0 ? given : guess != 0 ? guess : GATEWAY_IMPLICIT;
    struct pieces set = new_pieces(d->bytes.n + 1);
    put_piece(&set, d->bytes.bytes, d->bytes.n, d->first);
    if (given == 0)
        printf("%s VR, guessed: %s VR stands behind the first tag\n",
               syntax == GATEWAY_EXPLICIT ? "explicit" : "implicit", syntax == GATEWAY_EXPLICIT ? "a" : "no");
    enum outcome outcome = show_read("data set", &set, syntax);
    if (outcome == FAILED)
        puts("gateway: 0110H, check 5, for a request that it comes with, unless an earlier check applies (rule 6.5)");
    free_pieces(&set);
    return outcome;
}

int main(int argc, char **argv)
{
    struct arguments a = read_arguments(argc, argv);
    struct dump d = read_dump(a.file, a.kind);
    if (d.bytes.n == 0 && a.content != COMMAND_SET && a.content != DATA_SET)
        stop("%s: no bytes", d.name);
    struct capture c = d.kind == TRACE ? split_trace(&d) : split_dump(&d, a.content);
    printf("dump: %zu bytes, %s; %s%s%s\n", d.bytes.n, kind_text(d.kind), content_text(c.content),
           c.why == NULL ? "" : ": ", c.why == NULL ? "" : c.why);
    enum outcome outcome = c.content == DATA_SET ? decode_data_set(&d, a.wishes.syntax) : go_through(&c, &a.wishes);
    free_capture(&c);
    free_data_set(&d.bytes);
    return outcome;
}
