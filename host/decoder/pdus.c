#include "pdus.h"

#include <stdio.h>
#include <string.h>

#include "../../include/gateway.h"
#include "captures.h"
#include "names.h"

enum { TITLE = 16, CALLED_AT = 4, CALLING_AT = 20, ITEM_HEADER = 4 };
enum { CONTEXT_PROPOSED = 0x20, CONTEXT_ANSWERED = 0x21, ABSTRACT_SYNTAX = 0x30, TRANSFER_SYNTAX = 0x40 };

static const char *const types[] = { "",          "A-ASSOCIATE-RQ", "A-ASSOCIATE-AC", "A-ASSOCIATE-RJ",
                                     "P-DATA-TF", "A-RELEASE-RQ",   "A-RELEASE-RP",   "A-ABORT" };

/* An item of an associate PDU: its type, and the bytes that it holds. */
struct item {
    uint8_t type;
    const uint8_t *bytes;
    size_t n;
};

/* The next of some items; false at their end, or where the last is cut short. */
static bool next_item(const uint8_t **p, size_t *left, struct item *item)
{
    if (*left < ITEM_HEADER)
        return false;
    *item = (struct item){ (*p)[0], *p + ITEM_HEADER, big_endian(*p + 2, 2) };
    if (item->n > *left - ITEM_HEADER) {
        printf("  an item is cut short\n");
        return false;
    }
    *p += ITEM_HEADER + item->n;
    *left -= ITEM_HEADER + item->n;
    return true;
}

static void show_uid(const struct item *item)
{
    size_t n = item->n > 0 && item->bytes[item->n - 1] == 0 ? item->n - 1 : item->n;
    const char *name = uid_name(item->bytes, n);
    printf(" %.*s", (int)n, (const char *)item->bytes);
    if (name != NULL)
        printf(" %s", name);
}

static uint8_t syntax_of(const struct item *item)
{
    static const char implicit[] = "1.2.840.10008.1.2", explicit[] = "1.2.840.10008.1.2.1";
    size_t n = item->n > 0 && item->bytes[item->n - 1] == 0 ? item->n - 1 : item->n;
    if (n == strlen(implicit) && memcmp(item->bytes, implicit, n) == 0)
        return GATEWAY_IMPLICIT;
    if (n == strlen(explicit) && memcmp(item->bytes, explicit, n) == 0)
        return GATEWAY_EXPLICIT;
    return ANOTHER_SYNTAX;
}

/* A context's abstract syntax and transfer syntaxes; what it says of the latter. */
static uint8_t show_syntaxes(const uint8_t *p, size_t left)
{
    struct item item;
    uint8_t said = 0;
    while (next_item(&p, &left, &item)) {
        if (item.type == ABSTRACT_SYNTAX)
            show_uid(&item);
        if (item.type != TRANSFER_SYNTAX)
            continue;
        printf(",");
        show_uid(&item);
        said = said == 0 ? syntax_of(&item) : SEVERAL_SYNTAXES;
    }
    return said;
}

static void show_context(const struct item *item, struct association *a)
{
    static const char *const results[] = { "accepted", "rejected by the user", "no reason", "abstract syntax not known",
                                           "transfer syntaxes not known" };
    if (item->n < 4)
        return;
    uint8_t number = item->bytes[0], result = item->bytes[2];
    printf("  context %u:", number);
    if (item->type == CONTEXT_PROPOSED)
        a->proposed[number] = show_syntaxes(item->bytes + 4, item->n - 4);
    else
        printf(" %s", result < sizeof results / sizeof *results ? results[result] : "another result");
    if (item->type == CONTEXT_ANSWERED && result == 0)
        a->accepted[number] = show_syntaxes(item->bytes + 4, item->n - 4);
    putchar('\n');
}

static void show_title(const uint8_t *title)
{
    size_t n = TITLE;
    while (n > 0 && (title[n - 1] == ' ' || title[n - 1] == 0))
        n--;
    putchar('"');
    for (size_t i = 0; i < n; i++)
        putchar(title[i] >= ' ' && title[i] <= '~' ? title[i] : '?');
    putchar('"');
}

static void show_associate(const uint8_t *p, size_t left, struct association *a)
{
    struct item item;
    if (left < ASSOCIATE_LEAST) {
        puts("");
        return;
    }
    printf(", called ");
    show_title(p + CALLED_AT);
    printf(", calling ");
    show_title(p + CALLING_AT);
    putchar('\n');
    p += ASSOCIATE_LEAST;
    left -= ASSOCIATE_LEAST;
    while (next_item(&p, &left, &item))
        if (item.type == CONTEXT_PROPOSED || item.type == CONTEXT_ANSWERED)
            show_context(&item, a);
}

void show_pdu(const uint8_t *pdu, size_t n, size_t dump_at, struct association *a)
{
    uint8_t type = pdu[0];
    printf("%s at %zXH, %zu bytes", types[type], dump_at, n);
    if (type == A_ASSOCIATE_RQ)
        *a = (struct association){ { 0 }, { 0 } };
    if (type == A_ASSOCIATE_RQ || type == A_ASSOCIATE_AC)
        show_associate(pdu + PDU_HEADER, n - PDU_HEADER, a);
    else if (type == A_ASSOCIATE_RJ)
        printf(", result %u, source %u, reason %u\n", pdu[7], pdu[8], pdu[9]);
    else if (type == A_ABORT)
        printf(", source %u, reason %u\n", pdu[8], pdu[9]);
    else
        putchar('\n');
}
