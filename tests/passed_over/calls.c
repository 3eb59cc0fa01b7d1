/* Makes the calls that are read, a line each: `open SYNTAX` starts anew; `wait FRAGMENT` is fed, and more is waited
 * for; `done FRAGMENT DATASET` is fed and answered 0000H, and the data set lies in the message buffer; `keep` keeps the
 * records, and `same` compares them. */
#include <stdio.h>
#include <stdlib.h>
#include <string.h>

#include "../../host/data_sets.h"
#include "../../host/hex.h"
#include "../../include/gateway.h"

enum { LINE = 16384, ROOM = GATEWAY_MESSAGE_LEAST };

static uint8_t records[GATEWAY_RECORDS], kept[GATEWAY_RECORDS], message[ROOM];
static uint8_t command[GATEWAY_COMMAND], data[GATEWAY_DATA], report[GATEWAY_REPORT];
static unsigned long line, passed;

static _Noreturn void fail(const char *why)
{
    fprintf(stderr, "passed over: line %lu: %s\n", line, why);
    exit(1);
}

static void expect(bool holds, const char *why)
{
    if (!holds)
        fail(why);
}

static size_t bytes_of(const char *word, uint8_t *bytes)
{
    expect(word != NULL && hex_bytes(word, bytes), "no bytes");
    return strlen(word) / 2;
}

static void open_anew(uint32_t syntax)
{
    memset(message, 0x5A, sizeof message);
    expect(gateway_start(records, sizeof records, (const uint8_t *)"1.9.7", 5, 1, 1) == GATEWAY_DONE, "start");
    expect(gateway_open(records, sizeof records, message, sizeof message, 1, syntax) == GATEWAY_DONE, "open");
}

static void feed(const char *word, uint32_t due)
{
    uint8_t fragment[LINE];
    size_t length = bytes_of(word, fragment);
    expect(gateway_feed(records, sizeof records, message, sizeof message, fragment, length, command, sizeof command,
                        data, sizeof data, report, sizeof report) == due,
           "feed returns another number");
}

static void judge(const char *word)
{
    uint8_t sent[LINE];
    size_t length = bytes_of(word, sent);
    expect(number_at(report + GATEWAY_REPORT_STATUS, 2) == 0, "the status is not 0000H");
    expect(memcmp(message, sent, length) == 0, "the data set does not lie in the message buffer");
}

static void compare(void)
{
    expect(memcmp(kept, records, sizeof kept) == 0, "the records are not as without the attribute");
    passed++;
}

static void obey(const char *word, const char *first, const char *second)
{
    if (strcmp(word, "open") == 0)
        open_anew(strcmp(first, "1") == 0 ? GATEWAY_IMPLICIT : GATEWAY_EXPLICIT);
    else if (strcmp(word, "wait") == 0)
        feed(first, GATEWAY_WAIT);
    else if (strcmp(word, "keep") == 0)
        memcpy(kept, records, sizeof kept);
    else if (strcmp(word, "same") == 0)
        compare();
    else {
        feed(first, GATEWAY_RESPONSE);
        judge(second);
    }
}

int main(void)
{
    static char text[LINE];
    while (fgets(text, sizeof text, stdin) != NULL) {
        const char *word = strtok(text, " \n"), *first = strtok(NULL, " \n"), *second = strtok(NULL, " \n");
        line++;
        expect(word != NULL, "an empty line");
        obey(word, first, second);
    }
    printf("%lu passed, 0 failed\n", passed);
    return passed == 0;
}
