#include "traced.h"

#include <stdio.h>
#include <stdlib.h>
#include <string.h>

#include "../../host/hex.h"

uint8_t records[GATEWAY_RECORDS], message[GATEWAY_MESSAGE_MOST];
size_t message_length = GATEWAY_MESSAGE_LEAST;

uint32_t own_feed(const uint8_t *fragment, size_t size)
{
    static uint8_t command[GATEWAY_COMMAND], data[GATEWAY_DATA], report[GATEWAY_REPORT];
    return gateway_feed(records, sizeof records, message, message_length, fragment, size, command, sizeof command, data,
                        sizeof data, report, sizeof report);
}

static unsigned long number(void)
{
    char *word = strtok(NULL, " ");
    return word == NULL ? 0 : strtoul(word, NULL, 10);
}

static size_t bytes_of(const char *word, uint8_t *bytes, size_t room)
{
    if (word == NULL || strcmp(word, "-") == 0)
        return 0;
    if (strlen(word) / 2 > room || !hex_bytes(word, bytes)) {
        fprintf(stderr, "traced: a word of a trace is not hexadecimal, or too long\n");
        exit(2);
    }
    return strlen(word) / 2;
}

static void trace_start(void)
{
    uint8_t root[256];
    size_t n = bytes_of(strtok(NULL, " "), root, sizeof root);
    uint32_t serial = (uint32_t)number();
    gateway_start(records, sizeof records, root, n, serial, (uint32_t)number());
}

static void trace_open(void)
{
    uint32_t context = (uint32_t)number(), syntax = (uint32_t)number();
    size_t length = number();
    if (length <= GATEWAY_MESSAGE_MOST &&
        gateway_open(records, sizeof records, message, length, context, syntax) == GATEWAY_DONE)
        message_length = length;
}

static void trace_feed(void (*before_feed)(const uint8_t *, size_t))
{
    static uint8_t fragment[1 << 20];
    size_t size = bytes_of(strtok(NULL, " "), fragment, sizeof fragment);
    before_feed(fragment, size);
    own_feed(fragment, size);
}

static void trace_call(char *line, void (*before_feed)(const uint8_t *, size_t))
{
    uint8_t entry[GATEWAY_ENTRY];
    const char *word = strtok(line, " ");
    if (strcmp(word, "start") == 0)
        trace_start();
    else if (strcmp(word, "open") == 0)
        trace_open();
    else if (strcmp(word, "feed") == 0)
        trace_feed(before_feed);
    else if (strcmp(word, "close") == 0)
        gateway_close(records, sizeof records);
    else
        gateway_take(records, sizeof records, entry, sizeof entry);
}

void make_trace(const char *path, void (*before_feed)(const uint8_t *, size_t))
{
    char *line = NULL;
    size_t room = 0;
    ssize_t length;
    FILE *file = fopen(path, "r");
    if (file == NULL) {
        perror(path);
        exit(2);
    }
    memset(records, 0, sizeof records);
    message_length = GATEWAY_MESSAGE_LEAST;
    while ((length = getline(&line, &room, file)) > 0) {
        line[strcspn(line, "\n")] = 0;
        trace_call(line, before_feed);
    }
    free(line);
    fclose(file);
}
