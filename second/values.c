#include "values.h"

#include <string.h>

#include "cover.h"

static const uint8_t SPACE = 0x20;

static void take_off_spaces(struct value *v, enum spaces spaces)
{
    while (spaces != ALL_COUNT && v->length > 0 && v->bytes[v->length - 1] == SPACE)
        v->length--;
    while (spaces == OUTER_DO_NOT && v->length > 0 && v->bytes[0] == SPACE) {
        v->bytes++;
        v->length--;
    }
}

enum presence find_value(const struct part *list, uint32_t tag, enum spaces spaces,
                         struct value *value)
{
    struct element e;
    if (!find(list, tag, &e))
        return ABSENT;
    value->bytes = e.value.bytes + e.value.from;
    value->length = e.value.to - e.value.from;
    value->place = e.value.from;
    take_off_spaces(value, spaces);
    CHECK(value->length == 0 && e.value.to > e.value.from, EMPTY, "text of spaces alone is empty");
    CHECK(value->length == 0, EMPTY, "value without bytes is empty");
    return PRESENT;
}

int word_of(const struct value *value, const char *const *words, int count)
{
    for (int i = 0; i < count; i++)
        if (value->length == strlen(words[i]) && memcmp(value->bytes, words[i], value->length) == 0)
            return i;
    return -1;
}

/* PS3.5: an optional sign and digits, 12 characters at most, from -2^31 to 2^31-1. */
bool integer_of(const struct value *value, int64_t *number)
{
    CHECK(value->length > 12, false, "IS: more than 12 characters");
    size_t at = 0;
    bool negative = value->bytes[0] == '-';
    if (negative || value->bytes[0] == '+') {
        COVER("IS: sign");
        at = 1;
    }
    CHECK(at == value->length, false, "IS: no digits");
    int64_t sum = 0;
    for (; at < value->length; at++) {
        CHECK(value->bytes[at] < '0' || value->bytes[at] > '9', false, "IS: not a digit");
        sum = sum * 10 + (value->bytes[at] - '0');
    }
    *number = negative ? -sum : sum;
    CHECK(*number < INT32_MIN || *number > INT32_MAX, false, "IS: past 32 bits");
    return true;
}

bool short_of(const struct value *value, uint16_t *number)
{
    CHECK(value->length != 2, false, "US: not one number of 2 bytes");
    *number = number_16(value->bytes);
    return true;
}

bool is_label(const struct value *value)
{
    CHECK(value->length > LABEL_MOST, false, "Label: more than 64 characters");
    for (size_t i = 0; i < value->length; i++) {
        uint8_t c = value->bytes[i];
        CHECK(c < 0x20 || c > 0x7E, false, "Label: byte out of 20H to 7EH");
        CHECK(c == '\\', false, "Label: backslash");
    }
    return true;
}

/* 1 to 6, one digit, so without leading zero. */
static bool count_of(uint8_t c, unsigned *count)
{
    if (c < '1' || c > '6')
        return false;
    *count = (unsigned)(c - '0');
    return true;
}

/* Whether a text begins with a word. */
static bool begins(const struct value *value, const char *word)
{
    size_t n = strlen(word);
    return value->length >= n && memcmp(value->bytes, word, n) == 0;
}

/* Numbers 1 to 6 with a comma between two, `most` at most: how many, and their product and sum. */
struct numbers {
    unsigned count;
    unsigned product;
    unsigned sum;
};

static bool numbers_of(const uint8_t *text, size_t length, unsigned most, struct numbers *n)
{
    *n = (struct numbers){ 0, 1, 0 };
    CHECK(length % 2 == 0, false, "Format: no number at the end");
    CHECK(length > 2 * (size_t)most - 1, false, "Format: too many numbers");
    for (size_t i = 0; i < length; i++) {
        unsigned count;
        if (i % 2 == 1) {
            CHECK(text[i] != ',', false, "Format: no comma");
            continue;
        }
        CHECK(!count_of(text[i], &count), false, "Format: a number not 1 to 6");
        n->count++;
        n->product *= count;
        n->sum += count;
    }
    return true;
}

bool format_of(const struct value *value, struct format *format)
{
    static const char standard[] = "STANDARD\\";
    size_t word = strlen(standard);
    struct numbers n;
    if (begins(value, standard)) {
        if (!numbers_of(value->bytes + word, value->length - word, 2, &n))
            return false;
        CHECK(n.count != 2, false, "Format: rows are missing");
        format->boxes = n.product;
    } else {
        /* "Take 1 to 6 numbers, each 1 to 6." */
        CHECK(!begins(value, "ROW\\") && !begins(value, "COL\\"), false, "Format: of another kind");
        word = strlen("ROW\\");
        if (!numbers_of(value->bytes + word, value->length - word, 6, &n))
            return false;
        if (begins(value, "ROW\\"))
            COVER("Format: ROW");
        else
            COVER("Format: COL");
        format->boxes = n.sum;
    }
    memcpy(format->text, value->bytes, value->length);
    format->text[value->length] = 0;
    return true;
}
