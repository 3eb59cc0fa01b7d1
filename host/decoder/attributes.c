#include "attributes.h"

#include <inttypes.h>
#include <stdarg.h>
#include <stdio.h>
#include <string.h>

#include "../data_sets.h"

enum { MISSING = 0x0120, EMPTY = 0x0121, NOT_ALLOWED = 0x0106 };

#define SESSION_CLASS "1.2.840.10008.5.1.1.1"

/* Faults. */

/* "any mandatory attribute missing 0120H; else any empty 0121H; else any value not allowed 0106H" */
static bool is_worse(uint32_t status, uint32_t than)
{
    return than == 0 || status == MISSING || (status == EMPTY && than == NOT_ALLOWED);
}

static void find_fault(struct findings *f, uint32_t status, const char *format, ...)
{
    va_list arguments;
    if (is_worse(status, f->status))
        f->status = status;
    if (f->count == REASONS_MOST)
        return;
    struct fault *fault = &f->faults[f->count++];
    fault->status = status;
    va_start(arguments, format);
    vsnprintf(fault->text, sizeof fault->text, format, arguments);
    va_end(arguments);
}

/* An attribute's name and tag. */
struct named_text {
    char text[96];
};

static struct named_text name(uint32_t tag)
{
    struct named_text n;
    snprintf(n.text, sizeof n.text, "%s (%04X,%04X)", named_tag(tag)->name, (unsigned)(tag >> 16),
             (unsigned)(tag & 0xFFFF));
    return n;
}

/* Values. */

struct value {
    const uint8_t *bytes;
    size_t length;
};

/* Rule 7.12: leading and trailing spaces do not count. */
static struct value trimmed(struct value v)
{
    while (v.length > 0 && v.bytes[v.length - 1] == ' ')
        v.length--;
    while (v.length > 0 && v.bytes[0] == ' ') {
        v.bytes++;
        v.length--;
    }
    return v;
}

/* An attribute, and by which rule it is judged. */
struct attribute {
    uint32_t tag;
    bool mandatory;
    const char *rule;
};

/* The value of an attribute, as it stands; false where there is none to judge. A text of spaces is empty. */
static bool given(const struct list *l, const struct attribute *a, bool text, struct value *v, struct findings *f)
{
    const struct header *h = find_header(l, a->tag);
    if (h == NULL) {
        if (a->mandatory)
            find_fault(f, MISSING, "%s is missing (rule %s)", name(a->tag).text, a->rule);
        return false;
    }
    *v = (struct value){ value_of(l, h), h->length };
    bool empty = text ? trimmed(*v).length == 0 : v->length == 0;
    if (empty && a->mandatory)
        find_fault(f, EMPTY, "%s is empty (rule %s)", name(a->tag).text, a->rule);
    return !empty;
}

static bool is_word(struct value v, const char *word)
{
    return v.length == strlen(word) && memcmp(v.bytes, word, v.length) == 0;
}

/* A CS of one of some words; NULL ends them. */
static void judge_code(const struct list *l, struct attribute a, const char *const *words, struct findings *f)
{
    struct value v;
    char allowed[96] = "";
    if (!given(l, &a, true, &v, f))
        return;
    for (size_t i = 0; words[i] != NULL; i++) {
        if (is_word(trimmed(v), words[i]))
            return;
        snprintf(allowed + strlen(allowed), sizeof allowed - strlen(allowed), "%s%s", i == 0 ? "" : ", ", words[i]);
    }
    find_fault(f, NOT_ALLOWED, "%s %s is none of %s (rule %s)", name(a.tag).text, quote(v.bytes, v.length).text,
               allowed, a.rule);
}

/* A US; false where there is none of two bytes. */
static bool judge_number(const struct list *l, struct attribute a, uint32_t *number, struct findings *f)
{
    struct value v;
    if (!given(l, &a, false, &v, f))
        return false;
    if (v.length != 2) {
        find_fault(f, NOT_ALLOWED, "%s has %zu bytes, not 2 (rule %s)", name(a.tag).text, v.length, a.rule);
        return false;
    }
    *number = (uint32_t)number_at(v.bytes, 2);
    return true;
}

static bool judge_range(const struct list *l, struct attribute a, uint32_t least, uint32_t most, uint32_t *number,
                        struct findings *f)
{
    if (!judge_number(l, a, number, f))
        return false;
    if (*number >= least && *number <= most)
        return true;
    if (least == most)
        find_fault(f, NOT_ALLOWED, "%s %u is not %u (rule %s)", name(a.tag).text, (unsigned)*number, (unsigned)least,
                   a.rule);
    else
        find_fault(f, NOT_ALLOWED, "%s %u is not %u to %u (rule %s)", name(a.tag).text, (unsigned)*number,
                   (unsigned)least, (unsigned)most, a.rule);
    return false;
}

/* Session. */

/* Rule 7.13: at most 12 characters, a plus or none, and digits. */
static bool is_count(struct value v, unsigned long most)
{
    unsigned long number = 0;
    if (v.length > 12)
        return false;
    size_t i = v.bytes[0] == '+' ? 1 : 0;
    if (i == v.length)
        return false;
    for (; i < v.length; i++) {
        if (v.bytes[i] < '0' || v.bytes[i] > '9')
            return false;
        number = number * 10 + (unsigned long)(v.bytes[i] - '0');
    }
    return number >= 1 && number <= most;
}

static void judge_copies(const struct list *l, struct findings *f)
{
    struct attribute copies = { 0x20000010, false, "7.1" };
    struct value v;
    if (given(l, &copies, true, &v, f) && !is_count(trimmed(v), 99))
        find_fault(f, NOT_ALLOWED, "%s %s is not 1 to 99 (rule 7.1)", name(copies.tag).text,
                   quote(v.bytes, v.length).text);
}

static void judge_label(const struct list *l, struct findings *f)
{
    struct attribute label = { 0x20000050, false, "7.1" };
    struct value v;
    if (!given(l, &label, true, &v, f))
        return;
    v = trimmed(v);
    if (v.length > 64)
        find_fault(f, NOT_ALLOWED, "%s has %zu characters, at most 64 are allowed (rule 7.1)", name(label.tag).text,
                   v.length);
    for (size_t i = 0; i < v.length; i++) {
        if (v.bytes[i] >= 0x20 && v.bytes[i] <= 0x7E && v.bytes[i] != '\\')
            continue;
        find_fault(f, NOT_ALLOWED, "%s has the byte %02XH, which is not 20H to 7EH without backslash (rule 7.13)",
                   name(label.tag).text, v.bytes[i]);
        return;
    }
}

void judge_session(const struct list *l, struct findings *f)
{
    judge_copies(l, f);
    judge_code(l, (struct attribute){ 0x20000020, false, "7.1" }, (const char *[]){ "LOW", "MED", "HIGH", NULL }, f);
    judge_code(l, (struct attribute){ 0x20000030, false, "7.1" },
               (const char *[]){ "PAPER", "CLEAR FILM", "BLUE FILM", NULL }, f);
    judge_code(l, (struct attribute){ 0x20000040, false, "7.1" }, (const char *[]){ "MAGAZINE", "PROCESSOR", NULL }, f);
    judge_label(l, f);
}

/* Film. */

static bool begins(struct value v, const char *word)
{
    return v.length >= strlen(word) && memcmp(v.bytes, word, strlen(word)) == 0;
}

/* Numbers of one digit, 1 to 6, with a comma between two: how many, their product and their sum; none where it is not
   so. */
struct numbers {
    size_t count, product, sum;
};

static struct numbers numbers_of(const uint8_t *text, size_t length)
{
    struct numbers n = { 0, 1, 0 };
    if (length % 2 == 0)
        return (struct numbers){ 0, 0, 0 };
    for (size_t i = 0; i < length; i++) {
        size_t digit = (size_t)text[i] - '0';
        if (i % 2 == 1 ? text[i] != ',' : text[i] < '1' || text[i] > '6')
            return (struct numbers){ 0, 0, 0 };
        if (i % 2 == 1)
            continue;
        n = (struct numbers){ n.count + 1, n.product * digit, n.sum + digit };
    }
    return n;
}

/* How many boxes a format has; 0 where it is not allowed. Trailing spaces do not count, leading ones do. */
static size_t boxes_of(struct value v)
{
    while (v.length > 0 && v.bytes[v.length - 1] == ' ')
        v.length--;
    bool standard = begins(v, "STANDARD\\");
    if (!standard && !begins(v, "ROW\\") && !begins(v, "COL\\"))
        return 0;
    size_t word = strlen(standard ? "STANDARD\\" : "ROW\\");
    struct numbers n = numbers_of(v.bytes + word, v.length - word);
    if (standard)
        return n.count == 2 ? n.product : 0;
    return n.count <= 6 ? n.sum : 0;
}

static void judge_format(const struct list *l, struct findings *f)
{
    struct attribute format = { 0x20100010, true, "7.2" };
    struct value v;
    if (!given(l, &format, true, &v, f))
        return;
    f->boxes = boxes_of(v);
    if (f->boxes == 0)
        find_fault(f, NOT_ALLOWED,
                   "%s %s is not STANDARD\\C,R with C and R 1 to 6, nor ROW\\ or COL\\ with 1 to 6 numbers 1 to 6 "
                   "(rule 7.2)",
                   name(format.tag).text, quote(v.bytes, v.length).text);
}

/* A UID that must be this one; NULL where none would do. */
static void judge_uid(const struct list *l, uint32_t tag, const char *wanted, const char *called, struct findings *f)
{
    struct attribute a = { tag, true, "7.3" };
    struct value v;
    struct uid uid;
    if (!given(l, &a, false, &v, f))
        return;
    if (!uid_of_value(v.bytes, v.length, &uid))
        find_fault(f, NOT_ALLOWED, "%s %s breaks the rules of PS3.5 for UIDs (rule 7.3)", name(tag).text,
                   quote(v.bytes, v.length).text);
    else if (wanted == NULL)
        find_fault(f, NOT_ALLOWED, "%s is %s, and no session is live (rule 7.3)", name(tag).text, uid.text);
    else if (strcmp(uid.text, wanted) != 0)
        find_fault(f, NOT_ALLOWED, "%s is %s, not %s, %s (rule 7.3)", name(tag).text, uid.text, wanted, called);
}

static void judge_reference(const struct list *l, const uint8_t *records, struct findings *f)
{
    const uint32_t tag = 0x20100500;
    const struct header *h = find_header(l, tag);
    struct list item;
    if (h == NULL) {
        find_fault(f, MISSING, "%s is missing (rule 7.3)", name(tag).text);
        return;
    }
    size_t items = count_items(l, h, &item);
    if (items == 0)
        find_fault(f, EMPTY, "%s has no item (rule 7.3)", name(tag).text);
    else if (items > 1)
        find_fault(f, NOT_ALLOWED, "%s has %zu items, not one (rule 7.3)", name(tag).text, items);
    if (items != 1)
        return;
    struct uid session = session_uid(records);
    judge_uid(&item, 0x00081150, SESSION_CLASS, "the class of sessions", f);
    judge_uid(&item, 0x00081155, session_lives(records) ? session.text : NULL, "the live session", f);
}

static void judge_options(const struct list *l, struct findings *f)
{
    judge_code(l, (struct attribute){ 0x20100040, false, "7.4" }, (const char *[]){ "PORTRAIT", "LANDSCAPE", NULL }, f);
    judge_code(l, (struct attribute){ 0x20100060, false, "7.4" },
               (const char *[]){ "NONE", "REPLICATE", "BILINEAR", "CUBIC", NULL }, f);
}

void judge_new_film(const struct list *l, const uint8_t *records, struct findings *f)
{
    judge_format(l, f);
    judge_reference(l, records, f);
    judge_options(l, f);
}

static void judge_absent(const struct list *l, uint32_t tag, struct findings *f)
{
    if (find_header(l, tag) != NULL)
        find_fault(f, NOT_ALLOWED, "%s must not be in an N-SET (rule 7.5)", name(tag).text);
}

void judge_set_film(const struct list *l, struct findings *f)
{
    judge_absent(l, 0x20100010, f);
    judge_absent(l, 0x20100500, f);
    judge_options(l, f);
}

/* Box. */

/* Bytes of a pixel by Bits Allocated, Bits Stored and High Bit; 0 where they are not allowed. */
static uint32_t judge_bits(const struct list *item, struct findings *f)
{
    uint32_t allocated = 0, stored = 0, high = 0;
    bool all = judge_number(item, (struct attribute){ 0x00280100, true, "7.9" }, &allocated, f);
    all = judge_number(item, (struct attribute){ 0x00280101, true, "7.9" }, &stored, f) && all;
    all = judge_number(item, (struct attribute){ 0x00280102, true, "7.9" }, &high, f) && all;
    if (allocated == 8 && stored == 8 && high == 7)
        return 1;
    if (allocated == 16 && stored == 12 && high == 11)
        return 2;
    if (all)
        find_fault(f, NOT_ALLOWED,
                   "Bits Allocated, Bits Stored, High Bit are %u, %u, %u, neither 8, 8, 7 nor 16, 12, 11 (rule 7.9)",
                   (unsigned)allocated, (unsigned)stored, (unsigned)high);
    return 0;
}

/* Rule 7.10: where the product is odd, a byte of padding follows. */
static void judge_pixels(const struct list *item, uint64_t product, struct findings *f)
{
    struct attribute pixels = { 0x7FE00010, true, "7.9" };
    struct value v;
    uint64_t wanted = product + product % 2;
    if (given(item, &pixels, false, &v, f) && product > 0 && v.length != wanted)
        find_fault(f, NOT_ALLOWED,
                   "%s has %zu bytes, and rows by columns by bytes a pixel make %" PRIu64 " (rule 7.10)",
                   name(pixels.tag).text, v.length, wanted);
}

static void judge_item(const struct list *item, struct findings *f)
{
    uint32_t samples, rows = 0, columns = 0, representation;
    judge_range(item, (struct attribute){ 0x00280002, true, "7.9" }, 1, 1, &samples, f);
    judge_code(item, (struct attribute){ 0x00280004, true, "7.9" },
               (const char *[]){ "MONOCHROME1", "MONOCHROME2", NULL }, f);
    bool sized = judge_range(item, (struct attribute){ 0x00280010, true, "7.9" }, 1, 0xFFFF, &rows, f);
    sized = judge_range(item, (struct attribute){ 0x00280011, true, "7.9" }, 1, 0xFFFF, &columns, f) && sized;
    uint32_t width = judge_bits(item, f);
    judge_range(item, (struct attribute){ 0x00280103, true, "7.9" }, 0, 0, &representation, f);
    judge_pixels(item, sized ? (uint64_t)rows * columns * width : 0, f);
}

static void judge_image(const struct list *l, struct findings *f)
{
    const uint32_t tag = 0x20200110;
    const struct header *h = find_header(l, tag);
    struct list item;
    f->image = KEEPS;
    if (h == NULL)
        return;
    size_t items = count_items(l, h, &item);
    f->image = items == 0 ? ERASES : FILLS;
    if (items == 1)
        judge_item(&item, f);
    else if (items > 1)
        find_fault(f, NOT_ALLOWED, "%s has %zu items, at most one is allowed (rule 7.8)", name(tag).text, items);
}

void judge_box(const struct list *l, size_t boxes, struct findings *f)
{
    judge_range(l, (struct attribute){ 0x20200010, true, "7.6" }, 1, (uint32_t)boxes, &f->position, f);
    judge_code(l, (struct attribute){ 0x20200020, false, "7.7" }, (const char *[]){ "NORMAL", "REVERSE", NULL }, f);
    judge_image(l, f);
}
