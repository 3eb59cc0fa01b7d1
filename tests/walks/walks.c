/* Holds the archive's walk to the one in plain C and to the second program's, by number, place, depth and headers
   passed: on the vectors, on long and wide data sets, and on noise. It is run with a small stack. The arguments are the
   vectors' folder and how many random calls to make; standard input has a line for each vector, its name, its syntax
   and what it is answered. */
#include <stdio.h>
#include <stdlib.h>
#include <string.h>

#include "../../include/inspect.h"
#include "../../bench/plain_reader.h"
#include "../../host/decoder/walk.h"
#include "noise.h"
#include "second_reader.h"

enum { VECTORS = 1000, VECTOR_ROOM = 4096, NOISE_ROOM = 1 << 20, ANSWERS = 9, DEPTHS = LEVELS + 1, MANY = 100000 };

/* What stands where no reader wrote. */
#define UNTOUCHED 0xA5A5A5A5u
#define WHOLE ((size_t)16 << 20)

static const char *const syntaxes[] = {"", "implicit", "explicit"};
static struct data_set vectors[VECTORS];
static size_t vector_count;

static void show(const struct data_set *d) {
    for (size_t i = 0; i < d->n && i < 4096; i++) fprintf(stderr, "%02x", d->bytes[i]);
    fprintf(stderr, "\n");
}

typedef uint32_t reader(const uint8_t *bytes, size_t n, uint32_t syntax, struct plain_reading *reading);

struct answer {
    uint32_t number;
    struct plain_reading reading;
};

static uint32_t archive_data_set(const uint8_t *bytes, size_t n, uint32_t syntax, struct plain_reading *reading) {
    uint8_t lent[INSPECT_READING];
    memset(lent, UNTOUCHED & 0xFF, sizeof lent);
    uint32_t number = inspect_data_set(bytes, n, syntax, lent, sizeof lent);
    reading->place = number_at(lent + INSPECT_READING_PLACE, 4);
    reading->depth = (uint32_t)number_at(lent + INSPECT_READING_DEPTH, 4);
    reading->headers = number_at(lent + INSPECT_READING_HEADERS, 4);
    return number;
}

static struct answer ask(reader *reader, const struct data_set *d, uint32_t syntax) {
    struct answer a = {0, {UNTOUCHED, UNTOUCHED, UNTOUCHED}};
    a.number = reader(d->bytes, d->n, syntax, &a.reading);
    return a;
}

static void say_answer(const char *whose, const struct answer *a) {
    fprintf(stderr, "walks: %s answers %u at %zu in %u sequences after %zu headers\n", whose, (unsigned)a->number,
            a->reading.place, (unsigned)a->reading.depth, a->reading.headers);
}

static bool same_answer(const struct answer *a, const struct answer *b) {
    return a->number == b->number && a->reading.place == b->reading.place && a->reading.depth == b->reading.depth &&
           a->reading.headers == b->reading.headers;
}

/* Ends the program where another reader answers otherwise than the archive. */
static void compare(const struct data_set *d, uint32_t syntax, const struct answer *archive, reader *reader,
                    const char *whose) {
    struct answer other = ask(reader, d, syntax);
    if (same_answer(archive, &other)) return;
    fprintf(stderr, "walks: two readers differ in syntax %u on %zu bytes:\n", (unsigned)syntax, d->n);
    show(d);
    say_answer("the archive", archive);
    say_answer(whose, &other);
    exit(1);
}

/* Each header that is passed has 8 bytes or more, and stands before the one at fault. */
static void check_bound(const struct data_set *d, const struct answer *archive) {
    size_t end = archive->number == 0 ? d->n : archive->reading.place;
    if (end <= d->n && archive->reading.headers <= end / 8) return;
    fprintf(stderr, "walks: the number of headers is above its bound on %zu bytes:\n", d->n);
    show(d);
    say_answer("the archive", archive);
    exit(1);
}

/* What all readers answer. */
static struct answer answer(const struct data_set *d, uint32_t syntax) {
    struct answer archive = ask(archive_data_set, d, syntax);
    compare(d, syntax, &archive, plain_data_set, "plain C");
    compare(d, syntax, &archive, second_data_set, "the second program");
    if (archive.number < 8) check_bound(d, &archive);
    return archive;
}

static uint32_t own_syntax(const struct data_set *d) { return d->explicit_vr ? EXPLICIT : IMPLICIT; }

static struct answer expect(const char *what, const struct data_set *d, uint32_t expected) {
    struct answer got = answer(d, own_syntax(d));
    if (got.number == expected) return got;
    fprintf(stderr, "walks: %s, %s: answered %u, expected %u\n", what, syntaxes[own_syntax(d)], (unsigned)got.number,
            (unsigned)expected);
    exit(1);
}

static void expect_read(const char *what, const struct data_set *d, size_t headers) {
    struct answer got = expect(what, d, 0);
    if (got.reading.headers == headers) return;
    fprintf(stderr, "walks: %s, %s: read with %zu headers, expected %zu\n", what, syntaxes[own_syntax(d)],
            got.reading.headers, headers);
    exit(1);
}

/* In implicit VR the headers that are passed take all bytes before the one at fault. */
static void expect_refusal(const char *what, const struct data_set *d, uint32_t expected, uint32_t depth) {
    struct answer got = expect(what, d, expected);
    if (got.reading.depth == depth && (d->explicit_vr || 8 * got.reading.headers == got.reading.place)) return;
    fprintf(stderr, "walks: %s, %s: expected in %u sequences, in implicit VR after a header for every 8 bytes\n", what,
            syntaxes[own_syntax(d)], (unsigned)depth);
    say_answer("the archive", &got);
    exit(1);
}

static struct data_set load(const char *folder, const char *name, uint32_t syntax) {
    char path[VECTOR_ROOM];
    snprintf(path, sizeof path, "%s/%s", folder, name);
    FILE *file = fopen(path, "rb");
    if (file == NULL) {
        perror(path);
        exit(2);
    }
    struct data_set d = new_data_set(VECTOR_ROOM, syntax);
    d.n = fread(d.bytes, 1, d.room, file);
    fclose(file);
    return d;
}

static void check_vectors(const char *folder) {
    char name[256], syntax[16];
    unsigned expected;
    while (vector_count < VECTORS && scanf("%255s %15s %u", name, syntax, &expected) == 3) {
        struct data_set *d = &vectors[vector_count++];
        *d = load(folder, name, strcmp(syntax, "explicit") == 0 ? EXPLICIT : IMPLICIT);
        expect(name, d, expected);
    }
    printf("walks: %zu vectors answered as expected\n", vector_count);
    if (vector_count == 0) exit(1);
}

/* Another syntax than the two is answered 8, whatever the bytes are. */
static void check_syntaxes(void) {
    static const uint32_t others[] = {0, 3, 257, 258, 65537, 65538, 0x80000001, 0xFFFFFFFF};
    for (size_t i = 0; i < sizeof others / sizeof *others; i++)
        if (answer(&vectors[0], others[i]).number != 8) {
            fprintf(stderr, "walks: syntax %u is not answered 8\n", (unsigned)others[i]);
            exit(1);
        }
}

/* A buffer that is too short for the reading is answered 9 and left as it is, whatever the rest is. */
static void check_short_buffers(void) {
    uint8_t lent[INSPECT_READING] = {0}, before[INSPECT_READING] = {0};
    for (size_t length = 0; length < sizeof lent; length++) {
        uint32_t number = inspect_data_set((const uint8_t *)"cut", 3, (uint32_t)length % 4, lent, length);
        if (number == 9 && memcmp(lent, before, sizeof lent) == 0) continue;
        fprintf(stderr, "walks: a buffer of %zu bytes is answered %u\n", length, (unsigned)number);
        exit(1);
    }
}

static void check_long_list(uint32_t syntax) {
    struct data_set d = long_list(syntax, WHOLE / 8, 0);
    expect_read("16 MiB of empty elements", &d, d.n / 8);
    free_data_set(&d);
}

/* All of a nest is headers of 8 bytes, but that a sequence's has 12 in explicit VR. */
static size_t headers_of_nest(const struct data_set *d, size_t sequences) {
    return (d->n - (d->explicit_vr ? 4 * sequences : 0)) / 8;
}

/* Nests with many items on one level; cut short, refused; and one sequence too deep, refused in the last item. */
static void check_nests(uint32_t syntax, bool loose) {
    for (int level = 0; level < LEVELS; level++) {
        size_t items[LEVELS + 1] = {1, 1, 1, 1, 1};
        items[level] = MANY;
        struct data_set d = nest(syntax, 2 * WHOLE, items, LEVELS, loose);
        expect_read("a wide nest", &d, headers_of_nest(&d, (size_t)(level + 1 + MANY * (LEVELS - 1 - level))));
        d.n--;
        expect_refusal("a wide nest, cut short", &d, 1, loose ? 1 : 0);
        free_data_set(&d);
        d = nest(syntax, 2 * WHOLE, items, LEVELS + 1, loose);
        expect_refusal("a nest of five", &d, 7, LEVELS);
        free_data_set(&d);
    }
}

static void check_walks(void) {
    for (uint32_t syntax = IMPLICIT; syntax <= EXPLICIT; syntax++) {
        check_long_list(syntax);
        check_nests(syntax, false);
        check_nests(syntax, true);
    }
    printf("walks: %zu empty elements, and nests with %d items on each of %d levels, in both syntaxes\n", WHOLE / 8, MANY,
           LEVELS);
}

/* One random data set: a vector, one that is grown, or mere bytes. */
static void draw(struct noise *r, struct data_set *d) {
    d->n = 0;
    d->explicit_vr = below(r, 2) == 0;
    uint32_t from = below(r, 8);
    if (from < 4) {
        const struct data_set *vector = &vectors[below(r, (uint32_t)vector_count)];
        d->explicit_vr = vector->explicit_vr;
        put_bytes(d, vector->bytes, vector->n);
    } else if (from < 7) {
        put_grown(r, d);
    } else {
        put_random(r, d);
    }
    for (uint32_t n = below(r, 4); n > 0; n--) damage(r, d);
}

/* How many sequences stand in one another, in a data set that is read: those that the decoder's walk passes stand at
   depths 0, 2, 4 and 6. */
static void note_nesting(void *with, const struct header *h) {
    int *nesting = with;
    if (h->part == ELEMENT && h->form->kind == SEQUENCE && *nesting <= h->depth / 2) *nesting = h->depth / 2 + 1;
}

static int nesting_of(const struct data_set *d, uint32_t syntax) {
    int nesting = 0;
    walk_set(d->bytes, d->n, syntax == EXPLICIT, note_nesting, &nesting);
    return nesting;
}

/* How many data sets got each answer; how many were refused in so many sequences, and read with so many in one
   another. */
struct counts {
    unsigned long answers[ANSWERS], refused[DEPTHS], read[DEPTHS];
};

static void print_numbers(uint32_t syntax, const char *what, const unsigned long numbers[], int n) {
    printf("walks: noise, %s, %s:", syntaxes[syntax], what);
    for (int i = 0; i < n; i++) printf(" %d: %lu", i, numbers[i]);
    printf("\n");
}

/* Every answer must have come up, 4 in explicit VR alone. */
static void check_answers(const unsigned long answers[], uint32_t syntax) {
    for (int i = 0; i < ANSWERS - 1; i++) {
        if ((answers[i] == 0) == (i == 4 && syntax == IMPLICIT)) continue;
        fprintf(stderr, "walks: %lu answers %d in %s VR\n", answers[i], i, syntaxes[syntax]);
        exit(1);
    }
}

static void check_depths(const char *what, const unsigned long depths[], uint32_t syntax) {
    for (int i = 0; i < DEPTHS; i++) {
        if (depths[i] != 0) continue;
        fprintf(stderr, "walks: no data set %s %d sequences in %s VR\n", what, i, syntaxes[syntax]);
        exit(1);
    }
}

static void check_counts(const struct counts *counts, uint32_t syntax) {
    print_numbers(syntax, "answered", counts->answers, ANSWERS - 1);
    print_numbers(syntax, "refused in so many sequences", counts->refused, DEPTHS);
    print_numbers(syntax, "read with so many sequences in one another", counts->read, DEPTHS);
    check_answers(counts->answers, syntax);
    check_depths("is refused in", counts->refused, syntax);
    check_depths("is read with", counts->read, syntax);
}

static void check_noise(unsigned long calls) {
    struct counts counts[3] = {{{0}, {0}, {0}}};
    struct noise r = {20240229};
    struct data_set d = new_data_set(NOISE_ROOM, IMPLICIT);
    for (unsigned long i = 0; i < calls; i++) {
        draw(&r, &d);
        uint32_t syntax = below(&r, 16) == 0 ? 3 - own_syntax(&d) : own_syntax(&d);
        struct answer a = answer(&d, syntax);
        counts[syntax].answers[a.number]++;
        if (a.number == 0)
            counts[syntax].read[nesting_of(&d, syntax)]++;
        else
            counts[syntax].refused[a.reading.depth]++;
    }
    check_counts(&counts[IMPLICIT], IMPLICIT);
    check_counts(&counts[EXPLICIT], EXPLICIT);
    free_data_set(&d);
}

int main(int argc, char **argv) {
    if (argc != 3) return 2;
    check_vectors(argv[1]);
    check_syntaxes();
    check_short_buffers();
    check_walks();
    check_noise(strtoul(argv[2], NULL, 10));
    return 0;
}
