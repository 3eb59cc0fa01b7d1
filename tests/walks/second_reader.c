#include "second_reader.h"

/* It has names in common with host/data_sets.h, and so is included here alone. */
#include "../../second/elements.h"

uint32_t second_data_set(const uint8_t *bytes, size_t n, uint32_t syntax, struct plain_reading *reading) {
    if (syntax != IMPLICIT && syntax != EXPLICIT) return 8;
    struct part list = whole_list(bytes, n, (enum syntax)syntax);
    size_t next;
    struct refusal refusal = read_list(&list, &next, &reading->headers);
    if (refusal.number != 0) {
        reading->place = refusal.place;
        reading->depth = (uint32_t)refusal.depth;
    }
    return (uint32_t)refusal.number;
}
