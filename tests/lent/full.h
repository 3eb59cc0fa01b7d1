/* Full records by docs/RECORDS.md: a session, eight films of thirty-six boxes, sixteen entries, open. */
#ifndef FULL_H
#define FULL_H

#include <stddef.h>
#include <stdint.h>

void fill_records(uint8_t *records);

#endif
