/* The names that PS3.4, PS3.6 and PS3.7 give to UIDs, operations and statuses. */
#ifndef NAMES_H
#define NAMES_H

#include <stddef.h>
#include <stdint.h>

/* Of a class, an instance or a transfer syntax, by its characters without padding; NULL where none is known. */
const char *uid_name(const uint8_t *uid, size_t length);

/* Of a Command Field, as "N-CREATE-RQ"; NULL where it is none of PS3.7's. */
const char *field_name(uint32_t field);

/* What a status says; NULL where it is none of those that print management has. */
const char *status_name(uint32_t status);

#endif
