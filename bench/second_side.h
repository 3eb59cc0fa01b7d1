/* The second program's own calls, made in this process. */
#ifndef SECOND_SIDE_H
#define SECOND_SIDE_H

#include <stddef.h>
#include <stdint.h>

/* A job, from start to close: every fragment fed, then a take. Ends the program where anything is refused. */
void second_job(const uint8_t *fragments, const size_t *ends, size_t count, size_t room);

#endif
