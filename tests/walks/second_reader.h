/* The second program's reader of data sets, called as the one in plain C is. */
#ifndef SECOND_READER_H
#define SECOND_READER_H

#include "../../bench/plain_reader.h"

uint32_t second_data_set(const uint8_t *bytes, size_t n, uint32_t syntax, struct plain_reading *reading);

#endif
