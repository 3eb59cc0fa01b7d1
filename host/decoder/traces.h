/* Traces: calls in words, one a line, in the protocol of host/replay.c. */
#ifndef TRACES_H
#define TRACES_H

#include "captures.h"

/*   start ROOTHEX|- SERIAL PICTURE    open CONTEXT SYNTAX LENGTH    feed HEX|-    close    take
 * A line that is no call is refused with line and column. */
struct capture split_trace(const struct dump *d);

#endif
