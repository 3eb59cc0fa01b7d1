/* A command set or data set shown element by element. */
#ifndef SHOW_H
#define SHOW_H

#include "pieces.h"
#include "walk.h"

/* Shows every header up to the first at fault: its place in the dump and in the set, tag, VR, length, name and value,
 * indented by depth. */
struct walked show_set(const struct pieces *set, bool explicit_vr);

#endif
