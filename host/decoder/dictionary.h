/* The tags that the rules name (5.14), and the VRs that they know (5.10); and the other tags that consoles send, which
 * have a name and a VR for showing alone. */
#ifndef DICTIONARY_H
#define DICTIONARY_H

#include <stdint.h>

struct named {
    uint32_t tag;
    const char *vr, *name;
};

enum kind { TEXT, NUMBER, SIGNED, REAL, TAGS, BYTES, SEQUENCE };

struct form {
    char vr[3];
    enum kind kind;
    uint8_t width;  /* of one number */
    uint8_t header; /* bytes of a header in explicit VR */
};

/* A tag that the rules name: it is read by its VR. NULL for any other. */
const struct named *named_tag(uint32_t tag);

/* A tag to be shown by its name and VR, named by the rules or not; NULL where none is known. A VR may be two, as "US or
 * SS": the first is that of most consoles. */
const struct named *shown_tag(uint32_t tag);

/* An element of no known VR, in implicit VR. */
extern const struct form opaque;

/* By two letters; NULL for an unknown VR. */
const struct form *form_of(const char *vr);

#endif
