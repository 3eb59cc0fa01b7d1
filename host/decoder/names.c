#include "names.h"

#include <string.h>

static const struct {
    const char *uid, *name;
} uids[] = {
    { "1.2.840.10008.1.1", "Verification" },
    { "1.2.840.10008.1.2", "Implicit VR Little Endian" },
    { "1.2.840.10008.1.2.1", "Explicit VR Little Endian" },
    { "1.2.840.10008.1.2.1.99", "Deflated Explicit VR Little Endian" },
    { "1.2.840.10008.1.2.2", "Explicit VR Big Endian" },
    { "1.2.840.10008.1.2.4.50", "JPEG Baseline (Process 1)" },
    { "1.2.840.10008.1.2.4.51", "JPEG Extended (Process 2 & 4)" },
    { "1.2.840.10008.1.2.4.57", "JPEG Lossless, Non-Hierarchical (Process 14)" },
    { "1.2.840.10008.1.2.4.70", "JPEG Lossless, Non-Hierarchical, First-Order Prediction" },
    { "1.2.840.10008.1.2.5", "RLE Lossless" },
    { "1.2.840.10008.3.1.1.1", "DICOM Application Context" },
    { "1.2.840.10008.5.1.1.1", "Basic Film Session" },
    { "1.2.840.10008.5.1.1.2", "Basic Film Box" },
    { "1.2.840.10008.5.1.1.4", "Basic Grayscale Image Box" },
    { "1.2.840.10008.5.1.1.4.1", "Basic Color Image Box" },
    { "1.2.840.10008.5.1.1.4.2", "Referenced Image Box" },
    { "1.2.840.10008.5.1.1.9", "Basic Grayscale Print Management Meta" },
    { "1.2.840.10008.5.1.1.9.1", "Referenced Grayscale Print Management Meta" },
    { "1.2.840.10008.5.1.1.14", "Print Job" },
    { "1.2.840.10008.5.1.1.15", "Basic Annotation Box" },
    { "1.2.840.10008.5.1.1.16", "Printer" },
    { "1.2.840.10008.5.1.1.16.376", "Printer Configuration Retrieval" },
    { "1.2.840.10008.5.1.1.17", "the Printer instance" },
    { "1.2.840.10008.5.1.1.17.376", "the Printer Configuration Retrieval instance" },
    { "1.2.840.10008.5.1.1.18", "Basic Color Print Management Meta" },
    { "1.2.840.10008.5.1.1.18.1", "Referenced Color Print Management Meta" },
    { "1.2.840.10008.5.1.1.22", "VOI LUT Box" },
    { "1.2.840.10008.5.1.1.23", "Presentation LUT" },
    { "1.2.840.10008.5.1.1.24", "Image Overlay Box" },
    { "1.2.840.10008.5.1.1.24.1", "Basic Print Image Overlay Box" },
    { "1.2.840.10008.5.1.1.25", "the Print Queue instance" },
    { "1.2.840.10008.5.1.1.26", "Print Queue Management" },
    { "1.2.840.10008.5.1.1.27", "Stored Print Storage" },
    { "1.2.840.10008.5.1.1.29", "Hardcopy Grayscale Image Storage" },
    { "1.2.840.10008.5.1.1.30", "Hardcopy Color Image Storage" },
    { "1.2.840.10008.5.1.1.31", "Pull Print Request" },
    { "1.2.840.10008.5.1.1.32", "Pull Stored Print Management Meta" },
};

struct numbered {
    uint32_t number;
    const char *name;
};

static const struct numbered fields[] = {
    { 0x0001, "C-STORE-RQ" },   { 0x0010, "C-GET-RQ" },           { 0x0020, "C-FIND-RQ" },    { 0x0021, "C-MOVE-RQ" },
    { 0x0030, "C-ECHO-RQ" },    { 0x0100, "N-EVENT-REPORT-RQ" },  { 0x0110, "N-GET-RQ" },     { 0x0120, "N-SET-RQ" },
    { 0x0130, "N-ACTION-RQ" },  { 0x0140, "N-CREATE-RQ" },        { 0x0150, "N-DELETE-RQ" },  { 0x0FFF, "C-CANCEL-RQ" },
    { 0x8001, "C-STORE-RSP" },  { 0x8010, "C-GET-RSP" },          { 0x8020, "C-FIND-RSP" },   { 0x8021, "C-MOVE-RSP" },
    { 0x8030, "C-ECHO-RSP" },   { 0x8100, "N-EVENT-REPORT-RSP" }, { 0x8110, "N-GET-RSP" },    { 0x8120, "N-SET-RSP" },
    { 0x8130, "N-ACTION-RSP" }, { 0x8140, "N-CREATE-RSP" },       { 0x8150, "N-DELETE-RSP" },
};

/* PS3.7 annex C, and PS3.4 annex H for B6xxH and C6xxH. */
static const struct numbered statuses[] = {
    { 0x0000, "success" },
    { 0x0105, "no such attribute" },
    { 0x0106, "invalid attribute value" },
    { 0x0107, "attribute list error" },
    { 0x0110, "processing failure" },
    { 0x0111, "duplicate SOP instance" },
    { 0x0112, "no such SOP instance" },
    { 0x0113, "no such event type" },
    { 0x0114, "no such argument" },
    { 0x0115, "invalid argument value" },
    { 0x0116, "attribute value out of range" },
    { 0x0117, "invalid SOP instance" },
    { 0x0118, "no such SOP class" },
    { 0x0119, "class-instance conflict" },
    { 0x0120, "missing attribute" },
    { 0x0121, "missing attribute value" },
    { 0x0122, "SOP class not supported" },
    { 0x0123, "no such action" },
    { 0x0124, "not authorized" },
    { 0x0210, "duplicate invocation" },
    { 0x0211, "unrecognized operation" },
    { 0x0212, "mistyped argument" },
    { 0x0213, "resource limitation" },
    { 0xB600, "memory allocation not supported" },
    { 0xB601, "film session printing is not supported" },
    { 0xB602, "film session with an empty page" },
    { 0xB603, "film box with an empty page" },
    { 0xB604, "image demagnified: it is larger than its box" },
    { 0xB605, "density outside of the printer's range" },
    { 0xB609, "image cropped to its box" },
    { 0xB60A, "image decimated to its box" },
    { 0xC600, "film session without film boxes" },
    { 0xC601, "print queue full, of a film session" },
    { 0xC602, "print queue full, of a film box" },
    { 0xC603, "image larger than its box" },
    { 0xC604, "several images at one position" },
    { 0xC605, "too little memory in the printer" },
    { 0xC613, "combined print image larger than its box" },
};

const char *uid_name(const uint8_t *uid, size_t length)
{
    for (size_t i = 0; i < sizeof uids / sizeof *uids; i++)
        if (strlen(uids[i].uid) == length && memcmp(uids[i].uid, uid, length) == 0)
            return uids[i].name;
    return NULL;
}

static const char *name_of(const struct numbered *rows, size_t count, uint32_t number)
{
    for (size_t i = 0; i < count; i++)
        if (rows[i].number == number)
            return rows[i].name;
    return NULL;
}

const char *field_name(uint32_t field)
{
    return name_of(fields, sizeof fields / sizeof *fields, field);
}

const char *status_name(uint32_t status)
{
    return name_of(statuses, sizeof statuses / sizeof *statuses, status);
}
