/* The calls of the print gateway.
 *
 * A host takes DICOM print requests off the network and hands their fragments over; the library collects messages,
 * keeps the records, answers, and puts films in a queue. It opens no socket, allocates nothing, and keeps nothing
 * between calls but what stands in the buffers that the host lends.
 *
 * The order of calls: start once; then, for each association, open, feed for each fragment, close; take whenever the
 * imager is ready for a film, open or not. host/job.c is a host to start from; docs/HOST.md says what to do at each
 * number returned.
 *
 * What the host owes:
 *   - every length is the true length of its buffer, and no pointer is NULL, even where the length is 0;
 *   - buffers of one call do not overlap;
 *   - the records and, while open, the message buffer are handed back as the call before left them;
 *   - calls on the same records are made one after another.
 * Each call tests its own arguments all the same: records that no run of calls can have left are refused (1) where they
 * break a rule, and nothing past the end of a buffer is read or written, whatever its bytes are. */
#ifndef GATEWAY_H
#define GATEWAY_H

#include <stddef.h>
#include <stdint.h>

#include "gateway_records.h"

#ifdef __cplusplus
extern "C" {
#endif

/* The version of this header (CHANGELOG.md), and, in the archive of a release, that of the archive and the commit that
 * it was packed from. A host is compiled and linked with the same: where GATEWAY_VERSION and gateway_version differ,
 * places in the records may. */
#define GATEWAY_VERSION_MAJOR 0
#define GATEWAY_VERSION_MINOR 6
#define GATEWAY_VERSION_PATCH 1
#define GATEWAY_VERSION "0.6.1"
extern const char gateway_version[], gateway_commit[];

/* How many bytes each buffer has at least; the records have GATEWAY_RECORDS. More may be lent: bytes past those written
 * stay. */
#define GATEWAY_COMMAND 256 /* a response's command set */
#define GATEWAY_DATA 8192   /* a created film's data set */
#define GATEWAY_REPORT 20   /* what a response comes to */

/* The message buffer, which holds one request's data set; its length is fixed at open. */
#define GATEWAY_MESSAGE_LEAST 4096
#define GATEWAY_MESSAGE_MOST 16777216

#define GATEWAY_ROOT_MOST 40 /* characters of a root */

/* Transfer syntaxes. */
#define GATEWAY_IMPLICIT 1 /* implicit VR little endian */
#define GATEWAY_EXPLICIT 2 /* explicit VR little endian */

/* The numbers returned. A refused call, but for 5, leaves every buffer as it was. */
enum {
    GATEWAY_DONE = 0,         /* start, open, close, take */
    GATEWAY_BROKEN = 1,       /* the records break a rule; start never looks at them */
    GATEWAY_SHORT = 2,        /* a buffer is too short, or the message buffer is out of limits or of another length */
    GATEWAY_BAD_ARGUMENT = 3, /* start or open: a bad argument, or open while open */
    GATEWAY_NOT_OPEN = 4,     /* feed or close */
    GATEWAY_BAD_FRAGMENT = 5, /* feed: the fragment's header is wrong; the association has ended as by close */
    GATEWAY_QUEUE_EMPTY = 6,  /* take */
    GATEWAY_WAIT = 16,        /* feed: the message is not whole yet */
    GATEWAY_DROPPED = 17,     /* feed: a message was given up without a response */
    GATEWAY_IGNORED = 18,     /* feed: data that belongs to no message */
    GATEWAY_RESPONSE = 19     /* feed: command, data and report are filled */
};

/* The note of a response. */
enum {
    GATEWAY_NOTE_NONE = 0,
    GATEWAY_NOTE_QUEUED = 1, /* films were queued */
    GATEWAY_NOTE_PICTURE = 2, /* a box was filled: its pixels are to be stored */
    GATEWAY_NOTE_STOPPED = 3  /* the data set could not be read: 0110H */
};

/* Fresh records, not open, with an empty queue. The root is a UID of 1 to 40 characters, without padding: instances
 * made here are named root, dot, serial. Serials and picture numbers count up from those given, each 1 to
 * 4,294,967,295; a host that starts again hands over numbers that were not used before: it read them from the records
 * (gateway_records.h) and saved them. */
uint32_t gateway_start(uint8_t *records, size_t records_length, const uint8_t *root, size_t root_length,
                       uint32_t next_serial, uint32_t next_picture);

/* Begins an association: its presentation context, odd, 1 to 255, and its transfer syntax. Of the message buffer only
 * the length is looked at. */
uint32_t gateway_open(uint8_t *records, size_t records_length, const uint8_t *message, size_t message_length,
                      uint32_t context, uint32_t syntax);

/* Hands over one fragment, a presentation data value as PS3.8 has it: its length in four bytes, big endian, the context
 * byte, the control byte, and what it carries. Command, data and report are written by GATEWAY_RESPONSE alone: the host
 * sends the command set and, unless its length is 0, the data set. A request's data set lies in the message buffer from
 * its start when the response is returned, until the next feed; so do the pixels of a picture, which the host stores
 * under the number. */
uint32_t gateway_feed(uint8_t *records, size_t records_length, uint8_t *message, size_t message_length,
                      const uint8_t *fragment, size_t fragment_length, uint8_t *command, size_t command_length,
                      uint8_t *data, size_t data_length, uint8_t *report, size_t report_length);

/* Where things stand in the report, little endian, with two bytes each, and four from the films on. What a note does
 * not fill is 0. */
enum {
    GATEWAY_REPORT_STATUS = 0,
    GATEWAY_REPORT_COMMAND = 2, /* length of the command set */
    GATEWAY_REPORT_DATA = 4,    /* length of the data set */
    GATEWAY_REPORT_NOTE = 6,
    GATEWAY_REPORT_FILMS = 8,   /* how many films were queued */
    GATEWAY_REPORT_PICTURE = 8, /* the picture's number, */
    GATEWAY_REPORT_PLACE = 12,  /* the place of its pixels in the message buffer, */
    GATEWAY_REPORT_LENGTH = 16, /* and how many bytes they have, padding left out */
    GATEWAY_REPORT_REFUSAL = 8, /* the reader's refusal, 1 to 7, */
    GATEWAY_REPORT_STOP = 12,   /* the place of the header at fault, from the data set's start, */
    GATEWAY_REPORT_DEPTH = 16   /* and how many sequences that header lies in, 0 to 4 */
};

/* Ends the association: session, films, boxes and a message half collected go, the queue and the next numbers stay. */
uint32_t gateway_close(uint8_t *records, size_t records_length);

/* Takes the oldest entry of the queue. */
uint32_t gateway_take(uint8_t *records, size_t records_length, uint8_t *entry, size_t entry_length);

/* Where things stand in the entry, little endian. */
enum {
    GATEWAY_ENTRY_PICTURES = 0, /* 36 numbers of four bytes in position order, 0 where a position is empty */
    GATEWAY_ENTRY_TICKET = GATEWAY_ENTRY_PICTURES + 36 * 4, /* two bytes */
    GATEWAY_ENTRY_COPIES = GATEWAY_ENTRY_TICKET + 2,        /* two bytes */
    GATEWAY_ENTRY_UID = GATEWAY_ENTRY_COPIES + 2,           /* the film's, 64 characters, filled up with zeros */
    GATEWAY_ENTRY = GATEWAY_ENTRY_UID + 64                  /* so many bytes has the buffer for an entry at least */
};

#ifdef __cplusplus
}
#endif

#endif
