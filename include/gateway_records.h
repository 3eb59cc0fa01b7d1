/* Where things stand in the records, as docs/RECORDS.md lays them out, for a host that reads them. A host never writes
 * there. Numbers are little endian. Each place is the one before it and the bytes that stand there: a field more moves
 * one line. */
#ifndef GATEWAY_RECORDS_H
#define GATEWAY_RECORDS_H

enum {
    /* How many there are. */
    GATEWAY_SESSIONS = 1,
    GATEWAY_FILMS = 8,
    GATEWAY_LINES = 6, /* of a film */
    GATEWAY_BOXES = 36,
    GATEWAY_QUEUED = 16,

    /* How many bytes each has. */
    GATEWAY_ROOT_BYTES = 40,
    GATEWAY_NEXT_BYTES = 5,
    GATEWAY_TICKET_BYTES = 2,
    GATEWAY_SERIAL_BYTES = 4,
    GATEWAY_PICTURE_BYTES = 4,
    GATEWAY_TEXT_BYTES = 64, /* the characters of a UID or a label, then zeros */

    /* In a name, the UID of a session or a film. A made one is the root, a dot and the serial. */
    GATEWAY_NAME_SERIAL = 0, /* 0 where the UID was sent */
    GATEWAY_NAME_LENGTH = GATEWAY_NAME_SERIAL + GATEWAY_SERIAL_BYTES, /* characters of a sent one, 0 of a made one */
    GATEWAY_NAME_TEXT = GATEWAY_NAME_LENGTH + 1,
    GATEWAY_NAME_BYTES = GATEWAY_NAME_TEXT + GATEWAY_TEXT_BYTES,

    /* In a session. */
    GATEWAY_SESSION_LIVE = 0, /* 1, or 0 where the place is empty */
    GATEWAY_SESSION_NAME = GATEWAY_SESSION_LIVE + 1,
    GATEWAY_SESSION_COPIES = GATEWAY_SESSION_NAME + GATEWAY_NAME_BYTES, /* 1 to 99 */
    GATEWAY_SESSION_PRIORITY = GATEWAY_SESSION_COPIES + 1,              /* codes, as below */
    GATEWAY_SESSION_MEDIUM = GATEWAY_SESSION_PRIORITY + 1,
    GATEWAY_SESSION_DESTINATION = GATEWAY_SESSION_MEDIUM + 1,
    GATEWAY_SESSION_LABEL_LENGTH = GATEWAY_SESSION_DESTINATION + 1,
    GATEWAY_SESSION_LABEL = GATEWAY_SESSION_LABEL_LENGTH + 1,
    GATEWAY_SESSION_BYTES = GATEWAY_SESSION_LABEL + GATEWAY_TEXT_BYTES,

    /* In a box. */
    GATEWAY_BOX_POSITION = 0,                        /* from 1 */
    GATEWAY_BOX_POLARITY = GATEWAY_BOX_POSITION + 1, /* a code, as below */
    GATEWAY_BOX_PICTURE = GATEWAY_BOX_POLARITY + 1,  /* its picture's number, 0 where it is empty */
    GATEWAY_BOX_BYTES = GATEWAY_BOX_PICTURE + GATEWAY_PICTURE_BYTES,

    /* In a film. */
    GATEWAY_FILM_NAME = 0,
    GATEWAY_FILM_SESSION = GATEWAY_FILM_NAME + GATEWAY_NAME_BYTES, /* the place of its session */
    GATEWAY_FILM_KIND = GATEWAY_FILM_SESSION + 1,                  /* its format, as below */
    GATEWAY_FILM_LINES = GATEWAY_FILM_KIND + 1,                    /* how many lines of boxes */
    GATEWAY_FILM_COUNTS = GATEWAY_FILM_LINES + 1,                  /* how many boxes each line has, a byte each */
    GATEWAY_FILM_ORIENTATION = GATEWAY_FILM_COUNTS + GATEWAY_LINES, /* codes, as below */
    GATEWAY_FILM_MAGNIFICATION = GATEWAY_FILM_ORIENTATION + 1,
    GATEWAY_FILM_FIRST_BOX = GATEWAY_FILM_MAGNIFICATION + 1, /* its first box's serial; the next box has the next */
    GATEWAY_FILM_BOXES = GATEWAY_FILM_FIRST_BOX + GATEWAY_SERIAL_BYTES,
    GATEWAY_FILM_BYTES = GATEWAY_FILM_BOXES + GATEWAY_BOXES * GATEWAY_BOX_BYTES,

    /* In an entry of the queue. */
    GATEWAY_QUEUED_PICTURES = 0, /* in position order, 0 where a position is empty */
    GATEWAY_QUEUED_TICKET = GATEWAY_QUEUED_PICTURES + GATEWAY_BOXES * GATEWAY_PICTURE_BYTES,
    GATEWAY_QUEUED_COPIES = GATEWAY_QUEUED_TICKET + GATEWAY_TICKET_BYTES,
    GATEWAY_QUEUED_NAME = GATEWAY_QUEUED_COPIES + 1, /* the film's */
    GATEWAY_QUEUED_BYTES = GATEWAY_QUEUED_NAME + GATEWAY_NAME_BYTES,

    /* In the records. A next number of 4,294,967,296 says that none is left. */
    GATEWAY_AT_ROOT_LENGTH = 0,
    GATEWAY_AT_ROOT = GATEWAY_AT_ROOT_LENGTH + 1,
    GATEWAY_AT_NEXT_SERIAL = GATEWAY_AT_ROOT + GATEWAY_ROOT_BYTES,
    GATEWAY_AT_NEXT_PICTURE = GATEWAY_AT_NEXT_SERIAL + GATEWAY_NEXT_BYTES,
    GATEWAY_AT_NEXT_TICKET = GATEWAY_AT_NEXT_PICTURE + GATEWAY_NEXT_BYTES,
    GATEWAY_AT_SESSION = GATEWAY_AT_NEXT_TICKET + GATEWAY_TICKET_BYTES, /* by their places, from 0 */
    GATEWAY_AT_FILM_COUNT = GATEWAY_AT_SESSION + GATEWAY_SESSIONS * GATEWAY_SESSION_BYTES,
    GATEWAY_AT_FILMS = GATEWAY_AT_FILM_COUNT + 1, /* in creation order */
    GATEWAY_AT_QUEUED_COUNT = GATEWAY_AT_FILMS + GATEWAY_FILMS * GATEWAY_FILM_BYTES,
    GATEWAY_AT_QUEUED = GATEWAY_AT_QUEUED_COUNT + 1, /* oldest first */
    GATEWAY_AT_OPEN = GATEWAY_AT_QUEUED + GATEWAY_QUEUED * GATEWAY_QUEUED_BYTES, /* 1 while open */
    GATEWAY_AT_CONTEXT = GATEWAY_AT_OPEN + 1,
    GATEWAY_AT_SYNTAX = GATEWAY_AT_CONTEXT + 1, /* GATEWAY_IMPLICIT or GATEWAY_EXPLICIT */
    GATEWAY_AT_ROOM = GATEWAY_AT_SYNTAX + 1,    /* the message buffer's length, 4 bytes */
    /* 0 idle, 1 in command, 2 skipping command, 3 in data, 4 skipping data */
    GATEWAY_AT_COLLECTING = GATEWAY_AT_ROOM + 4,
    GATEWAY_AT_USED = GATEWAY_AT_COLLECTING + 1, /* bytes of the command so far, 2 bytes */
    GATEWAY_AT_GOT = GATEWAY_AT_USED + 2,        /* bytes of data so far, which stand in the message buffer, 4 bytes */
    GATEWAY_AT_COMMAND = GATEWAY_AT_GOT + 4,
    GATEWAY_RECORDS = GATEWAY_AT_COMMAND + 1024 /* all of them */
};

/* The formats. With COL a film's lines are columns, left to right; else they are rows, top to bottom. */
enum { GATEWAY_STANDARD = 0, GATEWAY_ROW = 1, GATEWAY_COL = 2 };

/* The codes of a session, a film and a box. */
enum { GATEWAY_PRIORITY_LOW = 0, GATEWAY_PRIORITY_MED = 1, GATEWAY_PRIORITY_HIGH = 2 };
enum { GATEWAY_MEDIUM_PAPER = 0, GATEWAY_MEDIUM_CLEAR_FILM = 1, GATEWAY_MEDIUM_BLUE_FILM = 2 };
enum { GATEWAY_DESTINATION_MAGAZINE = 0, GATEWAY_DESTINATION_PROCESSOR = 1 };
enum { GATEWAY_ORIENTATION_PORTRAIT = 0, GATEWAY_ORIENTATION_LANDSCAPE = 1 };
enum {
    GATEWAY_MAGNIFICATION_NONE = 0,
    GATEWAY_MAGNIFICATION_REPLICATE = 1,
    GATEWAY_MAGNIFICATION_BILINEAR = 2,
    GATEWAY_MAGNIFICATION_CUBIC = 3
};
enum { GATEWAY_POLARITY_NORMAL = 0, GATEWAY_POLARITY_REVERSE = 1 };

#endif
