/* The PDUs of PS3.8 that are not data: named and passed over, but for the contexts that they negotiate. */
#ifndef PDUS_H
#define PDUS_H

#include <stdbool.h>
#include <stddef.h>
#include <stdint.h>

enum { PDU_HEADER = 6, ASSOCIATE_LEAST = 68, CONTEXTS = 256 };

enum pdu_type {
    A_ASSOCIATE_RQ = 1,
    A_ASSOCIATE_AC,
    A_ASSOCIATE_RJ,
    P_DATA_TF,
    A_RELEASE_RQ,
    A_RELEASE_RP,
    A_ABORT,
};

/* What an association says of the transfer syntax of each context: GATEWAY_IMPLICIT, GATEWAY_EXPLICIT, 0 where it says
 * nothing, or another one. */
enum { ANOTHER_SYNTAX = 3, SEVERAL_SYNTAXES = 4 };

struct association {
    uint8_t proposed[CONTEXTS], accepted[CONTEXTS];
};

/* Shows a PDU, and notes what it negotiates. */
void show_pdu(const uint8_t *pdu, size_t n, size_t dump_at, struct association *a);

#endif
