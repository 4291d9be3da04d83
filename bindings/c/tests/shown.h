/* What a reply says, as text. */
#ifndef SHOWN_H
#define SHOWN_H

#include "check.h"

/* Capabilities that decide how a reply is laid out. */
#define PROTOCOL_41 0x00000200u
#define SESSION_TRACK 0x00800000u
#define DEPRECATE_EOF 0x01000000u
#define PROGRESS_OBSOLETE 0x20000000u

/* Adds the results that the handle shows: each row of a result set by itself, so that a result set
 * that is taken in parts shows as one that is taken whole. */
void add_results(text *shown, mysql_session_handle *reply);

/* A result whose fields are zeros. */
mysql_session_result no_result(void);

/* Reads a whole reply in pieces and returns the code of the last feed. Its results are taken and
 * added as they come, or else they are left for the end. */
uint32_t read_reply(text *shown, mysql_session_handle *reply, const uint8_t *bytes, size_t len,
                    size_t piece, int as_they_come);

#endif
