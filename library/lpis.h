/* The checker as a library: `lpis area`, `lpis check` and `lpis cut` over bytes in memory, by the proved code of the program. docs/GUIDE.md shows how it
 * is built and linked, check.c and check.py how it is called.
 *
 * A call reads its inputs, puts the text into room that the caller lends, and fills in the reply.
 *
 *     true    The text, the first `length` bytes of the room, and `status` are what the program prints of files with these bytes, and ends with. Of
 *             `lpis_check` the status is 0 only if the release is a sound map and the certificate is good for it.
 *     false   There is no answer, and each room is left as it was. If `length` is 0, memory ran out or an input is over 1 GiB. Else the text is longer
 *             than its room: `length` is what is needed, and the same call with such a room gives the answer.
 *
 * What the caller owes, which nothing checks: no pointer is null, also where a length is 0. Inputs, rooms and replies do not overlap, and nobody else
 * writes to them during the call. `malloc`, `realloc` and `free` are those of one allocator, and align by 16. No call is made from a signal handler.
 * The library keeps nothing between two calls, and threads may call it at the same time.
 */
#ifndef LPIS_H
#define LPIS_H

#include <stdbool.h>
#include <stddef.h>
#include <stdint.h>

#ifdef __cplusplus
extern "C" {
#endif

/* Statuses, those of the program. */
enum { LPIS_YES = 0, LPIS_REFUSED = 1, LPIS_UNREADABLE = 2, LPIS_FAILED = 3 };

struct lpis_reply {
  size_t length;  /* of the text */
  uint8_t status; /* LPIS_FAILED where there is no answer */
};

/* The area of each row of a table of polygons. */
bool lpis_area(const uint8_t *table, size_t table_length,
               uint8_t *room, size_t room_length, struct lpis_reply *reply);

/* The report of a release that is a sound map by its certificate, and `yes`; or the line of the first fault. */
bool lpis_check(const uint8_t *parcels, size_t parcels_length, const uint8_t *covers, size_t covers_length,
                const uint8_t *classes, size_t classes_length, const uint8_t *cert, size_t cert_length,
                uint8_t *room, size_t room_length, struct lpis_reply *reply);

/* The certificate of a release, of `cert_given` bytes in its own room, and the line of its counts; or no certificate and the line of a refusal. A call
 * is also false where the certificate is longer than its room: then one of the two lengths is more than its room, and both are what is needed. */
bool lpis_cut(const uint8_t *parcels, size_t parcels_length, const uint8_t *covers, size_t covers_length,
              const uint8_t *classes, size_t classes_length,
              uint8_t *cert_room, size_t cert_room_length, uint8_t *room, size_t room_length,
              size_t *cert_given, struct lpis_reply *reply);

#ifdef __cplusplus
}
#endif
#endif
