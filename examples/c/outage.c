/* Tells a session the lines of a file, such as examples/outage.jsonl, and prints each answer.
 *
 *     tools/build_c_library.sh /tmp/pgpeer
 *     cc -I/tmp/pgpeer -o outage examples/c/outage.c /tmp/pgpeer/libpgpeer.a
 *     ./outage < examples/outage.jsonl
 */
#include <stdio.h>
#include <stdlib.h>

#include "pgpeer.h"

/* Prints the answer to a line. Where the room is too small, the session keeps the answer until there is more room. */
static uint32_t answer(pgp_session *session, const uint8_t *line, size_t length) {
    static uint8_t *room;
    static size_t room_length;
    size_t wanted;
    if (!room) room = malloc(room_length = 4096);
    if (!room) return PGP_NO_MEMORY;
    uint32_t status = pgp_line(session, line, length, room, room_length, &wanted);
    if (status == PGP_ROOM_TOO_SMALL) {
        uint8_t *larger = realloc(room, wanted);
        if (!larger) return PGP_NO_MEMORY;
        room = larger;
        room_length = wanted;
        status = pgp_answer(session, room, room_length, &wanted);
    }
    if (status == PGP_DONE) fwrite(room, 1, wanted, stdout);
    return status;
}

/* Reads a line, without its line feed, whatever bytes it has. Of one that is longer than a line may be, it keeps one byte more than
 * that: the session refuses it then. */
static int read_line(uint8_t *line, size_t *length) {
    int byte = getchar();
    if (byte == EOF) return 0;
    for (*length = 0; byte != EOF && byte != '\n'; byte = getchar()) {
        if (*length <= PGP_LONGEST_LINE) line[(*length)++] = (uint8_t)byte;
    }
    return 1;
}

int main(void) {
    static uint8_t line[PGP_LONGEST_LINE + 1];
    size_t length;
    pgp_session session = PGP_SESSION;
    uint32_t status = pgp_open(&session);
    while (status == PGP_DONE && read_line(line, &length)) status = answer(&session, line, length);
    if (status != PGP_DONE) fprintf(stderr, "outage: %s\n", pgp_status_name(status));
    pgp_close(&session);
    return status != PGP_DONE;
}
