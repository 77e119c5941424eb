/* Tells a session the lines of a file, asks it about group 0 of pool 1, places a thousand objects of the pool, and prints what it
 * says.
 *
 *     tools/build_c_library.sh /tmp/pgpeer
 *     cc -I/tmp/pgpeer -o ask examples/c/ask.c /tmp/pgpeer/libpgpeer.a
 *     ./ask < examples/outage.jsonl
 */
#include <stdio.h>
#include <stdlib.h>

#include "pgpeer.h"

enum { POOL = 1, PG = 0, OBJECTS = 1000 };

/* Ends the program where a call wasn't done. */
static void done(uint32_t status) {
    if (status == PGP_DONE) return;
    fprintf(stderr, "ask: %s\n", pgp_status_name(status));
    exit(1);
}

/* Room for a list, which is as long as the view of the group says. */
static void *room_for(size_t count, size_t size) {
    void *room = calloc(count + 1, size);
    if (!room) done(PGP_NO_MEMORY);
    return room;
}

/* Reads a line, without its line feed, whatever bytes it has. Of one that is longer than a line may be, it keeps one byte more than
 * that: the session refuses it then. */
static int read_line(uint8_t *line, size_t *length) {
    int byte = getchar();
    if (byte == EOF) return 0;
    for (*length = 0; byte != EOF && byte != '\n'; byte = getchar()) {
        if (*length <= PGP_LONGEST_LINE) line[(*length)++] = (uint8_t)byte;
    }
    return 1;
}

/* Tells the lines of standard input. The answers are not looked at here. */
static void tell(pgp_session *session) {
    static uint8_t line[PGP_LONGEST_LINE + 1];
    uint8_t none[1];
    size_t length, wanted;
    while (read_line(line, &length)) {
        uint32_t status = pgp_line(session, line, length, none, 0, &wanted);
        if (status != PGP_ROOM_TOO_SMALL) done(status);
    }
}

static void print_objects(pgp_session *session, const pgp_peer *peer) {
    size_t count;
    pgp_object *objects = room_for(peer->objects, sizeof *objects);
    done(pgp_missing_objects(session, POOL, PG, peer->osd, peer->slot, objects, peer->objects, &count));
    for (size_t at = 0; at < count; at++) {
        const pgp_object *it = &objects[at];
        printf("osd.%u lacks %.*s, written as %u'%u\n", peer->osd, it->name_length, (const char *)it->name, it->epoch, it->number);
    }
    free(objects);
}

static void print_group(pgp_session *session) {
    pgp_view view;
    size_t count;
    done(pgp_ask(session, POOL, PG, &view));
    printf("%s, since epoch %u of %u\n", pgp_verdict_name(view.verdict), view.first, view.epoch);
    if (view.best_osd != PGP_NO_DEVICE) printf("osd.%u has the best copy\n", view.best_osd);
    pgp_member *probe = room_for(view.probe, sizeof *probe);
    done(pgp_probe(session, POOL, PG, probe, view.probe, &count));
    for (size_t at = 0; at < count; at++) printf("osd.%u has to be heard\n", probe[at].osd);
    free(probe);
    pgp_peer *peers = room_for(view.missing, sizeof *peers);
    done(pgp_missing(session, POOL, PG, peers, view.missing, &count));
    for (size_t at = 0; at < count; at++) {
        if (peers[at].state == PGP_MISSING) print_objects(session, &peers[at]);
    }
    free(peers);
}

/* How many of a thousand objects each device serves. */
static void print_places(pgp_session *session) {
    static unsigned served[65536];
    for (int number = 0; number < OBJECTS; number++) {
        char name[16];
        pgp_place place;
        int length = snprintf(name, sizeof name, "object-%d", number);
        done(pgp_locate(session, POOL, (const uint8_t *)name, (size_t)length, &place));
        served[place.acting_primary]++;
    }
    for (unsigned osd = 0; osd < PGP_NO_DEVICE; osd++) {
        if (served[osd]) printf("osd.%u serves %u of %d objects\n", osd, served[osd], OBJECTS);
    }
}

int main(void) {
    pgp_session session = PGP_SESSION;
    done(pgp_open(&session));
    tell(&session);
    print_group(&session);
    print_places(&session);
    done(pgp_close(&session));
    return 0;
}
