// Plays the scripts of a file through the static library, for dev/check_c_library.py.
//
//     play FILE EXPECTED         each script in a session of its own, with rooms of several sizes
//     play FILE EXPECTED refuse  the same, once for each call of the allocator, which is refused: a line for which there was no
//                                memory has one of the two texts for that, and is told again
//     play FILE EXPECTED threads the same on two threads, each with sessions of its own
//     play FILE EXPECTED moves   the same, where a session is opened, told each of its lines and closed by a thread of its own
//
// A line of FILE that begins with "# " ends a script, and is written as it stands. What is written has to be EXPECTED. Prints
// what was played, and ends in status 1 where something was wrong.
#define _GNU_SOURCE  // memmem
#include <pthread.h>
#include <stdio.h>
#include <stdlib.h>
#include <string.h>

#include "pgpeer.h"

// The library's calls of the allocator come here by the linker's --wrap. The one of this number, from 1 on, is refused.
static _Thread_local long calls, refused;

void *__real_malloc(size_t size);
void *__real_realloc(void *at, size_t size);

void *__wrap_malloc(size_t size) {
    return ++calls == refused ? NULL : __real_malloc(size);
}

void *__wrap_realloc(void *at, size_t size) {
    return ++calls == refused ? NULL : __real_realloc(at, size);
}

typedef struct {
    uint8_t *bytes;
    size_t length;
} text;

static void fail(const char *why) {
    fprintf(stderr, "play: %s\n", why);
    exit(1);
}

static text read_file(const char *path) {
    FILE *file = fopen(path, "rb");
    if (!file) fail("no such file");
    text all = {__real_malloc(1 << 26), 0};
    all.length = fread(all.bytes, 1, 1 << 26, file);
    fclose(file);
    return all;
}

static void put(text *out, const uint8_t *bytes, size_t length) {
    memcpy(out->bytes + out->length, bytes, length);
    out->length += length;
}

enum { UNTOUCHED = 171, FILLED = 64 };  // what fills the front of a room before a call, and how much of it

static void fill(uint8_t *room, size_t length) {
    memset(room, UNTOUCHED, length < FILLED ? length : FILLED);
}

static void look_untouched(const uint8_t *room, size_t length) {
    for (size_t at = 0; at < length && at < FILLED; at++) {
        if (room[at] != UNTOUCHED) fail("a room that is too small was written");
    }
}

static uint8_t *take_room(size_t length) {
    return __real_malloc(length ? length : 1);
}

static const char no_line[] = "{\"code\":41,\"refused\":\"Memory\"}\n", no_entry[] = "{\"code\":51,\"refused\":\"Memory\"}\n";

// Whether a line asks something, so that it is no entry.
static int asks(const uint8_t *line, size_t length) {
    static const char *const ops[] = {"\"ask\"", "\"locate\"", "\"trace\""};
    for (size_t at = 0; at < sizeof ops / sizeof *ops; at++) {
        if (memmem(line, length, ops[at], strlen(ops[at]))) return 1;
    }
    return 0;
}

// Looks at what a line left that was out of memory: in the room, where it fits, and as the answer of the session.
static void look_at_lack(pgp_session *session, const uint8_t *line, size_t length, const uint8_t *room, size_t room_length,
                         size_t wanted) {
    uint8_t again[64];
    size_t kept = 0;
    if (pgp_answer(session, again, sizeof again, &kept) != PGP_DONE || kept != wanted) fail("another answer where there was no memory");
    if (kept != strlen(no_line) || (memcmp(again, no_line, kept) && memcmp(again, no_entry, kept))) fail("no text of no memory");
    if (asks(line, length) && memcmp(again, no_line, kept)) fail("a question was told to be an entry");
    if (room_length >= kept) {
        if (memcmp(room, again, kept)) fail("no text of no memory in the room");
        return;
    }
    look_untouched(room, room_length);
}

// Tells the session a line, and puts the answer behind the text. The room is large, small or of just the right size, in turn.
static void tell(pgp_session *session, const uint8_t *line, size_t length, text *out, unsigned turn) {
    size_t room_length = turn % 3 == 0 ? 1 << 24 : turn % 3 == 1 ? 7 : 0;
    uint8_t *room = take_room(room_length);
    fill(room, room_length);
    size_t wanted = 0;
    uint32_t status = pgp_line(session, line, length, room, room_length, &wanted);
    if (status == PGP_NO_MEMORY) {
        if (!refused) fail("no memory where none was refused");
        look_at_lack(session, line, length, room, room_length, wanted);
        fill(room, room_length);
        status = pgp_line(session, line, length, room, room_length, &wanted);
    }
    if (status == PGP_ROOM_TOO_SMALL) {
        if (wanted <= room_length) fail("told too small a room where it was large enough");
        look_untouched(room, room_length);
        free(room);
        room = take_room(wanted);
        status = pgp_answer(session, room, wanted, &wanted);
    }
    if (status != PGP_DONE) fail(pgp_status_name(status));
    put(out, room, wanted);
    free(room);
}

static void open_session(pgp_session *session) {
    uint32_t status = pgp_open(session);
    if (status == PGP_NO_MEMORY && refused) status = pgp_open(session);
    if (status != PGP_DONE) fail("not opened");
    if (pgp_open(session) != PGP_ALREADY_OPEN) fail("opened twice");
}

static void close_session(pgp_session *session) {
    uint8_t room[1];
    size_t wanted = 9;
    if (pgp_close(session) != PGP_DONE) fail("not closed");
    if (pgp_close(session) != PGP_NOT_OPEN) fail("closed twice");
    if (pgp_line(session, room, 0, room, 1, &wanted) != PGP_NOT_OPEN || wanted != 0) fail("a closed session was told a line");
    if (pgp_answer(session, room, 1, &wanted) != PGP_NOT_OPEN) fail("a closed session gave an answer");
}

// What is done with a session next: it is opened, closed, or told a line.
typedef struct {
    pgp_session *session;
    void (*step)(pgp_session *session);
    const uint8_t *line;
    size_t length;
    text *out;
    unsigned turn;
} work;

static void *do_work(void *given) {
    const work *it = given;
    if (it->step) it->step(it->session);
    else tell(it->session, it->line, it->length, it->out, it->turn);
    return NULL;
}

static int moves;  // whether each call comes from a thread of its own

static void have_done(work it) {
    pthread_t other;
    if (!moves) {
        do_work(&it);
    } else if (pthread_create(&other, NULL, do_work, &it) || pthread_join(other, NULL)) {
        fail("no thread");
    }
}

static text play(text scripts) {
    text out = {__real_malloc(1 << 26), 0};
    pgp_session session = PGP_SESSION;
    const work opening = {.session = &session, .step = open_session}, closing = {.session = &session, .step = close_session};
    have_done(opening);
    unsigned turn = 0;
    for (size_t at = 0; at < scripts.length; turn++) {
        const uint8_t *line = scripts.bytes + at;
        const uint8_t *end = memchr(line, '\n', scripts.length - at);
        size_t length = end ? (size_t)(end - line) : scripts.length - at;
        at += length + (end != NULL);
        if (length >= 2 && line[0] == '#' && line[1] == ' ') {
            put(&out, line, length + (end != NULL));
            have_done(closing);
            have_done(opening);
        } else {
            have_done((work){.session = &session, .line = line, .length = length, .out = &out, .turn = turn});
        }
    }
    have_done(closing);
    return out;
}

static text scripts, expected;

static void *play_and_compare(void *unused) {
    (void)unused;
    calls = 0;
    text out = play(scripts);
    if (out.length != expected.length || memcmp(out.bytes, expected.bytes, out.length) != 0) fail("other answers");
    free(out.bytes);
    return NULL;
}

int main(int argc, char **argv) {
    if (argc < 3) fail("usage: play FILE EXPECTED [refuse | threads | moves]");
    scripts = read_file(argv[1]);
    expected = read_file(argv[2]);
    play_and_compare(NULL);
    long all = calls;
    if (argc > 3 && strcmp(argv[3], "moves") == 0) {
        moves = 1;
        play_and_compare(NULL);
    }
    if (argc > 3 && strcmp(argv[3], "refuse") == 0) {
        for (refused = 1; refused <= all; refused++) play_and_compare(NULL);
        refused = 0;
    }
    if (argc > 3 && strcmp(argv[3], "threads") == 0) {
        pthread_t one, two;
        pthread_create(&one, NULL, play_and_compare, NULL);
        pthread_create(&two, NULL, play_and_compare, NULL);
        pthread_join(one, NULL);
        pthread_join(two, NULL);
    }
    printf("%ld allocations, %zu bytes of answers\n", all, expected.length);
    free(scripts.bytes);
    free(expected.bytes);
    return 0;
}
