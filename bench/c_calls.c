// How long calls of the library for C take, for bench/measure_c_calls.py.
//
//     c_calls first ROUNDS    where one object of each group of pool 1 lies, for the first time, in this many sessions
//     c_calls kept COUNT      the same objects by turns, whose groups have been placed before, by pgp_locate
//     c_calls line COUNT      the same, by pgp_line
//     c_calls ask COUNT       what is said of group 0 of pool 1, by pgp_ask, after it was asked for once
//     c_calls askline COUNT   the same, by pgp_line
//     c_calls turn COUNT      an info of the group told by pgp_submit_info, and what is said of it then, by pgp_ask
//     c_calls turnlist COUNT  the same, and its past intervals by pgp_intervals
//     c_calls turnline COUNT  an info and a question by pgp_line
//     c_calls opened 1        what is said of the group for the first time, by pgp_ask
//     c_calls worked MAX      the longest call of pgp_work, with so many steps at once, until none is left
//
// A session is told the lines of standard input first, which isn't timed. Prints how many calls were timed, and the seconds of the
// processor that they took.
#include <stdio.h>
#include <stdlib.h>
#include <string.h>
#include <time.h>

#include "pgpeer.h"

enum { GROUPS = 1024 };

static const char ASK[] = "{\"op\":\"ask\",\"pg\":[1,0]}";

static char script[1 << 24];
static size_t script_length;
static uint8_t room[1 << 20];
static size_t wanted;
static char names[GROUPS][32];
static unsigned groups;

static void done(uint32_t status) {
    if (status == PGP_DONE) return;
    fprintf(stderr, "c_calls: %s\n", pgp_status_name(status));
    exit(1);
}

static double now(void) {
    struct timespec at;
    clock_gettime(CLOCK_PROCESS_CPUTIME_ID, &at);
    return (double)at.tv_sec + (double)at.tv_nsec / 1e9;
}

static void tell(pgp_session *session, const char *line, size_t length) {
    done(pgp_line(session, (const uint8_t *)line, length, room, sizeof room, &wanted));
}

static void open_told(pgp_session *session) {
    done(pgp_open(session));
    for (size_t at = 0; at < script_length;) {
        const char *end = memchr(script + at, '\n', script_length - at);
        size_t length = end ? (size_t)(end - script) - at : script_length - at;
        tell(session, script + at, length);
        at += length + 1;
    }
}

static pgp_place locate(pgp_session *session, const char *name) {
    pgp_place place;
    done(pgp_locate(session, 1, (const uint8_t *)name, strlen(name), &place));
    return place;
}

// Names an object of each group that a thousand times as many names have.
static void name_objects(void) {
    static bool has[65536];
    pgp_session session = PGP_SESSION;
    open_told(&session);
    for (long number = 0; groups < GROUPS && number < 1000L * GROUPS; number++) {
        char name[32];
        snprintf(name, sizeof name, "object-%ld", number);
        pgp_place place = locate(&session, name);
        if (!has[place.pg]) strcpy(names[groups++], name);
        has[place.pg] = true;
    }
    done(pgp_close(&session));
}

static double first(long rounds) {
    double spent = 0;
    for (long round = 0; round < rounds; round++) {
        pgp_session session = PGP_SESSION;
        open_told(&session);
        double before = now();
        for (unsigned at = 0; at < groups; at++) locate(&session, names[at]);
        spent += now() - before;
        done(pgp_close(&session));
    }
    return spent;
}

static double kept(pgp_session *session, long count) {
    for (unsigned at = 0; at < groups; at++) locate(session, names[at]);
    double before = now();
    for (long at = 0; at < count; at++) locate(session, names[at % groups]);
    return now() - before;
}

static double by_lines(pgp_session *session, long count) {
    static char lines[GROUPS][80];
    for (unsigned at = 0; at < groups; at++) {
        snprintf(lines[at], sizeof lines[at], "{\"op\":\"locate\",\"pool\":1,\"name\":\"%s\"}", names[at]);
        tell(session, lines[at], strlen(lines[at]));
    }
    double before = now();
    for (long at = 0; at < count; at++) tell(session, lines[at % groups], strlen(lines[at % groups]));
    return now() - before;
}

static double asked(pgp_session *session, long count, bool by_line) {
    pgp_view view;
    done(pgp_ask(session, 1, 0, &view));
    double before = now();
    for (long at = 0; at < count; at++) {
        if (by_line) tell(session, ASK, sizeof ASK - 1);
        else done(pgp_ask(session, 1, 0, &view));
    }
    return now() - before;
}

static double turns(pgp_session *session, long count, bool by_line, bool with_list) {
    static pgp_interval past[1 << 13];
    char line[256];
    pgp_view view;
    done(pgp_ask(session, 1, 0, &view));
    pgp_info info = {.pool = 1, .osd = 1, .stamp = view.epoch, .last_update_epoch = 1, .last_update = 2, .complete = 1};
    int length = snprintf(line, sizeof line,
                          "{\"op\":\"info\",\"pg\":[1,0],\"from\":[1,0],\"stamp\":%u,\"les\":0,\"history_les\":0,"
                          "\"last_update\":[1,2],\"log_tail\":[0,0],\"complete\":true}",
                          view.epoch);
    double before = now();
    for (long at = 0; at < count; at++) {
        if (by_line) {
            tell(session, line, (size_t)length);
            tell(session, ASK, sizeof ASK - 1);
        } else {
            done(pgp_submit_info(session, &info));
            done(pgp_ask(session, 1, 0, &view));
            if (with_list) done(pgp_intervals(session, 1, 0, past, sizeof past / sizeof *past, &wanted));
        }
    }
    return now() - before;
}

static double opened(pgp_session *session) {
    pgp_view view;
    double before = now();
    done(pgp_ask(session, 1, 0, &view));
    return now() - before;
}

static double longest(pgp_session *session, size_t max) {
    double most = 0;
    for (size_t left = 1; left > 0;) {
        double before = now();
        done(pgp_work(session, max, &left));
        double spent = now() - before;
        if (spent > most) most = spent;
    }
    return most;
}

int main(int argc, char **argv) {
    if (argc != 3) return 2;
    const char *mode = argv[1];
    long count = atol(argv[2]);
    script_length = fread(script, 1, sizeof script, stdin);
    if (!strcmp(mode, "first") || !strcmp(mode, "kept") || !strcmp(mode, "line")) name_objects();
    double spent = 0;
    pgp_session session = PGP_SESSION;
    open_told(&session);
    if (!strcmp(mode, "first")) spent = first(count);
    if (!strcmp(mode, "kept")) spent = kept(&session, count);
    if (!strcmp(mode, "line")) spent = by_lines(&session, count);
    if (!strcmp(mode, "ask")) spent = asked(&session, count, false);
    if (!strcmp(mode, "askline")) spent = asked(&session, count, true);
    if (!strncmp(mode, "turn", 4)) spent = turns(&session, count, !strcmp(mode, "turnline"), !strcmp(mode, "turnlist"));
    if (!strcmp(mode, "opened")) spent = opened(&session);
    if (!strcmp(mode, "worked")) {
        spent = longest(&session, (size_t)count);
        count = 1;
    }
    done(pgp_close(&session));
    printf("%ld %.9f\n", strcmp(mode, "first") ? count : count * (long)groups, spent);
    return 0;
}
