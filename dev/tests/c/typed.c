// The calls of pgpeer.h that take and give values, held against lines, for dev/check_c_library.py.
//
//     typed         each call
//     typed refuse  the same, once for each call of the allocator, which is refused: what there was no memory for is called again
//
// Ends in status 1 where something is wrong, and says what.
#include <stdio.h>
#include <stdlib.h>
#include <string.h>

#include "pgpeer.h"

#define CHECK(holds) \
    do { \
        if (!(holds)) { \
            fprintf(stderr, "typed: line %d: %s\n", __LINE__, #holds); \
            exit(1); \
        } \
    } while (0)

static pgp_session session = PGP_SESSION;
static char answer[1 << 16];

// The library's calls of the allocator come here by the linker's --wrap. The one of this number, from 1 on, is refused.
static long calls, refused;
static int refuses; // Whether each is, in turn.

void *__real_malloc(size_t size);
void *__real_realloc(void *at, size_t size);

void *__wrap_malloc(size_t size) {
    return ++calls == refused ? NULL : __real_malloc(size);
}

void *__wrap_realloc(void *at, size_t size) {
    return ++calls == refused ? NULL : __real_realloc(at, size);
}

static uint32_t last;

static int lacks_memory(uint32_t status) {
    last = status;
    if (status == PGP_NO_MEMORY && (!refused || calls < refused)) {
        fprintf(stderr, "typed: no memory where none was refused\n");
        exit(1);
    }
    return status == PGP_NO_MEMORY;
}

// The status of a call, which is made again where there was no memory for it.
#define MADE(call) (lacks_memory(call) ? (call) : last)

// Tells the session a line, and keeps the answer as a string.
static const char *tell(const char *line) {
    size_t length;
    CHECK(MADE(pgp_line(&session, (const uint8_t *)line, strlen(line), (uint8_t *)answer, sizeof answer - 1, &length)) == PGP_DONE);
    answer[length] = 0;
    return answer;
}

static int has(const char *part) {
    return strstr(answer, part) != NULL;
}

static uint32_t locate(uint32_t pool, const char *name, pgp_place *place) {
    return MADE(pgp_locate(&session, pool, (const uint8_t *)name, strlen(name), place));
}

// The eight lines of the README's outage, with the infos told in values.
static void outage(void) {
    tell("{\"op\":\"inc\",\"epoch\":1,\"up\":[0,1,2],\"weight\":[[1,0],[2,0]],\"up_thru\":[[0,1]],\"crush\":[{\"id\":-1,\"type\":1,"
         "\"alg\":\"uniform\",\"items\":[0,1,2]}],\"pools\":[{\"id\":1,\"pg_num\":1,\"kind\":\"replicated\",\"size\":3,\"min_size\":2,"
         "\"leaf\":0}],\"temp\":[[1,0,[0,1,2]]]}");
    CHECK(has("\"ok\":\"inc\""));
    tell("{\"op\":\"inc\",\"epoch\":2,\"down\":[0]}");
    pgp_view view;
    CHECK(MADE(pgp_ask(&session, 1, 0, &view)) == PGP_DONE);
    CHECK(view.verdict == PGP_WAITING && view.count == 2 && view.epoch == 2 && view.first == 2 && view.intervals == 1);
    CHECK(view.best_osd == PGP_NO_DEVICE && view.probe == 2 && view.missing == 0);
    pgp_info info = {.pool = 1, .osd = 1, .stamp = 2, .last_update_epoch = 1, .last_update = 2, .complete = true};
    CHECK(MADE(pgp_submit_info(&session, &info)) == PGP_DONE);
    info.osd = 2;
    info.last_update = 1;
    CHECK(MADE(pgp_submit_info(&session, &info)) == PGP_DONE);
    tell("{\"op\":\"entries\",\"pg\":[1,0],\"from\":[1,0],\"stamp\":2,\"log\":[[1,1,\"modify\",\"a\"],[1,2,\"modify\",\"b\"]]}");
    tell("{\"op\":\"inc\",\"epoch\":3,\"up_thru\":[[1,2]]}");
}

static void views(void) {
    tell("{\"op\":\"ask\",\"pg\":[1,0]}");
    CHECK(has("\"verdict\":\"Serve\"") && has("\"best\":[1,0]") && has("\"count\":6,\"epoch\":3,\"first\":2"));
    pgp_view view;
    CHECK(MADE(pgp_ask(&session, 1, 0, &view)) == PGP_DONE);
    CHECK(view.verdict == PGP_SERVE && strcmp(pgp_verdict_name(view.verdict), "Serve") == 0);
    CHECK(view.count == 6 && view.epoch == 3 && view.first == 2 && view.les == 0);
    CHECK(view.best_osd == 1 && view.best_slot == 0 && view.acting_primary == 1 && view.up_primary == PGP_NO_DEVICE);
    CHECK(view.acting_length == 2 && view.acting[0] == 1 && view.acting[1] == 2 && view.acting[2] == PGP_NO_DEVICE);
    CHECK(view.up_length == 0 && view.up[0] == PGP_NO_DEVICE && view.acting[15] == PGP_NO_DEVICE);
    CHECK(view.intervals == 1 && view.probe == 2 && view.blocked_by == 0 && view.missing == 1);
}

static void lists(void) {
    size_t count = 99;
    pgp_member probe[3] = {{7, 7}, {7, 7}, {7, 7}};
    CHECK(MADE(pgp_probe(&session, 1, 0, probe, 1, &count)) == PGP_ROOM_TOO_SMALL && count == 2 && probe[0].osd == 7);
    CHECK(MADE(pgp_probe(&session, 1, 0, probe, 3, &count)) == PGP_DONE && count == 2);
    CHECK(probe[0].osd == 1 && probe[0].slot == 0 && probe[1].osd == 2 && probe[2].osd == 7);
    pgp_interval past[1];
    CHECK(MADE(pgp_intervals(&session, 1, 0, past, 1, &count)) == PGP_DONE && count == 1);
    CHECK(past->first == 1 && past->last == 1 && past->rw && past->size == 3 && past->min_size == 2);
    CHECK(past->acting_length == 3 && past->acting[2] == 2 && past->acting_primary == 0 && past->up_length == 1);
    uint16_t devices[1] = {7};
    CHECK(MADE(pgp_blocked_by(&session, 1, 0, devices, 1, &count)) == PGP_DONE && count == 0 && devices[0] == 7);
    pgp_peer peers[1];
    CHECK(MADE(pgp_missing(&session, 1, 0, peers, 1, &count)) == PGP_DONE && count == 1);
    CHECK(peers->osd == 2 && peers->slot == 0 && peers->state == PGP_MISSING && peers->objects == 1);
    CHECK(MADE(pgp_missing(&session, 1, 1, peers, 1, &count)) == PGP_ASK_UNKNOWN_GROUP && count == 0);
    CHECK(MADE(pgp_missing(&session, 0, 0, peers, 1, &count)) == PGP_BAD_ARGUMENT && count == 0);
}

static uint32_t objects_of(uint32_t pg, uint32_t osd, uint32_t slot, pgp_object *room, size_t length, size_t *count) {
    return MADE(pgp_missing_objects(&session, 1, pg, osd, slot, room, length, count));
}

// Device 2 lacks b alone.
static void objects(void) {
    size_t count = 99;
    pgp_object room[3];
    memset(room, 7, sizeof room);
    CHECK(objects_of(0, 2, 0, room, 0, &count) == PGP_ROOM_TOO_SMALL && count == 1 && room->name_length == 7);
    CHECK(objects_of(0, 2, 0, room, 3, &count) == PGP_DONE && count == 1);
    CHECK(room->epoch == 1 && room->number == 2 && room->name_length == 1 && room->name[0] == 'b');
    for (int at = 1; at < 255; at++) CHECK(room->name[at] == 0);
    CHECK(room[1].epoch == 0x07070707 && room[1].name[0] == 7);
    CHECK(objects_of(0, 1, 0, room, 3, &count) == PGP_NO_LIST && count == 0 && room->number == 2);
    count = 99;
    CHECK(objects_of(0, 2, 1, room, 3, &count) == PGP_NO_LIST && count == 0);
    CHECK(objects_of(1, 2, 0, room, 3, &count) == PGP_ASK_UNKNOWN_GROUP && count == 0);
    CHECK(objects_of(1024, 2, 0, room, 3, &count) == PGP_BAD_ARGUMENT && objects_of(0, 4096, 0, room, 3, &count) == PGP_BAD_ARGUMENT);
    CHECK(objects_of(0, 2, 16, room, 3, &count) == PGP_BAD_ARGUMENT && count == 0 && room->number == 2);
}

// The two objects of a new report, one of a long name, both of which device 2 lacks.
static void long_names(void) {
    char line[700], name[256];
    memset(name, 'n', 255);
    name[255] = 0;
    snprintf(line, sizeof line, "{\"op\":\"entries\",\"pg\":[1,0],\"from\":[1,0],\"stamp\":3,\"log\":[[1,1,\"modify\",\"%s\"],[1,2,\"modify\",\"z\"]]}", name);
    tell(line);
    CHECK(has("\"ok\":\"entries\""));
    tell("{\"op\":\"info\",\"pg\":[1,0],\"from\":[2,0],\"stamp\":3,\"les\":0,\"history_les\":0,\"last_update\":[0,0],\"log_tail\":[0,0],"
         "\"complete\":true}");
    tell("{\"op\":\"ask\",\"pg\":[1,0]}");
    snprintf(line, sizeof line, "\"objects\":{\"%s\":[1,1],\"z\":[1,2]}", name);
    CHECK(has(line));
    size_t count;
    pgp_object room[2];
    CHECK(objects_of(0, 2, 0, room, 2, &count) == PGP_DONE && count == 2);
    CHECK(room[0].name_length == 255 && memcmp(room[0].name, name, 255) == 0 && room[0].epoch == 1 && room[0].number == 1);
    CHECK(room[1].name_length == 1 && room[1].name[0] == 'z' && room[1].name[1] == 0 && room[1].number == 2);
}

// An info that the same member tells once more is left out, and the group's view is the same except for its count.
static void compaction(void) {
    pgp_view before, after;
    pgp_info info = {.pool = 1, .osd = 2, .stamp = 3, .last_update_epoch = 1, .last_update = 1, .complete = true};
    size_t left_out = 99;
    CHECK(MADE(pgp_submit_info(&session, &info)) == PGP_DONE);
    tell("{\"op\":\"locate\",\"pool\":1,\"name\":\"a\"}");
    CHECK(MADE(pgp_ask(&session, 1, 0, &before)) == PGP_DONE && before.count == 7);
    CHECK(MADE(pgp_compact_log(&session, &left_out)) == PGP_DONE && left_out == 1);
    CHECK(MADE(pgp_ask(&session, 1, 0, &after)) == PGP_DONE && after.count == 6);
    CHECK(after.verdict == before.verdict && after.epoch == before.epoch && after.first == before.first && after.les == before.les);
    CHECK(after.best_osd == before.best_osd && after.missing == before.missing && after.intervals == before.intervals);
    CHECK(after.probe == before.probe && memcmp(after.acting, before.acting, sizeof after.acting) == 0);
    CHECK(MADE(pgp_compact_log(&session, &left_out)) == PGP_DONE && left_out == 0);
    size_t length;
    CHECK(pgp_answer(&session, (uint8_t *)answer, sizeof answer, &length) == PGP_DONE && has("\"ok\":\"locate\""));
}

// A full log has room again after it was compacted.
static void full(void) {
    pgp_info info = {.pool = 1, .osd = 2, .stamp = 2, .last_update_epoch = 1, .last_update = 1, .complete = true};
    pgp_view view;
    size_t left_out = 99;
    CHECK(pgp_compact_log(&session, &left_out) == PGP_NOT_OPEN && left_out == 0);
    CHECK(pgp_open(&session) == PGP_DONE);
    outage();
    for (int count = 6; count < 65535; count++) CHECK(pgp_submit_info(&session, &info) == PGP_DONE);
    CHECK(pgp_submit_info(&session, &info) == PGP_LOG_FULL);
    pgp_inc inc = PGP_INC;
    inc.epoch = 4, inc.after = 3;
    CHECK(pgp_submit_inc(&session, &inc) == PGP_LOG_FULL);
    CHECK(pgp_compact_log(&session, &left_out) == PGP_DONE && left_out == 65535 - 6);
    CHECK(pgp_submit_info(&session, &info) == PGP_DONE);
    CHECK(pgp_ask(&session, 1, 0, &view) == PGP_DONE && view.count == 7 && view.verdict == PGP_SERVE);
    CHECK(pgp_close(&session) == PGP_DONE);
}

// What is left after a compaction, by place, and what the session knows of its log without a group.
static void remains(void) {
    pgp_info info = {.pool = 1, .osd = 2, .stamp = 3, .last_update_epoch = 1, .last_update = 1, .complete = true};
    uint8_t room[8] = {7, 7, 7, 7, 7, 7, 7, 7};
    size_t count = 99;
    pgp_log log;
    CHECK(MADE(pgp_submit_info(&session, &info)) == PGP_DONE);
    CHECK(pgp_ask_log(&session, &log) == PGP_DONE);
    CHECK(log.count == 7 && log.epoch == 3 && log.incrementals == 3 && log.infos == 3 && log.parts == 1 && log.closed == 0);
    CHECK(MADE(pgp_needed(&session, room, 6, &count)) == PGP_ROOM_TOO_SMALL && count == 7 && room[0] == 7);
    CHECK(MADE(pgp_needed(&session, room, 8, &count)) == PGP_DONE && count == 7);
    CHECK(memcmp(room, "\1\1\1\0\1\1\1\7", 8) == 0);
    CHECK(MADE(pgp_compact_log(&session, &count)) == PGP_DONE && count == 1);
    CHECK(pgp_ask_log(&session, &log) == PGP_DONE && log.count == 6 && log.incrementals == 3 && log.infos == 2 && log.parts == 1);
    CHECK(MADE(pgp_needed(&session, room, 8, &count)) == PGP_DONE && count == 6 && memcmp(room, "\1\1\1\1\1\1\1\7", 8) == 0);
}

// Lines that may stand for a log give a session that says the same of the group, with fewer entries.
static void joined(void) {
    static const char *const flaps[] = {
        "{\"op\":\"inc\",\"epoch\":1,\"up\":[0,1],\"temp\":[[1,0,[0]]],\"pools\":[{\"id\":1,\"pg_num\":1,\"kind\":\"replicated\",\"size\":2,\"min_size\":1,\"leaf\":0}]}",
        "{\"op\":\"entries\",\"pg\":[1,0],\"from\":[0,0],\"stamp\":1,\"log\":[[1,1,\"modify\",\"a\\u0001\\\"\\u00e4\"]]}",
        "{\"op\":\"inc\",\"epoch\":2,\"down\":[1]}", "{\"op\":\"inc\",\"epoch\":3,\"up\":[1]}",
        "{\"op\":\"inc\",\"epoch\":4,\"down\":[1]}", "{\"op\":\"inc\",\"epoch\":5,\"up\":[1]}",
        "{\"op\":\"info\",\"pg\":[1,0],\"from\":[0,0],\"stamp\":5,\"les\":5,\"history_les\":5,\"last_epoch_clean\":5,\"last_update\":[1,1],\"log_tail\":[0,0],\"complete\":true}",
        "{\"op\":\"inc\",\"epoch\":6,\"up_thru\":[[0,6]]}", "{\"op\":\"inc\",\"epoch\":7}", "{\"op\":\"close\"}"};
    static uint8_t room[4096], again[4096];
    pgp_session long_one = PGP_SESSION, short_one = PGP_SESSION;
    size_t length = 99, other = 99, refused = 99;
    pgp_log before, after;
    pgp_view view, shown;
    CHECK(pgp_joined_lines(&long_one, room, sizeof room, &length) == PGP_NOT_OPEN && length == 0);
    CHECK(MADE(pgp_open(&long_one)) == PGP_DONE);
    for (size_t at = 0; at < sizeof flaps / sizeof *flaps; at++) {
        CHECK(MADE(pgp_line(&long_one, (const uint8_t *)flaps[at], strlen(flaps[at]), room, sizeof room, &length)) == PGP_DONE);
        CHECK(length > 7 && memcmp(room, "{\"count\"", 8) == 0);
    }
    CHECK(MADE(pgp_joined_lines(&long_one, room, 1, &length)) == PGP_ROOM_TOO_SMALL && length > 1);
    CHECK(MADE(pgp_joined_lines(&long_one, room, sizeof room, &length)) == PGP_DONE && room[length - 1] == '\n');
    CHECK(pgp_answer(&long_one, again, sizeof again, &other) == PGP_DONE && other == length && memcmp(room, again, length) == 0);
    CHECK(MADE(pgp_open_lines(&short_one, 3, room, length, &refused)) == PGP_DONE && refused == 0);
    CHECK(pgp_ask_log(&long_one, &before) == PGP_DONE && pgp_ask_log(&short_one, &after) == PGP_DONE);
    CHECK(before.count == 10 && after.count < 8 && after.epoch == 7);
    CHECK(MADE(pgp_ask(&long_one, 1, 0, &view)) == PGP_DONE && MADE(pgp_ask(&short_one, 1, 0, &shown)) == PGP_DONE);
    CHECK(shown.verdict == view.verdict && shown.first == view.first && shown.les == view.les && shown.best_osd == view.best_osd);
    CHECK(MADE(pgp_submit_close(&short_one)) == PGP_CLOSED);
    CHECK(pgp_close(&long_one) == PGP_DONE && pgp_close(&short_one) == PGP_DONE);
}

// A session that begins with lines, and one that begins as its copy and then goes its own way.
static void begun(void) {
    static const char text[] = "{\"op\":\"inc\",\"epoch\":1,\"up\":[0]}\n\n{\"op\":\"ask\",\"pg\":[1,0]}\nno line\n{\"op\":\"inc\",\"epoch\":3}\n{\"op\":\"close\"}";
    pgp_session lines = PGP_SESSION, copy = PGP_SESSION;
    size_t refused = 99, length = 99;
    pgp_log log;
    CHECK(pgp_open_copy(&copy, &lines) == PGP_NOT_OPEN && pgp_ask_log(&lines, &log) == PGP_NOT_OPEN);
    CHECK(pgp_open_lines(&lines, 4, (const uint8_t *)text, sizeof text - 1, &refused) == PGP_BAD_ARGUMENT && refused == 0);
    CHECK(MADE(pgp_open_lines(&lines, 2, (const uint8_t *)text, sizeof text - 1, &refused)) == PGP_DONE && refused == 3);
    CHECK(pgp_open_lines(&lines, 2, (const uint8_t *)text, 0, &refused) == PGP_ALREADY_OPEN && refused == 0);
    CHECK(pgp_answer(&lines, (uint8_t *)answer, sizeof answer, &length) == PGP_DONE && length == 0);
    CHECK(pgp_ask_log(&lines, &log) == PGP_DONE && log.count == 2 && log.epoch == 1);
    CHECK(pgp_close(&lines) == PGP_DONE);
    CHECK(MADE(pgp_open_lines(&lines, 2, (const uint8_t *)text, 0, &refused)) == PGP_DONE && refused == 0);
    CHECK(MADE(pgp_open_copy(&copy, &session)) == PGP_DONE && pgp_open_copy(&copy, &session) == PGP_ALREADY_OPEN);
    pgp_view view, other;
    CHECK(MADE(pgp_ask(&session, 1, 0, &view)) == PGP_DONE && MADE(pgp_ask(&copy, 1, 0, &other)) == PGP_DONE);
    CHECK(other.count == view.count && other.verdict == view.verdict && other.missing == view.missing && other.epoch == view.epoch);
    CHECK(MADE(pgp_submit_close(&copy)) == PGP_DONE && MADE(pgp_submit_close(&copy)) == PGP_CLOSED);
    CHECK(pgp_ask_log(&copy, &log) == PGP_DONE && log.count == view.count + 1 && log.closed == 1);
    CHECK(log.incrementals + log.infos + log.parts == view.count);
    CHECK(pgp_ask_log(&session, &log) == PGP_DONE && log.count == view.count && log.closed == 0);
    CHECK(pgp_close(&copy) == PGP_DONE && pgp_submit_close(&copy) == PGP_NOT_OPEN && pgp_close(&lines) == PGP_DONE);
}

// The work of the next questions, one step at a time: six entries are read, and the one group is worked out.
static void worked(void) {
    pgp_session copy = PGP_SESSION;
    size_t left = 99;
    pgp_view view, other;
    CHECK(pgp_work(&copy, 1, &left) == PGP_NOT_OPEN && left == 0);
    CHECK(MADE(pgp_open(&copy)) == PGP_DONE && MADE(pgp_work(&copy, 9, &left)) == PGP_DONE && left == 0);
    CHECK(pgp_close(&copy) == PGP_DONE && MADE(pgp_open_copy(&copy, &session)) == PGP_DONE);
    CHECK(MADE(pgp_work(&copy, 0, &left)) == PGP_DONE && left == 6);
    for (size_t unread = 6; unread > 1; unread--) CHECK(MADE(pgp_work(&copy, 1, &left)) == PGP_DONE && left == unread - 1);
    CHECK(MADE(pgp_work(&copy, 1, &left)) == PGP_DONE && left == 1);
    CHECK(MADE(pgp_work(&copy, 1, &left)) == PGP_DONE && left == 0);
    CHECK(MADE(pgp_ask(&session, 1, 0, &view)) == PGP_DONE && MADE(pgp_ask(&copy, 1, 0, &other)) == PGP_DONE);
    CHECK(other.count == view.count && other.verdict == view.verdict && other.missing == view.missing && other.epoch == view.epoch);
    CHECK(MADE(pgp_submit_close(&copy)) == PGP_DONE && MADE(pgp_work(&copy, 9, &left)) == PGP_DONE && left == 0);
    CHECK(pgp_close(&copy) == PGP_DONE);
}

// The groups that may have changed: those that were touched since they were asked for, and those that were asked for since.
static void changed(void) {
    pgp_session copy = PGP_SESSION;
    pgp_group room[2] = {{7, 7}, {7, 7}};
    size_t count = 99, length;
    pgp_view view;
    static const char step[] = "{\"op\":\"inc\",\"epoch\":4}";
    pgp_info info = {.pool = 1, .osd = 1, .stamp = 2, .last_update_epoch = 1, .last_update = 2, .complete = true};
    CHECK(pgp_changed(&copy, 0, room, 2, &count) == PGP_NOT_OPEN && count == 0 && room[0].pool == 7);
    CHECK(MADE(pgp_open(&copy)) == PGP_DONE && MADE(pgp_changed(&copy, 9, room, 2, &count)) == PGP_DONE && count == 0);
    CHECK(pgp_close(&copy) == PGP_DONE && MADE(pgp_open_copy(&copy, &session)) == PGP_DONE);
    CHECK(MADE(pgp_changed(&copy, 6, room, 0, &count)) == PGP_ROOM_TOO_SMALL && count == 1 && room[0].pool == 7);
    CHECK(MADE(pgp_changed(&copy, 6, room, 2, &count)) == PGP_DONE && count == 1 && room[0].pool == 1 && room[0].pg == 0 && room[1].pool == 7);
    CHECK(MADE(pgp_ask(&copy, 1, 0, &view)) == PGP_DONE && view.count == 6);
    CHECK(MADE(pgp_changed(&copy, 5, room, 2, &count)) == PGP_DONE && count == 1);
    CHECK(MADE(pgp_changed(&copy, 6, room, 2, &count)) == PGP_DONE && count == 0);
    CHECK(MADE(pgp_line(&copy, (const uint8_t *)step, strlen(step), (uint8_t *)answer, sizeof answer - 1, &length)) == PGP_DONE);
    answer[length] = 0;
    CHECK(has("\"ok\":\"inc\"") && MADE(pgp_changed(&copy, 6, room, 2, &count)) == PGP_DONE && count == 0);
    CHECK(MADE(pgp_submit_info(&copy, &info)) == PGP_DONE && MADE(pgp_changed(&copy, 8, room, 2, &count)) == PGP_DONE && count == 1);
    CHECK(MADE(pgp_ask(&copy, 1, 0, &view)) == PGP_DONE && view.count == 8);
    CHECK(MADE(pgp_changed(&copy, 7, room, 2, &count)) == PGP_DONE && count == 1);
    CHECK(MADE(pgp_changed(&copy, 8, room, 2, &count)) == PGP_DONE && count == 0);
    CHECK(pgp_close(&copy) == PGP_DONE);
}

// A part of a member's log in values has the answer of its line.
static void entries(void) {
    pgp_report report = {.pool = 1, .pg = 0, .osd = 1, .slot = 0, .stamp = 3};
    pgp_log_entry log[2] = {{.epoch = 1, .number = 1, .name_length = 40}, {.epoch = 1, .number = 2, .deletes = 1, .name_length = 1}};
    pgp_log before, after;
    memset(log[0].name, 'n', 255);
    log[1].name[0] = 'z';
    CHECK(pgp_ask_log(&session, &before) == PGP_DONE);
    CHECK(MADE(pgp_submit_entries(&session, &report, log, 2)) == PGP_DONE);
    CHECK(pgp_ask_log(&session, &after) == PGP_DONE && after.count == before.count + 1);
    CHECK(pgp_submit_entries(&session, &report, log, 0) == PGP_BAD_ARGUMENT);
    log[1].name_length = 0;
    CHECK(pgp_submit_entries(&session, &report, log, 2) == PGP_BAD_ARGUMENT);
    log[1].name_length = 1;
    log[1].deletes = 2;
    CHECK(pgp_submit_entries(&session, &report, log, 2) == PGP_BAD_ARGUMENT);
    log[1].deletes = 0;
    log[1].name[0] = 0xff;
    CHECK(pgp_submit_entries(&session, &report, log, 2) == PGP_BAD_ARGUMENT);
    CHECK(MADE(pgp_submit_entries(&session, &report, log, 1)) == PGP_DONE);
    log[0].epoch = 9;
    CHECK(MADE(pgp_submit_entries(&session, &report, log, 1)) == PGP_BAD_VERSION);
    report.stamp = 9;
    CHECK(MADE(pgp_submit_entries(&session, &report, log, 1)) == PGP_FUTURE_STAMP);
    report.pg = 1;
    CHECK(MADE(pgp_submit_entries(&session, &report, log, 1)) == PGP_UNKNOWN_GROUP);
    report.osd = 4096;
    CHECK(pgp_submit_entries(&session, &report, log, 1) == PGP_BAD_ARGUMENT);
    CHECK(pgp_ask_log(&session, &after) == PGP_DONE && after.count == before.count + 2);
}

// Incrementals, each told to one session by a line and to another in a struct: both say the same, and have the same log then. Where
// calls of the allocator are refused, the structs alone are told.
static pgp_session by_line = PGP_SESSION, by_struct = PGP_SESSION;

// The lines that stand for a session's log.
static size_t lines_of(pgp_session *of, uint8_t *room, size_t length) {
    size_t wanted;
    CHECK(MADE(pgp_joined_lines(of, room, length, &wanted)) == PGP_DONE);
    return wanted;
}

static void both(const char *line, const pgp_inc *inc, uint32_t wanted) {
    static uint8_t room[1 << 15], other[1 << 15];
    size_t length;
    pgp_log lined, built;
    CHECK(MADE(pgp_submit_inc(&by_struct, inc)) == wanted && pgp_ask_log(&by_struct, &built) == PGP_DONE);
    CHECK(wanted != PGP_DONE || built.epoch == inc->epoch);
    if (refuses) return;
    CHECK(MADE(pgp_line(&by_line, (const uint8_t *)line, strlen(line), (uint8_t *)answer, sizeof answer - 1, &length)) == PGP_DONE);
    answer[length] = 0;
    const char *code = strstr(answer, "\"code\":");
    CHECK((code ? (uint32_t)atoi(code + 7) : PGP_DONE) == wanted);
    CHECK(pgp_ask_log(&by_line, &lined) == PGP_DONE && lined.count == built.count && lined.incrementals == built.incrementals && lined.epoch == built.epoch);
    length = lines_of(&by_line, room, sizeof room);
    CHECK(lines_of(&by_struct, other, sizeof other) == length && memcmp(room, other, length) == 0);
}

// Both answer a question alike.
static void alike(const char *line) {
    if (refuses) return;
    static uint8_t room[1 << 14], other[1 << 14];
    size_t length, wanted;
    CHECK(MADE(pgp_line(&by_line, (const uint8_t *)line, strlen(line), room, sizeof room, &length)) == PGP_DONE);
    CHECK(MADE(pgp_line(&by_struct, (const uint8_t *)line, strlen(line), other, sizeof other, &wanted)) == PGP_DONE);
    CHECK(length == wanted && memcmp(room, other, length) == 0 && memcmp(room, "{\"acting\"", 9) == 0);
}

#define LIST(list, items) list = items, inc.list##_length = sizeof items / sizeof *items

// The incrementals that the log takes, one of each kind of pool and of bucket among them.
static void taken(void) {
    static const uint32_t all[] = {0, 1, 2, 3}, first[] = {0}, last[] = {3};
    static const pgp_device_weight weights[] = {{0, 65536}, {1, 32768}, {2, 65536}, {3, 4294967295}};
    static const pgp_item items[] = {{0, 1}, {1, 65536}, {2, 131072}, {3, 3}}, hosts[] = {{-1, 5}};
    const pgp_bucket buckets[] = {{-1, 1, PGP_ALG_STRAW2, items, 4}, {-2, 2, PGP_ALG_LIST, hosts, 1}, {-3, 3, PGP_ALG_UNIFORM, &(pgp_item){-2, 9}, 1}};
    static const pgp_pool pools[] = {
        {.id = 1, .pg_num = 2, .kind = PGP_REPLICATED, .k = 7, .size = 3, .min_size = 2},
        {.id = 255, .pg_num = 1, .kind = PGP_ERASURE, .k = 2, .size = 3, .min_size = 2, .parts_length = 99},
        {.id = 3, .pg_num = 1, .kind = PGP_GROUPED, .size = 3, .min_size = 2, .parts_length = 2,
         .parts = {{.least = 1, .slots_length = 2, .slots = {1, 0, 99}}, {.least = 1, .slots_length = 1, .slots = {2}}}}};
    static const pgp_temp temp[] = {{1, 1, 2, {2, 3, 9999}}, {255, 0, 3, {2, PGP_NO_DEVICE, 0}}}, none[] = {{.pool = 1, .pg = 1}};
    static const pgp_device_epoch through[] = {{1, 1}}, gone[] = {{0, 2}};
    static const pgp_pool_sizes sizes[] = {{1, 2, 1}};
    pgp_inc inc = PGP_INC;
    inc.epoch = 1;
    inc.LIST(up, all);
    inc.LIST(weight, weights);
    inc.LIST(pools, pools);
    inc.LIST(temp, temp);
    inc.LIST(crush, buckets);
    both("{\"op\":\"inc\",\"v\":3,\"epoch\":1,\"up\":[0,1,2,3],\"weight\":[[0,65536],[1,32768],[2,65536],[3,4294967295]],\"pools\":["
         "{\"id\":1,\"pg_num\":2,\"kind\":\"replicated\",\"size\":3,\"min_size\":2,\"leaf\":0},"
         "{\"id\":255,\"pg_num\":1,\"kind\":\"erasure\",\"k\":2,\"size\":3,\"min_size\":2,\"leaf\":0},"
         "{\"id\":3,\"pg_num\":1,\"kind\":\"grouped\",\"groups\":[[[1,0],1],[[2],1]],\"size\":3,\"min_size\":2,\"leaf\":0}],"
         "\"temp\":[[1,1,[2,3]],[255,0,[2,null,0]]],\"crush\":["
         "{\"id\":-1,\"type\":1,\"alg\":\"straw2\",\"items\":[0,1,2,3],\"weights\":[1,65536,131072,3]},"
         "{\"id\":-2,\"type\":2,\"alg\":\"list\",\"items\":[-1],\"weights\":[5]},{\"id\":-3,\"type\":3,\"alg\":\"uniform\",\"items\":[-2]}]}",
         &inc, PGP_DONE);
    inc = (pgp_inc)PGP_INC;
    inc.epoch = 2, inc.after = 1;
    inc.LIST(down, first);
    inc.LIST(up_thru, through);
    inc.LIST(sizes, sizes);
    inc.LIST(temp, none);
    both("{\"op\":\"inc\",\"epoch\":2,\"down\":[0],\"up_thru\":[[1,1]],\"sizes\":[[1,2,1]],\"temp\":[[1,1,[]]]}", &inc, PGP_DONE);
    inc = (pgp_inc)PGP_INC;
    inc.epoch = 5, inc.after = 2;
    inc.LIST(lost, gone);
    both("{\"op\":\"inc\",\"v\":3,\"after\":2,\"epoch\":5,\"lost\":[[0,2]]}", &inc, PGP_DONE);
    inc = (pgp_inc)PGP_INC;
    inc.epoch = 6, inc.after = 5;
    inc.LIST(gone, first);
    inc.LIST(down, last);
    both("{\"op\":\"inc\",\"epoch\":6,\"gone\":[0],\"down\":[3]}", &inc, PGP_DONE);
    alike("{\"op\":\"ask\",\"pg\":[1,0]}");
    alike("{\"op\":\"ask\",\"pg\":[1,1]}");
    alike("{\"op\":\"ask\",\"pg\":[255,0]}");
    alike("{\"op\":\"ask\",\"pg\":[3,0]}");
    alike("{\"op\":\"locate\",\"pool\":1,\"name\":\"a\"}");
}

// An incremental with each fault, as of epoch 6, in which devices 1 and 2 are up.
static void faulty(void) {
    static const uint32_t one[] = {1}, twice[] = {4, 4}, unknown[] = {9}, down[] = {3};
    static const pgp_device_epoch back[] = {{1, 0}}, ahead[] = {{1, 8}};
    static const pgp_pool known[] = {{.id = 1, .pg_num = 1, .size = 1, .min_size = 1}}, bad[] = {{.id = 9, .pg_num = 65535, .size = 1, .min_size = 1}};
    static const pgp_temp nowhere[] = {{1, 2, 1, {1}}};
    const pgp_bucket bucket[] = {{-1, 0, PGP_ALG_UNIFORM, &(pgp_item){65535, 0}, 1}};
#define FAULT(list, items, text, status) \
    do { \
        pgp_inc inc = PGP_INC; \
        inc.epoch = 7, inc.after = 6; \
        inc.LIST(list, items); \
        both("{\"op\":\"inc\",\"epoch\":7," text "}", &inc, status); \
    } while (0)
    pgp_inc gap = PGP_INC;
    gap.epoch = 8, gap.after = 7;
    both("{\"op\":\"inc\",\"epoch\":8}", &gap, PGP_EPOCH_GAP);
    gap.epoch = 5, gap.after = 6;
    both("{\"op\":\"inc\",\"v\":3,\"after\":6,\"epoch\":5}", &gap, PGP_EPOCH_GAP);
    FAULT(up, twice, "\"up\":[4,4]", PGP_TWICE);
    FAULT(down, unknown, "\"down\":[9]", PGP_UNKNOWN_DEVICE);
    FAULT(up, one, "\"up\":[1]", PGP_ALREADY_UP);
    FAULT(down, down, "\"down\":[3]", PGP_ALREADY_DOWN);
    FAULT(gone, one, "\"gone\":[1]", PGP_STILL_UP);
    FAULT(up_thru, back, "\"up_thru\":[[1,0]]", PGP_UP_THRU_BACK);
    FAULT(up_thru, ahead, "\"up_thru\":[[1,8]]", PGP_AHEAD);
    FAULT(pools, bad, "\"pools\":[{\"id\":9,\"pg_num\":65535,\"kind\":\"replicated\",\"size\":1,\"min_size\":1,\"leaf\":0}]", PGP_BAD_POOL);
    FAULT(pools, known, "\"pools\":[{\"id\":1,\"pg_num\":1,\"kind\":\"replicated\",\"size\":1,\"min_size\":1,\"leaf\":0}]", PGP_POOL_KNOWN);
    FAULT(temp, nowhere, "\"temp\":[[1,2,[1]]]", PGP_BAD_TEMP);
    FAULT(crush, bucket, "\"crush\":[{\"id\":-1,\"type\":0,\"alg\":\"uniform\",\"items\":[65535]}]", PGP_TREE_FAULT);
#undef FAULT
}

// A number out of its range, of each kind that has one: nothing happens.
static void out_of_range(void) {
#define OUT(type, list, ...) \
    do { \
        const type items[] = {__VA_ARGS__}; \
        pgp_inc inc = PGP_INC; \
        inc.epoch = 7, inc.after = 6; \
        inc.LIST(list, items); \
        CHECK(MADE(pgp_submit_inc(&by_struct, &inc)) == PGP_BAD_ARGUMENT); \
    } while (0)
    pgp_log before, after;
    CHECK(pgp_ask_log(&by_struct, &before) == PGP_DONE);
    OUT(uint32_t, up, 4096);
    OUT(uint32_t, down, 1, 65537);
    OUT(uint32_t, gone, 4294967295);
    OUT(pgp_device_weight, weight, {4096, 0});
    OUT(pgp_device_epoch, up_thru, {4096, 0});
    OUT(pgp_device_epoch, lost, {0, 1}, {4096, 0});
    OUT(pgp_pool, pools, {.id = 0, .pg_num = 1, .size = 1, .min_size = 1});
    OUT(pgp_pool, pools, {.id = 256, .pg_num = 1, .size = 1, .min_size = 1});
    OUT(pgp_pool, pools, {.id = 9, .pg_num = 65536, .size = 1, .min_size = 1});
    OUT(pgp_pool, pools, {.id = 9, .pg_num = 1, .kind = 3, .size = 1, .min_size = 1});
    OUT(pgp_pool, pools, {.id = 9, .pg_num = 1, .kind = PGP_GROUPED, .size = 1, .min_size = 1, .parts_length = 17});
    OUT(pgp_pool, pools, {.id = 9, .pg_num = 1, .kind = PGP_GROUPED, .size = 1, .min_size = 1, .parts_length = 1, .parts = {{1, 17, {0}}}});
    OUT(pgp_pool, pools, {.id = 9, .pg_num = 1, .kind = PGP_GROUPED, .size = 1, .min_size = 1, .parts_length = 1, .parts = {{1, 1, {16}}}});
    OUT(pgp_pool_sizes, sizes, {0, 1, 1});
    OUT(pgp_pool_sizes, sizes, {256, 1, 1});
    OUT(pgp_temp, temp, {0, 0, 0, {0}});
    OUT(pgp_temp, temp, {256, 0, 0, {0}});
    OUT(pgp_temp, temp, {1, 1024, 0, {0}});
    OUT(pgp_temp, temp, {1, 0, 17, {0}});
    OUT(pgp_temp, temp, {1, 0, 1, {4096}});
    OUT(pgp_bucket, crush, {0, 1, PGP_ALG_UNIFORM, &(pgp_item){0, 0}, 1});
    OUT(pgp_bucket, crush, {-65537, 1, PGP_ALG_UNIFORM, &(pgp_item){0, 0}, 1});
    OUT(pgp_bucket, crush, {-1, 1, 3, &(pgp_item){0, 0}, 1});
    OUT(pgp_bucket, crush, {-1, 1, PGP_ALG_UNIFORM, &(pgp_item){-65537, 0}, 1});
    OUT(pgp_bucket, crush, {-1, 1, PGP_ALG_UNIFORM, &(pgp_item){65536, 0}, 1});
#undef OUT
    CHECK(pgp_ask_log(&by_struct, &after) == PGP_DONE && after.count == before.count);
}

// Version 3 alone has straw2 buckets, and incrementals that pass over epochs.
static void of_version_2(void) {
    const pgp_bucket straw[] = {{-1, 1, PGP_ALG_STRAW2, &(pgp_item){0, 1}, 1}}, list[] = {{-1, 1, PGP_ALG_LIST, &(pgp_item){0, 1}, 1}};
    pgp_session second = PGP_SESSION;
    pgp_inc inc = PGP_INC;
    CHECK(pgp_submit_inc(&second, &inc) == PGP_NOT_OPEN);
    CHECK(MADE(pgp_open(&second)) == PGP_DONE);
    CHECK(MADE(pgp_submit_inc(&second, &inc)) == PGP_EPOCH_GAP);
    inc.epoch = 2;
    CHECK(MADE(pgp_submit_inc(&second, &inc)) == PGP_BAD_ARGUMENT);
    inc.epoch = 1;
    inc.LIST(crush, straw);
    CHECK(MADE(pgp_submit_inc(&second, &inc)) == PGP_BAD_ARGUMENT);
    inc.LIST(crush, list);
    CHECK(MADE(pgp_submit_inc(&second, &inc)) == PGP_DONE);
    CHECK(pgp_close(&second) == PGP_DONE);
}

static void incrementals(void) {
    CHECK(MADE(pgp_open_format(&by_line, 3)) == PGP_DONE && MADE(pgp_open_format(&by_struct, 3)) == PGP_DONE);
    taken();
    faulty();
    out_of_range();
    pgp_inc inc = PGP_INC;
    inc.epoch = 7, inc.after = 6;
    CHECK(MADE(pgp_submit_close(&by_line)) == PGP_DONE && MADE(pgp_submit_close(&by_struct)) == PGP_DONE);
    both("{\"op\":\"inc\",\"epoch\":7}", &inc, PGP_CLOSED);
    CHECK(pgp_close(&by_line) == PGP_DONE && pgp_close(&by_struct) == PGP_DONE);
    of_version_2();
}

static void places(void) {
    tell("{\"op\":\"locate\",\"pool\":1,\"name\":\"a\"}");
    CHECK(has("\"acting\":[1,2]") && has("\"epoch\":3") && has("\"pg\":[1,0]"));
    pgp_place place;
    CHECK(locate(1, "a", &place) == PGP_DONE);
    CHECK(place.epoch == 3 && place.pg == 0 && place.acting_length == 2 && place.acting[0] == 1 && place.acting_primary == 1);
    CHECK(place.up_length == 0 && place.up_primary == PGP_NO_DEVICE && place.size == 3 && place.min_size == 2);
    CHECK(locate(1, "a name of more than twenty-four bytes", &place) == PGP_DONE);
    place.epoch = 77;
    CHECK(locate(2, "a", &place) == PGP_UNKNOWN_POOL && locate(0, "a", &place) == PGP_BAD_ARGUMENT);
    CHECK(locate(256, "a", &place) == PGP_BAD_ARGUMENT && locate(1, "", &place) == PGP_BAD_ARGUMENT);
    CHECK(locate(1, "\xff", &place) == PGP_BAD_ARGUMENT && place.epoch == 77);
}

static void refusals(void) {
    pgp_info info = {.pool = 1, .osd = 1, .stamp = 9, .complete = true};
    CHECK(MADE(pgp_submit_info(&session, &info)) == PGP_FUTURE_STAMP);
    info.pg = 1;
    CHECK(MADE(pgp_submit_info(&session, &info)) == PGP_UNKNOWN_GROUP);
    info.pg = 1024;
    CHECK(MADE(pgp_submit_info(&session, &info)) == PGP_BAD_ARGUMENT);
    info.pg = 0;
    info.slot = 16;
    CHECK(MADE(pgp_submit_info(&session, &info)) == PGP_BAD_ARGUMENT);
    info.slot = 0;
    info.complete = 2;
    CHECK(MADE(pgp_submit_info(&session, &info)) == PGP_BAD_ARGUMENT);
    pgp_view view;
    CHECK(MADE(pgp_ask(&session, 1, 0, &view)) == PGP_DONE && view.count == 6);
    CHECK(MADE(pgp_ask(&session, 1, 1, &view)) == PGP_ASK_UNKNOWN_GROUP && MADE(pgp_ask(&session, 1, 1024, &view)) == PGP_BAD_ARGUMENT);
    tell("{\"op\":\"close\"}");
    CHECK(MADE(pgp_submit_info(&session, &(pgp_info){.pool = 1, .osd = 1})) == PGP_CLOSED);
}

static void closed(void) {
    size_t count;
    pgp_view view;
    pgp_place place;
    pgp_member member;
    CHECK(MADE(pgp_ask(&session, 1, 0, &view)) == PGP_NOT_OPEN && locate(1, "a", &place) == PGP_NOT_OPEN);
    CHECK(MADE(pgp_probe(&session, 1, 0, &member, 1, &count)) == PGP_NOT_OPEN && count == 0);
    CHECK(MADE(pgp_submit_info(&session, &(pgp_info){.pool = 1})) == PGP_NOT_OPEN);
    uint8_t needed = 7;
    count = 99;
    CHECK(pgp_needed(&session, &needed, 1, &count) == PGP_NOT_OPEN && count == 0 && needed == 7);
    pgp_log_entry log = {.epoch = 1, .number = 1, .name_length = 1, .name = "a"};
    CHECK(pgp_submit_entries(&session, &(pgp_report){.pool = 1, .osd = 1}, &log, 1) == PGP_NOT_OPEN);
}

// Version 3 is read on request alone.
static void formats(void) {
    static const char line[] = "{\"op\":\"inc\",\"v\":3,\"epoch\":1,\"crush\":[{\"id\":-1,\"type\":1,\"alg\":\"straw2\",\"items\":[0],\"weights\":[1]}]}";
    CHECK(pgp_open_format(&session, 1) == PGP_BAD_ARGUMENT && pgp_open_format(&session, 4) == PGP_BAD_ARGUMENT);
    CHECK(pgp_close(&session) == PGP_NOT_OPEN);
    CHECK(MADE(pgp_open_format(&session, 2)) == PGP_DONE && pgp_open_format(&session, 1) == PGP_ALREADY_OPEN);
    tell(line);
    CHECK(has("\"key\":\"crush\"") && has("\"refused\":\"BadField\""));
    CHECK(pgp_close(&session) == PGP_DONE);
    CHECK(MADE(pgp_open_format(&session, 3)) == PGP_DONE);
    tell(line);
    CHECK(has("\"ok\":\"inc\""));
    CHECK(pgp_close(&session) == PGP_DONE);
}

// An outage, and what is asked of it.
static void asked(void) {
    closed();
    formats();
    CHECK(MADE(pgp_open(&session)) == PGP_DONE);
    outage();
    views();
    lists();
    objects();
    places();
    refusals();
    CHECK(pgp_close(&session) == PGP_DONE);
    closed();
}

// The same outage in shorter logs.
static void shortened(void) {
    CHECK(MADE(pgp_open(&session)) == PGP_DONE);
    outage();
    compaction();
    long_names();
    begun();
    joined();
    CHECK(pgp_close(&session) == PGP_DONE);
}

// The same outage, worked out bit by bit.
static void stepped(void) {
    CHECK(MADE(pgp_open(&session)) == PGP_DONE);
    outage();
    worked();
    changed();
    remains();
    entries();
    CHECK(pgp_close(&session) == PGP_DONE);
}

// Runs a part, and where calls are refused once more for each of its calls. Gives their number.
static long run(void (*part)(void)) {
    calls = 0;
    part();
    long number = refuses ? calls : 0;
    for (refused = 1; refused <= number; refused++) {
        calls = 0;
        part();
    }
    refused = 0;
    return number;
}

int main(int argc, char **argv) {
    refuses = argc > 1 && strcmp(argv[1], "refuse") == 0;
    long number = run(asked) + run(shortened) + run(stepped) + run(incrementals);
    CHECK(pgp_version() == 300);
    if (!refuses) full();
    printf("%ld allocations\n", number);
    return 0;
}
