/* A daemon that keeps its log in a file. It tells a session each line of standard input, and prints the answer.
 *
 *     tools/build_c_library.sh /tmp/pgpeer
 *     cc -I/tmp/pgpeer -o daemon examples/c/daemon.c /tmp/pgpeer/libpgpeer.a
 *     ./daemon /tmp/log < examples/outage.jsonl
 *
 *     daemon FILE [EVERY]
 *
 * FILE has a line for each entry of the session's log, in order. A line that the log takes is in the file, and the file on the
 * disk, before its answer is printed. After each EVERY such lines (20,000 where nothing is said) it takes a snapshot: lines that may
 * stand for the log are written to FILE.new, which then gets the name FILE. So the log has no end, if members tell `history_les`, and
 * FILE always gives the answers of all that was ever taken, except for the count of entries, and for past intervals that ended before
 * a group's `les`.
 *
 * It may be killed at any moment, and goes on from FILE when it is started again. Of a line without an answer nobody knows whether
 * it was taken: it is told once more. Told twice, an incremental is refused as EpochGap, and a report changes nothing but the count.
 *
 * The status is 1 where it can't go on: a write failed, say. FILE is whole then too.
 */
#define _DEFAULT_SOURCE
#include <errno.h>
#include <fcntl.h>
#include <libgen.h>
#include <stdio.h>
#include <stdlib.h>
#include <string.h>
#include <sys/file.h>
#include <sys/stat.h>
#include <unistd.h>

#include "pgpeer.h"

enum { FORMAT = 3, MODE = 0644, EVERY = 20000 };

static pgp_session session = PGP_SESSION;
static const char *path; /* FILE */
static char *new_path;   /* FILE.new */
static int folder;       /* in which FILE lies */
static int file;         /* FILE, to which lines are appended */
static size_t entries;   /* how many lines FILE has, and the session's log entries */

static void fail(const char *what, const char *why) {
    fprintf(stderr, "daemon: %s: %s\n", what, why);
    exit(1);
}

/* Ends the daemon where a call of the system failed. */
static int made(int result) {
    if (result < 0) fail(path, strerror(errno));
    return result;
}

/* Ends the daemon where a call of the library wasn't done. */
static void done(uint32_t status) {
    if (status != PGP_DONE) fail("pgpeer", pgp_status_name(status));
}

/* Room for so many bytes, and never null. */
static uint8_t *room_for(size_t length) {
    uint8_t *room = malloc(length + 1);
    if (!room) fail("malloc", strerror(errno));
    return room;
}

static void write_all(int to, const uint8_t *bytes, size_t length) {
    while (length > 0) {
        ssize_t written = write(to, bytes, length);
        if (written < 0 && errno == EINTR) continue;
        made((int)written);
        bytes += written;
        length -= (size_t)written;
    }
}

/* Reads FILE from its start. */
static uint8_t *read_file(size_t *length) {
    struct stat about;
    made(fstat(file, &about));
    uint8_t *text = room_for((size_t)about.st_size);
    for (*length = 0; *length < (size_t)about.st_size;) {
        ssize_t more = pread(file, text + *length, (size_t)about.st_size - *length, (off_t)*length);
        if (more < 0 && errno == EINTR) continue;
        if (made((int)more) == 0) break;
        *length += (size_t)more;
    }
    return text;
}

/* The length of the line at the start of a text, with its line feed. It is 0 where none ends. */
static size_t line_length(const uint8_t *text, size_t length) {
    const uint8_t *end = length ? memchr(text, '\n', length) : NULL;
    return end ? (size_t)(end - text) + 1 : 0;
}

static pgp_log what_the_log_is(void) {
    pgp_log log;
    done(pgp_ask_log(&session, &log));
    return log;
}

/* Begins with the lines of FILE. Behind the last line feed is what was cut off as it was written, and never answered. */
static void begin(void) {
    file = made(open(path, O_RDWR | O_CREAT | O_APPEND, MODE));
    made(fsync(folder));
    size_t length, whole = 0, refused;
    uint8_t *text = read_file(&length);
    for (size_t more; (more = line_length(text + whole, length - whole)) > 0; entries++) whole += more;
    if (whole < length) {
        made(ftruncate(file, (off_t)whole));
        made(fsync(file));
    }
    done(pgp_open_lines(&session, FORMAT, text, whole, &refused));
    free(text);
    if (refused > 0 || what_the_log_is().count != entries) fail(path, "it has other lines than those of a log");
}

/* Appends a line that the log took, behind which there is room for its line feed. */
static void keep(uint8_t *line, size_t length) {
    line[length] = '\n';
    write_all(file, line, length + 1);
    made(fsync(file));
    entries++;
}

/* Lines that may stand for the session's log. Where there is no memory for them, there are none. */
static uint8_t *shorter_lines(size_t *length) {
    uint8_t *room = room_for(0);
    uint32_t status = pgp_joined_lines(&session, room, 0, length);
    free(room);
    if (status == PGP_NO_MEMORY) return NULL;
    if (status != PGP_ROOM_TOO_SMALL) done(status);
    room = room_for(*length);
    done(pgp_answer(&session, room, *length, length));
    return room;
}

/* Takes a snapshot, and goes on with a session of its lines. Where there is no memory for that, all stays as it was. */
static void take_snapshot(void) {
    pgp_session shorter = PGP_SESSION;
    size_t length, refused;
    uint8_t *text = shorter_lines(&length);
    if (!text) return;
    uint32_t status = pgp_open_lines(&shorter, FORMAT, text, length, &refused);
    if (status == PGP_DONE) {
        int new_file = made(open(new_path, O_RDWR | O_CREAT | O_TRUNC | O_APPEND, MODE));
        write_all(new_file, text, length);
        made(fsync(new_file));
        made(rename(new_path, path));
        made(fsync(folder));
        made(close(file));
        file = new_file;
        done(pgp_close(&session));
        session = shorter;
        entries = what_the_log_is().count;
    } else if (status != PGP_NO_MEMORY) {
        done(status);
    }
    free(text);
}

/* Tells the session a line, and prints its answer. Gives whether the log took it. Where the room is too small, the line was answered
 * all the same, so it is kept before there is more room. */
static int tell(uint8_t *line, size_t length) {
    static uint8_t *room;
    static size_t room_length = 4096;
    size_t wanted;
    if (!room) room = room_for(room_length);
    uint32_t status = pgp_line(&session, line, length, room, room_length, &wanted);
    int taken = what_the_log_is().count > entries;
    if (taken) keep(line, length);
    if (status == PGP_ROOM_TOO_SMALL) {
        free(room);
        room = room_for(room_length = wanted);
        status = pgp_answer(&session, room, room_length, &wanted);
    }
    if (status != PGP_NO_MEMORY) done(status); /* for which there is an answer too */
    write_all(STDOUT_FILENO, room, wanted);
    return taken;
}

/* Reads a line, without its line feed, whatever bytes it has. Of one that is longer than a line may be, it keeps one byte more than
 * that: the session refuses it then. */
static int read_line(uint8_t *line, size_t *length) {
    int byte = getchar();
    if (byte == EOF) return 0;
    for (*length = 0; byte != EOF && byte != '\n'; byte = getchar()) {
        if (*length <= PGP_LONGEST_LINE) line[(*length)++] = (uint8_t)byte;
    }
    return 1;
}

/* Finds the folder of FILE, and sees to it that no other daemon keeps FILE. */
static void find_files(const char *name) {
    size_t length = strlen(name);
    char *copy = (char *)room_for(length + 5), *lock_path = (char *)room_for(length + 5);
    path = name;
    new_path = (char *)room_for(length + 5);
    sprintf(new_path, "%s.new", name);
    sprintf(lock_path, "%s.lock", name);
    folder = made(open(dirname(strcpy(copy, name)), O_RDONLY | O_DIRECTORY));
    if (flock(made(open(lock_path, O_RDWR | O_CREAT, MODE)), LOCK_EX | LOCK_NB)) fail(name, "another daemon keeps it");
    free(copy);
    free(lock_path);
}

int main(int argc, char **argv) {
    static uint8_t line[PGP_LONGEST_LINE + 2];
    size_t length, every = argc == 3 ? strtoul(argv[2], NULL, 10) : EVERY, since = 0;
    if (argc < 2 || argc > 3 || every == 0) fail("usage", "daemon FILE [EVERY]");
    find_files(argv[1]);
    begin();
    while (read_line(line, &length)) {
        if (!tell(line, length) || ++since < every) continue;
        take_snapshot();
        since = 0;
    }
    done(pgp_close(&session));
    return 0;
}
