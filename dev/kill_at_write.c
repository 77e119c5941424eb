// Kills the program into which it is loaded by LD_PRELOAD at one of its calls that change files or write.
//
// KILL=N kills it at the Nth call of open, write, fsync, ftruncate and rename, counted from 1, in the way that HOW names:
//
//   before  before the call is made
//   half    after it; of a write, after half of its bytes
//   lost    before it, and what no fsync has put onto the disk is lost, as when the power fails: a file has the length of its
//           last fsync, and a file that got another name, after which no folder was synced, has the old one
//
// COUNT_TO=FILE writes the number of calls to that file at the end.
#define _GNU_SOURCE
#include <dlfcn.h>
#include <fcntl.h>
#include <signal.h>
#include <stdarg.h>
#include <stdio.h>
#include <stdlib.h>
#include <string.h>
#include <sys/stat.h>
#include <unistd.h>

enum { FILES = 64, NAME = 4096 };

static int (*next_open)(const char *, int, ...);
static ssize_t (*next_write)(int, const void *, size_t);
static int (*next_fsync)(int), (*next_ftruncate)(int, off_t), (*next_rename)(const char *, const char *);
static long calls, killed;
static const char *how;
static int is_open[FILES];      // whether it is a file that was opened here
static off_t synced[FILES];     // how much of it is on the disk
static char renamed[2][NAME];   // the old and the new name of a file, as long as no folder was synced
static char replaced[NAME + 8]; // another name of the file that had the new name before

__attribute__((constructor)) static void begin(void) {
    next_open = dlsym(RTLD_NEXT, "open");
    next_write = dlsym(RTLD_NEXT, "write");
    next_fsync = dlsym(RTLD_NEXT, "fsync");
    next_ftruncate = dlsym(RTLD_NEXT, "ftruncate");
    next_rename = dlsym(RTLD_NEXT, "rename");
    const char *number = getenv("KILL");
    killed = number ? atol(number) : 0;
    how = getenv("HOW");
    if (!how) how = "before";
}

__attribute__((destructor)) static void end(void) {
    const char *path = getenv("COUNT_TO");
    FILE *file = path ? fopen(path, "w") : NULL;
    if (!file) return;
    fprintf(file, "%ld\n", calls);
    fclose(file);
}

static void die(void) {
    raise(SIGKILL);
}

static off_t size_of(int file) {
    struct stat about;
    return fstat(file, &about) ? 0 : about.st_size;
}

static void lose(void) {
    for (int file = 0; file < FILES; file++) {
        if (is_open[file] && size_of(file) > synced[file]) next_ftruncate(file, synced[file]);
    }
    if (!*renamed[0]) return;
    next_rename(renamed[1], renamed[0]);
    next_rename(replaced, renamed[1]);
}

// Counts a call, and gives whether it is the last one, after half of which the program is killed.
static int is_last(void) {
    if (++calls != killed) return 0;
    if (!strcmp(how, "half")) return 1;
    if (!strcmp(how, "lost")) lose();
    die();
    return 0;
}

// What a call gave, where it isn't the last one.
#define GIVEN(call) \
    do { \
        int last = is_last(); \
        given = call; \
        if (last) die(); \
    } while (0)

int open(const char *path, int flags, ...) {
    va_list more;
    va_start(more, flags);
    int mode = flags & O_CREAT ? va_arg(more, int) : 0, given;
    va_end(more);
    GIVEN(next_open(path, flags, mode));
    if (given >= 0 && given < FILES && !(flags & O_DIRECTORY)) {
        is_open[given] = 1;
        synced[given] = size_of(given);
    }
    return given;
}

ssize_t write(int file, const void *bytes, size_t length) {
    if (!is_last()) return next_write(file, bytes, length);
    next_write(file, bytes, length / 2);
    die();
    return -1;
}

int fsync(int file) {
    struct stat about;
    int given;
    GIVEN(next_fsync(file));
    if (file < FILES) synced[file] = size_of(file);
    if (!fstat(file, &about) && S_ISDIR(about.st_mode) && *renamed[0]) {
        *renamed[0] = 0;
        unlink(replaced);
    }
    return given;
}

int ftruncate(int file, off_t length) {
    int given;
    GIVEN(next_ftruncate(file, length));
    if (file < FILES && synced[file] > length) synced[file] = length;
    return given;
}

int rename(const char *from, const char *to) {
    char kept[NAME + 8];
    int given;
    snprintf(kept, sizeof kept, "%s.before", to);
    link(to, kept);
    GIVEN(next_rename(from, to));
    snprintf(renamed[0], NAME, "%s", from);
    snprintf(renamed[1], NAME, "%s", to);
    strcpy(replaced, kept);
    return given;
}
