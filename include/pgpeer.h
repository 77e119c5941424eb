/* pgpeer.h: the placement-group peering core, as a static library.
 *
 * A session is one log of map incrementals and reports, told and asked by one call at a time. It starts no thread and takes no
 * lock. docs/EMBEDDING.md says how to link it, docs/FORMAT.md has the lines and their answers.
 *
 * What a caller owes, at each call:
 *
 * - No pointer is null, also where its length is 0. Behind a pointer with a length are that many items, behind any other one.
 *   Nothing else reads or writes what a call may write, or writes what it may read, as long as the call runs, and what it may
 *   write overlaps nothing else that it is given. A struct or a room that a call only writes needn't be filled.
 * - A pgp_session is filled with zeros before its first call, and else is as the last call left it. Its fields are neither read
 *   nor written. It may be moved, but of two copies only one is ever used.
 * - A session is given to one call at a time. It may go from thread to thread, where a lock, the start or the end of a thread
 *   that is waited for, or an atomic in sequentially consistent order stands between its calls. Two sessions share nothing that is
 *   written, also where one was opened as a copy of the other.
 * - No call is made from a signal handler, or in the child that a process with threads forked.
 *
 * A line and a name are as many bytes as is said: a NUL among them ends neither.
 *
 * Anything else that is wrong has a status. The library takes memory by malloc, realloc and free. In what was tried no call took more
 * than 82 KB of stack, however long the log or a line: a thread with 256 KiB has enough.
 *
 * What takes long: pgp_open_lines, pgp_open_copy and pgp_compact_log read the whole log. So does the first question about a group
 * after one of them, and the first about each group works that out; pgp_work does it before, bit by bit. pgp_joined_lines works out
 * all groups, several times. bench/README.md has the times. A caller that can't wait does these in a copy of the session, on another
 * thread, tells the copy what came since, and goes on with that.
 */
#ifndef PGPEER_H
#define PGPEER_H

#include <stdbool.h>
#include <stddef.h>
#include <stdint.h>

#ifdef __cplusplus
extern "C" {
#endif

/* The version of this header, in parts and as pgp_version gives it. */
#define PGP_VERSION_MAJOR 0
#define PGP_VERSION_MINOR 3
#define PGP_VERSION_PATCH 0
#define PGP_VERSION (PGP_VERSION_MAJOR * 10000 + PGP_VERSION_MINOR * 100 + PGP_VERSION_PATCH)

/* A session. `pgp_session session = PGP_SESSION;` has it filled with zeros. */
typedef struct pgp_session {
    bool is_open_;
    void *held_;
} pgp_session;

#define PGP_SESSION {0}

/* What became of a call: one of these, or the number of a refusal. */
enum {
    PGP_DONE = 0,           /* it did what its name says */
    PGP_ROOM_TOO_SMALL = 1, /* it did, and the room is too small for what it gives, and stays as it was */
    PGP_NO_MEMORY = 2,      /* there was no memory, and the log is as before */
    PGP_NOT_OPEN = 3,       /* the session isn't open, and stays so */
    PGP_ALREADY_OPEN = 4,   /* the session is open already, and stays as it was */
    PGP_BAD_ARGUMENT = 5,   /* a number is out of its range or a name is bad, and the session stays as it was */
    PGP_NO_LIST = 6,        /* pgp_missing_objects: there is no such list, and the session stays as it was */
    PGP_NO_LINES = 7,       /* pgp_joined_lines: no such lines were found, and the session stays as it was */

    /* pgp_ask and the calls of lists */
    PGP_ASK_UNKNOWN_GROUP = 40,

    /* pgp_locate */
    PGP_UNKNOWN_POOL = 42,

    /* pgp_submit_inc, pgp_submit_info, pgp_submit_entries, pgp_submit_close: the log doesn't take the entry */
    PGP_LOG_FULL = 50,
    PGP_CLOSED = 64,

    /* pgp_submit_info, pgp_submit_entries */
    PGP_UNKNOWN_GROUP = 60,
    PGP_UNKNOWN_MEMBER = 61,
    PGP_FUTURE_STAMP = 62,
    PGP_BAD_VERSION = 63,

    /* pgp_submit_inc */
    PGP_EPOCH_GAP = 10,
    PGP_TWICE = 11,
    PGP_UNKNOWN_DEVICE = 12,
    PGP_ALREADY_UP = 13,
    PGP_ALREADY_DOWN = 14,
    PGP_STILL_UP = 15,
    PGP_UP_THRU_BACK = 16,
    PGP_AHEAD = 17,
    PGP_BAD_POOL = 18,
    PGP_POOL_KNOWN = 19,
    PGP_BAD_TEMP = 20,
    PGP_TREE_FAULT = 21
};

/* The other numbers that answers to lines have as their code. No call has one as its status. */
enum {
    PGP_LINE_TOO_LONG = 30,
    PGP_NOT_JSON = 31,
    PGP_NO_OP = 32,
    PGP_UNKNOWN_KEY = 33,
    PGP_BAD_FIELD = 34,
    PGP_LINE_MEMORY = 41,   /* there was no memory for a line that is no entry */
    PGP_ENTRY_MEMORY = 51   /* there was no memory for an entry */
};

/* Whether a group may serve, and if not, what it waits for. */
enum {
    PGP_NO_PRIMARY = 0,
    PGP_DOWN = 1,
    PGP_WAITING = 2,
    PGP_INCOMPLETE = 3,
    PGP_SHORT = 4,
    PGP_NEED_LOG = 5,
    PGP_NEED_UP_THRU = 6,
    PGP_SERVE = 7
};

/* How the copy of a member compares with the best one. */
enum {
    PGP_MISSING = 0,
    PGP_BACKFILL = 1,
    PGP_DIVERGED = 2
};

/* How a pool keeps its objects. */
enum {
    PGP_REPLICATED = 0,
    PGP_ERASURE = 1,
    PGP_GROUPED = 2
};

/* How a bucket of the placement tree chooses one of its items. */
enum {
    PGP_ALG_UNIFORM = 0,
    PGP_ALG_LIST = 1,
    PGP_ALG_STRAW2 = 2
};

/* Stands for no device: at a place without one, behind the end of a list of places, and where there is no primary or best. */
#define PGP_NO_DEVICE 65535

/* The longest line, without its line feed. A longer one is answered by LineTooLong. */
#define PGP_LONGEST_LINE 1048576

/* Opens a session of an empty log, which has answered no line: PGP_DONE. At PGP_ALREADY_OPEN the session stays as it was, and
 * at PGP_NO_MEMORY it isn't open. */
uint32_t pgp_open(pgp_session *session);

/* The same for a session that reads lines up to the version `format`, 2 or 3: pgp_open is for 2. At PGP_BAD_ARGUMENT the session
 * isn't open. */
uint32_t pgp_open_format(pgp_session *session, uint32_t format);

/* Opens a session with the log that these lines make, each ended by a line feed, the last perhaps without: PGP_DONE, and *refused is
 * how many of them `pgpeer run` would refuse. They add nothing to the log, and neither do questions and blank lines. Nothing is
 * answered: the answer to the last line has no bytes. At PGP_ALREADY_OPEN the session stays as it was; at PGP_BAD_ARGUMENT, where
 * `format` is no version as in pgp_open_format, and at PGP_NO_MEMORY it isn't open. There *refused is 0. */
uint32_t pgp_open_lines(pgp_session *session, uint32_t format, const uint8_t *text, size_t text_length, size_t *refused);

/* Opens `copy` with the log of `session`, which stays as it was: PGP_DONE. From then on each is told and asked by itself, also on two
 * threads at once: what both have is never written, and is freed with the last of them. At PGP_ALREADY_OPEN, where `copy` is open, it
 * stays as it was. At PGP_NOT_OPEN, where `session` isn't, and at PGP_NO_MEMORY it isn't open. The answer to the last line isn't
 * copied. */
uint32_t pgp_open_copy(pgp_session *copy, pgp_session *session);

/* Ends a session and frees all that it has: PGP_DONE, or PGP_NOT_OPEN. It may be opened again. */
uint32_t pgp_close(pgp_session *session);

/* Tells a session a line, given without its line feed, and puts the answer at the start of the room: the same bytes as
 * `pgpeer run` writes for the line, with the line feed at their end. A blank line has an answer of no bytes.
 *
 * The answer is put into the room where it fits, and else the room stays as it was. *answer_length is the length of the answer,
 * whether it fits or not.
 *
 *   PGP_DONE            the line was answered, be it by a refusal, and the answer is in the room
 *   PGP_ROOM_TOO_SMALL  the line was answered too, and pgp_answer gives the answer until the next line. As with PGP_DONE the log has
 *                       the entry that the line is, if it is one that the log takes
 *   PGP_NO_MEMORY       there was no memory for the line or its answer. The log is as before, and the answer, which is in the
 *                       room where it fits, is the one that `pgpeer run` writes then: refusal 41, or 51 for an entry. The same
 *                       line may be told again
 *   PGP_NOT_OPEN        *answer_length is 0, and the room stays as it was
 */
uint32_t pgp_line(pgp_session *session, const uint8_t *line, size_t line_length, uint8_t *room, size_t room_length,
                  size_t *answer_length);

/* Puts the answer to the last line into the room again, and its length into *answer_length, as pgp_line does: PGP_DONE,
 * PGP_ROOM_TOO_SMALL or PGP_NOT_OPEN. Before the first line the answer has no bytes. The session stays as it was. */
uint32_t pgp_answer(pgp_session *session, uint8_t *room, size_t room_length, size_t *answer_length);

/* Where an object lies: its group, and the group's up and acting sets, whose places hold devices. */
typedef struct pgp_place {
    uint32_t epoch;          /* of the map */
    uint16_t pg;             /* the number of the group in its pool */
    uint16_t up_primary;
    uint16_t acting_primary;
    uint8_t size;            /* how many copies or shards the pool keeps, 1 to 16 */
    uint8_t min_size;        /* how many members the group has to have to serve */
    uint8_t up_length;       /* how many places `up` has */
    uint8_t acting_length;   /* how many places `acting` has */
    uint16_t up[16];
    uint16_t acting[16];
} pgp_place;

/* Puts where the object of this name lies into *place, by the map of the session's log: PGP_DONE. Any other status leaves *place
 * as it was: PGP_UNKNOWN_POOL where the map has no such pool, PGP_BAD_ARGUMENT where the pool isn't 1 to 255 or the name isn't 1 to
 * 255 bytes of UTF-8, PGP_NO_MEMORY, which comes only for a name of more than 24 bytes, or PGP_NOT_OPEN. The session stays as it
 * was. */
uint32_t pgp_locate(pgp_session *session, uint32_t pool, const uint8_t *name, size_t name_length, pgp_place *place);

/* What a log says of a placement group. */
typedef struct pgp_view {
    size_t count;            /* how many entries the log has */
    size_t intervals;        /* how many past intervals there are: pgp_intervals gives them */
    size_t probe;            /* how many members have to be heard: pgp_probe */
    size_t blocked_by;       /* how many devices block the group: pgp_blocked_by */
    size_t missing;          /* of how many members the state is known: pgp_missing */
    uint32_t epoch;          /* of the last map */
    uint32_t first;          /* the first epoch of the current interval */
    uint32_t les;            /* the last epoch in which the group is known to have begun to serve, 0 if none is known */
    uint32_t verdict;        /* PGP_NO_PRIMARY to PGP_SERVE */
    uint16_t up_primary;
    uint16_t acting_primary;
    uint16_t best_osd;       /* the device of the best member */
    uint8_t best_slot;       /* its slot, 0 where there is none */
    uint8_t up_length;       /* how many places `up` has */
    uint8_t acting_length;   /* how many places `acting` has */
    uint16_t up[16];
    uint16_t acting[16];
} pgp_view;

/* Puts what the session's log says of group `pg` of the pool into *view: PGP_DONE. Any other status leaves *view as it was:
 * PGP_ASK_UNKNOWN_GROUP where the map has no such group, PGP_BAD_ARGUMENT where the pool isn't 1 to 255 or the group is above 1023,
 * PGP_NO_MEMORY or PGP_NOT_OPEN. The session stays as it was. */
uint32_t pgp_ask(pgp_session *session, uint32_t pool, uint32_t pg, pgp_view *view);

/* A member of a group: a device in a slot. */
typedef struct pgp_member {
    uint16_t osd;
    uint8_t slot;
} pgp_member;

/* A past interval of a group, with the sets and sizes that it had then. */
typedef struct pgp_interval {
    uint32_t first;          /* its first epoch */
    uint32_t last;           /* its last epoch */
    uint16_t up_primary;
    uint16_t acting_primary;
    uint8_t size;
    uint8_t min_size;
    uint8_t up_length;
    uint8_t acting_length;
    uint16_t up[16];
    uint16_t acting[16];
    uint8_t rw;              /* 1 where the group may have gone read-write in it, else 0 */
} pgp_interval;

/* The state of a member other than the best one. */
typedef struct pgp_peer {
    size_t objects;          /* how many objects it lacks, where its state is PGP_MISSING; else 0 */
    uint16_t osd;
    uint8_t slot;
    uint8_t state;           /* PGP_MISSING, PGP_BACKFILL or PGP_DIVERGED */
} pgp_peer;

/* Each puts a list of what the session's log says of a group at the start of the room, which has places for `room_length` of
 * them, and how many they are into *count: PGP_DONE. PGP_ROOM_TOO_SMALL says by *count how many places it wants, and leaves the
 * room as it was. At any other status, which are those of pgp_ask, the room stays as it was too, and *count is 0. The session
 * stays as it was. */
uint32_t pgp_probe(pgp_session *session, uint32_t pool, uint32_t pg, pgp_member *room, size_t room_length, size_t *count);
uint32_t pgp_blocked_by(pgp_session *session, uint32_t pool, uint32_t pg, uint16_t *room, size_t room_length, size_t *count);
uint32_t pgp_intervals(pgp_session *session, uint32_t pool, uint32_t pg, pgp_interval *room, size_t room_length, size_t *count);
uint32_t pgp_missing(pgp_session *session, uint32_t pool, uint32_t pg, pgp_peer *room, size_t room_length, size_t *count);

/* An object that a member lacks. */
typedef struct pgp_object {
    uint32_t epoch;          /* the write that the member needs: its epoch and its number */
    uint32_t number;
    uint8_t name_length;     /* how many bytes the name has, 1 to 255 */
    uint8_t name[255];       /* the name, in UTF-8, and zeros behind it */
} pgp_object;

/* Puts the objects that the member `slot` of device `osd` lacks into the room, in ascending order of their names, as the calls
 * above put a list. There is one for each member to which pgp_missing gives the state PGP_MISSING. For any other it is
 * PGP_NO_LIST: *count is 0, and the room stays as it was. A device above 4095 or a slot above 15 is a PGP_BAD_ARGUMENT too. */
uint32_t pgp_missing_objects(pgp_session *session, uint32_t pool, uint32_t pg, uint32_t osd, uint32_t slot, pgp_object *room,
                             size_t room_length, size_t *count);

/* Does at most `max` steps of what the next questions would have to do, and puts into *left how many are left: PGP_DONE. A step reads an
 * entry of the log, or where all are read works out a group. So a caller that has to answer soon makes this call now and then until
 * *left is 0. At PGP_NO_MEMORY and PGP_NOT_OPEN *left is 0. The session stays as it was: it answers sooner, and the same. */
uint32_t pgp_work(pgp_session *session, size_t max, size_t *left);

/* A placement group. */
typedef struct pgp_group {
    uint32_t pool;
    uint32_t pg;             /* its number in its pool */
} pgp_group;

/* Puts the groups that may have changed since the session's log had `since` entries into the room, each once, as the calls above
 * put a list: PGP_DONE, PGP_ROOM_TOO_SMALL, PGP_NO_MEMORY or PGP_NOT_OPEN. There are at most 16,384. Of any other group pgp_ask and
 * the calls of lists say what they said then, except for count and epoch. The session stays as it was.
 *
 * It gives a group that an entry made or touched (docs/RULES.md, "The log") after the group was last asked for, by pgp_ask, a call of
 * lists or a line, or worked out by pgp_work; and one for which that was with more entries than `since`. After PGP_NO_MEMORY it may
 * give all. So a caller begins with 0, asks for each group that it is given, and gives the least count of these answers the next time.
 *
 * `since` counts the entries of the log as it is now. A count from before pgp_compact_log, or of the session whose pgp_joined_lines
 * this one was opened with, says nothing here: the caller begins with 0 again. In a copy by pgp_open_copy counts go on. */
uint32_t pgp_changed(pgp_session *session, size_t since, pgp_group *room, size_t room_length, size_t *count);

/* A device's weight. */
typedef struct pgp_device_weight {
    uint32_t osd;            /* 0 to 4095 */
    uint32_t weight;         /* in units of 1/0x10000 */
} pgp_device_weight;

/* An epoch that is told of a device. */
typedef struct pgp_device_epoch {
    uint32_t osd;            /* 0 to 4095 */
    uint32_t epoch;
} pgp_device_epoch;

/* A part of a grouped pool's code. */
typedef struct pgp_part {
    uint8_t least;           /* how many of its slots have to be at hand */
    uint8_t slots_length;    /* how many slots it has, 0 to 16 */
    uint8_t slots[16];       /* 0 to 15; what is behind them is no matter */
} pgp_part;

/* A pool that is made. */
typedef struct pgp_pool {
    uint32_t id;             /* 1 to 255 */
    uint32_t pg_num;         /* how many groups it has, 0 to 65535 */
    uint8_t kind;            /* PGP_REPLICATED, PGP_ERASURE or PGP_GROUPED */
    uint8_t k;               /* of an erasure pool: how many shards give an object back. Of another it is no matter */
    uint8_t size;            /* how many members a group wants */
    uint8_t min_size;        /* how many it needs to take writes */
    uint8_t leaf;            /* the type of bucket of which no two members may share one, 0 for devices */
    uint8_t parts_length;    /* of a grouped pool: how many parts its code has, 0 to 16. Of another it is no matter */
    pgp_part parts[16];      /* what is behind them is no matter */
} pgp_pool;

/* New sizes of a pool. */
typedef struct pgp_pool_sizes {
    uint32_t pool;           /* 1 to 255 */
    uint8_t size;
    uint8_t min_size;
} pgp_pool_sizes;

/* A group's pg_temp list, which stands in for its placement. One without a place takes the group's away. */
typedef struct pgp_temp {
    uint32_t pool;           /* 1 to 255 */
    uint32_t pg;             /* 0 to 1023 */
    uint8_t length;          /* how many places the list has, 0 to 16 */
    uint16_t osds[16];       /* 0 to 4095, or PGP_NO_DEVICE; what is behind the list is no matter */
} pgp_temp;

/* An item of a bucket. */
typedef struct pgp_item {
    int32_t id;              /* a bucket by its id, or a device by its number: -65536 to 65535 */
    uint32_t weight;         /* in units of 1/0x10000. Of an item of a uniform bucket it is no matter */
} pgp_item;

/* A bucket of the placement tree. */
typedef struct pgp_bucket {
    int32_t id;              /* -65536 to -1 */
    uint8_t type;            /* its level, as host or rack */
    uint8_t alg;             /* PGP_ALG_UNIFORM, PGP_ALG_LIST, or in a session that reads version 3 PGP_ALG_STRAW2 */
    const pgp_item *items;
    size_t items_length;
} pgp_bucket;

/* A map incremental: what the line of op "inc" says, key by key. */
typedef struct pgp_inc {
    uint32_t epoch;          /* the epoch to which it leads */
    uint32_t after;          /* the epoch of the map that it changes, 0 before the first. Only a session that reads version 3 takes
                              * another one than `epoch` less one */
    const uint32_t *up;      /* devices that boot, 0 to 4095, as those of the next two lists */
    size_t up_length;
    const uint32_t *down;    /* devices that are taken down */
    size_t down_length;
    const uint32_t *gone;    /* devices that are destroyed */
    size_t gone_length;
    const pgp_device_weight *weight;
    size_t weight_length;
    const pgp_device_epoch *up_thru; /* through which epoch a device is known to have been up */
    size_t up_thru_length;
    const pgp_device_epoch *lost; /* devices that are given up for lost, as of an epoch */
    size_t lost_length;
    const pgp_pool *pools;   /* pools that are made */
    size_t pools_length;
    const pgp_pool_sizes *sizes;
    size_t sizes_length;
    const pgp_temp *temp;
    size_t temp_length;
    const pgp_bucket *crush; /* the whole tree. Where it has no bucket, the tree stays */
    size_t crush_length;
} pgp_inc;

/* `pgp_inc inc = PGP_INC;` changes nothing: each list is empty, and has a pointer that isn't null. */
#define PGP_EMPTY_(type) (const type *)8, 0
#define PGP_INC                                                                                                                   \
    {                                                                                                                             \
        0, 0, PGP_EMPTY_(uint32_t), PGP_EMPTY_(uint32_t), PGP_EMPTY_(uint32_t), PGP_EMPTY_(pgp_device_weight),                    \
            PGP_EMPTY_(pgp_device_epoch), PGP_EMPTY_(pgp_device_epoch), PGP_EMPTY_(pgp_pool), PGP_EMPTY_(pgp_pool_sizes),         \
            PGP_EMPTY_(pgp_temp), PGP_EMPTY_(pgp_bucket)                                                                          \
    }

/* Tells a session an incremental, as the line of op "inc" does: PGP_DONE where the log takes it. At any other status the log is as
 * before: the number of the refusal, the one that the line would have (of PGP_TREE_FAULT the tree's fault isn't said);
 * PGP_BAD_ARGUMENT where a number with a range above isn't in it, or what version 3 alone has is told to a session that reads version
 * 2; PGP_NO_MEMORY, which may also come for what has one of these two; or PGP_NOT_OPEN. Nothing of the caller's is kept. The answer to
 * the last line is. */
uint32_t pgp_submit_inc(pgp_session *session, const pgp_inc *inc);

/* What a member tells of its copy of a group. */
typedef struct pgp_info {
    uint32_t pool;              /* 1 to 255 */
    uint32_t pg;                /* 0 to 1023 */
    uint32_t osd;               /* the device that sent it, 0 to 4095 */
    uint32_t slot;              /* its slot, 0 to 15 */
    uint32_t stamp;             /* the sender's epoch */
    uint32_t les;               /* the last epoch in which its copy began to serve */
    uint32_t history_les;       /* the last epoch in which the group began to serve, as far as it knows */
    uint32_t last_epoch_clean;  /* the last epoch in which the group was clean, as far as it knows; 0 where it knows of none */
    uint32_t last_update_epoch; /* the last write that the copy has: its epoch and its number */
    uint32_t last_update;
    uint32_t log_tail_epoch;    /* the version before the first entry of its log */
    uint32_t log_tail;
    uint8_t complete;           /* 1 where the copy has each object of the group, else 0 */
} pgp_info;

/* Tells a session an info, as the line of op "info" does: PGP_DONE where the log takes it. At any other status the log is as
 * before: the number of the refusal, PGP_BAD_ARGUMENT where a number with a range above isn't in it, PGP_NO_MEMORY, which comes
 * only for an info that the log takes, or PGP_NOT_OPEN. The answer to the last line is kept. */
uint32_t pgp_submit_info(pgp_session *session, const pgp_info *info);

/* Leaves out of the session's log reports that no answer needs any more, and no incremental: PGP_DONE, and *left_out is how many it
 * left out. From then on each answer about a group is the one that the whole log would give, except for its count of entries, and
 * what is told is taken or refused as by the whole log, except that there may be room again. At PGP_NO_MEMORY the log is as before;
 * there and at PGP_NOT_OPEN *left_out is 0. The answer to the last line is kept. The new log is made beside the old one: until it is
 * there, both take memory. pgp_changed takes no count from before. */
uint32_t pgp_compact_log(pgp_session *session, size_t *left_out);

/* Of each entry of the session's log whether pgp_compact_log would leave it in: puts 1 or 0 for each, in the order in which they were
 * told, at the start of the room, and how many entries there are into *count: PGP_DONE. At PGP_ROOM_TOO_SMALL, PGP_NO_MEMORY and
 * PGP_NOT_OPEN the room stays as it was; *count is 0 at the last two. The session stays as it was. So a caller that keeps what the
 * log took, in order, keeps those with a 1 before it calls pgp_compact_log. */
uint32_t pgp_needed(pgp_session *session, uint8_t *room, size_t room_length, size_t *count);

/* Lines that may stand for the session's log, each with a line feed: PGP_DONE, and they are put into the room as an answer is, at
 * PGP_ROOM_TOO_SMALL as at PGP_DONE. They are the session's answer until its next line, so pgp_answer gives them again; its log stays.
 *
 * A session that is opened with them (pgp_open_lines, version 3) gives the answers of this one, whatever both are told from then on,
 * except for three things: its count of entries, that it may have room where this one is full, and past intervals of a group that
 * ended before its `les`. Its log is compacted, and incrementals between which nothing begins that an answer can tell apart are one.
 * So a log that is written anew by this call now and then has no end, if members tell `history_les`. A caller that tells entries in
 * structs keeps its log by this call.
 *
 * At PGP_NO_MEMORY, PGP_NOT_OPEN and PGP_NO_LINES *length is 0, and room and answer stay as they were. PGP_NO_LINES isn't known to
 * come: what is written is read again, and this says that it didn't read as it should. */
uint32_t pgp_joined_lines(pgp_session *session, uint8_t *room, size_t room_length, size_t *length);

/* What a session knows without a group. */
typedef struct pgp_log {
    size_t count;            /* how many entries its log has */
    size_t incrementals;     /* how many of them are incrementals, */
    size_t infos;            /* how many infos, */
    size_t parts;            /* how many parts of members' logs */
    uint32_t epoch;          /* of the last map, 0 before the first */
    uint8_t closed;          /* 1 where the log is closed, else 0 */
} pgp_log;

/* Puts what the session knows of its log into *log: PGP_DONE, or PGP_NOT_OPEN, where *log stays as it was. It takes no memory.
 * The session stays as it was. */
uint32_t pgp_ask_log(pgp_session *session, pgp_log *log);

/* Ends the session's log, as the line of op "close" does: the statuses of pgp_submit_info, without PGP_BAD_ARGUMENT. */
uint32_t pgp_submit_close(pgp_session *session);

/* A part of a member's log. */
typedef struct pgp_report {
    uint32_t pool;           /* 1 to 255 */
    uint32_t pg;             /* 0 to 1023 */
    uint32_t osd;            /* the device that sent it, 0 to 4095 */
    uint32_t slot;           /* its slot, 0 to 15 */
    uint32_t stamp;          /* the sender's epoch */
} pgp_report;

/* An entry of a member's log: a write of an object. */
typedef struct pgp_log_entry {
    uint32_t epoch;          /* the write: its epoch and its number */
    uint32_t number;
    uint8_t deletes;         /* 1 where it deletes the object, 0 where it makes or changes it */
    uint8_t name_length;     /* how many bytes the name has, 1 to 255 */
    uint8_t name[255];       /* the name, in UTF-8; what is behind it is no matter */
} pgp_log_entry;

/* Tells a session a part of a member's log, of 1 to 256 entries in any order, as the line of op "entries" does. The statuses are those
 * of pgp_submit_info. PGP_NO_MEMORY may also come for what the log doesn't take. Nothing of the caller's is kept. */
uint32_t pgp_submit_entries(pgp_session *session, const pgp_report *report, const pgp_log_entry *log, size_t log_length);

/* The version of the library: ten thousand times the first part, a hundred times the second, and the third. */
uint32_t pgp_version(void);

/* Whether the library that the program runs with is of this header: its structs are those of all versions of the same first two
 * parts. A program that is linked with the shared object asks once, before its first session. */
static inline bool pgp_fits_header(void) {
    return pgp_version() / 100 == PGP_VERSION / 100;
}

/* The name of a status or of another number that answers have, and "unknown" for a number that is none. */
static inline const char *pgp_status_name(uint32_t status) {
    switch (status) {
    case PGP_DONE: return "Done";
    case PGP_ROOM_TOO_SMALL: return "RoomTooSmall";
    case PGP_NO_MEMORY: return "NoMemory";
    case PGP_NOT_OPEN: return "NotOpen";
    case PGP_ALREADY_OPEN: return "AlreadyOpen";
    case PGP_BAD_ARGUMENT: return "BadArgument";
    case PGP_NO_LIST: return "NoList";
    case PGP_NO_LINES: return "NoLines";
    case PGP_EPOCH_GAP: return "EpochGap";
    case PGP_TWICE: return "Twice";
    case PGP_UNKNOWN_DEVICE: return "UnknownDevice";
    case PGP_ALREADY_UP: return "AlreadyUp";
    case PGP_ALREADY_DOWN: return "AlreadyDown";
    case PGP_STILL_UP: return "StillUp";
    case PGP_UP_THRU_BACK: return "UpThruBack";
    case PGP_AHEAD: return "Ahead";
    case PGP_BAD_POOL: return "BadPool";
    case PGP_POOL_KNOWN: return "PoolKnown";
    case PGP_BAD_TEMP: return "BadTemp";
    case PGP_TREE_FAULT: return "TreeFault";
    case PGP_LINE_TOO_LONG: return "LineTooLong";
    case PGP_NOT_JSON: return "NotJson";
    case PGP_NO_OP: return "NoOp";
    case PGP_UNKNOWN_KEY: return "UnknownKey";
    case PGP_BAD_FIELD: return "BadField";
    case PGP_ASK_UNKNOWN_GROUP:
    case PGP_UNKNOWN_GROUP: return "UnknownGroup";
    case PGP_LINE_MEMORY:
    case PGP_ENTRY_MEMORY: return "Memory";
    case PGP_UNKNOWN_POOL: return "UnknownPool";
    case PGP_LOG_FULL: return "LogFull";
    case PGP_UNKNOWN_MEMBER: return "UnknownMember";
    case PGP_FUTURE_STAMP: return "FutureStamp";
    case PGP_BAD_VERSION: return "BadVersion";
    case PGP_CLOSED: return "Closed";
    default: return "unknown";
    }
}

/* The name of a verdict, as answers have it, and "unknown" for a number that is none. */
static inline const char *pgp_verdict_name(uint32_t verdict) {
    switch (verdict) {
    case PGP_NO_PRIMARY: return "NoPrimary";
    case PGP_DOWN: return "Down";
    case PGP_WAITING: return "Waiting";
    case PGP_INCOMPLETE: return "Incomplete";
    case PGP_SHORT: return "Short";
    case PGP_NEED_LOG: return "NeedLog";
    case PGP_NEED_UP_THRU: return "NeedUpThru";
    case PGP_SERVE: return "Serve";
    default: return "unknown";
    }
}

#ifdef __cplusplus
}
#endif

#endif
