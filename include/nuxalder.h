/* Nuxalder: a turn-by-turn bench for a lock-free contention adapting search tree.
 *
 * Run, the one-writer run, List, State and History take a schedule file as bytes, carry it out on a fresh bench and hand
 * back numbers in `report` and bytes in a buffer that the caller lends; Tally does so and adds what came of it to a
 * tally that is lent; Merge takes two files, Judge takes a history. They keep no state between calls, allocate
 * nothing, read no byte outside the files and write no byte outside the buffer, the tally and the report. The lent
 * memory must not overlap, and no pointer is null, also where its length is 0.
 *
 * A schedule file: version byte, 1, 2 or 3, two-byte big-endian count, then `count` records of two bytes in version 1,
 * of four in version 2, which has a depth, 0 to 9,999 mm, beside each station. Byte 0 of a record: 16 * thread + action
 * (0 step, 1 lookup, 2 insert, 3 remove, 4 split, 5 join, in version 2 also 6 range query). Byte 1: the station, 0 to 63;
 * for a step, 0. Bytes 2 and 3, in version 2, big-endian: an insert's depth; the upper end of a range query, which asks for
 * all stations from the one in byte 1 to that, both inside; else 0. An insert of a station that is present says no and
 * replaces its depth. Version 3 is version 2 with the stop of joins on: a search that has read the child of its 8th route
 * takes two steps more, and between them a join answers 7. All that is said of version 2 here holds for version 3.
 * What the versions differ in:
 *                                                              version 1       versions 2 and 3
 *    record                                                    2 bytes         4 bytes
 *    file                                                      3 + 2 * count   3 + 4 * count
 *    row: 0 thread, 1 action, 2 station, 3 answer              4 bytes         14 bytes
 *         4 and 5 depth, big-endian: a lookup's find, else 0   -
 *         6 to 13 set, big-endian, bit s for station s:        -
 *         those that a range query found, else 0
 *    row buffer                                                2 * count       7 * count
 *    text buffer                                               4,096 bytes     8,192 bytes
 *    a station in a line of the listing                        3               3=640
 *
 * Refusal numbers; where the versions differ, the second is version 2's:
 *    0  none
 *    1  a file under three bytes                 7  a thread over 3
 *    2  a version other than 1, 2 and 3          8  an action over 5, over 6
 *    3  a count over 4,096                       9  a start with a station over 63
 *    4  a length other than 3 + 2 * count,      10  unused bytes that are not 0: a step's, or in version 2 the
 *       3 + 4 * count                               last two of a start that is no insert and no query
 *    5  a row buffer under 2 * count bytes,     11  a start of a busy thread
 *       7 * count                               12  a step of an idle thread
 *    6  a text buffer under 4,096 bytes,        13  a swap that needs more node numbers than are left
 *       8,192                                   14  an insert with a depth over 9,999
 *                                              15  a range query with an upper end over 63 or below its station
 *                                              16  a swap that needs a store of a range query beyond the 64
 * A record is refused in this order: 7, 8; a start then for 9, 14, 15 or 10, 11; a step for 10, 12, 13, 16.
 * The one-writer run alone: 24 for a start of an insert, remove, split or join on threads 1 to 3, and in version 2 of a range
 * query on any thread, after 8 and before 9; and 2 for version 3.
 * State alone: 25 for a buffer under 48,912 bytes, after 4.
 * Merge alone, in this order: 1 to 4 for a fault of the first file, then 1 to 4 for one of the second (2: any
 * version but 1), 17 for a thread that is not its file's, 3 for counts that total over 4,096, 18 for an output
 * buffer under 3 + 4 * the smaller count bytes.
 * Tally alone, beside Run's own number: 19 for a file that would take a field of the tally past 32 bits.
 * History: 1, 3, 4 and 7 to 13 as Run has them for version 1, 2 for any version but 1, 5 for a buffer under
 * 3 + 4 * count bytes. Judge alone: 1, 2, 4, 21 to 23;
 * they stand with nuxalder_judge.
 *
 * Answers of a lookup, an insert, a remove or a range query are 0 and 1, those of a split or a join 1 and 2 to 7:
 *    0  no                                    4  a swap lost, or the base gone from its parent
 *    1  yes                                   5  the neighbour is not replaceable (a join)
 *    2  too few stations for a split,         6  a join stood down
 *       or no parent for a join               7  joins are stopped (a join of version 3)
 *    3  the base is not replaceable
 * Where 2 and 3 both hold the answer is 2.
 */
#ifndef NUXALDER_H
#define NUXALDER_H

#include <stddef.h>
#include <stdint.h>

/* The version of this interface. */
#define NUXALDER_VERSION_MAJOR 1
#define NUXALDER_VERSION_MINOR 6
#define NUXALDER_VERSION_PATCH 0
#define NUXALDER_VERSION "1.6.0"

/* The functions may be called from several threads at once, each with its own report and buffers; a schedule
 * or a history may be shared. A call of one of them uses at most NUXALDER_STACK bytes of stack. */
#define NUXALDER_STACK 73728

/* Sizes of a schedule file, its rows and the bench; DEEP is version 2, and version 3 has its sizes. */
#define NUXALDER_FILE_VERSION 1
#define NUXALDER_DEEP_FILE_VERSION 2
#define NUXALDER_STOP_FILE_VERSION 3
#define NUXALDER_HEADER_SIZE 3
#define NUXALDER_RECORD_SIZE 2
#define NUXALDER_DEEP_RECORD_SIZE 4
#define NUXALDER_RECORDS_MOST 4096
#define NUXALDER_FILE_MOST (NUXALDER_HEADER_SIZE + NUXALDER_DEEP_RECORD_SIZE * NUXALDER_RECORDS_MOST) /* of every version */
#define NUXALDER_ROW_SIZE 4
#define NUXALDER_DEEP_ROW_SIZE 14
#define NUXALDER_ROWS_BUFFER (7 * NUXALDER_RECORDS_MOST) /* enough for every schedule of every version */
#define NUXALDER_DEPTH_MOST 9999
#define NUXALDER_STATIONS 64
#define NUXALDER_THREADS 4
#define NUXALDER_NODES_MOST 256
#define NUXALDER_STORES_MOST 64

/* What a record asks, and the second byte of a row. nuxalder_answer_words, at the end, has a row's last byte in words. */
enum nuxalder_action {
    NUXALDER_STEP = 0,
    NUXALDER_LOOKUP = 1,
    NUXALDER_INSERT = 2,
    NUXALDER_REMOVE = 3,
    NUXALDER_SPLIT = 4,
    NUXALDER_JOIN = 5,
    NUXALDER_RANGE = 6 /* not in version 1 */
};

/* The first byte of a record. */
#define NUXALDER_FIRST_BYTE(thread, action) ((uint8_t)(16 * (thread) + (action)))

/* Refusal numbers; nuxalder_refusal_words, at the end, has what each means. */
enum nuxalder_refusal {
    NUXALDER_REFUSED_NOT = 0,
    NUXALDER_REFUSED_SHORT_FILE = 1,
    NUXALDER_REFUSED_VERSION = 2,
    NUXALDER_REFUSED_COUNT = 3,
    NUXALDER_REFUSED_LENGTH = 4,
    NUXALDER_REFUSED_ROWS_BUFFER = 5,
    NUXALDER_REFUSED_TEXT_BUFFER = 6,
    NUXALDER_REFUSED_THREAD = 7,
    NUXALDER_REFUSED_ACTION = 8,
    NUXALDER_REFUSED_STATION = 9,
    NUXALDER_REFUSED_STEP_BYTE = 10, /* unused bytes */
    NUXALDER_REFUSED_BUSY = 11,
    NUXALDER_REFUSED_IDLE = 12,
    NUXALDER_REFUSED_NUMBERS = 13,
    NUXALDER_REFUSED_DEPTH = 14,
    NUXALDER_REFUSED_UPPER_END = 15,
    NUXALDER_REFUSED_STORES = 16,
    NUXALDER_REFUSED_OTHER_THREAD = 17,
    NUXALDER_REFUSED_OUTPUT_BUFFER = 18,
    NUXALDER_REFUSED_TALLY = 19,
    NUXALDER_REFUSED_EVENT = 21,
    NUXALDER_REFUSED_OPERATIONS = 22,
    NUXALDER_REFUSED_UNFINISHED = 23,
    NUXALDER_REFUSED_WRITER = 24,
    NUXALDER_REFUSED_STATE_BUFFER = 25
};

#ifdef __cplusplus
extern "C" {
#endif

/* What nuxalder_run and nuxalder_run_one_writer write to report[]. */
enum {
    NUXALDER_RUN_REFUSAL = 0, /* refusal number, 0 for none */
    NUXALDER_RUN_RECORDS = 1, /* records done */
    NUXALDER_RUN_ROWS = 2,    /* rows written, four bytes each, in version 2 fourteen */
    NUXALDER_RUN_SET = 3,     /* bit s is set where station s is in the tree */
    NUXALDER_RUN_STORED = 4,  /* stored count: stations inside their base's range, as many as the set has */
    NUXALDER_RUN_USED = 5     /* node numbers used */
};

/* The last byte of a row. */
enum {
    NUXALDER_NO = 0,
    NUXALDER_YES = 1,
    NUXALDER_LACKING = 2,           /* a split: too few stations; a join: no parent */
    NUXALDER_BLOCKED = 3,           /* the base is not replaceable */
    NUXALDER_LOST = 4,              /* a swap lost, or the base gone from its parent */
    NUXALDER_NEIGHBOUR_BLOCKED = 5, /* the neighbour is not replaceable */
    NUXALDER_STOOD_DOWN = 6,        /* a join stood down */
    NUXALDER_STOPPED = 7            /* joins are stopped */
};

/* What nuxalder_list writes to report[]. */
enum {
    NUXALDER_LIST_REFUSAL = 0, /* refusal number, 0 for none */
    NUXALDER_LIST_LENGTH = 1   /* bytes of text written */
};

/* What nuxalder_merge writes to report[]. */
enum {
    NUXALDER_MERGE_REFUSAL = 0, /* refusal number, 0 for none */
    NUXALDER_MERGE_FILE = 1,    /* the file that the part is of: 0 the first, 1 the second */
    NUXALDER_MERGE_START = 2,   /* the byte of that file at which the part begins */
    NUXALDER_MERGE_LENGTH = 3   /* bytes of the part */
};

#define NUXALDER_RUN_FIELDS 6
#define NUXALDER_LIST_FIELDS 2
#define NUXALDER_MERGE_FIELDS 4
#define NUXALDER_HISTORY_FIELDS 2
#define NUXALDER_JUDGE_FIELDS 3
#define NUXALDER_LIST_BUFFER 8192 /* enough for every schedule of every version; version 1 never needs more than 4,096 */

/* The depth in a row of version 2: what a lookup found, else 0. */
#define NUXALDER_ROW_DEPTH(row) (256u * (row)[4] + (row)[5])

/* The set in a row of version 2, bit s for station s: what a range query found, else 0. */
static inline uint64_t nuxalder_row_set(const uint8_t *row)
{
    uint64_t set = 0;
    int i;
    for (i = 6; i < NUXALDER_DEEP_ROW_SIZE; i++) set = set << 8 | row[i];
    return set;
}

/* Carries out the schedule. A row is four bytes: thread, action, station, answer, in order of finishing; fourteen in
 * version 2, as the table above says. `rows` needs 2 * count bytes, in version 2 7 * count. On refusals 1 to 5 every
 * other field is 0 and `rows` is untouched.
 * On refusals 7 to 16 the run ends before the refused record, and the fields and rows are as they then stood.
 * Bytes of `rows` after the rows written are untouched. */
void nuxalder_run(const uint8_t *schedule, size_t schedule_length,
                  uint8_t *rows, size_t rows_length,
                  uint64_t report[NUXALDER_RUN_FIELDS]);

/* The one-writer run, for a collector in which thread 0 alone writes and threads 1 to 3 only look up: as nuxalder_run,
 * with one refusal more. A record that starts an insert, remove, split or join on threads 1 to 3, or a range query on any
 * thread, is barred: it is refused with 24, after 7 and 8 and before 9, 10, 11, 14 and 15. So a thread over 3 is 7 and
 * an action over 5, in version 2 over 6, is 8 on every thread, and a barred start is 24 whatever its station and its depth
 * or upper end are and whether or not its thread is busy. A version other than 1 and 2 is 2, so 3 is. Every thread may
 * look up and step. On refusal 24 the run ends before the barred record; report, rows and untouched bytes are then as on
 * refusals 7 to 14. A schedule with no barred record gives what nuxalder_run gives.
 *
 * Of every one-writer run it is proved: no swap fails, no join is killed, a split or join that finishes says 1, or 2
 * where there were too few stations or no parent, and an insert or remove takes at most 68 steps of its thread. */
void nuxalder_run_one_writer(const uint8_t *schedule, size_t schedule_length,
                             uint8_t *rows, size_t rows_length,
                             uint64_t report[NUXALDER_RUN_FIELDS]);

/* Carries out the schedule and lists the tree where the run ended, also after a refused record: a line for
 * each node (level, kind, key or container), then the set; in version 2 a station has its depth, `3=640`. `text` needs
 * 4,096 bytes, in version 2 8,192. On refusals 1, 2, 3, 4 and 6 nothing is written
 * and the length is 0. Bytes of `text` past the length are untouched; no byte 0 is added. */
void nuxalder_list(const uint8_t *schedule, size_t schedule_length,
                   uint8_t *text, size_t text_length,
                   uint64_t report[NUXALDER_LIST_FIELDS]);

/* ---- the state
 *
 * The whole bench after the first records of a schedule: a head, four threads, the nodes used and the stores shown, in records of
 * fixed size at the offsets below. Numbers of more than one byte are big-endian; a link is two bytes, 1 and a number, or 0
 * and 0 for none. A field that a node's kind has not, and a note that no later step of its thread reads, is 0: docs/STATE.md
 * has a table of which note is shown at which place. */

#define NUXALDER_STATE_LAYOUT 1    /* the first byte of every state */
#define NUXALDER_STATE_BUFFER 48912 /* what a state's buffer needs: no state is longer */
#define NUXALDER_STATE_FIELDS 3

/* What nuxalder_state writes to report[]. */
enum {
    NUXALDER_STATE_REFUSAL = 0, /* refusal number, 0 for none */
    NUXALDER_STATE_RECORDS = 1, /* records done */
    NUXALDER_STATE_LENGTH = 2   /* bytes of the state written */
};

/* Bytes of the head. */
enum {
    NUXALDER_HEAD_LAYOUT = 0,
    NUXALDER_HEAD_VERSION = 1, /* of the file */
    NUXALDER_HEAD_RECORDS = 2, /* two bytes: records done */
    NUXALDER_HEAD_REFUSAL = 4, /* of the record that ended them, 0 for none */
    NUXALDER_HEAD_ROOT = 5,
    NUXALDER_HEAD_USED = 6,    /* two bytes: node numbers used */
    NUXALDER_HEAD_SHOWN = 8,   /* stores shown */
    NUXALDER_HEAD_STOP = 9,    /* 1 where searches stop joins */
    NUXALDER_HEAD_COUNT = 10,  /* the searches that stop joins now */
    NUXALDER_HEAD_SIZE = 16
};

/* Bytes of a thread. Those of two bytes after OWN are links to nodes. */
enum {
    NUXALDER_THREAD_PLACE = 0, /* 0 where it is idle; then all else is 0 */
    NUXALDER_THREAD_ACTION = 1,
    NUXALDER_THREAD_STATION = 2,
    NUXALDER_THREAD_EXTRA = 3, /* two bytes: an insert's depth, a query's upper end */
    NUXALDER_THREAD_READ = 5,  /* routes read since 1 */
    NUXALDER_THREAD_SIDE = 6,  /* 1: the base is its parent's left child, 2: its right */
    NUXALDER_THREAD_OWN = 7,   /* 1 where the main is the thread's own */
    NUXALDER_THREAD_ROUTE = 8,
    NUXALDER_THREAD_BASE = 10,
    NUXALDER_THREAD_PARENT = 12,
    NUXALDER_THREAD_FOUND = 14,
    NUXALDER_THREAD_NEIGHBOUR = 16,
    NUXALDER_THREAD_MAIN = 18,
    NUXALDER_THREAD_GRANDPARENT = 20,
    NUXALDER_THREAD_OTHER = 22,
    NUXALDER_THREAD_FRAMES = 24,  /* how many frames it has */
    NUXALDER_THREAD_FRAME = 32,   /* the first, which is the one that is carried on */
    NUXALDER_THREAD_SIZE = 816
};

/* Bytes of a frame. */
enum {
    NUXALDER_FRAME_LOWER = 0,
    NUXALDER_FRAME_UPPER = 1,
    NUXALDER_FRAME_STORE = 2,  /* link to a store */
    NUXALDER_FRAME_BASE = 4,   /* link: the base in hand */
    NUXALDER_FRAME_POPPED = 6, /* link: the base popped last */
    NUXALDER_FRAME_KEY = 8,    /* 1 and the key noted */
    NUXALDER_FRAME_BEGUN = 10, /* 1 where a base is done */
    NUXALDER_FRAME_STACK_LENGTH = 11,
    NUXALDER_FRAME_BACKUP_LENGTH = 12,
    NUXALDER_FRAME_DONE = 16,  /* eight bytes: the stations done */
    NUXALDER_FRAME_STACK = 24, /* node numbers, the top first */
    NUXALDER_FRAME_BACKUP = 110,
    NUXALDER_FRAME_SIZE = 196,
    NUXALDER_FRAMES_MOST = 4
};

/* Bytes of a node, its kinds and the stages of a main. */
enum {
    NUXALDER_NODE_KIND = 0,
    NUXALDER_NODE_REACHABLE = 1, /* 1 where it is */
    NUXALDER_NODE_RANGE = 2,     /* eight bytes */
    NUXALDER_NODE_KEY = 10,      /* of a route, and the four below */
    NUXALDER_NODE_LEFT = 11,
    NUXALDER_NODE_RIGHT = 12,
    NUXALDER_NODE_VALID = 13,
    NUXALDER_NODE_MARK = 14,      /* link to a main */
    NUXALDER_NODE_PARENT = 16,    /* link; of a base, and the container */
    NUXALDER_NODE_CONTAINER = 18, /* eight bytes */
    NUXALDER_NODE_STAGE = 26,     /* of a main, and the four below: links */
    NUXALDER_NODE_UNION = 28,
    NUXALDER_NODE_NEIGHBOUR = 30,
    NUXALDER_NODE_GRANDPARENT = 32,
    NUXALDER_NODE_OTHER = 34,
    NUXALDER_NODE_MAIN = 36,  /* link; of a neighbour */
    NUXALDER_NODE_LOWER = 38, /* of a range base, and the two below */
    NUXALDER_NODE_UPPER = 39,
    NUXALDER_NODE_STORE = 40,  /* link to a store */
    NUXALDER_NODE_DEPTHS = 48, /* two bytes for each station */
    NUXALDER_NODE_SIZE = 176
};

enum { NUXALDER_NORMAL = 0, NUXALDER_ROUTE = 1, NUXALDER_MAIN = 2, NUXALDER_NEIGHBOUR = 3, NUXALDER_RANGE_BASE = 4 };

enum { NUXALDER_PREPARING = 1, NUXALDER_DECIDED = 2, NUXALDER_ABORTED = 3, NUXALDER_DONE = 4 };

/* Bytes of a store. */
enum {
    NUXALDER_STORE_SET = 0,    /* 1 where its result is set */
    NUXALDER_STORE_RESULT = 1, /* eight bytes */
    NUXALDER_STORE_SIZE = 9
};

/* Two bytes, and eight, as a number. */
static inline unsigned nuxalder_state_two(const uint8_t *at)
{
    return 256u * at[0] + at[1];
}

static inline uint64_t nuxalder_state_word(const uint8_t *at)
{
    uint64_t word = 0;
    int i;
    for (i = 0; i < 8; i++) word = word << 8 | at[i];
    return word;
}

/* What a link names, or -1 for none. */
static inline int nuxalder_state_link(const uint8_t *at)
{
    return at[0] ? at[1] : -1;
}

/* Where thread t, node x and store j of a state begin. */
static inline const uint8_t *nuxalder_state_thread(const uint8_t *state, int t)
{
    return state + NUXALDER_HEAD_SIZE + NUXALDER_THREAD_SIZE * t;
}

static inline const uint8_t *nuxalder_state_node(const uint8_t *state, int x)
{
    return nuxalder_state_thread(state, NUXALDER_THREADS) + NUXALDER_NODE_SIZE * x;
}

static inline const uint8_t *nuxalder_state_store(const uint8_t *state, int j)
{
    return nuxalder_state_node(state, (int)nuxalder_state_two(state + NUXALDER_HEAD_USED)) + NUXALDER_STORE_SIZE * j;
}

/* Carries out the first `records` records of the schedule, all of them where it has no more, and writes the state there.
 * `state` needs NUXALDER_STATE_BUFFER bytes; on fewer the refusal is 25. On refusals 1 to 4 and 25 nothing is written and
 * the other fields are 0. On refusals 7 to 16, of one of these records, the state is the one before it. Bytes of `state` past
 * the length are untouched. */
void nuxalder_state(const uint8_t *schedule, size_t schedule_length, uint64_t records,
                    uint8_t *state, size_t state_length,
                    uint64_t report[NUXALDER_STATE_FIELDS]);

/* Merges two schedules of version 1, the first for threads 0 and 1 only, the second for 2 and 3 only. It runs
 * nothing. A header that counts the records of both, and the records taken in turns, first file first, as long
 * as both have one, go to `out`: 3 + 4 * the smaller count bytes; bytes after those are untouched. The records
 * left over are a part of the longer file, which the report names and nothing copies: `out` with these bytes
 * appended is the merged file, and Run accepts it. For equal counts the part is the empty end of the first
 * file. On a refusal nothing is written to `out`, and the part is the empty start of the first file.
 *
 *     uint8_t merged[8195]; // room for 4,096 records
 *     uint64_t report[NUXALDER_MERGE_FIELDS];
 *     nuxalder_merge(first, first_length, second, second_length, merged, sizeof merged, report);
 *     if (report[NUXALDER_MERGE_REFUSAL] == 0) {
 *         const uint8_t *longer = report[NUXALDER_MERGE_FILE] == 0 ? first : second;
 *         size_t all = first_length + second_length - 3, left = report[NUXALDER_MERGE_LENGTH];
 *         memcpy(merged + (all - left), longer + report[NUXALDER_MERGE_START], left);
 *         nuxalder_run(merged, all, rows, rows_length, run);
 *     }
 *
 * examples/merge.c is a whole program. */
void nuxalder_merge(const uint8_t *first, size_t first_length,
                    const uint8_t *second, size_t second_length,
                    uint8_t *out, size_t out_length,
                    uint64_t report[NUXALDER_MERGE_FIELDS]);

/* ---- tallies */

#define NUXALDER_TALLY_ACTIONS 8   /* cells of a field: one for each action number; 0 and 7 are unused */
#define NUXALDER_TALLY_REFUSALS 17 /* one for each refusal number; 0 and 6 are never counted */

/* A tally of many runs: 65 numbers of 32 bits, by action and by refusal number. Cells that no run adds to are left as
 * they are lent. A season begins with all cells 0. */
struct nuxalder_tally {
    uint32_t starts[NUXALDER_TALLY_ACTIONS];     /* accepted starts */
    uint32_t yes[NUXALDER_TALLY_ACTIONS];        /* operations that finished with 1 */
    uint32_t no[NUXALDER_TALLY_ACTIONS];         /* operations that finished with any other answer: 0, 2 to 7 */
    uint32_t unfinished[NUXALDER_TALLY_ACTIONS]; /* operations that were open where their run ended */
    uint32_t steps[NUXALDER_TALLY_ACTIONS];      /* steps of the finished ones: all together */
    uint32_t largest[NUXALDER_TALLY_ACTIONS];    /* and the most of one */
    uint32_t refusals[NUXALDER_TALLY_REFUSALS];  /* files that were refused, whole or at a record */
};

/* What nuxalder_tally writes to report[]: Run's six numbers, NUXALDER_RUN_REFUSAL to NUXALDER_RUN_USED, and */
enum {
    NUXALDER_TALLY_REFUSAL = 6 /* 0, or 19 where the tally was left as it was */
};

/* What nuxalder_average writes to average[]. */
enum {
    NUXALDER_AVERAGE_STEPS = 0,
    NUXALDER_AVERAGE_OPERATIONS = 1
};

#define NUXALDER_TALLY_FIELDS 7
#define NUXALDER_AVERAGE_FIELDS 2

/* Carries out the schedule as nuxalder_run does, with the same numbers, rows and refusals, and adds its run to the
 * tally, field by field, the largest for the largest. A step counts for the operation that its thread has open, the last
 * one among them. A file that is refused with 1 to 5 adds only its refusal; one whose record is refused adds what was
 * done before it, and its refusal. Where any field would pass 32 bits no cell changes, and NUXALDER_TALLY_REFUSAL is 19;
 * the other numbers and the rows are Run's all the same.
 *
 *     static struct nuxalder_tally season; // all cells are 0
 *     uint64_t report[NUXALDER_TALLY_FIELDS], average[NUXALDER_AVERAGE_FIELDS];
 *     for (each file)
 *         nuxalder_tally(file, length, rows, sizeof rows, &season, report);
 *     nuxalder_average(&season, NUXALDER_INSERT, average);
 */
void nuxalder_tally(const uint8_t *schedule, size_t schedule_length,
                    uint8_t *rows, size_t rows_length,
                    struct nuxalder_tally *tally,
                    uint64_t report[NUXALDER_TALLY_FIELDS]);

/* The average of an action's row: steps over finished operations as two whole numbers in lowest terms, 0 over 1 where
 * none has finished and for a number that is no action's, 0 or over 6. The tally is not changed. */
void nuxalder_average(const struct nuxalder_tally *tally, uint8_t action,
                      uint64_t average[NUXALDER_AVERAGE_FIELDS]);

/* ---- histories
 *
 * A history file: version byte 1, two-byte big-endian count, then `count` events of four bytes: thread, action
 * (1 lookup, 2 insert, 3 remove), station, and 0 for a start, 1 for a finish with no, 2 for a finish with yes. */

/* What nuxalder_history writes to report[]. */
enum {
    NUXALDER_HISTORY_REFUSAL = 0, /* refusal number, 0 for none */
    NUXALDER_HISTORY_LENGTH = 1   /* bytes of the history written */
};

#define NUXALDER_HISTORY_BUFFER 16387 /* no schedule's history needs more */

/* Carries out the schedule and writes its run as a history: each accepted start and each row, in turn order. A
 * finish's last byte is the row's answer and 1, also for splits and joins, which are written as they are (Judge
 * then refuses the history with 21). `history` needs 3 + 4 * count bytes; on fewer the refusal is 5. On refusals
 * 1 to 5 nothing is written and the length is 0. On refusals 7 to 13 the history is that of the records before
 * the refused one. Bytes of `history` past the length are untouched. */
void nuxalder_history(const uint8_t *schedule, size_t schedule_length,
                      uint8_t *history, size_t history_length,
                      uint64_t report[NUXALDER_HISTORY_FIELDS]);

/* What nuxalder_judge writes to report[]. */
enum {
    NUXALDER_JUDGE_REFUSAL = 0,   /* refusal number, 0 for none */
    NUXALDER_JUDGE_ACCEPTED = 1,  /* 1 where there is an order, else 0 */
    NUXALDER_JUDGE_OPERATIONS = 2 /* operations of the history */
};

#define NUXALDER_JUDGE_ORDER 12 /* a history has at most so many operations */

/* Judges a history: whether some order of all operations that keeps every finish before a start has these answers
 * from a plain set that is empty at first. Operations are numbered from 0 by their starts; `order` gets the first
 * such order, compared number by number, and 0 after it. Where there is none, ACCEPTED is 0 and every byte of
 * `order` is 0. Refusals, in this order:
 *    1  a file under three bytes             21  an event out of place: a field outside its range, a start of a busy
 *    2  a version other than 1                   thread, a finish of an idle one or of another operation
 *    4  a length other than 3 + 4 * count    22  more than 12 operations
 *                                            23  an operation that is not finished
 * On a refusal every other field and every byte of `order` is 0. */
void nuxalder_judge(const uint8_t *history, size_t history_length,
                    uint8_t order[NUXALDER_JUDGE_ORDER],
                    uint64_t report[NUXALDER_JUDGE_FIELDS]);

#ifdef __cplusplus
}
#endif

/* A refusal number in words; "unknown" for a number that is none. */
static inline const char *nuxalder_refusal_words(uint64_t refusal)
{
    switch (refusal) {
    case NUXALDER_REFUSED_NOT: return "not refused";
    case NUXALDER_REFUSED_SHORT_FILE: return "a file under three bytes";
    case NUXALDER_REFUSED_VERSION: return "a version other than 1, 2 and 3, or one that is not taken here";
    case NUXALDER_REFUSED_COUNT: return "a count over 4,096";
    case NUXALDER_REFUSED_LENGTH: return "a length other than 3 + 2 * count, in versions 2 and 3 other than 3 + 4 * count";
    case NUXALDER_REFUSED_ROWS_BUFFER: return "a row buffer under 2 * count bytes, in versions 2 and 3 under 7 * count";
    case NUXALDER_REFUSED_TEXT_BUFFER: return "a text buffer under 4,096 bytes, in versions 2 and 3 under 8,192";
    case NUXALDER_REFUSED_THREAD: return "a thread over 3";
    case NUXALDER_REFUSED_ACTION: return "an action over 5, in versions 2 and 3 over 6";
    case NUXALDER_REFUSED_STATION: return "a start with a station over 63";
    case NUXALDER_REFUSED_STEP_BYTE: return "unused bytes that are not 0";
    case NUXALDER_REFUSED_BUSY: return "a start of a busy thread";
    case NUXALDER_REFUSED_IDLE: return "a step of an idle thread";
    case NUXALDER_REFUSED_NUMBERS: return "a swap that needs more node numbers than are left";
    case NUXALDER_REFUSED_DEPTH: return "an insert with a depth over 9,999";
    case NUXALDER_REFUSED_UPPER_END: return "a range query with an upper end over 63 or below its station";
    case NUXALDER_REFUSED_STORES: return "a swap that needs a store of a range query, and all 64 are used";
    case NUXALDER_REFUSED_OTHER_THREAD: return "a thread that is not its file's";
    case NUXALDER_REFUSED_OUTPUT_BUFFER: return "an output buffer under 3 + 4 * the smaller count bytes";
    case NUXALDER_REFUSED_TALLY: return "a file that would take a field of the tally past 32 bits";
    case NUXALDER_REFUSED_EVENT: return "an event out of place";
    case NUXALDER_REFUSED_OPERATIONS: return "more than 12 operations";
    case NUXALDER_REFUSED_UNFINISHED: return "an operation that is not finished";
    case NUXALDER_REFUSED_WRITER: return "an insert, remove, split or join on threads 1 to 3, or a range query, where only thread 0 writes";
    case NUXALDER_REFUSED_STATE_BUFFER: return "a state buffer under 48,912 bytes";
    default: return "unknown";
    }
}

/* The answer of a row in words; "unknown" for a number that is none. */
static inline const char *nuxalder_answer_words(uint64_t answer)
{
    switch (answer) {
    case NUXALDER_NO: return "no";
    case NUXALDER_YES: return "yes";
    case NUXALDER_LACKING: return "no: too few stations for a split, or no parent for a join";
    case NUXALDER_BLOCKED: return "no: the base is not replaceable";
    case NUXALDER_LOST: return "no: a swap was lost, or the base is gone from its parent";
    case NUXALDER_NEIGHBOUR_BLOCKED: return "no: the neighbour is not replaceable";
    case NUXALDER_STOOD_DOWN: return "no: the join stood down";
    case NUXALDER_STOPPED: return "no: joins are stopped";
    default: return "unknown";
    }
}
#endif
