/* See expect.h. Everything that the driver knows of the bench comes through here. */
#include "expect.h"

#include <string.h>

/* Lays the rows on the records: an operation finishes at its thread's last step before the next start, or at its last step
 * of all where the run has a row for it. */
static void lay(struct expectation *e, const uint8_t *rows, int count)
{
    int last[WORKERS] = {-1, -1, -1, -1}, started[WORKERS] = {0}, taken[WORKERS] = {0}, total[WORKERS] = {0};
    static int row[WORKERS][RECORDS];
    int size = deep(e) ? NUXALDER_DEEP_ROW_SIZE : NUXALDER_ROW_SIZE;

    for (int i = 0; i < count; i++) row[rows[size * i]][total[rows[size * i]]++] = i;
    for (int i = 0; i < e->done + WORKERS; i++) { /* past the last record each thread once more */
        int t = i < e->done ? thread_of(e, i) : i - e->done;
        if (i < e->done && !action_of(e, i)) {
            last[t] = i;
            continue;
        }
        if (started[t] > taken[t] && taken[t] < total[t]) {
            const uint8_t *found = rows + size * row[t][taken[t]++];
            e->record[last[t]].finish = 1 + found[3];
            e->record[last[t]].depth = deep(e) ? NUXALDER_ROW_DEPTH(found) : 0;
            e->record[last[t]].set = deep(e) ? nuxalder_row_set(found) : 0;
        }
        started[t]++;
    }
}

void expect(struct expectation *e, const uint8_t *file, size_t length)
{
    static uint8_t rows[NUXALDER_ROWS_BUFFER];
    uint64_t report[NUXALDER_RUN_FIELDS];

    nuxalder_run(file, length, rows, sizeof rows, report);
    e->file = file, e->length = length;
    e->refusal = (int)report[NUXALDER_RUN_REFUSAL];
    e->count = e->done = 0;
    e->width = NUXALDER_RECORD_SIZE;
    if (e->refusal && e->refusal <= NUXALDER_REFUSED_TEXT_BUFFER) return; /* refused whole */
    if (file[0] != NUXALDER_FILE_VERSION) e->width = NUXALDER_DEEP_RECORD_SIZE;
    e->count = file[1] << 8 | file[2];
    e->done = (int)report[NUXALDER_RUN_RECORDS];
    memset(e->record, 0, (size_t)e->done * sizeof *e->record);
    lay(e, rows, (int)report[NUXALDER_RUN_ROWS]);
}

int expect_refusal(const uint8_t *file, size_t length, int *done)
{
    static uint8_t rows[NUXALDER_ROWS_BUFFER];
    uint64_t report[NUXALDER_RUN_FIELDS];

    nuxalder_run(file, length, rows, sizeof rows, report);
    *done = (int)report[NUXALDER_RUN_RECORDS];
    return (int)report[NUXALDER_RUN_REFUSAL];
}

const uint8_t *expect_state(const struct expectation *e, int k)
{
    static uint8_t state[NUXALDER_STATE_BUFFER];
    uint64_t report[NUXALDER_STATE_FIELDS];

    nuxalder_state(e->file, e->length, (uint64_t)k, state, sizeof state, report);
    return state;
}

int expect_place(const struct expectation *e, int i)
{
    return action_of(e, i) ? 0 : nuxalder_state_thread(expect_state(e, i), thread_of(e, i))[NUXALDER_THREAD_PLACE];
}

/* Whether a thread's next turn touches nothing shared: it asks whether a base waits for something, and that is a normal one. */
static bool local(const uint8_t *state, const uint8_t *thread)
{
    const uint8_t *frame = thread[NUXALDER_THREAD_FRAMES] ? thread + NUXALDER_THREAD_FRAME : NULL;
    int base;
    switch (thread[NUXALDER_THREAD_PLACE]) {
    case 3: base = nuxalder_state_link(thread + NUXALDER_THREAD_BASE); break;
    case 15: base = nuxalder_state_link(thread + NUXALDER_THREAD_BASE); break;
    case 24: base = nuxalder_state_link(thread + NUXALDER_THREAD_FOUND); break;
    case 62:
    case 76: base = frame ? nuxalder_state_link(frame + NUXALDER_FRAME_BASE) : -1; break;
    default: return false;
    }
    return base >= 0 && nuxalder_state_node(state, base)[NUXALDER_NODE_KIND] == NUXALDER_NORMAL;
}

void expect_places(struct expectation *e)
{
    for (int i = 0; i < e->done; i++) {
        if (action_of(e, i)) continue;
        const uint8_t *state = expect_state(e, i), *thread = nuxalder_state_thread(state, thread_of(e, i));
        e->record[i].place = thread[NUXALDER_THREAD_PLACE];
        e->record[i].local = local(state, thread);
    }
}

int expect_judge(const uint8_t *history, int count)
{
    uint8_t order[NUXALDER_JUDGE_ORDER];
    uint64_t report[NUXALDER_JUDGE_FIELDS];

    nuxalder_judge(history, HEADER + 4 * (size_t)count, order, report);
    return report[NUXALDER_JUDGE_REFUSAL] ? -1 : (int)report[NUXALDER_JUDGE_ACCEPTED];
}

static const char *const words[] = {
    [1] = "read the root",
    [2] = "read the child",
    [3] = "check the base",
    [4] = "count the search",
    [5] = "take the search off the count",
    [10] = "swap the root or look left",
    [11] = "swap left",
    [12] = "look right",
    [13] = "swap right",
    [15] = "see what blocks",
    [16] = "kill the join",
    [19] = "are joins stopped",
    [20] = "look left for the base",
    [21] = "look right for the base",
    [22] = "read the other child",
    [23] = "go down to the neighbour",
    [24] = "check the neighbour",
    [25] = "put the main",
    [26] = "put the neighbour: swap the root or look left",
    [27] = "put the neighbour: swap left",
    [28] = "put the neighbour: look right",
    [29] = "put the neighbour: swap right",
    [30] = "mark the parent",
    [31] = "read the root for the grandparent",
    [32] = "go down to the grandparent",
    [33] = "mark the grandparent",
    [34] = "read what will stay",
    [35] = "decide the join",
    [36] = "clear the grandparent's mark",
    [37] = "clear the parent's mark",
    [38] = "stand down",
    [40] = "read the stage",
    [41] = "put the union node: swap the root or look left",
    [42] = "put the union node: swap left",
    [43] = "put the union node: look right",
    [44] = "put the union node: swap right",
    [45] = "the parent is not valid",
    [46] = "cut the parent out: swap the root or look left",
    [47] = "cut the parent out: swap left",
    [48] = "cut the parent out: look right",
    [49] = "cut the parent out: swap right",
    [50] = "free the grandparent's mark",
    [51] = "the join is done",
    [60] = "read the root for the first base",
    [61] = "go down to the first base",
    [62] = "check the first base",
    [64] = "put the first range base: swap the root or look left",
    [65] = "put the first range base: swap left",
    [66] = "put the first range base: look right",
    [67] = "put the first range base: swap right",
    [70] = "was the base the left child",
    [71] = "read the right child",
    [72] = "turn here or go up",
    [73] = "go down to the next base",
    [74] = "is the result set",
    [76] = "check the next base",
    [77] = "put the next range base: swap the root or look left",
    [78] = "put the next range base: swap left",
    [79] = "put the next range base: look right",
    [80] = "put the next range base: swap right",
    [81] = "set the result",
    [82] = "read the result",
};

const char *place_words(int place)
{
    return place > 0 && place < (int)(sizeof words / sizeof *words) && words[place] ? words[place] : "no place of the bench";
}
