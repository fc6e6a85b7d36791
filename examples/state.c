/* What stands after each record of a schedule: `state FILE` reads a schedule file and prints, turn by turn, the places of the busy
 * threads and the stages of the mains that are not done.
 *
 *     cc -I include examples/state.c target/staticlib/libnuxalder.a -o target/state
 *     tools/schedule encode examples/killed-join.txt -o target/killed-join.schedule
 *     target/state target/killed-join.schedule
 */
#include <inttypes.h>
#include <stdio.h>

#include "nuxalder.h"

static uint8_t schedule[NUXALDER_FILE_MOST + 1], state[NUXALDER_STATE_BUFFER];

static void print_state(uint64_t turn)
{
    static const char *const stages[] = {"", "preparing", "decided", "aborted", "done"};
    unsigned used = nuxalder_state_two(state + NUXALDER_HEAD_USED), number;
    int t, busy = 0;

    printf("turn %" PRIu64 ":", turn);
    for (t = 0; t < NUXALDER_THREADS; t++) {
        const uint8_t *thread = nuxalder_state_thread(state, t);
        if (thread[NUXALDER_THREAD_PLACE] != 0)
            printf("%s t%d at %u", busy++ ? "," : "", t, thread[NUXALDER_THREAD_PLACE]);
    }
    if (!busy)
        printf(" all idle");
    for (number = 0; number < used; number++) {
        const uint8_t *node = nuxalder_state_node(state, (int)number);
        if (node[NUXALDER_NODE_KIND] == NUXALDER_MAIN && node[NUXALDER_NODE_STAGE] != NUXALDER_DONE)
            printf("; main %u %s%s", number, stages[node[NUXALDER_NODE_STAGE]], node[NUXALDER_NODE_REACHABLE] ? "" : " (cut off)");
    }
    putchar('\n');
}

int main(int argc, char **argv)
{
    uint64_t report[NUXALDER_STATE_FIELDS], turn;
    FILE *file = argc == 2 ? fopen(argv[1], "rb") : NULL;
    size_t length;

    if (file == NULL) {
        fprintf(stderr, "usage: state FILE\n");
        return 2;
    }
    length = fread(schedule, 1, sizeof schedule, file);
    fclose(file);
    for (turn = 0;; turn++) {
        nuxalder_state(schedule, length, turn, state, sizeof state, report);
        if (report[NUXALDER_STATE_REFUSAL] != 0 || report[NUXALDER_STATE_RECORDS] < turn)
            break;
        print_state(turn);
    }
    if (report[NUXALDER_STATE_REFUSAL] != 0)
        printf("refused, %" PRIu64 ": %s\n", report[NUXALDER_STATE_REFUSAL], nuxalder_refusal_words(report[NUXALDER_STATE_REFUSAL]));
    return report[NUXALDER_STATE_REFUSAL] != 0;
}
