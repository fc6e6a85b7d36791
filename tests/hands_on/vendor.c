/* A build under test, made of the proved library under other names and one fault, chosen by FAULT. */
#include <stdio.h>
#include <stdlib.h>
#include <string.h>
#include <unistd.h>

#include "nuxalder.h"

enum { GOOD, WRONG, CRASH, HANG, QUIT, CHATTY, SCRIBBLE, LIAR, LATE, DEEP, FULL, WILD, ROUND };

void own_run(const uint8_t *, size_t, uint8_t *, size_t, uint64_t *);
void own_run_one_writer(const uint8_t *, size_t, uint8_t *, size_t, uint64_t *);
void own_tally(const uint8_t *, size_t, uint8_t *, size_t, struct nuxalder_tally *, uint64_t *);
void own_list(const uint8_t *, size_t, uint8_t *, size_t, uint64_t *);
void own_state(const uint8_t *, size_t, uint64_t, uint8_t *, size_t, uint64_t *);
void own_merge(const uint8_t *, size_t, const uint8_t *, size_t, uint8_t *, size_t, uint64_t *);

void nuxalder_run(const uint8_t *schedule, size_t length, uint8_t *rows, size_t room, uint64_t *report)
{
    own_run(schedule, length, rows, room, report);
    /* The printed run of 01 has 27 bytes, a join after it more. */
    if (FAULT == WRONG && report[NUXALDER_RUN_ROWS] > 2) rows[11] ^= 1;
    /* The depth that a lookup finds, in version 2. */
    if (FAULT == DEEP && length > 3 && schedule[0] == NUXALDER_DEEP_FILE_VERSION)
        for (uint64_t i = 0; i < report[NUXALDER_RUN_ROWS]; i++)
            if (rows[NUXALDER_DEEP_ROW_SIZE * i + 1] == NUXALDER_LOOKUP) rows[NUXALDER_DEEP_ROW_SIZE * i + 5] ^= 1;
    if (FAULT == CRASH && length > 40) abort();
    if (FAULT == HANG && length > 40) for (;;) pause();
    if (FAULT == QUIT && length > 40) exit(0);
    if (FAULT == CHATTY) printf("whole 0 0 0 0\nend\n");
    if (FAULT == SCRIBBLE) rows[room - 1] = 1;
    if (FAULT == LIAR) report[NUXALDER_RUN_ROWS] = UINT64_MAX / 4;
    if (FAULT == LATE && report[NUXALDER_RUN_REFUSAL] == NUXALDER_REFUSED_BUSY) report[NUXALDER_RUN_REFUSAL] = 12;
}

#ifndef NO_LIST
void nuxalder_run_one_writer(const uint8_t *schedule, size_t length, uint8_t *rows, size_t room, uint64_t *report)
{
    own_run_one_writer(schedule, length, rows, room, report);
    if (FAULT == WRONG && report[NUXALDER_RUN_REFUSAL] == NUXALDER_REFUSED_WRITER) report[NUXALDER_RUN_REFUSAL] = 12;
    if (FAULT == CRASH) abort();
    if (FAULT == SCRIBBLE) rows[room - 1] = 1;
}

void nuxalder_tally(const uint8_t *schedule, size_t length, uint8_t *rows, size_t room, struct nuxalder_tally *tally, uint64_t *report)
{
    struct nuxalder_tally before = *tally;

    own_tally(schedule, length, rows, room, tally, report);
    if (FAULT == WRONG) tally->no[NUXALDER_INSERT]++;
    if (FAULT == CRASH && length > 40) abort();
    if (FAULT == QUIT && length > 40) exit(0);
    if (FAULT == CHATTY) printf("file 0 0 0\n");
    if (FAULT == SCRIBBLE) rows[room - 1] = 1;
    /* As if a field had been near 32 bits. */
    if (FAULT == FULL && length > 40) {
        *tally = before;
        report[NUXALDER_TALLY_REFUSAL] = NUXALDER_REFUSED_TALLY;
    }
}

void nuxalder_list(const uint8_t *schedule, size_t length, uint8_t *text, size_t room, uint64_t *report)
{
    own_list(schedule, length, text, room, report);
    if (FAULT == LATE && report[NUXALDER_LIST_REFUSAL] == NUXALDER_REFUSED_BUSY) report[NUXALDER_LIST_REFUSAL] = 12;
}

void nuxalder_state(const uint8_t *schedule, size_t length, uint64_t records, uint8_t *state, size_t room, uint64_t *report)
{
    own_state(schedule, length, records, state, room, report);
    if (report[NUXALDER_STATE_RECORDS] < 12) return;
    /* The route of 01's printed run: a child that is no node; a child that is itself; a kind that is none; too long. */
    if (FAULT == WILD) state[3280 + 3 * NUXALDER_NODE_SIZE + NUXALDER_NODE_LEFT] = 250;
    if (FAULT == ROUND) state[3280 + 3 * NUXALDER_NODE_SIZE + NUXALDER_NODE_LEFT] = 3;
    if (FAULT == WRONG) state[3280 + 3 * NUXALDER_NODE_SIZE] = 9;
    if (FAULT == LIAR) report[NUXALDER_STATE_LENGTH]++;
    if (FAULT == SCRIBBLE) state[room - 1] = 1;
    if (FAULT == LATE) report[NUXALDER_STATE_RECORDS]--;
    if (FAULT == CRASH) abort();
}

void nuxalder_merge(const uint8_t *first, size_t first_length, const uint8_t *second, size_t second_length, uint8_t *out,
                    size_t room, uint64_t *report)
{
    own_merge(first, first_length, second, second_length, out, room, report);
    if (FAULT == WRONG && first_length > 3 && second_length > 3) out[4] ^= 1;
    if (FAULT == CRASH) abort();
}
#endif
