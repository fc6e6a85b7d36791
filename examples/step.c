/* Steps a schedule from C: its rows, the refusal in words, and the tree where the run ended. */
#include <nuxalder.h>
#include <stdio.h>

int main(void)
{
    const uint8_t step = NUXALDER_FIRST_BYTE(0, NUXALDER_STEP), idle = NUXALDER_FIRST_BYTE(1, NUXALDER_STEP);
    const uint8_t schedule[] = {
        NUXALDER_FILE_VERSION, 0, 5,               /* five records follow */
        NUXALDER_FIRST_BYTE(0, NUXALDER_INSERT), 9, /* t0 insert 9 */
        step, 0, step, 0, step, 0,                 /* t0 step 3 */
        idle, 0,                                   /* t1 step: it has nothing to do */
    };
    uint8_t rows[NUXALDER_ROWS_BUFFER], text[NUXALDER_LIST_BUFFER];
    uint64_t run[NUXALDER_RUN_FIELDS], list[NUXALDER_LIST_FIELDS], i;

    nuxalder_run(schedule, sizeof schedule, rows, sizeof rows, run);
    for (i = 0; i < run[NUXALDER_RUN_ROWS]; i++) {
        const uint8_t *row = rows + NUXALDER_ROW_SIZE * i;
        printf("thread %d, action %d, station %d: %s\n", row[0], row[1], row[2], nuxalder_answer_words(row[3]));
    }
    if (run[NUXALDER_RUN_REFUSAL] != NUXALDER_REFUSED_NOT)
        printf("record %d refused, %d: %s\n", (int)run[NUXALDER_RUN_RECORDS] + 1, (int)run[NUXALDER_RUN_REFUSAL],
               nuxalder_refusal_words(run[NUXALDER_RUN_REFUSAL]));

    nuxalder_list(schedule, sizeof schedule, text, sizeof text, list);
    return fwrite(text, 1, (size_t)list[NUXALDER_LIST_LENGTH], stdout) == list[NUXALDER_LIST_LENGTH] ? 0 : 1;
}
