/* How fast the driver hands over: turns a second in process, against a bare hand-over between the same threads by the same means.
 * Side by side, in one process, the median of several runs. The turns of the two are the same: the bare one hands over in the order of
 * the schedules' steps, and calls nothing. bench/drive builds and runs it. */
#define _GNU_SOURCE
#include <pthread.h>
#include <stdio.h>
#include <stdlib.h>
#include <string.h>
#include <sys/resource.h>
#include <time.h>

#include "../drive/baton.h"
#include "nuxalder.h"
#include "nuxalder_drive.h"

enum { TIMES = 9, FILES_MOST = 400, STEPS_MOST = 1 << 20 };

static double now(void)
{
    struct timespec t;
    clock_gettime(CLOCK_MONOTONIC, &t);
    return (double)t.tv_sec + 1e-9 * (double)t.tv_nsec;
}

static long switches(void)
{
    struct rusage used;
    getrusage(RUSAGE_SELF, &used);
    return used.ru_nvcsw;
}

/* ---- bare: each step is its thread's; who has it hands on to the next step's thread */

static uint8_t whose[STEPS_MOST];
static int steps, at;

static int next(void) { return at < steps ? whose[at++] : CALLER; }

static void bare_hand_on(int from)
{
    int to = next();
    if (to == from) return;
    baton_wake(to);
    baton_wait(from);
}

static int quit;

static void *bare_work(void *given)
{
    int id = (int)(intptr_t)given;
    baton_wait(id);
    while (!quit) bare_hand_on(id);
    return NULL;
}

static double bare(void)
{
    pthread_t thread[NUXALDER_THREADS];
    double from = now();
    baton_init();
    at = quit = 0;
    for (int i = 0; i < NUXALDER_THREADS; i++)
        if (pthread_create(&thread[i], NULL, bare_work, (void *)(intptr_t)i)) exit(2);
    bare_hand_on(CALLER);
    quit = 1;
    for (int i = 0; i < NUXALDER_THREADS; i++) baton_wake(i);
    for (int i = 0; i < NUXALDER_THREADS; i++) pthread_join(thread[i], NULL);
    return now() - from;
}

/* ---- the driver, on schedules; on one file the bare one has its own run of threads too */

static struct {
    uint8_t data[NUXALDER_FILE_MOST];
    size_t length;
} file[FILES_MOST];

static void take_steps(int i)
{
    int width = file[i].data[0] == NUXALDER_FILE_VERSION ? NUXALDER_RECORD_SIZE : NUXALDER_DEEP_RECORD_SIZE;
    int count = file[i].data[1] << 8 | file[i].data[2];
    steps = 0;
    for (int k = 0; k < count; k++) {
        uint8_t first = file[i].data[NUXALDER_HEADER_SIZE + width * k];
        if (!(first & 15)) whose[steps++] = first >> 4;
    }
}

static int by_value(const void *a, const void *b) { return (*(const double *)a > *(const double *)b) - (*(const double *)a < *(const double *)b); }

int main(int argc, char **argv)
{
    double driven[TIMES], handed[TIMES];
    nuxalder_drive_options options = {.in_process = 1};
    nuxalder_drive_verdict verdict;
    long turns = 0, switched = 0;
    int files = 0;

    for (int i = 1; i < argc && files < FILES_MOST; i++, files++) {
        FILE *from = fopen(argv[i], "rb");
        if (!from) return perror(argv[i]), 2;
        file[files].length = fread(file[files].data, 1, sizeof file[files].data, from);
        fclose(from);
    }
    for (int n = 0; n < TIMES; n++) {
        double from = now();
        turns = 0, switched = -switches();
        for (int i = 0; i < files; i++) {
            if (!nuxalder_drive(&nuxalder_drive_adaptor, file[i].data, file[i].length, &options, &verdict)) return printf("%s\n", verdict.words), 1;
            turns += verdict.turns;
        }
        driven[n] = now() - from, switched += switches();
        handed[n] = 0;
        for (int i = 0; i < files; i++) take_steps(i), handed[n] += bare();
    }
    qsort(driven, TIMES, sizeof *driven, by_value);
    qsort(handed, TIMES, sizeof *handed, by_value);
    printf("%d schedules, %ld turns, %ld switches: driver %.0f turns/s, bare hand-over %.0f turns/s, ratio %.2f\n", files, turns, switched,
           (double)turns / driven[TIMES / 2], (double)turns / handed[TIMES / 2], driven[TIMES / 2] / handed[TIMES / 2]);
    return 0;
}
