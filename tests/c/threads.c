/* threads FILE..: the functions called from several threads at once, each on a stack of its own that is painted
 * before. Every answer must be the one of a call alone. Prints the most stack that a call of each function used. */
#define _GNU_SOURCE
#include "nuxalder.h"

#include <pthread.h>
#include <stdio.h>
#include <stdlib.h>
#include <string.h>

enum { THREADS = 8, FILES_MOST = 256, STACK = 1 << 18, PAINT = 0xC7, NEAR = 512, FUNCTIONS = 8 };
enum { EVENT = 4, EVENTS = 2 * NUXALDER_JUDGE_ORDER };
enum { DEEP = 2 }; /* files made here: a deep tree in version 1, and in version 2, which is lent depths */

struct answer {
    uint64_t run[NUXALDER_RUN_FIELDS], one_writer[NUXALDER_RUN_FIELDS], list[NUXALDER_LIST_FIELDS], merge[NUXALDER_MERGE_FIELDS];
    uint64_t history[NUXALDER_HISTORY_FIELDS], judge[NUXALDER_JUDGE_FIELDS];
    uint64_t tallied[NUXALDER_TALLY_FIELDS], average[NUXALDER_AVERAGE_FIELDS];
    uint64_t stated[2][NUXALDER_STATE_FIELDS];
    struct nuxalder_tally tally;
    uint8_t rows[NUXALDER_ROWS_BUFFER], written[NUXALDER_ROWS_BUFFER], again[NUXALDER_ROWS_BUFFER];
    uint8_t text[NUXALDER_LIST_BUFFER], out[NUXALDER_FILE_MOST];
    uint8_t events[NUXALDER_HISTORY_BUFFER], order[NUXALDER_JUDGE_ORDER], states[2][NUXALDER_STATE_BUFFER];
};

struct part {
    uint8_t bytes[NUXALDER_FILE_MOST + 1];
    size_t length;
};

struct file {
    uint8_t bytes[NUXALDER_FILE_MOST + 1];
    size_t length;
    struct part parts[2]; /* two files to merge, made of it */
    uint8_t judged[NUXALDER_HEADER_SIZE + EVENT * EVENTS]; /* a history, made of it */
    struct answer alone;
};

struct thread {
    uint8_t *stack;
    struct answer now;
    size_t most[FUNCTIONS];
    unsigned long wrong;
};

static struct file files[FILES_MOST];
static size_t count;

static void call_run(const struct file *file, struct answer *answer)
{
    nuxalder_run(file->bytes, file->length, answer->rows, sizeof answer->rows, answer->run);
}

static void call_one_writer(const struct file *file, struct answer *answer)
{
    nuxalder_run_one_writer(file->bytes, file->length, answer->written, sizeof answer->written, answer->one_writer);
}

static void call_list(const struct file *file, struct answer *answer)
{
    nuxalder_list(file->bytes, file->length, answer->text, sizeof answer->text, answer->list);
}

static void call_merge(const struct file *file, struct answer *answer)
{
    const struct part *first = &file->parts[0], *second = &file->parts[1];

    nuxalder_merge(first->bytes, first->length, second->bytes, second->length, answer->out, sizeof answer->out, answer->merge);
}

static void call_history(const struct file *file, struct answer *answer)
{
    nuxalder_history(file->bytes, file->length, answer->events, sizeof answer->events, answer->history);
}

static void call_judge(const struct file *file, struct answer *answer)
{
    nuxalder_judge(file->judged, sizeof file->judged, answer->order, answer->judge);
}

/* The tally is begun empty by whoever clears the answer; the file is added twice. */
static void call_tally(const struct file *file, struct answer *answer)
{
    int twice;

    for (twice = 0; twice < 2; twice++)
        nuxalder_tally(file->bytes, file->length, answer->again, sizeof answer->again, &answer->tally, answer->tallied);
    nuxalder_average(&answer->tally, NUXALDER_INSERT, answer->average);
}

/* After half of the records, and after all. */
static void call_state(const struct file *file, struct answer *answer)
{
    uint64_t half = (((uint64_t)file->bytes[1] << 8) + file->bytes[2]) / 2;

    nuxalder_state(file->bytes, file->length, half, answer->states[0], sizeof answer->states[0], answer->stated[0]);
    nuxalder_state(file->bytes, file->length, UINT64_MAX, answer->states[1], sizeof answer->states[1], answer->stated[1]);
}

static void (*const calls[FUNCTIONS])(const struct file *, struct answer *) = {
    call_run, call_list, call_merge, call_history, call_judge, call_one_writer, call_tally, call_state};

/* Paints the stack below this frame, calls, and gives how far down the paint is gone. */
__attribute__((noinline)) static size_t measured(struct thread *thread, const struct file *file,
                                                 void (*call)(const struct file *, struct answer *))
{
    uint8_t *here = __builtin_frame_address(0), *low = thread->stack;
    size_t painted = (size_t)(here - low) - NEAR;

    memset(low, PAINT, painted);
    call(file, &thread->now);
    while (low < here && *low == PAINT) low++;
    return (size_t)(here - low);
}

static void *work(void *given)
{
    struct thread *thread = given;
    size_t i, k, used;

    for (i = 0; i < count; i++) {
        memset(&thread->now, 0, sizeof thread->now);
        for (k = 0; k < FUNCTIONS; k++) {
            used = measured(thread, &files[i], calls[k]);
            if (used > thread->most[k]) thread->most[k] = used;
        }
        if (memcmp(&thread->now, &files[i].alone, sizeof thread->now) != 0) thread->wrong++;
    }
    return NULL;
}

static size_t record_size(const struct file *file)
{
    return file->bytes[0] == NUXALDER_FILE_VERSION ? NUXALDER_RECORD_SIZE : NUXALDER_DEEP_RECORD_SIZE;
}

static void append(struct file *file, int action, int station)
{
    size_t records = (file->length - NUXALDER_HEADER_SIZE) / record_size(file) + 1;

    if (records > NUXALDER_RECORDS_MOST) return;
    file->bytes[1] = (uint8_t)(records >> 8);
    file->bytes[2] = (uint8_t)records;
    memset(file->bytes + file->length, 0, record_size(file));
    file->bytes[file->length] = NUXALDER_FIRST_BYTE(0, action);
    file->bytes[file->length + 1] = (uint8_t)station;
    file->length += record_size(file);
}

/* An operation of thread 0 with the steps that it takes. */
static void operation(struct file *file, int action, int station)
{
    uint64_t rows;

    call_run(file, &file->alone);
    rows = file->alone.run[NUXALDER_RUN_ROWS];
    append(file, action, station);
    do {
        append(file, NUXALDER_STEP, 0);
        call_run(file, &file->alone);
    } while (file->alone.run[NUXALDER_RUN_ROWS] == rows &&
             file->length < NUXALDER_HEADER_SIZE + record_size(file) * NUXALDER_RECORDS_MOST);
}

/* The tree as deep as a schedule's records allow: stations from above, each split off the lowest leaf. */
static void make_deep(struct file *file, int version)
{
    int station;

    file->bytes[0] = (uint8_t)version;
    file->bytes[1] = file->bytes[2] = 0;
    file->length = NUXALDER_HEADER_SIZE;
    operation(file, NUXALDER_INSERT, NUXALDER_STATIONS - 1);
    for (station = NUXALDER_STATIONS - 2; station >= 0; station--) {
        operation(file, NUXALDER_INSERT, station);
        operation(file, NUXALDER_SPLIT, station);
    }
    memset(&file->alone, 0, sizeof file->alone);
}

/* The file's first records for threads 0 and 1, and half as many for 2 and 3; a file that is no schedule is both parts. */
static void make_parts(struct file *file)
{
    int which;

    for (which = 0; which < 2; which++) {
        struct part *part = &file->parts[which];
        size_t records = ((size_t)file->bytes[1] << 8) + file->bytes[2], at;

        memcpy(part->bytes, file->bytes, sizeof part->bytes);
        part->length = file->length;
        if (file->length != NUXALDER_HEADER_SIZE + NUXALDER_RECORD_SIZE * records) continue;
        if (records > NUXALDER_RECORDS_MOST / 2) records = NUXALDER_RECORDS_MOST / 2;
        records >>= which;
        part->bytes[1] = (uint8_t)(records >> 8);
        part->bytes[2] = (uint8_t)records;
        part->length = NUXALDER_HEADER_SIZE + NUXALDER_RECORD_SIZE * records;
        for (at = NUXALDER_HEADER_SIZE; at < part->length; at += NUXALDER_RECORD_SIZE)
            part->bytes[at] = (uint8_t)((part->bytes[at] & 0x1F) + 0x20 * which);
    }
}

/* Twelve operations on four threads, of which up to four are open at once, with the answers of a plain set in the order of
 * their starts; in every other file the last answer is the opposite. */
static void make_history(struct file *file, int changed)
{
    uint8_t operations[NUXALDER_JUDGE_ORDER][EVENT];
    int present[4] = {0, 0, 0, 0}, k, started = 0;
    uint8_t *event = file->judged;

    *event++ = NUXALDER_FILE_VERSION;
    *event++ = 0;
    *event++ = EVENTS;
    for (k = 0; k < NUXALDER_JUDGE_ORDER; k++) {
        uint8_t byte = file->bytes[7 * k];
        int action = 1 + (byte / 4 + k) % 3, station = (byte + k / 5) % 4, was = present[station];

        present[station] = action == NUXALDER_INSERT || (was && action == NUXALDER_LOOKUP);
        operations[k][0] = (uint8_t)(k % NUXALDER_THREADS);
        operations[k][1] = (uint8_t)action;
        operations[k][2] = (uint8_t)station;
        operations[k][3] = (uint8_t)(1 + (action == NUXALDER_INSERT ? !was : was));
    }
    if (changed) operations[NUXALDER_JUDGE_ORDER - 1][3] ^= 3;
    for (k = 0; k < NUXALDER_JUDGE_ORDER; k++) {
        for (; started < NUXALDER_JUDGE_ORDER && started < k + NUXALDER_THREADS; started++, event += EVENT) {
            memcpy(event, operations[started], EVENT);
            event[3] = 0;
        }
        memcpy(event, operations[k], EVENT);
        event += EVENT;
    }
}

/* The most routes on the way to a base, of a listing. */
static int depth_of(const uint8_t *line)
{
    int deepest = 0;

    for (; *line != 's'; line = (const uint8_t *)strchr((const char *)line, '\n') + 1)
        if (atoi((const char *)line) > deepest) deepest = atoi((const char *)line);
    return deepest;
}

int main(int argc, char **argv)
{
    static struct thread threads[THREADS];
    pthread_t ids[THREADS];
    size_t i, k, merged = 0, written = 0, accepted = 0, barred = 0, averaged = 0, halfway = 0, most[FUNCTIONS] = {0};
    unsigned long wrong = 0;
    int deepest = NUXALDER_STATIONS;

    for (; count < DEEP; count++) make_deep(&files[count], (int)count + NUXALDER_FILE_VERSION);
    for (i = 1; i < (size_t)argc && count < FILES_MOST; i++, count++) {
        FILE *stream = fopen(argv[i], "rb");
        if (stream == NULL) return 2;
        files[count].length = fread(files[count].bytes, 1, sizeof files[count].bytes, stream);
        fclose(stream);
    }
    for (i = 0; i < count; i++) {
        make_parts(&files[i]);
        make_history(&files[i], i % 2 == 1);
        for (k = 0; k < FUNCTIONS; k++) calls[k](&files[i], &files[i].alone);
        merged += files[i].alone.merge[NUXALDER_MERGE_REFUSAL] == NUXALDER_REFUSED_NOT;
        written += files[i].alone.history[NUXALDER_HISTORY_LENGTH] > NUXALDER_HEADER_SIZE;
        accepted += files[i].alone.judge[NUXALDER_JUDGE_ACCEPTED] == 1;
        barred += files[i].alone.one_writer[NUXALDER_RUN_REFUSAL] == NUXALDER_REFUSED_WRITER;
        averaged += files[i].alone.average[NUXALDER_AVERAGE_STEPS] > 0;
        halfway += files[i].alone.stated[0][NUXALDER_STATE_RECORDS] < files[i].alone.stated[1][NUXALDER_STATE_RECORDS];
    }
    for (i = 0; i < DEEP; i++)
        if (depth_of(files[i].alone.text) < deepest) deepest = depth_of(files[i].alone.text);
    for (i = 0; i < THREADS; i++) {
        pthread_attr_t attributes;
        threads[i].stack = aligned_alloc(4096, STACK);
        if (threads[i].stack == NULL || pthread_attr_init(&attributes) != 0 ||
            pthread_attr_setstack(&attributes, threads[i].stack, STACK) != 0 ||
            pthread_create(&ids[i], &attributes, work, &threads[i]) != 0)
            return 2;
    }
    for (i = 0; i < THREADS; i++) {
        pthread_join(ids[i], NULL);
        wrong += threads[i].wrong;
        for (k = 0; k < FUNCTIONS; k++)
            if (threads[i].most[k] > most[k]) most[k] = threads[i].most[k];
    }
    printf("files %zu merged %zu written %zu accepted %zu barred %zu averaged %zu halfway %zu deepest %d wrong %lu run %zu list %zu "
           "merge %zu history %zu judge %zu one-writer %zu tally %zu state %zu\n",
           count, merged, written, accepted, barred, averaged, halfway, deepest, wrong, most[0], most[1], most[2], most[3], most[4],
           most[5], most[6], most[7]);
    return 0;
}
