/* A libFuzzer target: each input as a schedule file and as a history, as it is and with its header put right, and
 * its two halves as two files to merge, as they are and with headers and threads put right, through the library
 * and the reference; the header is put right for each version. Any difference in a field or a byte, and any byte touched outside the memory
 * lent, ends the program. The reference is built with coverage counters, so that inputs grow towards places
 * not seen yet. */
#define _DEFAULT_SOURCE
#include "guard.h"
#include "nuxalder.h"

enum { MOST_RECORDS = 4096, MEMORY = 5 * GUARD_PAGE, BUFFER_MEMORY = 13 * GUARD_PAGE };

typedef void operation(const uint8_t *, size_t, uint8_t *, size_t, uint64_t *);

/* The reference behind the same interface, under names of its own. */
extern operation reference_run, reference_run_one_writer, reference_list, reference_history;
extern void reference_judge(const uint8_t *, size_t, uint8_t *, uint64_t *);
extern void reference_tally(const uint8_t *, size_t, uint8_t *, size_t, struct nuxalder_tally *, uint64_t *);
extern void reference_average(const struct nuxalder_tally *, uint8_t, uint64_t *);
extern void reference_state(const uint8_t *, size_t, uint64_t, uint8_t *, size_t, uint64_t *);
extern void reference_merge(const uint8_t *, size_t, const uint8_t *, size_t, uint8_t *, size_t, uint64_t *);

static struct guard file_memory, second_memory, our_memory, their_memory, tally_memory;

/* The bytes looked at of a buffer's memory: the buffer and some beside it. */
enum { BESIDE = 512 };

static struct guard seen(struct guard g, size_t room, int at_start)
{
    size_t size = room + BESIDE < g.size ? (room + BESIDE + 255) / 256 * 256 : g.size;
    if (size > g.size)
        size = g.size;
    struct guard part = {at_start ? g.bytes : g.bytes + (g.size - size), size};
    return part;
}

static void fill_both(size_t room, int at_start)
{
    guard_fill(seen(our_memory, room, at_start));
    guard_fill(seen(their_memory, room, at_start));
}

static int both_same(size_t room, int at_start)
{
    struct guard ours = seen(our_memory, room, at_start), theirs = seen(their_memory, room, at_start);
    return memcmp(ours.bytes, theirs.bytes, ours.size) == 0;
}

static void compare(const char *name, operation *ours, operation *theirs, size_t fields, const uint8_t *file,
                    size_t length, size_t room, int at_start)
{
    uint64_t our[NUXALDER_RUN_FIELDS] = {0}, their[NUXALDER_RUN_FIELDS] = {0};
    uint8_t *lent = guard_lend(file_memory, length, at_start);
    memcpy(lent, file, length);
    fill_both(room, at_start);
    ours(lent, length, guard_lend(our_memory, room, at_start), room, our);
    theirs(lent, length, guard_lend(their_memory, room, at_start), room, their);
    if (memcmp(our, their, fields * sizeof our[0]) != 0 || memcmp(lent, file, length) != 0 ||
        !both_same(room, at_start)) {
        fprintf(stderr, "%s differs from the reference with a buffer of %zu bytes\n", name, room);
        abort();
    }
}

/* The file as a history. */
static void compare_judge(const uint8_t *file, size_t length)
{
    uint8_t our[NUXALDER_JUDGE_ORDER], their[NUXALDER_JUDGE_ORDER];
    uint64_t our_report[NUXALDER_JUDGE_FIELDS], their_report[NUXALDER_JUDGE_FIELDS];
    uint8_t *lent = guard_lend(file_memory, length, 0);
    memcpy(lent, file, length);
    nuxalder_judge(lent, length, our, our_report);
    reference_judge(lent, length, their, their_report);
    if (memcmp(our, their, sizeof our) != 0 || memcmp(our_report, their_report, sizeof our_report) != 0 ||
        memcmp(lent, file, length) != 0) {
        fprintf(stderr, "Judge differs from the reference\n");
        abort();
    }
}

/* Tally on the file: the tally that was lent to the file before, now and then with a cell that is near 32 bits. */
static void compare_tally(const uint8_t *file, size_t length, size_t room, int at_start)
{
    static struct nuxalder_tally season;
    static unsigned files;
    uint64_t our[NUXALDER_TALLY_FIELDS] = {0}, their[NUXALDER_TALLY_FIELDS] = {0};
    uint64_t our_average[NUXALDER_AVERAGE_FIELDS], their_average[NUXALDER_AVERAGE_FIELDS];
    size_t cells = sizeof season / sizeof(uint32_t);

    if (files++ % 64 == 0)
        memset(&season, 0, sizeof season);
    if (files % 4 == 0)
        ((uint32_t *)&season)[files / 4 % cells] = UINT32_MAX - length % 8;
    uint8_t *lent = guard_lend(file_memory, length, at_start);
    memcpy(lent, file, length);
    fill_both(room, at_start);
    guard_fill(tally_memory);
    struct nuxalder_tally *tally = (struct nuxalder_tally *)(void *)guard_lend(tally_memory, sizeof season, at_start);
    *tally = season;
    nuxalder_tally(lent, length, guard_lend(our_memory, room, at_start), room, tally, our);
    reference_tally(lent, length, guard_lend(their_memory, room, at_start), room, &season, their);
    nuxalder_average(tally, (uint8_t)(files % 9), our_average);
    reference_average(&season, (uint8_t)(files % 9), their_average);
    if (memcmp(our, their, sizeof our) != 0 || memcmp(lent, file, length) != 0 || !both_same(room, at_start) ||
        memcmp(tally, &season, sizeof season) != 0 || memcmp(our_average, their_average, sizeof our_average) != 0 ||
        !guard_kept(tally_memory, (const uint8_t *)tally, sizeof season)) {
        fprintf(stderr, "Tally differs from the reference with a buffer of %zu bytes\n", room);
        abort();
    }
}

/* State after some of the file's records, after all or after more; the buffer is long enough, now and then a byte short or longer.
 * The file's own bytes decide. It is large, so this is done of one file in four. */
static void compare_state(const uint8_t *file, size_t length, size_t count)
{
    uint64_t our[NUXALDER_STATE_FIELDS] = {0}, their[NUXALDER_STATE_FIELDS] = {0}, draw = length;
    for (size_t i = 0; i < length && i < 16; i++)
        draw = (draw ^ file[i] ^ file[length - 1 - i]) * UINT64_C(0x100000001B3);
    draw ^= draw >> 29;
    if (draw % 4 != 0)
        return;
    int at_start = draw / 4 % 2 == 0;
    unsigned way = (unsigned)(draw / 8 % 16);
    size_t room = NUXALDER_STATE_BUFFER + (way == 0 ? 17 : 0) - (way == 1 ? 1 : 0);
    uint64_t records = way == 2 ? count : way == 3 ? count + draw / 128 : draw / 128 % (count + 1);
    uint8_t *lent = guard_lend(file_memory, length, at_start);
    memcpy(lent, file, length);
    fill_both(room, at_start);
    nuxalder_state(lent, length, records, guard_lend(our_memory, room, at_start), room, our);
    reference_state(lent, length, records, guard_lend(their_memory, room, at_start), room, their);
    if (memcmp(our, their, sizeof our) != 0 || memcmp(lent, file, length) != 0 || !both_same(room, at_start)) {
        fprintf(stderr, "State differs from the reference after %llu records\n", (unsigned long long)records);
        abort();
    }
}

/* Judge and State on the file, and both runs, Tally, List and History with buffers just long enough, one byte short and longer. */
static void compare_all(const uint8_t *file, size_t length)
{
    size_t count = length < 3 ? 0 : (size_t)file[1] << 8 | file[2];
    if (count > MOST_RECORDS)
        count = MOST_RECORDS;
    int deep = length > 0 && (file[0] == NUXALDER_DEEP_FILE_VERSION || file[0] == NUXALDER_STOP_FILE_VERSION);
    size_t need = (deep ? 7 : 2) * count, text = deep ? 8192 : 4096, events = 3 + 4 * count;
    const size_t row_rooms[] = {need, need > 0 ? need - 1 : 0, need + 17};
    const size_t text_rooms[] = {text, text - 1, text + 17};
    const size_t event_rooms[] = {events, events - 1, events + 17};
    compare_judge(file, length);
    compare_state(file, length, count);
    for (int i = 0; i < 3; i++) {
        compare("History", nuxalder_history, reference_history, NUXALDER_HISTORY_FIELDS, file, length,
                event_rooms[i], i & 1);
        compare("Run", nuxalder_run, reference_run, NUXALDER_RUN_FIELDS, file, length, row_rooms[i], i & 1);
        compare("The one-writer run", nuxalder_run_one_writer, reference_run_one_writer, NUXALDER_RUN_FIELDS, file, length,
                row_rooms[i], i & 1);
        compare_tally(file, length, row_rooms[i], i & 1);
        compare("List", nuxalder_list, reference_list, NUXALDER_LIST_FIELDS, file, length, text_rooms[i],
                i & 1);
    }
}

static void compare_merge(const uint8_t *first, size_t length, const uint8_t *second, size_t second_length,
                          size_t room, int at_start)
{
    uint64_t our[NUXALDER_MERGE_FIELDS] = {0}, their[NUXALDER_MERGE_FIELDS] = {0};
    uint8_t *one = guard_lend(file_memory, length, at_start);
    uint8_t *other = guard_lend(second_memory, second_length, at_start);
    memcpy(one, first, length);
    memcpy(other, second, second_length);
    fill_both(room, at_start);
    nuxalder_merge(one, length, other, second_length, guard_lend(our_memory, room, at_start), room, our);
    reference_merge(one, length, other, second_length, guard_lend(their_memory, room, at_start), room, their);
    if (memcmp(our, their, sizeof our) != 0 || memcmp(one, first, length) != 0 ||
        memcmp(other, second, second_length) != 0 || !both_same(room, at_start)) {
        fprintf(stderr, "Merge differs from the reference with a buffer of %zu bytes\n", room);
        abort();
    }
}

/* A file of `count` records from these bytes, for threads `lowest` and the next. */
static size_t file_for(uint8_t *file, const uint8_t *bytes, size_t count, unsigned lowest)
{
    file[0] = 1;
    file[1] = (uint8_t)(count >> 8);
    file[2] = (uint8_t)count;
    memcpy(file + 3, bytes, 2 * count);
    for (size_t k = 0; k < count; k++)
        file[3 + 2 * k] = (uint8_t)((file[3 + 2 * k] & 0x1F) | lowest << 4);
    return 3 + 2 * count;
}

/* Two parts of the input as two files, with buffers just long enough, one byte short and longer. */
static void compare_merges(const uint8_t *data, size_t size)
{
    static uint8_t first[MEMORY], second[MEMORY];
    size_t cut = size == 0 ? 0 : (size_t)data[size / 2] * size / 255;
    size_t count = cut / 2, other = (size - cut) / 2;
    size_t length = file_for(first, data, count > MOST_RECORDS ? MOST_RECORDS : count, 0);
    size_t second_length = file_for(second, data + cut, other > MOST_RECORDS ? MOST_RECORDS : other, 2);
    size_t need = 2 * (length < second_length ? length : second_length) - 3;
    const size_t rooms[] = {need, need - 1, need + 17};
    for (int i = 0; i < 3; i++) {
        compare_merge(data, cut, data + cut, size - cut, rooms[i], i & 1);
        compare_merge(first, length, second, second_length, rooms[i], i & 1);
    }
}

/* The input with its header put right, where that is another file. */
static void compare_repaired(const uint8_t *file, size_t length, const uint8_t *data, size_t size)
{
    if (length != size || memcmp(file, data, size) != 0)
        compare_all(file, length);
}

int LLVMFuzzerTestOneInput(const uint8_t *data, size_t size)
{
    static uint8_t repaired[3 + 4 * MOST_RECORDS];
    if (file_memory.bytes == NULL) {
        file_memory = guard_new(MEMORY);
        second_memory = guard_new(MEMORY);
        our_memory = guard_new(BUFFER_MEMORY);
        their_memory = guard_new(BUFFER_MEMORY);
        tally_memory = guard_new(GUARD_PAGE);
    }
    if (size > MEMORY)
        return -1;
    compare_all(data, size);
    compare_merges(data, size);
    if (size >= 3) {
        size_t count = (size - 3) / 2 > MOST_RECORDS ? MOST_RECORDS : (size - 3) / 2;
        memcpy(repaired, data, 3 + 2 * count);
        repaired[0] = 1;
        repaired[1] = (uint8_t)(count >> 8);
        repaired[2] = (uint8_t)count;
        compare_repaired(repaired, 3 + 2 * count, data, size);
        count = (size - 3) / 4 > MOST_RECORDS / 2 ? MOST_RECORDS / 2 : (size - 3) / 4;
        repaired[1] = (uint8_t)(count >> 8);
        repaired[2] = (uint8_t)count;
        compare_judge(repaired, 3 + 4 * count);
        count = (size - 3) / 4 > MOST_RECORDS ? MOST_RECORDS : (size - 3) / 4;
        memcpy(repaired, data, 3 + 4 * count);
        repaired[1] = (uint8_t)(count >> 8);
        repaired[2] = (uint8_t)count;
        for (int version = NUXALDER_DEEP_FILE_VERSION; version <= NUXALDER_STOP_FILE_VERSION; version++) {
            repaired[0] = (uint8_t)version;
            compare_repaired(repaired, 3 + 4 * count, data, size);
        }
    }
    return 0;
}
