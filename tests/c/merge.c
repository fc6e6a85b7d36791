/* nuxalder_merge against a merge in C that draws records from two queues: sizes by hand and random pairs, lent
 * memory flush with forbidden pages. The merged file is run. Ends with the counts of passed and failed checks;
 * a refusal or a shape that was never met is a failure. */
#define _DEFAULT_SOURCE
#include "guard.h"
#include "nuxalder.h"

enum { MEMORY = 3 * GUARD_PAGE, MOST = 9000, RECORDS_MOST = 4096, PAIRS = 20000 };

struct file {
    uint8_t bytes[MOST];
    size_t length;
};

static unsigned long passed, failed, met[32], shapes[3];
static struct guard first_memory, second_memory, out_memory;

static uint64_t state = 0x9E3779B97F4A7C15u;
static uint32_t draw(uint32_t below)
{
    state ^= state << 13;
    state ^= state >> 7;
    state ^= state << 17;
    return (uint32_t)((state >> 20) % below);
}

static void check(int holds, const char *what)
{
    if (holds)
        passed++;
    else {
        failed++;
        if (failed < 20)
            printf("FAILED: %s\n", what);
    }
}

/* ---- the merge that is compared with: two queues of records and one list that they are drawn into */

struct answer {
    unsigned refusal, file;
    size_t start, length, written;
    uint8_t whole[2 * MOST];
    size_t total;
};

static unsigned fault(const struct file *f)
{
    if (f->length < 3)
        return 1;
    if (f->bytes[0] != 1)
        return 2;
    unsigned count = (unsigned)f->bytes[1] << 8 | f->bytes[2];
    if (count > 4096)
        return 3;
    return f->length == 3u + 2u * count ? 0 : 4;
}

static void reference(const struct file *a, const struct file *b, size_t room, struct answer *r)
{
    memset(r, 0, sizeof *r);
    const struct file *both[2] = {a, b};
    for (int i = 0; i < 2; i++)
        if ((r->refusal = fault(both[i])) != 0)
            return;
    for (int i = 0; i < 2; i++)
        for (size_t at = 3; at < both[i]->length; at += 2) {
            unsigned thread = both[i]->bytes[at] >> 4;
            if (i == 0 ? thread > 1 : (thread != 2 && thread != 3)) {
                r->refusal = 17;
                return;
            }
        }
    size_t left[2] = {(a->length - 3) / 2, (b->length - 3) / 2}, at[2] = {3, 3};
    size_t all = left[0] + left[1];
    if (all > 4096) {
        r->refusal = 3;
        return;
    }
    size_t less = left[0] < left[1] ? left[0] : left[1];
    if (room < 3 + 4 * less) {
        r->refusal = 18;
        return;
    }
    r->whole[0] = 1;
    r->whole[1] = (uint8_t)(all >> 8);
    r->whole[2] = (uint8_t)all;
    r->total = 3;
    for (int turn = 0; left[0] + left[1] > 0; turn = !turn)
        if (left[turn] > 0) {
            memcpy(r->whole + r->total, both[turn]->bytes + at[turn], 2);
            r->total += 2;
            at[turn] += 2;
            left[turn]--;
        }
    r->written = 3 + 4 * less;
    r->file = b->length > a->length;
    r->length = r->total - r->written;
    r->start = both[r->file]->length - r->length;
}

/* ---- one pair */

static void pair(const struct file *a, const struct file *b, size_t room, int at_start)
{
    static struct answer r;
    reference(a, b, room, &r);
    guard_fill(first_memory);
    guard_fill(second_memory);
    guard_fill(out_memory);
    uint8_t *first = guard_lend(first_memory, a->length, at_start);
    uint8_t *second = guard_lend(second_memory, b->length, at_start);
    uint8_t *out = guard_lend(out_memory, room, at_start);
    memcpy(first, a->bytes, a->length);
    memcpy(second, b->bytes, b->length);
    uint64_t around[NUXALDER_MERGE_FIELDS + 2];
    memset(around, 0x5A, sizeof around);
    uint64_t *report = around + 1;
    nuxalder_merge(first, a->length, second, b->length, out, room, report);
    check(around[0] == 0x5A5A5A5A5A5A5A5Au && around[NUXALDER_MERGE_FIELDS + 1] == 0x5A5A5A5A5A5A5A5Au,
          "Merge wrote outside its report");
    check(report[NUXALDER_MERGE_REFUSAL] == r.refusal && report[NUXALDER_MERGE_FILE] == r.file &&
              report[NUXALDER_MERGE_START] == r.start && report[NUXALDER_MERGE_LENGTH] == r.length,
          "the report differs");
    check(memcmp(first, a->bytes, a->length) == 0 && guard_kept(first_memory, first, a->length),
          "the first file was written to");
    check(memcmp(second, b->bytes, b->length) == 0 && guard_kept(second_memory, second, b->length),
          "the second file was written to");
    check(guard_kept(out_memory, out, r.written), "a byte after the output was written");
    check(memcmp(out, r.whole, r.written) == 0, "the output differs");
    met[r.refusal]++;
    if (r.refusal != 0)
        return;
    shapes[a->length < b->length ? 2 : a->length > b->length]++;

    /* What a caller does: append the part, and run the result. */
    static uint8_t merged[MOST], rows[2 * RECORDS_MOST];
    const struct file *longer = report[NUXALDER_MERGE_FILE] ? b : a;
    size_t left = (size_t)report[NUXALDER_MERGE_LENGTH], start = (size_t)report[NUXALDER_MERGE_START];
    check(start + left == longer->length, "the part does not go to the end of its file");
    memcpy(merged, out, r.written);
    memcpy(merged + r.written, longer->bytes + start, left);
    check(r.written + left == r.total && memcmp(merged, r.whole, r.total) == 0, "the merged file differs");
    uint64_t run[NUXALDER_RUN_FIELDS];
    nuxalder_run(merged, r.total, rows, sizeof rows, run);
    check(run[NUXALDER_RUN_REFUSAL] == 0 || run[NUXALDER_RUN_REFUSAL] >= 7, "Run refuses the merged file");
}

/* ---- files */

static void make(struct file *f, size_t count, unsigned low)
{
    f->length = 3 + 2 * count;
    f->bytes[0] = 1;
    f->bytes[1] = (uint8_t)(count >> 8);
    f->bytes[2] = (uint8_t)count;
    for (size_t k = 0; k < count; k++) {
        f->bytes[3 + 2 * k] = (uint8_t)(16 * (low + draw(2)) + draw(16));
        f->bytes[4 + 2 * k] = (uint8_t)draw(256);
    }
}

static void spoil(struct file *f)
{
    switch (draw(6)) {
    case 0: f->length = draw(3); break;
    case 1: f->bytes[0] = (uint8_t)draw(256); break;
    case 2: f->bytes[1] = (uint8_t)(16 + draw(240)); f->bytes[2] = (uint8_t)draw(256); break;
    case 3: if (f->length > 3) f->length -= 1 + draw(2); break;
    case 4: f->bytes[f->length] = 0; f->length++; break;
    default: if (f->length > 3) f->bytes[3 + 2 * draw((uint32_t)(f->length - 3) / 2)] = (uint8_t)draw(256);
    }
}

int main(void)
{
    static struct file a, b;
    first_memory = guard_new(MEMORY);
    second_memory = guard_new(MEMORY);
    out_memory = guard_new(MEMORY);
    /* sizes by hand, at the room that is needed, one byte less, one more, none */
    static const size_t sizes[][2] = {{0, 0},       {0, 1},       {1, 0},       {1, 1},    {5, 2},
                                      {2, 5},       {255, 256},   {256, 255},   {4096, 0}, {0, 4096},
                                      {2048, 2048}, {2048, 2049}, {2049, 2048}, {4096, 1}, {1, 4096},
                                      {4095, 1},    {1, 4095},    {4096, 4096}};
    for (size_t i = 0; i < sizeof sizes / sizeof sizes[0]; i++) {
        make(&a, sizes[i][0], 0);
        make(&b, sizes[i][1], 2);
        size_t less = sizes[i][0] < sizes[i][1] ? sizes[i][0] : sizes[i][1], need = 3 + 4 * less;
        size_t rooms[] = {need, need - 1, need + 1, need + 100, 0};
        for (int j = 0; j < 5; j++)
            for (int side = 0; side < 2; side++)
                pair(&a, &b, rooms[j], side);
    }
    for (int i = 0; i < PAIRS; i++) {
        size_t n = draw(12), m = draw(4) ? draw(12) : n;
        if (draw(100) == 0) {
            n = draw(4097);
            m = draw(3) ? 4096 - n + draw(2) : draw(4097);
        }
        make(&a, n, 0);
        make(&b, m, 2);
        if (draw(4) == 0)
            spoil(&a);
        if (draw(4) == 0)
            spoil(&b);
        size_t need = 3 + 4 * (n < m ? n : m);
        pair(&a, &b, draw(3) ? need : need - 2 + draw(6), (int)draw(2));
    }
    static const unsigned refusals[] = {0, 1, 2, 3, 4, 17, 18};
    for (size_t k = 0; k < sizeof refusals / sizeof refusals[0]; k++)
        check(met[refusals[k]] > 0, "a refusal was never met");
    for (int k = 0; k < 3; k++)
        check(shapes[k] > 0, "equal counts, a longer first file or a longer second was never met");
    printf("%lu passed, %lu failed\n", passed, failed);
    return failed == 0 && passed > 0 ? EXIT_SUCCESS : EXIT_FAILURE;
}
