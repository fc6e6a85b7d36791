/* A shorter schedule with the same kind of difference. */
#include <string.h>

#include "driver.h"

enum { LIMIT_SHRINKING_MS = 200 }; /* where each try may cost the whole of it */

struct shrinking {
    const nuxalder_drive_index *index;
    const nuxalder_drive_options *options;
    uint8_t *file;
    int width, count;
    nuxalder_drive_verdict *verdict;
};

static void set_count(uint8_t *file, int count)
{
    file[1] = (uint8_t)(count >> 8);
    file[2] = (uint8_t)count;
}

/* What was left out may leave steps too many or too few: a step of an idle thread is left out too, and a busy thread is given
 * steps before its next start. Gives the records then, at most as many as there were, or -1. */
static int mend(const struct shrinking *s, uint8_t *other, int n)
{
    size_t width = (size_t)s->width;
    for (int done, tries = 4 * n; tries > 0 && n < s->count; tries--) {
        set_count(other, n);
        int refusal = expect_refusal(other, HEADER + width * (size_t)n, &done);
        uint8_t *at = other + HEADER + s->width * done;
        size_t rest = width * (size_t)(n - done);
        if (refusal == NUXALDER_REFUSED_IDLE) {
            memmove(at, at + width, rest - width);
            n--;
        } else if (refusal == NUXALDER_REFUSED_BUSY) {
            memmove(at + width, at, rest);
            memset(at, 0, width);
            at[0] = NUXALDER_FIRST_BYTE(at[width] >> 4, NUXALDER_STEP);
            n++;
        } else return n;
    }
    return -1;
}

/* Takes `other`, of n records, if it differs in the same way; only the records up to the difference are kept. */
static bool take(struct shrinking *s, uint8_t *other, int n)
{
    static nuxalder_drive_verdict v;
    if (n < s->count && (n = mend(s, other, n)) < 0) return false;
    set_count(other, n);
    if (nuxalder_drive(s->index, other, HEADER + (size_t)(s->width * n), s->options, &v) || v.kind != s->verdict->kind) return false;
    if (v.record > 0 && v.record < n) n = v.record;
    memcpy(s->file, other, HEADER + (size_t)(s->width * n));
    set_count(s->file, n);
    s->count = n;
    *s->verdict = v;
    return true;
}

/* Leaves out an operation: the start at i and its thread's steps up to its next start. */
static bool without_operation(struct shrinking *s, int i, uint8_t *other)
{
    int t = s->file[HEADER + s->width * i] >> 4, n = 0;
    bool in = false;
    memcpy(other, s->file, HEADER);
    for (int k = 0; k < s->count; k++) {
        const uint8_t *record = s->file + HEADER + s->width * k;
        bool mine = record[0] >> 4 == t;
        if (mine && record[0] & 15) in = k == i;
        if (!(mine && in)) memcpy(other + HEADER + s->width * n++, record, (size_t)s->width);
    }
    return take(s, other, n);
}

static bool without_records(struct shrinking *s, int at, int n, uint8_t *other)
{
    const uint8_t *rest = s->file + HEADER + s->width * (at + n);
    size_t before = HEADER + (size_t)(s->width * at);
    memcpy(other, s->file, before);
    memcpy(other + before, rest, (size_t)(s->width * (s->count - at - n)));
    return take(s, other, s->count - n);
}

size_t nuxalder_drive_shrink(const nuxalder_drive_index *index, uint8_t *schedule, size_t length, const nuxalder_drive_options *options,
                             nuxalder_drive_verdict *verdict)
{
    static uint8_t other[NUXALDER_FILE_MOST + NUXALDER_DEEP_RECORD_SIZE];
    nuxalder_drive_options mine = {0};
    struct shrinking s = {index, &mine, schedule, NUXALDER_RECORD_SIZE, 0, verdict};

    if (verdict->kind == NUXALDER_DRIVE_AGREES || verdict->kind >= NUXALDER_DRIVE_UNSTEADY || length < HEADER || length > sizeof other) return length;
    if (options) mine = *options;
    if (!mine.limit_ms && (verdict->kind == NUXALDER_DRIVE_HANG || verdict->kind == NUXALDER_DRIVE_STUCK)) mine.limit_ms = LIMIT_SHRINKING_MS;
    if (schedule[0] != NUXALDER_FILE_VERSION) s.width = NUXALDER_DEEP_RECORD_SIZE;
    s.count = schedule[1] << 8 | schedule[2];
    if (verdict->record > 0 && verdict->record < s.count) {
        memcpy(other, schedule, HEADER + (size_t)(s.width * verdict->record));
        take(&s, other, verdict->record);
    }
    for (bool less = true; less;) {
        less = false;
        for (int i = s.count - 1; i >= 0; i--)
            if (i < s.count && schedule[HEADER + s.width * i] & 15 && without_operation(&s, i, other)) less = true;
        for (int n = s.count / 2; n >= 1; n /= 2)
            for (int at = s.count - n; at >= 0; at -= n)
                if (at + n <= s.count && without_records(&s, at, n, other)) less = true;
    }
    return HEADER + (size_t)(s.width * s.count);
}
