/* The adaptor of the fixture: what a user writes for an index. */
#include <nuxalder.h>
#include <nuxalder_drive.h>

#include "index.h"

static void *create(int version) { return lfca_create(version > 2); }
static void destroy(void *t) { lfca_destroy(t); }

static int operate(void *t, const nuxalder_drive_call *call, nuxalder_drive_found *found)
{
    switch (call->action) {
    case NUXALDER_LOOKUP: return lfca_lookup(t, call->station, &found->depth);
    case NUXALDER_INSERT: return lfca_insert(t, call->station, call->depth);
    case NUXALDER_REMOVE: return lfca_remove(t, call->station);
    case NUXALDER_SPLIT: return lfca_split(t, call->station);
    case NUXALDER_JOIN: return lfca_join(t, call->station);
    case NUXALDER_RANGE: found->ranged = 1; return lfca_range(t, call->station, call->upper, &found->set);
    default: return NUXALDER_DRIVE_LACKING;
    }
}

/* The walk, which may be left out. */
struct walk {
    nuxalder_drive_visit *visit;
    void *to;
};

static void visit(void *to, int level, int kind, int key, int valid, int marked, uint64_t set, const uint16_t *depths)
{
    const struct walk *walk = to;
    nuxalder_drive_node node = {level, kind, key, valid, marked, set, depths};
    walk->visit(walk->to, &node);
}

static void walk(void *t, nuxalder_drive_visit *given, void *to)
{
    struct walk both = {given, to};
    lfca_walk(t, visit, &both);
}

static int marks(void *t) { return lfca_marks(t); }

const nuxalder_drive_index nuxalder_drive_adaptor = {NUXALDER_DRIVE_VERSION, create, destroy, operate, walk, 0, marks};
