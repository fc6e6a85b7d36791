/* See include/nuxalder_drive.h. Whoever holds the baton decides who runs next, so a thread that has several turns in a row
 * costs no switch. */
#define _GNU_SOURCE
#include <errno.h>
#include <poll.h>
#include <pthread.h>
#include <signal.h>
#include <stdarg.h>
#include <stdio.h>
#include <string.h>
#include <sys/mman.h>
#ifdef __linux__
#include <sys/prctl.h>
#endif
#include <sys/wait.h>
#include <unistd.h>

#include "baton.h"
#include "driver.h"

enum { LIMIT_MS = 2000, ALONE_MOST = 5000 /* turns of one operation in free mode before it counts as stuck */ };

static const char *const kind_words[NUXALDER_DRIVE_KINDS] = {
    "agrees", "answer", "fewer turns", "more turns", "place", "set", "tree", "marks", "depth", "found",
    "hang", "crash", "stuck", "order", "unsteady", "adaptor", "unable"};
const char *const action_words[] = {"step", "lookup", "insert", "remove", "split", "join", "range"};

const char *nuxalder_drive_kind_words(nuxalder_drive_kind kind)
{
    return kind >= 0 && kind < NUXALDER_DRIVE_KINDS ? kind_words[kind] : "unknown";
}

enum state { IDLE, NOTED, PARKED, ENDED };                        /* of a worker, between turns */
enum phase { CREATING, STEPPING, LOOKING, LETTING_GO, DESTROYING, FINISHED }; /* of the run */

struct worker {
    pthread_t thread;
    int id, place, answer;
    nuxalder_drive_call call;
    nuxalder_drive_found found;
    bool granted; /* its first turn is given, and no hook has used it yet */
    enum state state;
};

/* What a child tells its parent, also if it dies. */
static struct shared {
    nuxalder_drive_verdict verdict;
    atomic_int record, phase, thread;
    atomic_uint beat;
} *shared;

static struct expectation bench;

static struct {
    const nuxalder_drive_index *index;
    void *object;
    nuxalder_drive_options options;
    int at;
    bool under_way, let_go, quit;
    struct worker worker[WORKERS];
    struct event event[4 * RECORDS]; /* at most two for an operation, one for a record, and the last */
    int events, open_event[WORKERS];
    int spent; /* turns beyond the schedule's, at one record */
} run;

static _Thread_local struct worker *self;

/* ---- words */

__attribute__((format(printf, 1, 2))) static void say(const char *format, ...)
{
    char *words = shared->verdict.words;
    size_t used = strlen(words);
    va_list more;
    va_start(more, format);
    vsnprintf(words + used, sizeof shared->verdict.words - used, format, more);
    va_end(more);
}

static void say_set(uint64_t set)
{
    if (!set) say(" -");
    for (int s = 0; s < NUXALDER_STATIONS; s++)
        if (set >> s & 1) say(" %d", s);
}

/* "insert 4", "range 4 9" */
static void say_operation(int start)
{
    say("%s %d", action_words[action_of(&bench, start)], station_of(&bench, start));
    if (action_of(&bench, start) == NUXALDER_RANGE) say(" %d", extra_of(&bench, start));
}

/* "record 57 of 200, t1 step: turn 6 of its insert 4 (place 11, swap left)" */
static void say_record(int i)
{
    int t = thread_of(&bench, i), own = 0, from = i;
    say("record %d of %d, t%d ", i + 1, bench.count, t);
    if (action_of(&bench, i)) {
        say_operation(i);
        say(" (its start)");
        return;
    }
    say("step");
    for (; from >= 0 && !(thread_of(&bench, from) == t && action_of(&bench, from)); from--) own += thread_of(&bench, from) == t;
    if (from < 0) return;
    say(": turn %d of its ", own);
    say_operation(from);
    if (run.options.free) return; /* the bench's turns are not the index's */
    int place = expect_place(&bench, i);
    say(" (place %d, %s)", place, place_words(place));
}

/* "t1's open insert 4, let go on alone" */
static void say_open(int t)
{
    int i = bench.done - 1;
    while (i > 0 && !(thread_of(&bench, i) == t && action_of(&bench, i))) i--;
    say("t%d's open ", t);
    say_operation(i);
    say(", let go on alone");
}

/* Starts a verdict at a record, -1 for none. There is one verdict only: false where it is there already. */
static bool differs(nuxalder_drive_kind kind, int i)
{
    if (shared->verdict.kind != NUXALDER_DRIVE_AGREES) return false;
    shared->verdict.kind = kind;
    shared->verdict.record = i + 1;
    shared->verdict.words[0] = 0;
    if (i >= 0) say_record(i);
    else say("before the first record");
    return true;
}

/* It moves on: the time of a turn begins anew. Only who has the baton calls it. */
static void beat(void)
{
    atomic_store_explicit(&shared->beat, atomic_load_explicit(&shared->beat, memory_order_relaxed) + 1, memory_order_relaxed);
}

/* ---- set and tree */

static uint64_t set_by_lookups(int at)
{
    uint64_t set = 0;
    for (int s = 0; s < NUXALDER_STATIONS; s++) {
        nuxalder_drive_call call = {WORKERS, NUXALDER_LOOKUP, s, 0, 0};
        nuxalder_drive_found found = {-1, 0, 0};
        beat(); /* each has the time of a turn */
        int answer = run.index->operate(run.object, &call, &found);
        if (answer != 0 && answer != 1 && differs(NUXALDER_DRIVE_ADAPTOR, at))
            say("\n  a lookup of %d gives %d, which is neither 0 nor 1", s, answer);
        if (answer) set |= (uint64_t)1 << s;
    }
    return set;
}

/* What the index has, while all threads stand still; hooks pass meanwhile. */
struct sight {
    uint64_t set;
    struct tree *tree; /* NULL: not walked */
    int marks;         /* -1: not told */
};

/* The index's set; its tree and marks too where they are wanted. */
static struct sight look(bool whole, int at)
{
    static struct tree tree;
    struct sight sight = {0, NULL, -1};
    struct worker *me = self;
    enum phase phase = (enum phase)atomic_load(&shared->phase);
    atomic_store(&shared->phase, LOOKING);
    self = NULL;
    if (run.index->walk && (whole || !run.index->set)) {
        tree_of_index(&tree, run.index, run.object);
        sight.tree = &tree;
        if (tree.bad && differs(NUXALDER_DRIVE_ADAPTOR, at))
            say("\n  the walk gives no tree: a level over %d, an unknown kind, a key over 63, too many nodes, or a route without two children", LEVELS - 1);
    }
    sight.set = run.index->set ? run.index->set(run.object) : run.index->walk ? tree.set : set_by_lookups(at);
    if (whole && run.index->marks) sight.marks = run.index->marks(run.object);
    self = me;
    atomic_store(&shared->phase, phase);
    return sight;
}

static void say_set_differs(uint64_t has, uint64_t mine)
{
    say(": bench");
    say_set(has);
    say(", index");
    say_set(mine);
    if (has & ~mine) say("; the index lacks"), say_set(has & ~mine);
    if (mine & ~has) say("; the index has, wrongly,"), say_set(mine & ~has);
}

static bool same_tree(const struct tree *has, const struct tree *mine, int at)
{
    static char here[LINE_MOST], there[LINE_MOST];
    int node = tree_differs(has, mine, deep(&bench));
    if (node < 0) return true;
    if (!differs(NUXALDER_DRIVE_TREE, at)) return false;
    tree_line(has, node, deep(&bench), true, here);
    tree_line(mine, node, deep(&bench), true, there);
    say("\n  the tree differs afterwards, line %d of the listing: bench `%.500s`, index `%.500s`", node + 1, here, there);
    return false;
}

static bool same_marks(const struct tree *has, const struct sight *mine, int at)
{
    static char line[LINE_MOST];
    int route = mine->tree ? marks_differ(has, mine->tree) : -1;
    if (route >= 0) {
        if (!differs(NUXALDER_DRIVE_MARKS, at)) return false;
        tree_line(has, route, false, false, line);
        say("\n  the join marks differ afterwards, line %d of the listing, `%s`: bench %s, index %s", route + 1, line,
            has->node[route].marked > 0 ? "marked" : "not marked", mine->tree->node[route].marked > 0 ? "marked" : "not marked");
        return false;
    }
    if (mine->marks < 0 || mine->marks == marks_of(has) || (mine->tree && tells_marks(mine->tree))) return true;
    if (differs(NUXALDER_DRIVE_MARKS, at)) say("\n  join marks in the tree afterwards: bench %d, index %d", marks_of(has), mine->marks);
    return false;
}

/* Compares set, tree and marks where the first k records are done. */
static bool compare(int k)
{
    static struct tree has;
    const nuxalder_drive_options *o = &run.options;
    bool tree = run.index->walk && !o->no_tree, marks = (run.index->walk || run.index->marks) && !o->no_marks;

    if (o->no_set && !tree && !marks) return true;
    struct sight mine = look(tree || marks, k - 1);
    if (shared->verdict.kind != NUXALDER_DRIVE_AGREES) return false;
    tree_of_state(&has, expect_state(&bench, k));
    if (!o->no_set && mine.set != has.set) {
        if (differs(NUXALDER_DRIVE_SET, k - 1)) say("\n  the set differs afterwards"), say_set_differs(has.set, mine.set);
        return false;
    }
    return (!tree || same_tree(&has, mine.tree, k - 1)) && (!marks || same_marks(&has, &mine, k - 1));
}

/* ---- the run */

static bool skipping(void) { return run.options.skip_local || memchr(run.options.skip, 1, sizeof run.options.skip); }

static bool skipped(int i)
{
    const struct expected *e = &bench.record[i];
    return (run.options.skip_local && e->local) || (e->place && run.options.skip[e->place]);
}

/* The record at which the operation open at i finishes, or -1. */
static int finish_of(int i)
{
    int t = thread_of(&bench, i);
    for (; i < bench.done; i++)
        if (thread_of(&bench, i) == t && bench.record[i].finish) return i;
    return -1;
}

static const char *word_of(int answer) { return answer == NUXALDER_YES ? "yes" : answer == NUXALDER_NO ? "no" : nuxalder_answer_words((uint64_t)answer); }

/* A no of a split or join fits every reason; a reason is compared. */
static bool same_answer(int has, int mine) { return has == mine || (has > NUXALDER_YES && mine == NUXALDER_NO); }

static bool answer_may_be(const struct worker *w)
{
    if (w->answer == NUXALDER_NO || w->answer == NUXALDER_YES) return true;
    return (w->call.action == NUXALDER_SPLIT || w->call.action == NUXALDER_JOIN) && w->answer >= NUXALDER_LACKING && w->answer <= NUXALDER_STOPPED;
}

static void say_no_answer(const struct worker *w)
{
    if (run.let_go) {
        say("\n  afterwards, ");
        say_open(w->id);
    }
    if (w->answer == NUXALDER_DRIVE_LACKING) say("\n  the index says that it has no %s", w->call.action == NUXALDER_RANGE ? "range query" : action_words[w->call.action]);
    else say("\n  it ends %swith %d, which is no answer", run.let_go ? "" : "here ", w->answer);
}

/* The record has been carried out: does the operation go on or end as the bench says? */
static bool same_end(int at)
{
    struct worker *w = &run.worker[thread_of(&bench, at)];
    const struct expected *e = &bench.record[at];
    if (action_of(&bench, at)) return true;
    if (w->state == ENDED && !answer_may_be(w)) {
        if (differs(NUXALDER_DRIVE_ADAPTOR, at)) say_no_answer(w);
        return false;
    }
    if (w->state == ENDED && e->finish) {
        w->state = IDLE;
        if (!same_answer(e->finish - 1, w->answer)) {
            if (differs(NUXALDER_DRIVE_ANSWER, at)) say("\n  it finishes here: bench %s, index %s", word_of(e->finish - 1), word_of(w->answer));
            return false;
        }
        if (deep(&bench) && w->call.action == NUXALDER_LOOKUP && w->answer && w->found.depth != -1 && w->found.depth != e->depth) {
            if (differs(NUXALDER_DRIVE_DEPTH, at)) say("\n  it finishes here, depth found: bench %d, index %d", e->depth, w->found.depth);
            return false;
        }
        if (w->call.action == NUXALDER_RANGE && w->found.ranged && w->found.set != e->set) {
            if (differs(NUXALDER_DRIVE_FOUND, at)) say("\n  it finishes here, stations found"), say_set_differs(e->set, w->found.set);
            return false;
        }
    } else if (w->state == ENDED && !skipping()) {
        int f = finish_of(at);
        if (!differs(NUXALDER_DRIVE_FEWER_TURNS, at)) return false;
        say("\n  the index finished here with %s; the bench ", word_of(w->answer));
        if (f >= 0) say("finishes at record %d, with %s", f + 1, word_of(bench.record[f].finish - 1));
        else say("does not finish it in this schedule");
        return false;
    } else if (w->state != ENDED && e->finish) {
        if (!differs(NUXALDER_DRIVE_MORE_TURNS, at)) return false;
        say("\n  the bench finishes it here with %s; the index goes on", word_of(e->finish - 1));
        if (w->place) say(" (it stands before place %d, %s)", w->place, place_words(w->place));
        return false;
    }
    return true;
}

static bool settle(int at)
{
    bool end = same_end(at);
    if (!run.options.each || shared->verdict.kind == NUXALDER_DRIVE_ADAPTOR) return end;
    /* where the end differs, the set or tree of this record may differ too: the turns are what is said */
    return end && compare(at + 1);
}

/* Whether the hook at which w stands is the place that record i carries out. */
static bool right_place(const struct worker *w, int i)
{
    int place = bench.record[i].place;
    if (!run.options.places || !w->place || !place || w->place == place) return true;
    if (differs(NUXALDER_DRIVE_PLACE, i)) say("\n  the bench carries out place %d, the index stands before place %d, %s", place, w->place, place_words(w->place));
    return false;
}

static void begin_record(int record)
{
    atomic_store_explicit(&shared->record, record, memory_order_relaxed);
    beat();
}

static void note(struct worker *w, int i)
{
    int action = action_of(&bench, i), extra = extra_of(&bench, i);
    w->call = (nuxalder_drive_call){w->id, action, station_of(&bench, i), action == NUXALDER_RANGE ? extra : 0, action == NUXALDER_INSERT ? extra : 0};
    w->place = 0, w->state = NOTED;
}

/* Carries on with the records until some thread must run, and gives which. Called by whoever holds the baton. */
static int decide(void)
{
    for (;;) {
        if (run.under_way) {
            run.under_way = false;
            if (!settle(run.at)) return CALLER;
            shared->verdict.records = ++run.at;
        }
        if (run.at == bench.done) return CALLER;
        struct worker *w = &run.worker[thread_of(&bench, run.at)];
        begin_record(run.at);
        run.under_way = true;
        if (action_of(&bench, run.at)) {
            note(w, run.at);
            continue;
        }
        bool skip = skipped(run.at);
        if (skip && w->state == NOTED) { /* as far as its first hook, where nothing shared has been touched; then this record again */
            run.under_way = w->granted = false;
            return w->id;
        }
        if (w->state == ENDED) {
            if (skip) continue;
            if (differs(NUXALDER_DRIVE_FEWER_TURNS, run.at)) say("\n  the index has finished it, with %s; the bench goes on", word_of(w->answer));
            return CALLER;
        }
        if (w->state == PARKED) {
            if (skip && (!w->place || w->place != bench.record[run.at].place)) continue;
            if (!right_place(w, run.at)) return CALLER;
        }
        shared->verdict.turns++;
        w->granted = w->state == NOTED;
        return w->id;
    }
}

/* ---- free: the schedule only says who runs */

static void note_end(struct worker *w)
{
    struct event *from = &run.event[run.open_event[w->id]];
    int at = run.at < bench.done ? run.at : bench.done - 1;
    if (!answer_may_be(w) && differs(NUXALDER_DRIVE_ADAPTOR, at)) say_no_answer(w);
    from->answer = w->answer;
    if (w->call.action == NUXALDER_RANGE) {
        from->told = w->found.ranged || w->answer == NUXALDER_NO;
        from->set = w->found.ranged ? w->found.set : 0;
    }
    run.event[run.events] = *from;
    run.event[run.events].what = ENDS, run.event[run.events++].record = run.at;
    w->state = IDLE;
}

static void note_first(struct worker *w)
{
    run.open_event[w->id] = run.events;
    run.event[run.events++] = (struct event){INVOKED, run.at, w->id, w->call.action, w->call.station, w->call.upper, -1, 0, false};
}

static void note_set(void)
{
    struct sight sight = look(false, run.at < bench.done ? run.at : bench.done - 1);
    run.event[run.events++] = (struct event){.what = SEEN, .record = run.at, .set = sight.set};
}

static int decide_free(void)
{
    for (;;) {
        if (run.under_way) {
            struct worker *w = &run.worker[thread_of(&bench, run.at)];
            run.under_way = false;
            if (w->state == ENDED) note_end(w);
            if (run.options.each && run.spent == 0) note_set();
            if (shared->verdict.kind != NUXALDER_DRIVE_AGREES) return CALLER;
            if (run.spent == 0) shared->verdict.records = ++run.at;
        }
        if (run.at == bench.done) return CALLER;
        struct worker *w = &run.worker[thread_of(&bench, run.at)];
        bool start = action_of(&bench, run.at) != 0;
        begin_record(run.at);
        if (start && w->state == IDLE) {
            note(w, run.at);
            run.spent = 0;
            shared->verdict.records = ++run.at;
            continue;
        }
        if (start && ++run.spent > ALONE_MOST) { /* it must end before it can start another one */
            if (differs(NUXALDER_DRIVE_STUCK, run.at)) say("\n  its operation before, alone, takes more than %d turns", ALONE_MOST);
            return CALLER;
        }
        if (w->state == IDLE) { /* a step to spare */
            shared->verdict.records = ++run.at;
            continue;
        }
        if (w->state == NOTED) note_first(w);
        run.under_way = true;
        shared->verdict.turns++;
        w->granted = w->state == NOTED;
        return w->id;
    }
}

/* Is there an order? The answers of up to 12 operations, all ended, by the proved judge; all else by the search, and said so. */
static void judge(void)
{
    struct wrong wrong;
    nuxalder_drive_verdict kept = shared->verdict;
    bool none = no_order(run.event, run.events, &wrong);
    int proved = judged(run.event, run.events);
    shared->verdict.judged = proved >= 0 ? 1 : 2;
    if (!none && proved != 0) return;
    shared->verdict.kind = NUXALDER_DRIVE_AGREES; /* a wrong answer or set comes before an operation that does not end */
    if (!none) {
        differs(NUXALDER_DRIVE_ORDER, bench.done - 1);
        say("\n  the proved judge finds no order that gives these answers (the driver's search finds one: please report this)");
        return;
    }
    const struct event *e = wrong.event;
    bool after = e->record >= bench.done;
    differs(NUXALDER_DRIVE_ORDER, after ? bench.done - 1 : e->record);
    if (e->what == ENDS) {
        const struct event *from = e;
        while (from->what != INVOKED || from->thread != e->thread) from--;
        say("\n  %st%d %s %d", after ? "after the run, let go on alone, " : "", e->thread, action_words[e->action], e->station);
        if (e->action == NUXALDER_RANGE) say(" %d", e->upper);
        if (from->record < bench.done) say(", whose first turn was record %d,", from->record + 1);
        say(" ended with %s", word_of(e->answer));
        if (e->action == NUXALDER_RANGE) say(", station %d %sfound", wrong.station, e->set >> wrong.station & 1 ? "" : "not ");
        say(": no order of the operations explains that");
    } else
        say("\n  %s station %d is %s the set: no order of the operations explains that",
            after ? "after the run, the open operations let go one by one," : "afterwards", wrong.station, e->set >> wrong.station & 1 ? "in" : "not in");
    say(proved == 0 ? " (the answers: by the proved judge)" : " (by the driver's search, which is not proved)");
    if (kept.kind == NUXALDER_DRIVE_STUCK) say("\n  besides: %s", kept.words);
}

/* ---- workers */

static void hand_on(int from)
{
    int to = run.options.free ? decide_free() : decide();
    if (to == from) return;
    baton_wake(to);
    baton_wait(from);
}

void nuxalder_turn(int place)
{
    struct worker *w = self;
    if (!w || run.let_go) return;
    w->place = place;
    if (w->granted) { /* the turn that started it is this one */
        w->granted = false;
        return;
    }
    w->state = PARKED;
    hand_on(w->id);
}

static void *work(void *given)
{
    struct worker *w = given;
    self = w;
    baton_wait(w->id);
    while (!run.quit) {
        w->found = (nuxalder_drive_found){-1, 0, 0};
        w->answer = run.index->operate(run.object, &w->call, &w->found);
        w->state = ENDED;
        if (run.let_go) {
            baton_wake(CALLER);
            baton_wait(w->id);
        } else hand_on(w->id);
    }
    return NULL;
}

/* All that is open, also what has had no turn yet, is let go one after another, and must end with an answer. */
static void let_go(void)
{
    atomic_store(&shared->phase, LETTING_GO);
    run.let_go = true;
    for (int i = 0; i < WORKERS; i++) {
        struct worker *w = &run.worker[i];
        if (w->state != PARKED && w->state != NOTED) continue;
        if (run.options.free && w->state == NOTED) note_first(w);
        atomic_store(&shared->thread, i);
        beat();
        baton_wake(i);
        baton_wait(CALLER);
        if (run.options.free) note_end(w);
        else if (!answer_may_be(w) && differs(NUXALDER_DRIVE_ADAPTOR, bench.done - 1)) say_no_answer(w);
    }
}

/* The whole run, in this process. The verdict starts as "agrees". */
static void carry_out(void)
{
    nuxalder_drive_verdict *v = &shared->verdict;
    int started = 0;
    baton_init();
    run.at = 0, run.under_way = run.let_go = run.quit = false;
    run.events = run.spent = 0;
    run.object = run.index->create(bench.file[0]);
    if (!run.object) {
        differs(NUXALDER_DRIVE_ADAPTOR, -1);
        say("\n  create gives no index for a schedule of version %d", bench.file[0]);
        atomic_store(&shared->phase, FINISHED);
        return;
    }
    atomic_store(&shared->phase, STEPPING);
    for (; started < WORKERS; started++) {
        run.worker[started] = (struct worker){.id = started};
        if (pthread_create(&run.worker[started].thread, NULL, work, &run.worker[started])) break;
    }
    if (started < WORKERS) {
        differs(NUXALDER_DRIVE_UNABLE, -1);
        say("\n  there is no thread to be had");
    } else {
        hand_on(CALLER);
        if (run.options.free) {
            if (v->kind != NUXALDER_DRIVE_ADAPTOR) judge();
        } else if (v->kind == NUXALDER_DRIVE_AGREES && !run.options.each) compare(bench.done);
        bool judging = run.options.free && (v->kind == NUXALDER_DRIVE_AGREES || v->kind == NUXALDER_DRIVE_ORDER);
        if (v->kind != NUXALDER_DRIVE_AGREES && !judging && !run.options.in_process) _exit(0); /* the child's threads end with it */
        let_go();
        if (judging) { /* again, with all operations ended: a no stays a no, and the proved judge may be asked */
            note_set();
            if (v->kind != NUXALDER_DRIVE_ADAPTOR) judge();
        }
    }
    run.quit = true;
    for (int i = 0; i < started; i++) baton_wake(i);
    for (int i = 0; i < started; i++) pthread_join(run.worker[i].thread, NULL);
    atomic_store(&shared->phase, DESTROYING);
    beat();
    run.index->destroy(run.object);
    atomic_store(&shared->phase, FINISHED);
}

/* A child that did not come to its end: what it was at, and how it ended. */
static void say_end(bool hangs, int status, int limit)
{
    nuxalder_drive_verdict *v = &shared->verdict;
    int phase = atomic_load(&shared->phase);
    if (phase == FINISHED || v->kind != NUXALDER_DRIVE_AGREES) return;
    if (phase == DESTROYING) {
        v->kind = hangs ? NUXALDER_DRIVE_HANG : NUXALDER_DRIVE_CRASH;
        v->words[0] = 0, v->record = 0;
        say("after the run\n  destroy");
    } else if (phase == LETTING_GO) {
        v->kind = hangs ? NUXALDER_DRIVE_STUCK : NUXALDER_DRIVE_CRASH;
        v->words[0] = 0, v->record = bench.done;
        say("after the run, ");
        say_open(atomic_load(&shared->thread));
        say(": the index");
    } else {
        differs(hangs ? NUXALDER_DRIVE_HANG : NUXALDER_DRIVE_CRASH, phase == CREATING ? -1 : atomic_load(&shared->record));
        say(phase == CREATING ? "\n  create" : phase == LOOKING ? "\n  looking at the set and the tree afterwards, the index" : "\n  in this turn the index");
    }
    if (hangs) say(" did not come back within %d ms", limit);
    else if (WIFSIGNALED(status)) say(" died of signal %d (%s)", WTERMSIG(status), strsignal(WTERMSIG(status)));
    else say(" ended the process with status %d", WEXITSTATUS(status));
}

/* The whole run, in a child that may crash or hang. */
static void carry_out_apart(void)
{
    int ends[2], status = 0, limit = run.options.limit_ms > 0 ? run.options.limit_ms : LIMIT_MS;
    bool hangs = false;
    unsigned before = 0;
    pid_t child = -1;

    if (pipe(ends) == 0) {
        fflush(NULL);
        child = fork();
        if (child < 0) close(ends[0]), close(ends[1]);
    }
    if (child < 0) {
        differs(NUXALDER_DRIVE_UNABLE, -1);
        say("\n  there is no process to be had: %s", strerror(errno));
        return;
    }
    if (child == 0) {
#ifdef __linux__
        prctl(PR_SET_PDEATHSIG, SIGKILL); /* nobody waits for it any more */
#endif
        close(ends[0]);
        carry_out();
        _exit(0);
    }
    close(ends[1]);
    struct pollfd end = {.fd = ends[0], .events = POLLIN};
    for (int told; (told = poll(&end, 1, limit)) <= 0;) { /* a turn has between one limit and two */
        unsigned now = atomic_load(&shared->beat);
        if (told < 0 && errno == EINTR) continue;
        if (now == before) {
            hangs = true;
            kill(child, SIGKILL);
            break;
        }
        before = now;
    }
    close(ends[0]);
    while (waitpid(child, &status, 0) < 0 && errno == EINTR) {}
    say_end(hangs, status, limit);
}

static void once(void)
{
    memset(shared, 0, sizeof *shared);
    if (run.options.in_process) carry_out();
    else carry_out_apart();
}

static int refuse(nuxalder_drive_verdict *verdict, nuxalder_drive_kind kind, const char *words)
{
    memset(verdict, 0, sizeof *verdict);
    verdict->kind = verdict->first_kind = kind;
    snprintf(verdict->words, sizeof verdict->words, "%s", words);
    return 0;
}

/* Where a run differed: its record, or past all of them where it came to the end. */
static int differed_at(void) { return atomic_load(&shared->phase) == DESTROYING ? RECORDS + 1 : shared->verdict.record; }

/* The run that differed is done again, compared after each record, which shows no later than before. */
static void again(void)
{
    nuxalder_drive_verdict first = shared->verdict;
    int at = differed_at();
    run.options.each = 1;
    once();
    bool none = shared->verdict.kind == NUXALDER_DRIVE_AGREES;
    if (!none && differed_at() <= at) return;
    const char *kind = nuxalder_drive_kind_words(shared->verdict.kind);
    int record = shared->verdict.record;
    shared->verdict = first;
    shared->verdict.kind = NUXALDER_DRIVE_UNSTEADY;
    say("\n  done again, it %s", none ? "did not differ" : "differed later, ");
    if (!none) say("%s", kind);
    if (!none && record) say(" at record %d", record);
    say(": the index does not do the same twice");
}

int nuxalder_drive(const nuxalder_drive_index *index, const uint8_t *schedule, size_t length, const nuxalder_drive_options *options,
                   nuxalder_drive_verdict *verdict)
{
    nuxalder_drive_options none = {0};
    nuxalder_drive_verdict first;

    if (index->version != NUXALDER_DRIVE_VERSION) return refuse(verdict, NUXALDER_DRIVE_ADAPTOR, "the table of functions is of another version");
    if (!index->create) return refuse(verdict, NUXALDER_DRIVE_ADAPTOR, "the table lacks create");
    if (!index->destroy) return refuse(verdict, NUXALDER_DRIVE_ADAPTOR, "the table lacks destroy");
    if (!index->operate) return refuse(verdict, NUXALDER_DRIVE_ADAPTOR, "the table lacks operate");
    if (!shared) {
        shared = mmap(NULL, sizeof *shared, PROT_READ | PROT_WRITE, MAP_SHARED | MAP_ANONYMOUS, -1, 0);
        if (shared == MAP_FAILED) {
            shared = NULL;
            return refuse(verdict, NUXALDER_DRIVE_UNABLE, "there is no memory to be had");
        }
    }
    run.index = index, run.options = options ? *options : none;
    expect(&bench, schedule, length);
    if (!bench.done) { /* nothing to drive */
        refuse(verdict, NUXALDER_DRIVE_AGREES, "");
        verdict->refusal = bench.refusal, verdict->count = bench.count;
        return 1;
    }
    if (run.options.places || skipping()) expect_places(&bench);

    once();
    first = shared->verdict;
    if (first.kind != NUXALDER_DRIVE_AGREES && first.kind != NUXALDER_DRIVE_STUCK && first.kind < NUXALDER_DRIVE_UNSTEADY && !run.options.each &&
        !run.options.free)
        again();
    *verdict = shared->verdict;
    verdict->refusal = bench.refusal, verdict->count = bench.count;
    verdict->first_kind = first.kind, verdict->first_record = first.record;
    return verdict->kind == NUXALDER_DRIVE_AGREES;
}
