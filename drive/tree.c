/* The bench's tree and the index's, node by node. */
#include <stdio.h>
#include <string.h>

#include "driver.h"

static const char *const kind_words[] = {"route", "normal", "main", "neighbour", "range"};

static void begin(struct tree *tree)
{
    tree->nodes = 0, tree->bad = false, tree->set = 0;
    tree->pending = 1, tree->due[0] = 0;
    memset(tree->children, 0, sizeof tree->children);
    memset(tree->left, 0, sizeof tree->left);
    memset(tree->right, 0, sizeof tree->right);
}

static void visit(void *to, const nuxalder_drive_node *node)
{
    struct tree *tree = to;
    int level = node->level;
    if (level < 0 || level >= LEVELS || node->kind < NUXALDER_DRIVE_ROUTE || node->kind > NUXALDER_DRIVE_RANGE || tree->nodes == NODES_MOST ||
        (node->kind == NUXALDER_DRIVE_ROUTE && (node->key < 0 || node->key >= NUXALDER_STATIONS))) {
        tree->bad = true;
        return;
    }
    if (tree->pending == 0 || tree->due[--tree->pending] != level) { /* no child of a route that lacks one */
        tree->bad = true;
        return;
    }
    struct seen *seen = &tree->node[tree->nodes++];
    *seen = (struct seen){level, node->kind, 0, 0, 0, false, 0, {0}};
    uint64_t range = level == 0 ? ~(uint64_t)0 : tree->children[level]++ ? tree->right[level] : tree->left[level];
    if (node->kind == NUXALDER_DRIVE_ROUTE) {
        uint64_t below = ((uint64_t)1 << node->key) - 1;
        seen->key = node->key, seen->valid = node->valid, seen->marked = node->marked;
        tree->left[level + 1] = range & below;
        tree->right[level + 1] = range & ~below;
        tree->children[level + 1] = 0;
        tree->due[tree->pending++] = level + 1;
        tree->due[tree->pending++] = level + 1;
        return;
    }
    seen->stations = node->stations;
    tree->set |= node->stations & range;
    seen->deep = node->depths != NULL;
    for (int s = 0; s < NUXALDER_STATIONS && node->depths; s++)
        if (node->stations >> s & 1) seen->depth[s] = node->depths[s];
}

void tree_of_index(struct tree *tree, const nuxalder_drive_index *index, void *object)
{
    begin(tree);
    index->walk(object, visit, tree);
    if (tree->pending) tree->bad = true;
}

static void walk_state(struct tree *tree, const uint8_t *state, int number, int level)
{
    static const int kinds[] = {[NUXALDER_NORMAL] = NUXALDER_DRIVE_NORMAL,       [NUXALDER_ROUTE] = NUXALDER_DRIVE_ROUTE,
                                [NUXALDER_MAIN] = NUXALDER_DRIVE_MAIN,           [NUXALDER_NEIGHBOUR] = NUXALDER_DRIVE_NEIGHBOUR,
                                [NUXALDER_RANGE_BASE] = NUXALDER_DRIVE_RANGE};
    const uint8_t *of = nuxalder_state_node(state, number);
    uint16_t depths[NUXALDER_STATIONS];
    nuxalder_drive_node node = {.level = level, .kind = kinds[of[NUXALDER_NODE_KIND]]};
    if (node.kind == NUXALDER_DRIVE_ROUTE) {
        node.key = of[NUXALDER_NODE_KEY];
        node.valid = of[NUXALDER_NODE_VALID] ? 1 : -1;
        node.marked = nuxalder_state_link(of + NUXALDER_NODE_MARK) >= 0 ? 1 : -1;
        visit(tree, &node);
        walk_state(tree, state, of[NUXALDER_NODE_LEFT], level + 1);
        walk_state(tree, state, of[NUXALDER_NODE_RIGHT], level + 1);
        return;
    }
    for (int s = 0; s < NUXALDER_STATIONS; s++) depths[s] = (uint16_t)nuxalder_state_two(of + NUXALDER_NODE_DEPTHS + 2 * s);
    node.stations = nuxalder_state_word(of + NUXALDER_NODE_CONTAINER);
    node.depths = depths;
    visit(tree, &node);
}

void tree_of_state(struct tree *tree, const uint8_t *state)
{
    begin(tree);
    walk_state(tree, state, state[NUXALDER_HEAD_ROOT], 0);
}

/* An index that does not tell of a field agrees with either. */
static bool same(int has, int mine) { return mine == 0 || has == (mine > 0 ? 1 : -1); }

int tree_differs(const struct tree *bench, const struct tree *index, bool depths)
{
    for (int i = 0; i < bench->nodes && i < index->nodes; i++) {
        const struct seen *a = &bench->node[i], *b = &index->node[i];
        if (a->level != b->level || a->kind != b->kind || a->key != b->key || a->stations != b->stations) return i;
        if (a->kind == NUXALDER_DRIVE_ROUTE && !same(a->valid, b->valid)) return i;
        if (depths && b->deep && memcmp(a->depth, b->depth, sizeof a->depth)) return i;
    }
    return bench->nodes == index->nodes ? -1 : bench->nodes < index->nodes ? bench->nodes : index->nodes;
}

int marks_differ(const struct tree *bench, const struct tree *index)
{
    for (int i = 0; i < bench->nodes && i < index->nodes; i++)
        if (bench->node[i].kind == NUXALDER_DRIVE_ROUTE && !same(bench->node[i].marked, index->node[i].marked)) return i;
    return -1;
}

int marks_of(const struct tree *tree)
{
    int marks = 0;
    for (int i = 0; i < tree->nodes; i++) marks += tree->node[i].marked > 0;
    return marks;
}

bool tells_marks(const struct tree *tree)
{
    for (int i = 0; i < tree->nodes; i++)
        if (tree->node[i].marked) return true;
    return false;
}

void tree_line(const struct tree *tree, int at, bool depths, bool valid, char line[LINE_MOST])
{
    if (at >= tree->nodes) {
        strcpy(line, "nothing");
        return;
    }
    const struct seen *seen = &tree->node[at];
    int used = snprintf(line, LINE_MOST, "%d %s", seen->level, kind_words[seen->kind]);
    if (seen->kind == NUXALDER_DRIVE_ROUTE) {
        snprintf(line + used, (size_t)(LINE_MOST - used), " %d%s", seen->key, !valid || !seen->valid ? "" : seen->valid > 0 ? ", valid" : ", not valid");
        return;
    }
    if (!seen->stations) strcpy(line + used, " -");
    for (int s = 0; s < NUXALDER_STATIONS; s++) {
        if (!(seen->stations >> s & 1)) continue;
        used += snprintf(line + used, (size_t)(LINE_MOST - used), " %d", s);
        if (depths && seen->deep) used += snprintf(line + used, (size_t)(LINE_MOST - used), "=%d", seen->depth[s]);
    }
}
