/* The peer interpreter: reads the image into structs once, checking it, then runs the commands from the image's bytes. */
#include "peer.h"

#include <string.h>

enum { ATOM = PEER_ATOM_BYTES, ATOMS = PEER_MOST_ATOMS, LABEL = PEER_LABEL_BYTES, ELEMENTS = 8, ANY = 6 };
enum { NODE = PEER_NODE_BYTES, EDGE = PEER_EDGE_BYTES, RECORD = PEER_RECORD_BYTES };
enum { NODE_HEAD = PEER_NODE_HEAD, EDGE_HEAD = PEER_EDGE_HEAD, RECORD_HEAD = PEER_RECORD_HEAD };

/* Programs. */

struct operand {
    int variable; /* 0: a constant, in value; 1: the variable of number value */
    uint32_t value;
};

struct element {
    uint8_t kind; /* the image's tag */
    struct operand a, b;
};

struct item {
    uint8_t mark, root, source, target, length;
    struct element label[ELEMENTS];
};

struct side {
    unsigned nodes, edges;
    struct item node[6], edge[6];
};

struct test {
    uint8_t negated, kind, first, second;
    uint32_t number;
    struct operand a, b;
};

struct rule {
    unsigned variables, interface, tests;
    int preserving; /* an unrooted left node takes a root too, which stays one where the right node is unrooted */
    uint8_t type[6];
    struct side left, right;
    struct test test[4];
};

struct program {
    unsigned rules;
    struct rule rule[32];
    unsigned procedures;
    const uint8_t *procedure[16], *main; /* the fields of the commands of procedures, and of the main command */
};

/* What is wrong with an image: the numbers 16, 17 and 18. 19 is asked of images without these alone. */
struct faults {
    int form, references, placement;
};

struct reader {
    const uint8_t *at, *end;
};

static uint32_t number(const uint8_t *p, unsigned n)
{
    uint32_t x = 0;
    for (unsigned i = 0; i < n; i++)
        x = x << 8 | p[i];
    return x;
}

/* Takes the next field; its tag, or -1 and an empty payload where there is none that is whole. */
static int next(struct reader *r, struct reader *payload)
{
    payload->at = payload->end = r->end;
    if (r->end - r->at < 3)
        return -1;
    size_t n = number(r->at + 1, 2);
    if ((size_t)(r->end - r->at) - 3 < n)
        return -1;
    int tag = r->at[0];
    payload->at = r->at + 3;
    payload->end = payload->at + n;
    r->at = payload->end;
    return tag;
}

static size_t left(const struct reader *r)
{
    return (size_t)(r->end - r->at);
}

static int read_operand(int tag, struct reader p, struct operand *o)
{
    if (tag == 0x30 && left(&p) == 4) {
        *o = (struct operand){0, number(p.at, 4)};
        return 1;
    }
    if (tag == 0x31 && left(&p) == 1) {
        *o = (struct operand){1, p.at[0]};
        return 1;
    }
    return 0;
}

static int read_two(struct reader p, struct operand *a, struct operand *b)
{
    struct reader q;
    int tag = next(&p, &q);
    if (!read_operand(tag, q, a))
        return 0;
    tag = next(&p, &q);
    return read_operand(tag, q, b) && left(&p) == 0;
}

static int read_label(struct reader p, struct item *m)
{
    m->length = 0;
    while (left(&p) > 0) {
        struct reader q;
        int tag = next(&p, &q);
        if (m->length == ELEMENTS)
            return 0;
        struct element *e = &m->label[m->length++];
        e->kind = (uint8_t)tag;
        if (tag == 0x32 || tag == 0x33) {
            if (!read_two(q, &e->a, &e->b))
                return 0;
        } else if (!read_operand(tag, q, &e->a)) {
            return 0;
        }
    }
    return 1;
}

static int read_side(struct reader p, struct side *s)
{
    s->nodes = s->edges = 0;
    while (left(&p) > 0) {
        struct reader q;
        int tag = next(&p, &q);
        if (tag == 0x20 && s->edges == 0 && s->nodes < 6) {
            struct item *m = &s->node[s->nodes++];
            if (left(&q) < 2 || !(q.at[0] <= 4 || q.at[0] == ANY) || q.at[1] > 1)
                return 0;
            m->mark = q.at[0];
            m->root = q.at[1];
            q.at += 2;
            if (!read_label(q, m))
                return 0;
        } else if (tag == 0x21 && s->edges < 6) {
            struct item *m = &s->edge[s->edges++];
            if (left(&q) < 3 || !(q.at[0] <= 3 || q.at[0] == 5 || q.at[0] == ANY))
                return 0;
            m->mark = q.at[0];
            m->source = q.at[1];
            m->target = q.at[2];
            q.at += 3;
            if (!read_label(q, m))
                return 0;
        } else {
            return 0;
        }
    }
    return 1;
}

static int read_test(int tag, struct reader p, struct test *t)
{
    if (left(&p) < 1 || p.at[0] > 1)
        return 0;
    t->negated = p.at[0];
    t->kind = (uint8_t)tag;
    p.at++;
    if (tag == 0x40 && left(&p) == 2) {
        t->first = p.at[0];
        t->second = p.at[1];
        return 1;
    }
    if ((tag == 0x41 || tag == 0x42) && left(&p) == 3) {
        t->first = p.at[0];
        t->number = number(p.at + 1, 2);
        return 1;
    }
    if (tag == 0x43 && left(&p) >= 1 && (p.at[0] == 1 || p.at[0] == 2)) {
        t->first = p.at[0];
        p.at++;
        return read_two(p, &t->a, &t->b);
    }
    return 0;
}

/* The sixth field, where there is one: 1 for preserving, or 0. */
static int read_mode(struct reader p, struct rule *r)
{
    struct reader mode;
    r->preserving = 0;
    if (left(&p) == 0)
        return 1;
    if (next(&p, &mode) != 0x16 || left(&p) > 0 || left(&mode) != 1 || mode.at[0] > 1)
        return 0;
    r->preserving = mode.at[0];
    return 1;
}

static int read_rule(struct reader p, struct rule *r)
{
    struct reader part[5];
    for (int i = 0; i < 5; i++)
        if (next(&p, &part[i]) != 0x11 + i)
            return 0;
    if (!read_mode(p, r) || left(&part[0]) > 6 || left(&part[3]) != 1)
        return 0;
    r->variables = (unsigned)left(&part[0]);
    for (unsigned v = 0; v < r->variables; v++) {
        r->type[v] = part[0].at[v];
        if (r->type[v] != 1 && r->type[v] != 2)
            return 0;
    }
    if (!read_side(part[1], &r->left) || !read_side(part[2], &r->right))
        return 0;
    r->interface = part[3].at[0];
    r->tests = 0;
    while (left(&part[4]) > 0) {
        struct reader q;
        int tag = next(&part[4], &q);
        if (r->tests == 4 || !read_test(tag, q, &r->test[r->tests++]))
            return 0;
    }
    return 1;
}

/* References. */

static int is_int(const struct rule *r, const struct operand *o)
{
    return !o->variable || (o->value < r->variables && r->type[o->value] == 1);
}

/* the variables that a side's labels name, as bits; 1 << 8 where one does not exist */
static unsigned names(const struct rule *r, const struct operand *o)
{
    return !o->variable ? 0 : o->value < r->variables ? 1u << o->value : 1u << 8;
}

static unsigned label_names(const struct rule *r, const struct item *m)
{
    unsigned all = 0;
    for (unsigned i = 0; i < m->length; i++) {
        const struct element *e = &m->label[i];
        all |= names(r, &e->a);
        if (e->kind >= 0x32)
            all |= names(r, &e->b);
    }
    return all;
}

static unsigned side_names(const struct rule *r, const struct side *s)
{
    unsigned all = 0;
    for (unsigned i = 0; i < s->nodes; i++)
        all |= label_names(r, &s->node[i]);
    for (unsigned i = 0; i < s->edges; i++)
        all |= label_names(r, &s->edge[i]);
    return all;
}

static int label_fine(const struct rule *r, const struct item *m, int on_left)
{
    unsigned lists = 0;
    for (unsigned i = 0; i < m->length; i++) {
        const struct element *e = &m->label[i];
        if (e->kind >= 0x32 && (on_left || !is_int(r, &e->a) || !is_int(r, &e->b)))
            return 0;
        if (e->kind == 0x31 && e->a.value < r->variables && r->type[e->a.value] == 2)
            lists++;
    }
    return !on_left || lists <= 1;
}

static int side_fine(const struct rule *r, const struct side *s, int on_left)
{
    for (unsigned i = 0; i < s->nodes; i++) {
        if (!label_fine(r, &s->node[i], on_left))
            return 0;
        if (!on_left && s->node[i].mark == ANY && !(i < r->interface && r->left.node[i].mark == ANY))
            return 0;
    }
    for (unsigned i = 0; i < s->edges; i++) {
        const struct item *e = &s->edge[i];
        if (e->source >= s->nodes || e->target >= s->nodes || !label_fine(r, e, on_left) ||
            (!on_left && e->mark == ANY))
            return 0;
    }
    return 1;
}

static int rule_fine(const struct rule *r)
{
    if (r->interface > r->left.nodes || r->interface > r->right.nodes)
        return 0;
    if (!side_fine(r, &r->left, 1) || !side_fine(r, &r->right, 0))
        return 0;
    unsigned known = side_names(r, &r->left), used = known | side_names(r, &r->right);
    for (unsigned i = 0; i < r->tests; i++) {
        const struct test *t = &r->test[i];
        if (t->kind == 0x43) {
            if (!is_int(r, &t->a) || !is_int(r, &t->b))
                return 0;
            used |= names(r, &t->a) | names(r, &t->b);
        } else if (t->first >= r->left.nodes || (t->kind == 0x40 && t->second >= r->left.nodes)) {
            return 0;
        }
    }
    return used == known && known < 1u << 8;
}

/*
 * The tags of a call, which has the number of a procedure, and of a guarded command, which has a byte before its three
 * commands: 1 where a successful guard's changes stay, or 0.
 */
enum { CALL = 0x58, GUARDED = 0x59 };

static int is_command(int tag)
{
    return tag == 0x50 || tag == 0x51 || (tag >= 0x54 && tag <= GUARDED);
}

/* Commands: form, numbers of rules and procedures, and breaks, in one walk. */
static void read_command(int tag, struct reader p, const struct program *q, int depth, int in_loop, struct faults *f)
{
    if (depth > 16 || !is_command(tag)) {
        f->form = 1;
        return;
    }
    if (tag == 0x50) {
        if (left(&p) < 1 || left(&p) > 8)
            f->form = 1;
        for (; p.at < p.end; p.at++)
            f->references |= *p.at >= q->rules;
        return;
    }
    if (tag >= 0x55 && tag <= 0x57) {
        f->form |= left(&p) > 0;
        f->placement |= tag == 0x57 && !in_loop;
        return;
    }
    if (tag == CALL) {
        f->form |= left(&p) != 1;
        f->references |= left(&p) > 0 && *p.at >= q->procedures;
        return;
    }
    if (tag == GUARDED && (left(&p) == 0 || *p.at++ > 1)) {
        f->form = 1;
        return;
    }
    unsigned n = 0;
    while (left(&p) > 0 && !f->form) {
        struct reader part;
        int inner = next(&p, &part);
        int loop = tag == 0x54 ? 1 : tag == GUARDED && n == 0 ? 0 : in_loop;
        read_command(inner, part, q, depth + 1, loop, f);
        n++;
    }
    if (tag == 0x51 ? n < 1 || n > 16 : n != (tag == 0x54 ? 1 : 3))
        f->form = 1;
}

/* One command and nothing behind it. */
static void read_whole(struct reader p, const struct program *q, struct faults *f)
{
    struct reader part;
    int tag = next(&p, &part);
    if (tag < 0 || left(&p) > 0) {
        f->form = 1;
        return;
    }
    read_command(tag, part, q, 1, 0, f);
}

static void read_program(struct reader p, struct program *q, struct faults *f)
{
    struct reader part;
    q->rules = 0;
    while (left(&p) > 0 && p.at[0] == 0x10 && q->rules < 32) {
        if (next(&p, &part) < 0 || !read_rule(part, &q->rule[q->rules])) {
            f->form = 1;
            return;
        }
        f->references |= !rule_fine(&q->rule[q->rules++]);
    }
    struct reader body[16];
    q->procedures = 0;
    while (left(&p) > 0 && p.at[0] == 0x17 && q->procedures < 16) {
        f->form |= next(&p, &body[q->procedures]) < 0;
        if (f->form)
            return;
        q->procedures++;
    }
    q->main = p.at;
    read_whole(p, q, f);
    for (unsigned i = 0; i < q->procedures; i++) {
        q->procedure[i] = body[i].at;
        read_whole(body[i], q, f);
    }
}

/*
 * How many levels commands come to with each call replaced by its procedure, in an image in which nothing else is wrong.
 * `levels` has those of the procedures that are known, and DEEP for those that are being looked into, so that a ring is too deep.
 */
enum { UNKNOWN = 0, DEEP = 17 };

static unsigned procedure_height(const struct program *q, unsigned n, unsigned *levels);

static unsigned height(const struct program *q, const uint8_t *p, unsigned *levels)
{
    const uint8_t *at = p + 3, *end = at + number(p + 1, 2);
    unsigned most = 0;
    if (p[0] == CALL)
        return 1 + procedure_height(q, *at, levels);
    if (p[0] == 0x50)
        return 1;
    for (at += p[0] == GUARDED; at < end; at += 3 + number(at + 1, 2)) {
        unsigned inside = height(q, at, levels);
        most = inside > most ? inside : most;
    }
    return 1 + most;
}

static unsigned procedure_height(const struct program *q, unsigned n, unsigned *levels)
{
    if (levels[n] == UNKNOWN) {
        levels[n] = DEEP;
        levels[n] = height(q, q->procedure[n], levels);
    }
    return levels[n];
}

static int too_deep(const struct program *q)
{
    unsigned levels[16] = {UNKNOWN};
    for (unsigned n = 0; n < q->procedures; n++)
        if (procedure_height(q, n, levels) >= DEEP)
            return 1;
    return height(q, q->main, levels) >= DEEP;
}

/* Hosts. */

struct host {
    uint8_t *nodes, *edges, *journal;
    unsigned node_slots, edge_slots, room, records;
};

static int zeros(const uint8_t *p, size_t n)
{
    while (n > 0 && *p == 0)
        p++, n--;
    return n == 0;
}

static int label_keeps_layout(unsigned length, const uint8_t *atoms)
{
    return length <= ATOMS && zeros(atoms + ATOM * length, LABEL - ATOM * length);
}

static int keeps_layout(const struct host *h)
{
    for (unsigned i = 0; i < h->node_slots; i++) {
        const uint8_t *p = h->nodes + i * NODE;
        if (p[0] == 0 ? !zeros(p, NODE)
                      : p[0] != 1 || p[1] > 4 || p[2] > 1 || !label_keeps_layout(p[3], p + NODE_HEAD))
            return 0;
    }
    for (unsigned i = 0; i < h->edge_slots; i++) {
        const uint8_t *p = h->edges + i * EDGE;
        if (p[0] == 0) {
            if (!zeros(p, EDGE))
                return 0;
            continue;
        }
        unsigned s = number(p + 4, 2), t = number(p + 6, 2);
        if (p[0] != 1 || !(p[1] <= 3 || p[1] == 5) || p[2] != 0 || !label_keeps_layout(p[3], p + EDGE_HEAD))
            return 0;
        if (s >= h->node_slots || t >= h->node_slots || h->nodes[s * NODE] != 1 || h->nodes[t * NODE] != 1)
            return 0;
    }
    return 1;
}

/* Matching. */

struct value {
    unsigned length;
    uint32_t atom[ATOMS];
};

struct search {
    const struct host *host;
    const struct rule *rule;
    unsigned slot[12];
    struct value value[6];
    uint8_t given[6]; /* whether a variable has its value */
};

static uint32_t atom_of(const struct search *s, const struct operand *o)
{
    return o->variable ? s->value[o->value].atom[0] : o->value;
}

/* whether a label agrees, giving values to the variables that have none; `fresh` says to which */
static int label_agrees(struct search *s, const struct item *m, unsigned length, const uint8_t *atoms, unsigned *fresh)
{
    const struct rule *r = s->rule;
    unsigned lists = 0;
    for (unsigned i = 0; i < m->length; i++)
        lists += m->label[i].kind == 0x31 && r->type[m->label[i].a.value] == 2;
    if (lists == 0 ? length != m->length : length < m->length - 1u)
        return 0;
    unsigned spare = length - (m->length - lists);
    for (unsigned i = 0; i < m->length; i++) {
        const struct element *e = &m->label[i];
        if (e->kind == 0x30) {
            if (number(atoms, ATOM) != e->a.value)
                return 0;
            atoms += ATOM;
            continue;
        }
        unsigned v = e->a.value, n = r->type[v] == 2 ? spare : 1;
        if (!s->given[v]) {
            s->value[v].length = n;
            for (unsigned j = 0; j < n; j++)
                s->value[v].atom[j] = number(atoms + ATOM * j, ATOM);
            s->given[v] = 1;
            *fresh |= 1u << v;
        } else {
            if (s->value[v].length != n)
                return 0;
            for (unsigned j = 0; j < n; j++)
                if (s->value[v].atom[j] != number(atoms + ATOM * j, ATOM))
                    return 0;
        }
        atoms += ATOM * n;
    }
    return 1;
}

static int live_edge(const struct host *h, unsigned x)
{
    return h->edges[x * EDGE] == 1;
}

static unsigned source(const struct host *h, unsigned x)
{
    return number(h->edges + x * EDGE + 4, 2);
}

static unsigned target(const struct host *h, unsigned x)
{
    return number(h->edges + x * EDGE + 6, 2);
}

static int marks_agree(unsigned mark, unsigned host_mark)
{
    return mark == ANY || mark == host_mark;
}

static int roots_agree(const struct rule *r, unsigned root, unsigned host_root)
{
    return root == host_root || (r->preserving && root == 0);
}

static int test_holds(const struct search *s, const struct test *t)
{
    const struct host *h = s->host;
    unsigned a = t->kind == 0x43 ? 0 : s->slot[t->first], n = 0;
    int holds = 0;
    switch (t->kind) {
    case 0x40:
        for (unsigned x = 0; x < h->edge_slots && !holds; x++)
            holds = live_edge(h, x) && source(h, x) == a && target(h, x) == s->slot[t->second];
        break;
    case 0x41:
        for (unsigned x = 0; x < h->edge_slots; x++)
            n += live_edge(h, x) && target(h, x) == a;
        holds = n == t->number;
        break;
    case 0x42:
        for (unsigned x = 0; x < h->edge_slots; x++)
            n += live_edge(h, x) && source(h, x) == a;
        holds = n == t->number;
        break;
    default:
        holds = t->first == 1 ? atom_of(s, &t->a) == atom_of(s, &t->b)
                              : (int32_t)atom_of(s, &t->a) < (int32_t)atom_of(s, &t->b);
    }
    return holds != t->negated;
}

/* whether a test can be decided when the first `placed` items are placed, but not before */
static int has_variable(const struct item *m, unsigned v)
{
    for (unsigned i = 0; i < m->length; i++)
        if (m->label[i].kind == 0x31 && m->label[i].a.value == v)
            return 1;
    return 0;
}

static unsigned decided_by(const struct rule *r, const struct operand *o)
{
    if (!o->variable)
        return 0;
    for (unsigned i = 0; i < r->left.nodes; i++)
        if (has_variable(&r->left.node[i], o->value))
            return i + 1;
    for (unsigned i = 0; i < r->left.edges; i++)
        if (has_variable(&r->left.edge[i], o->value))
            return r->left.nodes + i + 1;
    return 0;
}

static unsigned max(unsigned a, unsigned b)
{
    return a > b ? a : b;
}

static unsigned decided_at(const struct rule *r, const struct test *t)
{
    if (t->kind == 0x43)
        return max(decided_by(r, &t->a), decided_by(r, &t->b));
    return t->kind == 0x40 ? max(t->first, t->second) + 1u : t->first + 1u;
}

static int tests_so_far(const struct search *s, unsigned placed)
{
    for (unsigned i = 0; i < s->rule->tests; i++)
        if (decided_at(s->rule, &s->rule->test[i]) == placed && !test_holds(s, &s->rule->test[i]))
            return 0;
    return 1;
}

static int joins(const struct search *s, const struct item *e, unsigned x)
{
    const struct host *h = s->host;
    return live_edge(h, x) && source(h, x) == s->slot[e->source] && target(h, x) == s->slot[e->target] &&
           marks_agree(e->mark, h->edges[x * EDGE + 1]);
}

static int linked(const struct search *s, unsigned i)
{
    for (unsigned k = 0; k < s->rule->left.edges; k++) {
        const struct item *e = &s->rule->left.edge[k];
        if (max(e->source, e->target) != i)
            continue;
        unsigned x = 0;
        while (x < s->host->edge_slots && !joins(s, e, x))
            x++;
        if (x == s->host->edge_slots)
            return 0;
    }
    return 1;
}

static int can_go(const struct search *s, unsigned i, unsigned c)
{
    const struct host *h = s->host;
    unsigned own = 0, there = 0;
    if (i < s->rule->interface)
        return 1;
    for (unsigned k = 0; k < s->rule->left.edges; k++)
        own += s->rule->left.edge[k].source == i || s->rule->left.edge[k].target == i;
    for (unsigned x = 0; x < h->edge_slots; x++)
        there += live_edge(h, x) && (source(h, x) == c || target(h, x) == c);
    return there <= own;
}

static int dangling(const struct search *s)
{
    const struct host *h = s->host;
    const struct rule *r = s->rule;
    for (unsigned x = 0; x < h->edge_slots; x++) {
        if (!live_edge(h, x))
            continue;
        for (unsigned j = r->interface; j < r->left.nodes; j++) {
            if (source(h, x) != s->slot[j] && target(h, x) != s->slot[j])
                continue;
            unsigned k = 0;
            while (k < r->left.edges && s->slot[r->left.nodes + k] != x)
                k++;
            if (k == r->left.edges)
                return 1;
        }
    }
    return 0;
}

static int node_fits(struct search *s, unsigned i, unsigned c, unsigned *fresh)
{
    const uint8_t *p = s->host->nodes + c * NODE;
    const struct item *m = &s->rule->left.node[i];
    if (p[0] != 1 || !marks_agree(m->mark, p[1]) || !roots_agree(s->rule, m->root, p[2]))
        return 0;
    for (unsigned j = 0; j < i; j++)
        if (s->slot[j] == c)
            return 0;
    if (!label_agrees(s, m, p[3], p + NODE_HEAD, fresh))
        return 0;
    s->slot[i] = c;
    return linked(s, i) && can_go(s, i, c) && tests_so_far(s, i + 1);
}

static int edge_fits(struct search *s, unsigned k, unsigned x, unsigned *fresh)
{
    const struct rule *r = s->rule;
    const uint8_t *p = s->host->edges + x * EDGE;
    const struct item *m = &r->left.edge[k];
    if (!joins(s, m, x))
        return 0;
    for (unsigned j = 0; j < k; j++)
        if (s->slot[r->left.nodes + j] == x)
            return 0;
    if (!label_agrees(s, m, p[3], p + EDGE_HEAD, fresh))
        return 0;
    s->slot[r->left.nodes + k] = x;
    return tests_so_far(s, r->left.nodes + k + 1);
}

/*
 * Marks the slots that left node i can have by its first left edge to an earlier node; 0 where it has no such edge, so that
 * every slot is a candidate.
 */
static int reach(const struct search *s, unsigned i, uint8_t reached[PEER_MOST_NODES])
{
    const struct host *h = s->host;
    const struct item *e = s->rule->left.edge, *end = e + s->rule->left.edges;
    while (e < end && (max(e->source, e->target) != i || e->source == e->target))
        e++;
    if (e == end)
        return 0;
    memset(reached, 0, h->node_slots);
    for (unsigned x = 0; x < h->edge_slots; x++) {
        if (!live_edge(h, x) || !marks_agree(e->mark, h->edges[x * EDGE + 1]))
            continue;
        if (e->target == i && source(h, x) == s->slot[e->source])
            reached[target(h, x)] = 1;
        if (e->source == i && target(h, x) == s->slot[e->target])
            reached[source(h, x)] = 1;
    }
    return 1;
}

/* whether item i and those behind it can be placed */
static int place(struct search *s, unsigned i)
{
    const struct rule *r = s->rule;
    unsigned n = r->left.nodes;
    if (i == n + r->left.edges) {
        for (unsigned t = 0; t < r->tests; t++)
            if (!test_holds(s, &r->test[t]))
                return 0;
        return r->interface == n || !dangling(s);
    }
    uint8_t reached[PEER_MOST_NODES];
    int some = i < n && reach(s, i, reached);
    unsigned most = i < n ? s->host->node_slots : s->host->edge_slots;
    for (unsigned c = 0; c < most; c++) {
        unsigned fresh = 0;
        if (some && !reached[c])
            continue;
        if ((i < n ? node_fits(s, i, c, &fresh) : edge_fits(s, i - n, c, &fresh)) && place(s, i + 1))
            return 1;
        for (unsigned v = 0; fresh != 0; v++, fresh >>= 1)
            if (fresh & 1)
                s->given[v] = 0;
    }
    return 0;
}

static int first_match(struct search *s)
{
    memset(s->given, 0, sizeof s->given);
    return place(s, 0);
}

/* Applying. */

static void record(struct host *h, unsigned kind, unsigned slot)
{
    uint8_t *p = h->journal + h->records++ * RECORD;
    p[0] = (uint8_t)kind;
    p[1] = 0;
    p[2] = (uint8_t)(slot >> 8);
    p[3] = (uint8_t)slot;
    if (kind == 1) {
        memcpy(p + RECORD_HEAD, h->nodes + slot * NODE, NODE);
        memset(p + RECORD_HEAD + NODE, 0, EDGE - NODE);
    } else {
        memcpy(p + RECORD_HEAD, h->edges + slot * EDGE, EDGE);
    }
}

static int label_value(const struct search *s, const struct item *m, struct value *v)
{
    v->length = 0;
    for (unsigned i = 0; i < m->length; i++) {
        const struct element *e = &m->label[i];
        struct value part = {1, {0}};
        int64_t x;
        switch (e->kind) {
        case 0x30:
            part.atom[0] = e->a.value;
            break;
        case 0x31:
            part = s->value[e->a.value];
            break;
        default:
            x = (int64_t)(int32_t)atom_of(s, &e->b);
            x = (int64_t)(int32_t)atom_of(s, &e->a) + (e->kind == 0x32 ? x : -x);
            if (x != (int32_t)x)
                return 0;
            part.atom[0] = (uint32_t)x;
        }
        if (v->length + part.length > ATOMS)
            return 0;
        for (unsigned j = 0; j < part.length; j++)
            v->atom[v->length++] = part.atom[j];
    }
    return 1;
}

static void put_label(uint8_t *length, uint8_t *atoms, const struct value *v)
{
    *length = (uint8_t)v->length;
    memset(atoms, 0, LABEL);
    for (unsigned j = 0; j < v->length; j++)
        for (unsigned b = 0; b < ATOM; b++)
            atoms[ATOM * j + b] = (uint8_t)(v->atom[j] >> (24 - 8 * b));
}

static unsigned free_slots(const uint8_t *table, unsigned slots, unsigned size)
{
    unsigned n = 0;
    for (unsigned i = 0; i < slots; i++)
        n += table[i * size] == 0;
    return n;
}

static unsigned lowest_free(const uint8_t *table, unsigned size)
{
    unsigned i = 0;
    while (table[i * size] != 0)
        i++;
    return i;
}

/* a node of the right side; the flag of the slot stays where `keeps_flag` says so */
static void put_node(struct host *h, unsigned slot, const struct item *m, const struct value *v, int keeps_flag)
{
    uint8_t *p = h->nodes + slot * NODE;
    record(h, 1, slot);
    p[0] = 1;
    if (m->mark != ANY)
        p[1] = m->mark;
    if (!keeps_flag)
        p[2] = m->root;
    put_label(p + 3, p + NODE_HEAD, v);
}

/* 0, or the number that ends the run */
static unsigned apply(struct host *h, const struct search *s)
{
    const struct rule *r = s->rule;
    const struct side *to = &r->right;
    unsigned n = r->left.nodes, m = r->left.edges, k = r->interface, place[6];
    struct value value[12];
    for (unsigned j = 0; j < to->nodes + to->edges; j++)
        if (!label_value(s, j < to->nodes ? &to->node[j] : &to->edge[j - to->nodes], &value[j]))
            return 6;
    if (n < to->nodes && free_slots(h->nodes, h->node_slots, NODE) + (n - k) < to->nodes - k)
        return 3;
    if (m < to->edges && free_slots(h->edges, h->edge_slots, EDGE) + m < to->edges)
        return 4;
    if (h->records + m + n + (to->nodes - k) + to->edges > h->room)
        return 5;
    for (unsigned e = 0; e < m; e++) {
        record(h, 2, s->slot[n + e]);
        memset(h->edges + s->slot[n + e] * EDGE, 0, EDGE);
    }
    for (unsigned i = 0; i < n; i++) {
        if (i < k) {
            int unrooted = r->left.node[i].root == 0 && to->node[i].root == 0;
            put_node(h, place[i] = s->slot[i], &to->node[i], &value[i], r->preserving && unrooted);
        } else {
            record(h, 1, s->slot[i]);
            memset(h->nodes + s->slot[i] * NODE, 0, NODE);
        }
    }
    for (unsigned j = k; j < to->nodes; j++)
        put_node(h, place[j] = lowest_free(h->nodes, NODE), &to->node[j], &value[j], 0);
    for (unsigned j = 0; j < to->edges; j++) {
        const struct item *e = &to->edge[j];
        unsigned x = lowest_free(h->edges, EDGE), a = place[e->source], b = place[e->target];
        uint8_t *p = h->edges + x * EDGE;
        record(h, 2, x);
        p[0] = 1;
        p[1] = e->mark;
        p[4] = (uint8_t)(a >> 8);
        p[5] = (uint8_t)a;
        p[6] = (uint8_t)(b >> 8);
        p[7] = (uint8_t)b;
        put_label(p + 3, p + EDGE_HEAD, &value[to->nodes + j]);
    }
    return 0;
}

/* Commands. An end is DONE, FAILED, BROKE or the number that ends the run. */

enum { DONE = 0, FAILED = 1, BROKE = 100 };

struct run {
    struct host host;
    struct program *program;
    uint32_t fuel, steps;
};

static void undo_to(struct host *h, unsigned mark)
{
    while (h->records > mark) {
        uint8_t *p = h->journal + --h->records * RECORD;
        unsigned slot = number(p + 2, 2);
        if (p[0] == 1)
            memcpy(h->nodes + slot * NODE, p + RECORD_HEAD, NODE);
        else
            memcpy(h->edges + slot * EDGE, p + RECORD_HEAD, EDGE);
        memset(p, 0, RECORD);
    }
}

static unsigned call(struct run *run, const uint8_t *rules, size_t n)
{
    struct search s = {.host = &run->host};
    for (size_t i = 0; i < n; i++) {
        s.rule = &run->program->rule[rules[i]];
        if (first_match(&s))
            return apply(&run->host, &s);
    }
    return FAILED;
}

static unsigned command(struct run *run, const uint8_t *p)
{
    size_t n = number(p + 1, 2);
    const uint8_t *body = p + 3, *end = body + n, *first, *second, *third;
    unsigned mark = run->host.records, e;
    if (run->fuel == 0)
        return 2;
    run->fuel--;
    run->steps++;
    switch (p[0]) {
    case 0x50:
        return call(run, body, n);
    case 0x51:
        for (; body < end; body += 3 + number(body + 1, 2))
            if ((e = command(run, body)) != DONE)
                return e;
        return DONE;
    case GUARDED:
        first = body + 1;
        second = first + 3 + number(first + 1, 2);
        third = second + 3 + number(second + 1, 2);
        e = command(run, first);
        if (e != DONE && e != FAILED)
            return e;
        if (e == FAILED || body[0] == 0)
            undo_to(&run->host, mark);
        return command(run, e == DONE ? second : third);
    case 0x54:
        for (;;) {
            mark = run->host.records;
            e = command(run, body);
            if (e == FAILED)
                undo_to(&run->host, mark);
            if (e == FAILED || e == BROKE)
                return DONE;
            if (e != DONE)
                return e;
        }
    case 0x55:
        return DONE;
    case 0x56:
        return FAILED;
    case CALL:
        return command(run, run->program->procedure[*body]);
    default:
        return BROKE;
    }
}

/* The calls. */

static void put_report(uint8_t *report, uint32_t steps, uint32_t records)
{
    for (unsigned b = 0; b < 4; b++) {
        report[b] = (uint8_t)(steps >> (24 - 8 * b));
        report[4 + b] = (uint8_t)(records >> (24 - 8 * b));
    }
}

static unsigned refusal(const struct host *h, size_t nodes, size_t edges, size_t journal, struct reader image, uint32_t fuel,
                        struct program *program)
{
    struct faults f = {0, 0, 0};
    if (nodes % NODE != 0 || nodes / NODE > PEER_MOST_NODES)
        return 10;
    if (edges % EDGE != 0 || edges / EDGE > PEER_MOST_EDGES)
        return 11;
    if (journal % RECORD != 0 || journal / RECORD > PEER_MOST_RECORDS)
        return 12;
    if (fuel > 1000000)
        return 13;
    if (left(&image) > 8192)
        return 14;
    if (!keeps_layout(h))
        return 15;
    read_program(image, program, &f);
    return f.form ? 16 : f.references ? 17 : f.placement ? 18 : too_deep(program) ? 19 : 0;
}

uint32_t peer_run(uint8_t *nodes, size_t nodes_length, uint8_t *edges, size_t edges_length, uint8_t *journal,
                  size_t journal_length, const uint8_t *image, size_t image_length, uint32_t fuel, uint8_t *report,
                  size_t report_length)
{
    struct program program;
    struct run run = {.host = {nodes, edges, journal, (unsigned)(nodes_length / NODE), (unsigned)(edges_length / EDGE),
                               (unsigned)(journal_length / RECORD), 0},
                      .program = &program,
                      .fuel = fuel};
    if (report_length != 8)
        return 9;
    unsigned number = refusal(&run.host, nodes_length, edges_length, journal_length,
                              (struct reader){image, image + image_length}, fuel, &program);
    if (number != 0) {
        put_report(report, 0, 0);
        return number;
    }
    memset(journal, 0, journal_length);
    number = command(&run, program.main);
    if (number != DONE)
        undo_to(&run.host, 0);
    put_report(report, run.steps, run.host.records);
    return number;
}
