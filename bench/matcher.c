/* A plain matcher in C with the pruning of the proved one, over the same tables, to time the two side by side.
 *
 * It reads one case from standard input (a field 0x07 that holds nodes, edges, program and a count), asks for the first match
 * of the program's first rule as often as the count says, and writes it. Nothing is checked: the input is a legal one. A rule is
 * read from its bytes for each search, into structs. Then, at each left item, slots are tried in rising order:
 *   a node: live, mark, root, the label's length and lone constant, not used, label, an edge for each left edge to an earlier
 *   node, few enough edges where it goes, the tests that it decides; where a left edge joins it to an earlier node, only the
 *   ends of such edges at that node's slot;
 *   an edge: live, ends, mark, not used, label, the tests that it decides;
 * and a full placement leaves nothing dangling and passes the tests. */
#include <stdint.h>
#include <stdio.h>
#include <stdlib.h>
#include <string.h>

enum { ATOM = 4, ATOMS = 8, ELEMENTS = 8, ANY = 6 };
enum { NODE_HEAD = 4, EDGE_HEAD = 8, NODE = NODE_HEAD + ATOMS * ATOM, EDGE = EDGE_HEAD + ATOMS * ATOM };

struct element {
    int variable; /* its number, or -1 for a constant */
    uint32_t constant;
};

struct item {
    int mark, root, source, target;
    int elements, lists;
    struct element label[ELEMENTS];
};

struct operand {
    int variable;
    uint32_t constant;
};

struct test {
    int kind, negated, relation, decided;
    int a, b;
    struct operand x, y;
};

struct rule {
    int variables, nodes, edges, kept, tests;
    int preserving; /* an unrooted left node takes a root too */
    uint8_t types[6];
    int first[6]; /* the first item that has the variable */
    struct item item[12];
    struct test test[4];
};

struct value {
    const uint8_t *atoms;
    int length;
};

struct search {
    const uint8_t *nodes, *edges;
    int node_slots, edge_slots;
    struct rule rule;
    int at[12];
    struct value value[6];
};

static unsigned two(const uint8_t *p)
{
    return (unsigned)p[0] << 8 | p[1];
}

static uint32_t four(const uint8_t *p)
{
    return (uint32_t)p[0] << 24 | (uint32_t)p[1] << 16 | (uint32_t)p[2] << 8 | p[3];
}

/* Reading a rule. */

static const uint8_t *payload(const uint8_t **at, int *tag, int *length)
{
    const uint8_t *start = *at + 3;
    *tag = (*at)[0];
    *length = (int)two(*at + 1);
    *at = start + *length;
    return start;
}

static void read_item(struct rule *rule, int i, int tag, const uint8_t *p, const uint8_t *end)
{
    struct item *item = &rule->item[i];
    item->mark = p[0];
    item->root = item->source = item->target = 0;
    if (tag == 0x20) {
        item->root = p[1];
        p += 2;
    } else {
        item->source = p[1];
        item->target = p[2];
        p += 3;
    }
    item->elements = item->lists = 0;
    while (p < end) {
        int kind, length;
        const uint8_t *e = payload(&p, &kind, &length);
        struct element *element = &item->label[item->elements++];
        element->variable = -1;
        element->constant = 0;
        if (kind == 0x30) {
            element->constant = four(e);
        } else {
            element->variable = e[0];
            if (rule->types[e[0]] == 2)
                item->lists++;
            if (rule->first[e[0]] > i)
                rule->first[e[0]] = i;
        }
    }
}

static struct operand read_operand(const uint8_t **p)
{
    int kind, length;
    const uint8_t *e = payload(p, &kind, &length);
    struct operand operand = { -1, 0 };
    if (kind == 0x30)
        operand.constant = four(e);
    else
        operand.variable = e[0];
    return operand;
}

static int later(int a, int b)
{
    return a < b ? b : a;
}

static int known_at(const struct rule *rule, struct operand o)
{
    return o.variable < 0 ? 0 : rule->first[o.variable] + 1;
}

static void read_test(struct rule *rule, int tag, const uint8_t *p)
{
    struct test *test = &rule->test[rule->tests++];
    memset(test, 0, sizeof *test);
    test->kind = tag;
    test->negated = p[0];
    if (tag == 0x43) {
        const uint8_t *q = p + 2;
        test->relation = p[1];
        test->x = read_operand(&q);
        test->y = read_operand(&q);
        test->decided = later(known_at(rule, test->x), known_at(rule, test->y));
    } else if (tag == 0x40) {
        test->a = p[1];
        test->b = p[2];
        test->decided = later(test->a, test->b) + 1;
    } else {
        test->a = p[1];
        test->b = (int)two(p + 2);
        test->decided = test->a + 1;
    }
}

static void read_rule(struct rule *rule, const uint8_t *p, const uint8_t *rule_end)
{
    int tag, length, i;
    const uint8_t *part = payload(&p, &tag, &length), *end;
    rule->variables = length;
    memcpy(rule->types, part, (size_t)length);
    for (i = 0; i < 6; i++)
        rule->first[i] = 12;
    part = payload(&p, &tag, &length);
    rule->nodes = rule->edges = rule->tests = 0;
    for (end = part + length, i = 0; part < end; i++) {
        const uint8_t *item = payload(&part, &tag, &length);
        read_item(rule, i, tag, item, item + length);
        if (tag == 0x20)
            rule->nodes++;
        else
            rule->edges++;
    }
    payload(&p, &tag, &length);
    rule->kept = payload(&p, &tag, &length)[0];
    part = payload(&p, &tag, &length);
    for (end = part + length; part < end;) {
        const uint8_t *test = payload(&part, &tag, &length);
        read_test(rule, tag, test);
    }
    rule->preserving = p < rule_end && payload(&p, &tag, &length)[0];
}

/* Labels and tests. */

static int marks_agree(int left, int mark)
{
    return left == ANY || left == mark;
}

static int label_agrees(struct search *s, int i, const uint8_t *atoms, int length)
{
    const struct item *item = &s->rule.item[i];
    int bound = 0, at = 0, e;
    if (item->lists == 0 ? length != item->elements : length < item->elements - item->lists)
        return 0;
    for (e = 0; e < item->elements; e++) {
        const struct element *element = &item->label[e];
        int v = element->variable;
        if (v < 0) {
            if (at >= length || four(atoms + ATOM * at) != element->constant)
                return 0;
            at++;
        } else {
            int share = s->rule.types[v] == 2 ? length - (item->elements - item->lists) : 1;
            if (s->rule.first[v] == i && !(bound >> v & 1)) {
                s->value[v].atoms = atoms + ATOM * at;
                s->value[v].length = share;
                bound |= 1 << v;
            } else {
                share = s->value[v].length;
                if (length - at < share || memcmp(atoms + ATOM * at, s->value[v].atoms, ATOM * (size_t)share) != 0)
                    return 0;
            }
            at += share;
        }
    }
    return at == length;
}

static uint32_t atom(const struct search *s, struct operand o)
{
    return o.variable < 0 ? o.constant : four(s->value[o.variable].atoms);
}

static int runs(const uint8_t *edge, int a, int b)
{
    return edge[0] && (int)two(edge + 4) == a && (int)two(edge + 6) == b;
}

static int condition_holds(const struct search *s, const struct test *test)
{
    const uint8_t *edge = s->edges;
    int x, degree = 0, a = s->at[test->a];
    switch (test->kind) {
    case 0x40:
        for (x = 0; x < s->edge_slots; x++, edge += EDGE)
            if (runs(edge, a, s->at[test->b]))
                return 1;
        return 0;
    case 0x41:
        for (x = 0; x < s->edge_slots; x++, edge += EDGE)
            degree += edge[0] && (int)two(edge + 6) == a;
        return degree == test->b;
    case 0x42:
        for (x = 0; x < s->edge_slots; x++, edge += EDGE)
            degree += edge[0] && (int)two(edge + 4) == a;
        return degree == test->b;
    default:
        if (test->relation == 1)
            return atom(s, test->x) == atom(s, test->y);
        return (int32_t)atom(s, test->x) < (int32_t)atom(s, test->y);
    }
}

static int tests_hold(const struct search *s, int decided)
{
    int t;
    for (t = 0; t < s->rule.tests; t++) {
        const struct test *test = &s->rule.test[t];
        if ((decided < 0 || test->decided == decided) && condition_holds(s, test) == test->negated)
            return 0;
    }
    return 1;
}

/* Candidates. */

static int joined(const struct search *s, const struct item *left)
{
    const uint8_t *edge = s->edges;
    int x, a = s->at[left->source], b = s->at[left->target];
    for (x = 0; x < s->edge_slots; x++, edge += EDGE)
        if (runs(edge, a, b) && marks_agree(left->mark, edge[1]))
            return 1;
    return 0;
}

static int linked(const struct search *s, int i)
{
    int k;
    for (k = 0; k < s->rule.edges; k++) {
        const struct item *left = &s->rule.item[s->rule.nodes + k];
        if (later(left->source, left->target) == i && !joined(s, left))
            return 0;
    }
    return 1;
}

static int can_go(const struct search *s, int i, int c)
{
    const uint8_t *edge = s->edges;
    int x, k, has = 0, left = 0;
    if (i < s->rule.kept)
        return 1;
    for (x = 0; x < s->edge_slots; x++, edge += EDGE)
        has += edge[0] && ((int)two(edge + 4) == c || (int)two(edge + 6) == c);
    for (k = 0; k < s->rule.edges; k++) {
        const struct item *item = &s->rule.item[s->rule.nodes + k];
        left += item->source == i || item->target == i;
    }
    return has <= left;
}

static int unused(const struct search *s, int from, int to, int c)
{
    int j;
    for (j = from; j < to; j++)
        if (s->at[j] == c)
            return 0;
    return 1;
}

/* The first slot from c on that can be left node i by the slot alone. */
static int next_like(const struct search *s, int i, int c)
{
    const struct item *left = &s->rule.item[i];
    int one = left->elements == 1 && left->label[0].variable < 0, either = s->rule.preserving && !left->root;
    for (; c < s->node_slots; c++) {
        const uint8_t *node = s->nodes + NODE * c;
        if (node[0] && marks_agree(left->mark, node[1]) && (left->root == node[2] || either) &&
            (left->lists == 0 ? node[3] == left->elements : node[3] >= left->elements - left->lists) &&
            !(one && four(node + NODE_HEAD) != left->label[0].constant))
            break;
    }
    return c;
}

/* Whether slot c, which can be left node i by itself, can be it here. */
static int node_fits(struct search *s, int i, int c)
{
    const uint8_t *node = s->nodes + NODE * c;
    if (!unused(s, 0, i, c))
        return 0;
    s->at[i] = c;
    return label_agrees(s, i, node + NODE_HEAD, node[3]) && linked(s, i) && can_go(s, i, c) && tests_hold(s, i + 1);
}

static int edge_fits(struct search *s, int i, int a, int b, int c)
{
    const uint8_t *edge = s->edges + EDGE * c;
    const struct item *left = &s->rule.item[i];
    if (!runs(edge, a, b) || !marks_agree(left->mark, edge[1]) || !unused(s, s->rule.nodes, i, c))
        return 0;
    s->at[i] = c;
    return label_agrees(s, i, edge + EDGE_HEAD, edge[3]) && tests_hold(s, i + 1);
}

/* The lowest slot from c on that an edge of the mark joins to slot p. */
static int next_end(const struct search *s, int mark, int p, int leaving, int c)
{
    const uint8_t *edge = s->edges;
    int x, best = s->node_slots, near = leaving ? 4 : 6, far = leaving ? 6 : 4;
    for (x = 0; x < s->edge_slots; x++, edge += EDGE) {
        if (edge[0] && (int)two(edge + near) == p && marks_agree(mark, edge[1])) {
            int there = (int)two(edge + far);
            if (c <= there && there < best)
                best = there;
        }
    }
    return best;
}

static int next_candidate(const struct search *s, int i, int c)
{
    int k;
    for (k = 0; k < s->rule.edges; k++) {
        const struct item *left = &s->rule.item[s->rule.nodes + k];
        if (left->target == i && left->source < i)
            return next_end(s, left->mark, s->at[left->source], 1, c);
        if (left->source == i && left->target < i)
            return next_end(s, left->mark, s->at[left->target], 0, c);
    }
    return c;
}

static int dangles(const struct search *s)
{
    const uint8_t *edge = s->edges;
    int x, j;
    for (x = 0; x < s->edge_slots; x++, edge += EDGE)
        for (j = s->rule.kept; edge[0] && j < s->rule.nodes; j++)
            if ((int)two(edge + 4) == s->at[j] || (int)two(edge + 6) == s->at[j]) {
                if (unused(s, s->rule.nodes, s->rule.nodes + s->rule.edges, x))
                    return 1;
                break;
            }
    return 0;
}

static int place(struct search *s, int i)
{
    int c;
    if (i == s->rule.nodes + s->rule.edges)
        return !(s->rule.kept < s->rule.nodes && dangles(s)) && tests_hold(s, -1);
    if (i < s->rule.nodes) {
        for (c = 0; c < s->node_slots;) {
            int end = next_candidate(s, i, c);
            c = next_like(s, i, end);
            if (c == end && c < s->node_slots) {
                if (node_fits(s, i, c) && place(s, i + 1))
                    return 1;
                c++;
            }
        }
        return 0;
    }
    for (c = 0; c < s->edge_slots; c++)
        if (edge_fits(s, i, s->at[s->rule.item[i].source], s->at[s->rule.item[i].target], c) && place(s, i + 1))
            return 1;
    return 0;
}

/* The first match of a rule, read from its bytes. */
__attribute__((noinline)) static int first_match(struct search *s, const uint8_t *rule, int size)
{
    read_rule(&s->rule, rule, rule + size);
    return place(s, 0);
}

int main(void)
{
    static uint8_t bytes[65538];
    static struct search s;
    size_t length = fread(bytes, 1, sizeof bytes, stdin);
    const uint8_t *p = bytes + 3, *image, *rule;
    uint32_t count;
    int tag, size, rule_size, found = 0, i, v;
    if (length < 3)
        return 1;
    s.nodes = payload(&p, &tag, &size);
    s.node_slots = size / NODE;
    s.edges = payload(&p, &tag, &size);
    s.edge_slots = size / EDGE;
    image = payload(&p, &tag, &size);
    rule = payload(&image, &tag, &rule_size);
    count = four(payload(&p, &tag, &size));
    do {
        found = first_match(&s, rule, rule_size);
        __asm__ volatile("" : : "r"(&s) : "memory");
    } while (count-- > 1);
    if (!found) {
        puts("none");
        return 0;
    }
    printf("match");
    for (i = 0; i < s.rule.nodes + s.rule.edges; i++)
        printf(" %d", s.at[i]);
    for (v = 0; v < s.rule.variables; v++) {
        printf(" =");
        for (i = 0; s.rule.first[v] < 12 && i < s.value[v].length; i++)
            printf(" %u", (unsigned)four(s.value[v].atoms + ATOM * i));
    }
    puts("");
    return 0;
}
