/*
 * Runs each image of a corpus on standard input through the compiled calls of its core, and prints the listings, document 01's. In front
 * of an image stand a tag, 0x06 for the wide core and 0x08 for the small one, and its length in two bytes.
 *
 * Each buffer lies against a page that must not be touched, once before it and once behind it, so that a read or write
 * outside of a lent buffer ends the program. Both runs must leave the same; after a result the journal is undone, and the
 * tables must be what came in; after any other answer they must be so at once. What a run leaves and what came in is carried to
 * tables of the other core and back. What the small core answers with 0 or 1 the wide one must do on the unpacked tables.
 *
 * PEER runs the plain C peer instead on the images of the wide core, and passes over the others.
 */
#define _DEFAULT_SOURCE
#include <stdio.h>
#include <stdlib.h>
#include <string.h>
#include <sys/mman.h>
#include <unistd.h>

#include "nhiemavut.h"

#ifdef PEER
#include "peer.h"
#define WIDE_CALLS peer_run, NULL, NULL
#define SMALL_CALLS NULL, NULL, NULL
#else
#define WIDE_CALLS nhiemavut_run, nhiemavut_undo, nhiemavut_pack
#define SMALL_CALLS nhiemavut_small_run, nhiemavut_small_undo, nhiemavut_unpack
#endif

enum { LONGEST = 65536, UNTOUCHED = 0xA5, HEAD = 4 /* the bytes of a slot before a node's label or an edge's ends */ };

/* A core: the tag of its images, bytes and most of all that is lent, and its calls, where they are here. */
struct core {
    uint8_t tag;
    size_t node, edge, record, end; /* bytes of a slot, of a record, and of the slot number at an edge's end */
    size_t most_nodes, most_edges, most_atoms;
    uint32_t (*run)(uint8_t *, size_t, uint8_t *, size_t, uint8_t *, size_t, const uint8_t *, size_t, uint32_t, uint8_t *, size_t);
    uint32_t (*undo)(uint8_t *, size_t, uint8_t *, size_t, uint8_t *, size_t, uint32_t, uint8_t *, size_t);
    /* to tables of the other core */
    uint32_t (*carry)(const uint8_t *, size_t, const uint8_t *, size_t, uint8_t *, size_t, uint8_t *, size_t);
};

static const struct core cores[] = {
    {0x06, NHIEMAVUT_NODE_BYTES, NHIEMAVUT_EDGE_BYTES, NHIEMAVUT_RECORD_BYTES, 2, NHIEMAVUT_MOST_NODES, NHIEMAVUT_MOST_EDGES,
     NHIEMAVUT_MOST_ATOMS, WIDE_CALLS},
    {0x08, NHIEMAVUT_SMALL_NODE_BYTES, NHIEMAVUT_SMALL_EDGE_BYTES, NHIEMAVUT_SMALL_RECORD_BYTES, 1, NHIEMAVUT_SMALL_MOST_NODES,
     NHIEMAVUT_SMALL_MOST_EDGES, NHIEMAVUT_SMALL_MOST_ATOMS, SMALL_CALLS},
};
static const struct core *const wide = &cores[0], *const small = &cores[1];

/* A buffer with forbidden pages on both sides of its room. */
struct guarded {
    uint8_t *room, *bytes;
    size_t length;
};

/* All that is lent to a run. Carryings take the tables alone. */
struct lent {
    struct guarded nodes, edges, journal, image, report;
};

/* The fields of a runner image. */
struct input {
    const uint8_t *nodes, *edges, *program;
    size_t nodes_length, edges_length, program_length, records;
    uint32_t fuel;
};

static uint8_t image[LONGEST];
static struct lent own, other, back; /* for an image at its core; at the other core; carried back from there */
static int broken = 0;

static uint32_t number(const uint8_t *p, size_t n)
{
    uint32_t x = 0;
    for (size_t i = 0; i < n; i++)
        x = x << 8 | p[i];
    return x;
}

static size_t least(size_t a, size_t b)
{
    return a < b ? a : b;
}

static void check(int holds, const char *what)
{
    if (!holds) {
        fprintf(stderr, "listings: %s\n", what);
        broken = 1;
    }
}

/* Lending. */

static void make_room(struct guarded *b)
{
    size_t page = (size_t)sysconf(_SC_PAGESIZE);
    uint8_t *all = mmap(NULL, LONGEST + 2 * page, PROT_NONE, MAP_PRIVATE | MAP_ANONYMOUS, -1, 0);
    if (all == MAP_FAILED || mprotect(all + page, LONGEST, PROT_READ | PROT_WRITE) != 0) {
        perror("listings");
        exit(2);
    }
    b->room = all + page;
}

static void make_rooms(struct lent *l)
{
    make_room(&l->nodes);
    make_room(&l->edges);
    make_room(&l->journal);
    make_room(&l->image);
    make_room(&l->report);
}

/* Lends a copy of the bytes at the end of the room, or at its start. */
static void lend(struct guarded *b, const uint8_t *bytes, size_t length, int at_end)
{
    b->length = length;
    b->bytes = at_end ? b->room + LONGEST - length : b->room;
    if (bytes != NULL)
        memcpy(b->bytes, bytes, length);
    else
        memset(b->bytes, UNTOUCHED, length);
}

static void lend_tables(struct lent *l, const struct input *in, int at_end)
{
    lend(&l->nodes, in->nodes, in->nodes_length, at_end);
    lend(&l->edges, in->edges, in->edges_length, at_end);
}

/* Runs the image's program on the lent tables. */
static uint32_t run(const struct core *core, struct lent *l, const struct input *in, int at_end)
{
    lend(&l->journal, NULL, core->record * in->records, at_end);
    lend(&l->image, in->program, in->program_length, at_end);
    lend(&l->report, NULL, NHIEMAVUT_REPORT_BYTES, at_end);
    return core->run(l->nodes.bytes, l->nodes.length, l->edges.bytes, l->edges.length, l->journal.bytes, l->journal.length,
                     l->image.bytes, l->image.length, in->fuel, l->report.bytes, l->report.length);
}

/* Carries the lent tables of a core to tables of the other, of so many bytes. */
static uint32_t carry(const struct core *core, const struct lent *from, struct lent *to, size_t nodes, size_t edges, int at_end)
{
    lend(&to->nodes, NULL, nodes, at_end);
    lend(&to->edges, NULL, edges, at_end);
    return core->carry(from->nodes.bytes, from->nodes.length, from->edges.bytes, from->edges.length, to->nodes.bytes,
                       to->nodes.length, to->edges.bytes, to->edges.length);
}

static int same(const struct guarded *a, const struct guarded *b)
{
    return a->length == b->length && memcmp(a->bytes, b->bytes, a->length) == 0;
}

static int same_tables(const struct lent *a, const struct lent *b)
{
    return same(&a->nodes, &b->nodes) && same(&a->edges, &b->edges);
}

static int untouched(const struct guarded *b)
{
    size_t i = 0;
    while (i < b->length && b->bytes[i] == UNTOUCHED)
        i++;
    return i == b->length;
}

/* Listing. */

static void print_atoms(const uint8_t *p, unsigned n)
{
    for (unsigned i = 0; i < n; i++)
        printf(" %d", (int)(int32_t)number(p + 4 * i, 4));
    printf("\n");
}

static void print_graph(const struct core *core)
{
    static const char *const marks[] = {"none", "red", "green", "blue", "grey", "dashed"};
    for (unsigned i = 0; i < own.nodes.length / core->node; i++) {
        const uint8_t *p = own.nodes.bytes + core->node * i;
        if (p[0] == 1) {
            printf("node %u %s %s", i, marks[p[1]], p[2] ? "root" : "plain");
            print_atoms(p + HEAD, p[3]);
        }
    }
    for (unsigned i = 0; i < own.edges.length / core->edge; i++) {
        const uint8_t *p = own.edges.bytes + core->edge * i, *ends = p + HEAD, *label = ends + 2 * core->end;
        if (p[0] == 1) {
            printf("edge %u %u %u %s", i, (unsigned)number(ends, core->end), (unsigned)number(ends + core->end, core->end),
                   marks[p[1]]);
            print_atoms(label, p[3]);
        }
    }
}

static uint32_t checksum(void)
{
    const struct guarded *all[] = {&own.nodes, &own.edges, &own.journal, &own.report};
    uint32_t sum = 2166136261u;
    for (unsigned b = 0; b < 4; b++)
        for (size_t i = 0; i < all[b]->length; i++)
            sum = (sum ^ all[b]->bytes[i]) * 16777619u;
    return sum;
}

/* Checking. */

/* Whether the live slots of a table have numbers below n, and labels of at most so many atoms. */
static int fits(const struct guarded *table, size_t slot, size_t n, size_t atoms)
{
    for (size_t i = 0; i < table->length / slot; i++) {
        const uint8_t *p = table->bytes + slot * i;
        if (p[0] == 1 && (i >= n || p[3] > atoms))
            return 0;
    }
    return 1;
}

/* Whether carrying may answer so, of tables on which a run gave its answer. A run that is refused by 12, 13 or 14 hasn't looked at
   the slots. */
static int may_answer(uint32_t carried, uint32_t ran, int fit)
{
    if (ran == NHIEMAVUT_BAD_NODES || ran == NHIEMAVUT_BAD_EDGES || ran == NHIEMAVUT_BAD_HOST)
        return carried == ran;
    if (carried == NHIEMAVUT_BAD_HOST)
        return ran == NHIEMAVUT_BAD_JOURNAL || ran == NHIEMAVUT_TOO_MUCH_FUEL || ran == NHIEMAVUT_IMAGE_TOO_LONG;
    return carried == (uint32_t)(fit ? NHIEMAVUT_RESULT : NHIEMAVUT_HOST_DOES_NOT_FIT);
}

/* Carries the tables on which a run gave its answer to as many slots of the other core, as far as it has them, and back. */
static void check_carrying(const struct core *core, uint32_t ran, int at_end)
{
    if (core->carry == NULL)
        return;
    const struct core *to = core == wide ? small : wide;
    size_t nodes = least(own.nodes.length / core->node, to->most_nodes), edges = least(own.edges.length / core->edge, to->most_edges);
    uint32_t carried = carry(core, &own, &other, nodes * to->node, edges * to->edge, at_end);
    int fit = fits(&own.nodes, core->node, nodes, to->most_atoms) && fits(&own.edges, core->edge, edges, to->most_atoms);
    check(may_answer(carried, ran, fit), "carrying gives another answer");
    if (carried == NHIEMAVUT_RESULT)
        check(carry(to, &other, &back, own.nodes.length, own.edges.length, at_end) == NHIEMAVUT_RESULT && same_tables(&own, &back),
              "tables that are carried to the other core don't come back");
    else
        check(untouched(&other.nodes) && untouched(&other.edges), "a carrying that is refused writes");
}

/* What a program does on small tables it does on the unpacked ones, where it comes to a result or fails. */
static void check_wide_run(const struct core *core, uint32_t answer, const struct input *in, int at_end)
{
    if (core != small || answer > NHIEMAVUT_FAIL)
        return;
    lend_tables(&back, in, at_end);
    check(carry(small, &back, &other, own.nodes.length / small->node * wide->node, own.edges.length / small->edge * wide->edge,
                at_end) == NHIEMAVUT_RESULT,
          "small tables are not unpacked");
    check(run(wide, &other, in, at_end) == answer && same(&own.report, &other.report), "the wide core answers or reports otherwise");
    check(carry(wide, &other, &back, own.nodes.length, own.edges.length, at_end) == NHIEMAVUT_RESULT && same_tables(&own, &back),
          "the wide core comes to another graph");
}

/* Undoes a result. The tables are what came in then. */
static void check_restored(const struct core *core, uint32_t answer, const struct input *in, int at_end)
{
    if (answer == NHIEMAVUT_RESULT) {
        if (core->undo == NULL)
            return;
        check(core->undo(own.nodes.bytes, own.nodes.length, own.edges.bytes, own.edges.length, own.journal.bytes,
                         own.journal.length, number(own.report.bytes + 4, 4), own.report.bytes,
                         own.report.length) == NHIEMAVUT_RESULT,
              "undo refuses the journal of a result");
        check_carrying(core, answer, at_end);
    }
    check(memcmp(own.nodes.bytes, in->nodes, own.nodes.length) == 0 && memcmp(own.edges.bytes, in->edges, own.edges.length) == 0,
          "the graph is not given back");
}

/* Reads the five fields of a runner image, or answers 0 where it isn't one. */
static int read_fields(size_t length, struct input *in)
{
    const uint8_t *part[5];
    size_t size[5], at = 0;
    for (unsigned i = 0; i < 5; i++) {
        if (length - at < 3 || image[at] != i + 1 || length - at - 3 < number(image + at + 1, 2))
            return 0;
        size[i] = number(image + at + 1, 2);
        part[i] = image + at + 3;
        at += 3 + size[i];
    }
    if (at != length || size[2] != 2 || size[3] != 4)
        return 0;
    *in = (struct input){part[0], part[1], part[4], size[0], size[1], size[4], number(part[2], 2), number(part[3], 4)};
    return in->records <= NHIEMAVUT_MOST_RECORDS;
}

static void list(const struct core *core, size_t length)
{
    struct input in;
    uint32_t answers[2], sums[2];
    if (!read_fields(length, &in)) {
        printf("input refused\n");
        return;
    }
    for (int at_end = 0; at_end <= 1; at_end++) {
        lend_tables(&own, &in, at_end);
        uint32_t answer = answers[at_end] = run(core, &own, &in, at_end);
        sums[at_end] = checksum();
        check_carrying(core, answer, at_end);
        check_wide_run(core, answer, &in, at_end);
        if (at_end) {
            printf("answer %u steps %u records %u\n", (unsigned)answer, (unsigned)number(own.report.bytes, 4),
                   (unsigned)number(own.report.bytes + 4, 4));
            if (answer == NHIEMAVUT_RESULT)
                print_graph(core);
        }
        check_restored(core, answer, &in, at_end);
    }
    check(answers[0] == answers[1] && sums[0] == sums[1], "two runs differ");
}

int main(void)
{
    uint8_t head[3];
    make_rooms(&own);
    make_rooms(&other);
    make_rooms(&back);
    while (fread(head, 1, 3, stdin) == 3) {
        const struct core *core = head[0] == wide->tag ? wide : head[0] == small->tag ? small : NULL;
        size_t length = number(head + 1, 2);
        if (core == NULL || fread(image, 1, length, stdin) != length)
            return 2;
        if (core->run != NULL)
            list(core, length);
    }
    return broken;
}
