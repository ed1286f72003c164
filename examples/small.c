/*
 * Takes a graph to the small core and back: packs it into small tables of fewer slots, runs a program there, unpacks the result, and
 * shows that it is what the program makes of the same graph on the wide core; undoes the small run. Shows what doesn't fit small
 * tables, a label of two atoms and a live slot that they don't have, and that a refused packing writes nothing; and a program whose
 * label is too large on the small core alone. Exits with 1 where anything is otherwise.
 */
#include <string.h>

#include "checks.h"
#include "images.h"
#include "nhiemavut.h"

enum { NODES = 6, EDGES = 4, SMALL_NODES = 4, SMALL_EDGES = 2, RECORDS = 8, FUEL = 10, UNTOUCHED = 0xA5 };
enum { LIVE = 1, GREY = 4 };

static uint8_t nodes[NODES * NHIEMAVUT_NODE_BYTES], edges[EDGES * NHIEMAVUT_EDGE_BYTES];
static uint8_t back_nodes[sizeof nodes], back_edges[sizeof edges];
static uint8_t journal[RECORDS * NHIEMAVUT_RECORD_BYTES], report[NHIEMAVUT_REPORT_BYTES];
static uint8_t small_nodes[SMALL_NODES * NHIEMAVUT_SMALL_NODE_BYTES], small_edges[SMALL_EDGES * NHIEMAVUT_SMALL_EDGE_BYTES];
static uint8_t packed_nodes[sizeof small_nodes], packed_edges[sizeof small_edges];
static uint8_t small_journal[RECORDS * NHIEMAVUT_SMALL_RECORD_BYTES], small_report[NHIEMAVUT_REPORT_BYTES];

static uint8_t *node(int i)
{
    return nodes + i * NHIEMAVUT_NODE_BYTES;
}

/* A live grey node with a label of one atom. */
static void put_node(int i, uint8_t atom)
{
    node(i)[0] = LIVE;
    node(i)[1] = GREY;
    node(i)[3] = 1;
    node(i)[7] = atom;
}

/* Grey 5 in slot 1, grey 7 in slot 3, an edge from the one to the other in edge slot 1; the other slots are free. */
static void put_graph(void)
{
    uint8_t *edge = edges + NHIEMAVUT_EDGE_BYTES;
    memset(nodes, 0, sizeof nodes);
    memset(edges, 0, sizeof edges);
    put_node(1, 5);
    put_node(3, 7);
    edge[0] = LIVE;
    edge[5] = 1;
    edge[7] = 3;
}

static uint32_t pack(void)
{
    memset(small_nodes, UNTOUCHED, sizeof small_nodes);
    memset(small_edges, UNTOUCHED, sizeof small_edges);
    return nhiemavut_pack(nodes, sizeof nodes, edges, sizeof edges, small_nodes, sizeof small_nodes, small_edges, sizeof small_edges);
}

static uint32_t unpack(void)
{
    memset(back_nodes, UNTOUCHED, sizeof back_nodes);
    memset(back_edges, UNTOUCHED, sizeof back_edges);
    return nhiemavut_unpack(small_nodes, sizeof small_nodes, small_edges, sizeof small_edges, back_nodes, sizeof back_nodes,
                            back_edges, sizeof back_edges);
}

static int unpacked_is_wide(void)
{
    return memcmp(back_nodes, nodes, sizeof nodes) == 0 && memcmp(back_edges, edges, sizeof edges) == 0;
}

static uint32_t run_small(const uint8_t *image, size_t length)
{
    return nhiemavut_small_run(small_nodes, sizeof small_nodes, small_edges, sizeof small_edges, small_journal, sizeof small_journal,
                               image, length, FUEL, small_report, sizeof small_report);
}

static uint32_t run_wide(const uint8_t *image, size_t length)
{
    return nhiemavut_run(nodes, sizeof nodes, edges, sizeof edges, journal, sizeof journal, image, length, FUEL, report,
                         sizeof report);
}

static void check_both_cores(void)
{
    const uint8_t five[] = {LIVE, GREY, 0, 1, 0, 0, 0, 5}, edge[] = {LIVE, 0, 0, 0, 1, 3, 0, 0, 0, 0};
    put_graph();
    expect(pack() == NHIEMAVUT_RESULT, "a graph is packed into tables of fewer slots");
    expect(all(small_nodes, sizeof five, 0) && memcmp(small_nodes + sizeof five, five, sizeof five) == 0 &&
               memcmp(small_edges + sizeof edge, edge, sizeof edge) == 0,
           "each slot is there under its number");
    expect(unpack() == NHIEMAVUT_RESULT && unpacked_is_wide(), "and unpacked it is the graph that it came from");
    memcpy(packed_nodes, small_nodes, sizeof packed_nodes);
    memcpy(packed_edges, small_edges, sizeof packed_edges);

    expect(run_small(adding, sizeof adding) == NHIEMAVUT_RESULT, "a program comes to a result on the small core");
    expect(run_wide(adding, sizeof adding) == NHIEMAVUT_RESULT, "and on the wide one");
    expect(memcmp(small_report, report, sizeof report) == 0 && report[3] == 3 && report[7] == 4, "in 3 steps, with 4 records each");
    expect(unpack() == NHIEMAVUT_RESULT && unpacked_is_wide(), "unpacked, the small result is the wide one");
    expect(node(3)[1] == 3 && node(3)[7] == 12, "in which a node is blue and labelled 12");

    expect(nhiemavut_small_undo(small_nodes, sizeof small_nodes, small_edges, sizeof small_edges, small_journal, sizeof small_journal,
                                small_report[7], small_report, sizeof small_report) == NHIEMAVUT_RESULT,
           "the small run is undone");
    expect(memcmp(small_nodes, packed_nodes, sizeof small_nodes) == 0 && memcmp(small_edges, packed_edges, sizeof small_edges) == 0,
           "and the tables are what was packed");
}

static int packing_is_refused(void)
{
    return pack() == NHIEMAVUT_HOST_DOES_NOT_FIT && all(small_nodes, sizeof small_nodes, UNTOUCHED) &&
           all(small_edges, sizeof small_edges, UNTOUCHED);
}

static void check_what_does_not_fit(void)
{
    put_graph();
    node(3)[3] = 2;
    expect(packing_is_refused(), "a label of two atoms doesn't fit, and nothing is written");
    put_graph();
    put_node(SMALL_NODES, 1);
    expect(packing_is_refused(), "nor does a live slot that the small tables don't have");
    put_graph();
    node(SMALL_NODES - 1)[2] = 1;
    expect(pack() == NHIEMAVUT_RESULT && small_nodes[(SMALL_NODES - 1) * NHIEMAVUT_SMALL_NODE_BYTES + 2] == 1,
           "the last slot that they have is packed, with its root flag");
}

/* 29 the other way: wide tables of one slot less than a live one takes. */
static void check_unpacking_that_does_not_fit(void)
{
    put_graph();
    expect(pack() == NHIEMAVUT_RESULT, "the graph is packed again");
    memset(back_nodes, UNTOUCHED, sizeof back_nodes);
    expect(nhiemavut_unpack(small_nodes, sizeof small_nodes, small_edges, sizeof small_edges, back_nodes, 3 * NHIEMAVUT_NODE_BYTES,
                            back_edges, sizeof back_edges) == NHIEMAVUT_HOST_DOES_NOT_FIT &&
               all(back_nodes, sizeof back_nodes, UNTOUCHED),
           "wide tables without a live slot's number are refused, and nothing is written");
}

static void check_long_label(void)
{
    put_graph();
    expect(pack() == NHIEMAVUT_RESULT && run_small(doubling, sizeof doubling) == NHIEMAVUT_LABEL_TOO_LARGE,
           "a label of two atoms is too large for the small core");
    expect(unpack() == NHIEMAVUT_RESULT && unpacked_is_wide(), "which gives the graph back");
    expect(run_wide(doubling, sizeof doubling) == NHIEMAVUT_RESULT && node(1)[3] == 2, "the wide core makes it");
}

int main(void)
{
    check_both_cores();
    check_what_does_not_fit();
    check_unpacking_that_does_not_fit();
    check_long_label();
    return failures == 0 ? 0 : 1;
}
