/*
 * Carries a graph from old tables, with labels of at most four atoms, to today's and back: widens it, runs a program on it that
 * makes a label of six atoms, shows that this can't be narrowed, undoes the run, and narrows the graph to the bytes that it came
 * from. Shows that lengths which don't belong together are refused, and that a refused call writes nothing. Exits with 1 where
 * anything is otherwise.
 */
#include <string.h>

#include "checks.h"
#include "images.h"
#include "nhiemavut.h"

enum { NODES = 2, EDGES = 1, RECORDS = 2, UNTOUCHED = 0xA5 };

static uint8_t old_nodes[NODES * NHIEMAVUT_OLD_NODE_BYTES], old_edges[EDGES * NHIEMAVUT_OLD_EDGE_BYTES];
static uint8_t nodes[NODES * NHIEMAVUT_NODE_BYTES], edges[EDGES * NHIEMAVUT_EDGE_BYTES];
static uint8_t back_nodes[sizeof old_nodes], back_edges[sizeof old_edges];
static uint8_t journal[RECORDS * NHIEMAVUT_RECORD_BYTES], report[NHIEMAVUT_REPORT_BYTES];

/* A free slot, then a grey node labelled 1:2:3 with a dashed edge to itself. */
static void put_graph(void)
{
    uint8_t *node = old_nodes + NHIEMAVUT_OLD_NODE_BYTES;
    const uint8_t head[] = {1, 4, 0, 3, 0, 0, 0, 1, 0, 0, 0, 2, 0, 0, 0, 3};
    const uint8_t edge[] = {1, 5, 0, 0, 0, 1, 0, 1};
    memcpy(node, head, sizeof head);
    memcpy(old_edges, edge, sizeof edge);
}

static uint32_t narrow(void)
{
    memset(back_nodes, UNTOUCHED, sizeof back_nodes);
    memset(back_edges, UNTOUCHED, sizeof back_edges);
    return nhiemavut_narrow(nodes, sizeof nodes, edges, sizeof edges, back_nodes, sizeof back_nodes, back_edges, sizeof back_edges);
}

/* The slot of a wide table is that of the old one with zeros behind it. */
static int widened(const uint8_t *wide, size_t wide_bytes, const uint8_t *old, size_t old_bytes)
{
    return memcmp(wide, old, old_bytes) == 0 && all(wide + old_bytes, wide_bytes - old_bytes, 0);
}

static void check_there_and_back(void)
{
    const uint8_t six[] = {1, 1, 0, 6, 0, 0, 0, 1, 0, 0, 0, 2, 0, 0, 0, 3, 0, 0, 0, 1, 0, 0, 0, 2, 0, 0, 0, 3};
    memset(nodes, UNTOUCHED, sizeof nodes);
    memset(edges, UNTOUCHED, sizeof edges);
    expect(nhiemavut_widen(old_nodes, sizeof old_nodes, old_edges, sizeof old_edges, nodes, sizeof nodes, edges, sizeof edges) ==
               NHIEMAVUT_RESULT,
           "old tables are widened");
    expect(all(nodes, NHIEMAVUT_NODE_BYTES, 0), "a free slot stays free, at its number");
    expect(widened(nodes + NHIEMAVUT_NODE_BYTES, NHIEMAVUT_NODE_BYTES, old_nodes + NHIEMAVUT_OLD_NODE_BYTES,
                   NHIEMAVUT_OLD_NODE_BYTES) &&
               widened(edges, sizeof edges, old_edges, sizeof old_edges),
           "a live slot has its bytes, and zeros for the atoms that it doesn't use");
    expect(nhiemavut_run(nodes, sizeof nodes, edges, sizeof edges, journal, sizeof journal, doubling, sizeof doubling, 1, report,
                         sizeof report) == NHIEMAVUT_RESULT,
           "a program comes to a result on them");
    expect(memcmp(nodes + NHIEMAVUT_NODE_BYTES, six, sizeof six) == 0, "with a label of six atoms");
    expect(narrow() == NHIEMAVUT_LABEL_DOES_NOT_FIT, "which old tables can't hold");
    expect(all(back_nodes, sizeof back_nodes, UNTOUCHED) && all(back_edges, sizeof back_edges, UNTOUCHED), "and nothing is written");
    expect(nhiemavut_undo(nodes, sizeof nodes, edges, sizeof edges, journal, sizeof journal, 1, report, sizeof report) ==
               NHIEMAVUT_RESULT,
           "the run is undone");
    expect(narrow() == NHIEMAVUT_RESULT, "and the graph narrowed");
    expect(memcmp(back_nodes, old_nodes, sizeof old_nodes) == 0 && memcmp(back_edges, old_edges, sizeof old_edges) == 0,
           "to the bytes that it came from");
}

/* Edge tables of the most slots, and of one more: as old ones and as today's. */
static void check_lengths(void)
{
    static uint8_t many_old[(NHIEMAVUT_MOST_EDGES + 1) * NHIEMAVUT_OLD_EDGE_BYTES];
    static uint8_t many[(NHIEMAVUT_MOST_EDGES + 1) * NHIEMAVUT_EDGE_BYTES];
    const size_t old_most = sizeof many_old - NHIEMAVUT_OLD_EDGE_BYTES, most = sizeof many - NHIEMAVUT_EDGE_BYTES;
    memset(nodes, UNTOUCHED, sizeof nodes);
    expect(nhiemavut_widen(old_nodes, sizeof old_nodes, old_edges, sizeof old_edges, nodes, NHIEMAVUT_NODE_BYTES, edges,
                           sizeof edges) == NHIEMAVUT_BAD_NODES,
           "node tables of different numbers of slots are refused");
    expect(all(nodes, sizeof nodes, UNTOUCHED), "and nothing is written");
    memset(many, UNTOUCHED, sizeof many);
    expect(nhiemavut_widen(NULL, 0, many_old, old_most, NULL, 0, many, most) == NHIEMAVUT_RESULT && all(many, most, 0),
           "full edge tables are widened");
    expect(nhiemavut_widen(NULL, 0, many_old, sizeof many_old, NULL, 0, many, sizeof many) == NHIEMAVUT_BAD_EDGES,
           "edge tables of a slot too many are refused");
    memset(many, 0, sizeof many);
    memset(many_old, UNTOUCHED, sizeof many_old);
    expect(nhiemavut_narrow(NULL, 0, many, most, NULL, 0, many_old, old_most) == NHIEMAVUT_RESULT && all(many_old, old_most, 0),
           "full edge tables are narrowed");
    expect(nhiemavut_narrow(NULL, 0, many, sizeof many, NULL, 0, many_old, sizeof many_old) == NHIEMAVUT_BAD_EDGES,
           "and refused with a slot too many");
}

int main(void)
{
    put_graph();
    check_there_and_back();
    check_lengths();
    return failures == 0 ? 0 : 1;
}
