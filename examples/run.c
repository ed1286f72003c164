/*
 * Runs case P of document 01: two grey nodes labelled 5 and 7 with an edge between them; a loop over one rule that turns
 * grey x to grey y into red x, blue x + y, with the edge turned round. Prints the listing of the result, undoes it by the
 * records in the report, and shows that the graph is as it came. With too little fuel the run stops and gives the graph back
 * itself. Exits with 1 where anything is otherwise.
 */
#include <stdio.h>
#include <string.h>

#include "checks.h"
#include "images.h"
#include "nhiemavut.h"

enum { NODES = 2, EDGES = 1, RECORDS = 8 };

static uint8_t nodes[NODES * NHIEMAVUT_NODE_BYTES];
static uint8_t edges[EDGES * NHIEMAVUT_EDGE_BYTES];
static uint8_t journal[RECORDS * NHIEMAVUT_RECORD_BYTES];
static uint8_t report[NHIEMAVUT_REPORT_BYTES];

static uint32_t number(const uint8_t *from, int bytes)
{
    uint32_t n = 0;
    for (int i = 0; i < bytes; i += 1) {
        n = n << 8 | from[i];
    }
    return n;
}

static void list_atoms(const uint8_t *from, int atoms)
{
    for (int i = 0; i < atoms; i += 1) {
        printf(" %ld", (long)(int32_t)number(from + 4 * i, 4));
    }
    printf("\n");
}

/* The live nodes and edges: slot, mark, root or plain, atoms; slot, source, target, mark, atoms. */
static void list_graph(void)
{
    static const char *const marks[] = {"none", "red", "green", "blue", "grey", "dashed"};
    for (int i = 0; i < NODES; i += 1) {
        const uint8_t *slot = nodes + i * NHIEMAVUT_NODE_BYTES;
        if (slot[0] == 1) {
            printf("node %d %s %s", i, marks[slot[1]], slot[2] == 1 ? "root" : "plain");
            list_atoms(slot + 4, slot[3]);
        }
    }
    for (int i = 0; i < EDGES; i += 1) {
        const uint8_t *slot = edges + i * NHIEMAVUT_EDGE_BYTES;
        if (slot[0] == 1) {
            printf("edge %d %u %u %s", i, (unsigned)number(slot + 4, 2), (unsigned)number(slot + 6, 2), marks[slot[1]]);
            list_atoms(slot + 8, slot[3]);
        }
    }
}

static uint32_t run(uint32_t fuel)
{
    uint32_t answer = nhiemavut_run(nodes, sizeof nodes, edges, sizeof edges, journal, sizeof journal, adding, sizeof adding, fuel,
                                    report, sizeof report);
    printf("answer %u steps %u records %u\n", (unsigned)answer, (unsigned)number(report, 4), (unsigned)number(report + 4, 4));
    return answer;
}

static uint32_t undo(uint32_t count)
{
    return nhiemavut_undo(nodes, sizeof nodes, edges, sizeof edges, journal, sizeof journal, count, report, sizeof report);
}

/* Node slot i is live, with this mark and a label of one atom. */
static void put_node(int i, uint8_t mark, uint8_t atom)
{
    uint8_t *slot = nodes + i * NHIEMAVUT_NODE_BYTES;
    slot[0] = 1;
    slot[1] = mark;
    slot[3] = 1;
    slot[7] = atom;
}

int main(void)
{
    uint8_t came_nodes[sizeof nodes];
    uint8_t came_edges[sizeof edges];
    const uint8_t zeros[sizeof journal] = {0};

    put_node(0, 4, 5);
    put_node(1, 4, 7);
    edges[0] = 1;
    edges[7] = 1;
    memcpy(came_nodes, nodes, sizeof nodes);
    memcpy(came_edges, edges, sizeof edges);
    list_graph();

    expect(run(10) == NHIEMAVUT_RESULT, "case P comes to a result");
    list_graph();
    expect(number(report, 4) == 3 && number(report + 4, 4) == 4, "in 3 steps, with 4 records");

    expect(undo(number(report + 4, 4)) == NHIEMAVUT_RESULT, "the records are undone");
    list_graph();
    expect(memcmp(nodes, came_nodes, sizeof nodes) == 0, "the nodes are as they came");
    expect(memcmp(edges, came_edges, sizeof edges) == 0, "the edges are as they came");
    expect(memcmp(journal, zeros, sizeof journal) == 0, "the journal is cleared");

    expect(run(2) == NHIEMAVUT_OUT_OF_FUEL, "with fuel for two commands it stops");
    expect(memcmp(nodes, came_nodes, sizeof nodes) == 0 && memcmp(edges, came_edges, sizeof edges) == 0, "the graph is as it came");
    expect(memcmp(journal, zeros, sizeof journal) == 0, "and the journal is all zero");
    return failures == 0 ? 0 : 1;
}
