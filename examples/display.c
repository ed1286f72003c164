/*
 * A display with little room, on the small core alone: three gauges in tables of 8 and 10 bytes for each slot, and a pass over them that
 * adds the reading of a gauge to the one that it feeds. Runs the pass, shows what it leaves, undoes it, and shows that a pass which needs
 * more records than the journal has gives the graph back itself. Exits with 1 where anything is otherwise.
 *
 * It takes nhiemavut_small_run and nhiemavut_small_undo, and links the library of these two.
 */
#include <stdio.h>
#include <string.h>

#include "checks.h"
#include "nhiemavut.h"

enum { NODES = 3, EDGES = 2, RECORDS = 12, FUEL = 20 };

/* Each field is a tag, a length of two bytes and as many bytes. */
static const uint8_t image[] = {
    0x10, 0, 73,                                                    /* a rule */
    0x11, 0, 2, 1, 1,                                               /*   two int variables, x and y */
    0x12, 0, 24,                                                    /*   left: */
    0x20, 0, 6, 4, 0, 0x31, 0, 1, 0,                                /*     grey x */
    0x20, 0, 6, 4, 0, 0x31, 0, 1, 1,                                /*     grey y */
    0x21, 0, 3, 0, 0, 1,                                            /*     an edge from x to y */
    0x13, 0, 31,                                                    /*   right: */
    0x20, 0, 6, 2, 0, 0x31, 0, 1, 0,                                /*     green x */
    0x20, 0, 13, 4, 0, 0x32, 0, 8, 0x31, 0, 1, 0, 0x31, 0, 1, 1,    /*     grey x + y */
    0x21, 0, 3, 0, 0, 1,                                            /*     the edge */
    0x14, 0, 1, 2,                                                  /*   both nodes are the interface */
    0x15, 0, 0,                                                     /*   no tests */
    0x54, 0, 4,                                                     /* a loop over */
    0x50, 0, 1, 0,                                                  /*   rule 0 */
};

/* Grey gauges that read 5, 300 and 7, each feeding the next. */
static const uint8_t came_nodes[NODES * NHIEMAVUT_SMALL_NODE_BYTES] = {
    1, 4, 0, 1, 0, 0, 0, 5,
    1, 4, 0, 1, 0, 0, 1, 44,
    1, 4, 0, 1, 0, 0, 0, 7,
};
static const uint8_t came_edges[EDGES * NHIEMAVUT_SMALL_EDGE_BYTES] = {
    1, 0, 0, 0, 0, 1, 0, 0, 0, 0,
    1, 0, 0, 0, 1, 2, 0, 0, 0, 0,
};

/* Green, green and grey, and the last reads 312. */
static const uint8_t left_nodes[sizeof came_nodes] = {
    1, 2, 0, 1, 0, 0, 0, 5,
    1, 2, 0, 1, 0, 0, 1, 49,
    1, 4, 0, 1, 0, 0, 1, 56,
};

static uint8_t nodes[sizeof came_nodes], edges[sizeof came_edges];
static uint8_t journal[RECORDS * NHIEMAVUT_SMALL_RECORD_BYTES], report[NHIEMAVUT_REPORT_BYTES];

static uint32_t run(size_t records)
{
    return nhiemavut_small_run(nodes, sizeof nodes, edges, sizeof edges, journal, records * NHIEMAVUT_SMALL_RECORD_BYTES, image,
                               sizeof image, FUEL, report, sizeof report);
}

static int as_they_came(void)
{
    const uint8_t zeros[sizeof journal] = {0};
    return memcmp(nodes, came_nodes, sizeof nodes) == 0 && memcmp(edges, came_edges, sizeof edges) == 0 &&
           memcmp(journal, zeros, sizeof journal) == 0;
}

int main(void)
{
    memcpy(nodes, came_nodes, sizeof nodes);
    memcpy(edges, came_edges, sizeof edges);
    expect(run(RECORDS) == NHIEMAVUT_RESULT, "the pass comes to a result");
    expect(memcmp(nodes, left_nodes, sizeof nodes) == 0, "the last gauge reads the sum");
    expect(nhiemavut_small_undo(nodes, sizeof nodes, edges, sizeof edges, journal, sizeof journal, report[7], report,
                                sizeof report) == NHIEMAVUT_RESULT,
           "it is undone by the records in the report");
    expect(as_they_came(), "the tables are as they came, and the journal is all zero");
    expect(run(1) == NHIEMAVUT_NO_RECORD_ROOM, "with one record it stops");
    expect(as_they_came(), "and has changed nothing");
    printf("%zu bytes of tables and journal\n", sizeof nodes + sizeof edges + sizeof journal);
    return failures == 0 ? 0 : 1;
}
