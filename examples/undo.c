/*
 * Undoes a journal of two records that a pass might have left: a node was marked red, then an edge was deleted.
 * Shows the call's answer and that both tables are as they were before the pass, and that a damaged journal is
 * refused and changes nothing. Exits with 1 where anything is otherwise.
 */
#include <string.h>

#include "checks.h"
#include "nhiemavut.h"

int main(void)
{
    uint8_t before_nodes[2 * NHIEMAVUT_NODE_BYTES] = {0};
    uint8_t before_edges[NHIEMAVUT_EDGE_BYTES] = {0};
    uint8_t nodes[sizeof before_nodes];
    uint8_t edges[sizeof before_edges];
    uint8_t journal[3 * NHIEMAVUT_RECORD_BYTES] = {0};
    uint8_t damaged[sizeof journal];
    uint8_t report[NHIEMAVUT_REPORT_BYTES];
    const uint8_t count_in_report[NHIEMAVUT_REPORT_BYTES] = {0, 0, 0, 0, 0, 0, 0, 2};
    const uint8_t zeros[sizeof journal] = {0};

    /* Two live nodes, the second a grey root, and an edge from the first to the second. */
    before_nodes[0] = 1;
    before_nodes[NHIEMAVUT_NODE_BYTES] = 1;
    before_nodes[NHIEMAVUT_NODE_BYTES + 1] = 4;
    before_nodes[NHIEMAVUT_NODE_BYTES + 2] = 1;
    before_edges[0] = 1;
    before_edges[7] = 1;

    /* The pass: the second node turns red and loses its root flag, the edge goes; each with its record. */
    memcpy(nodes, before_nodes, sizeof nodes);
    memcpy(edges, before_edges, sizeof edges);
    journal[0] = 1;
    journal[3] = 1;
    memcpy(journal + 4, nodes + NHIEMAVUT_NODE_BYTES, NHIEMAVUT_NODE_BYTES);
    nodes[NHIEMAVUT_NODE_BYTES + 1] = 1;
    nodes[NHIEMAVUT_NODE_BYTES + 2] = 0;
    journal[NHIEMAVUT_RECORD_BYTES] = 2;
    memcpy(journal + NHIEMAVUT_RECORD_BYTES + 4, edges, NHIEMAVUT_EDGE_BYTES);
    memset(edges, 0, sizeof edges);

    memcpy(damaged, journal, sizeof damaged);
    damaged[0] = 3;
    expect(nhiemavut_undo(nodes, sizeof nodes, edges, sizeof edges, damaged, sizeof damaged, 2, report,
                          sizeof report) == NHIEMAVUT_BAD_RECORDS,
           "a record of unknown kind is refused");
    expect(memcmp(report, zeros, sizeof report) == 0 && edges[0] == 0, "and changes no table");

    expect(nhiemavut_undo(nodes, sizeof nodes, edges, sizeof edges, journal, sizeof journal, 2, report,
                          sizeof report) == NHIEMAVUT_RESULT,
           "two records are undone");
    expect(memcmp(nodes, before_nodes, sizeof nodes) == 0, "the nodes are as before the pass, mark and root included");
    expect(memcmp(edges, before_edges, sizeof edges) == 0, "the edges are as before the pass");
    expect(memcmp(journal, zeros, sizeof journal) == 0, "the journal is cleared");
    expect(memcmp(report, count_in_report, sizeof report) == 0, "the report has 0 steps and 2 records");
    return failures == 0 ? 0 : 1;
}
