/*
 * A driver that speaks text: reads a graph that a pass author wrote, runs a pass over it and prints the result as text.
 *
 *     text PROGRAM_IMAGE HOST_GRAPH
 *
 * Then it shows what the calls promise: the printed text reads as the same tables, a call with no buffer tells how long the text is, and
 * what is refused changes nothing. Exits with 1 where anything is otherwise.
 */
#include <string.h>

#include "checks.h"
#include "nhiemavut.h"

enum { NODES = 40, EDGES = 60, RECORDS = 500, FUEL = 10000, TEXT = 65536, UNTOUCHED = 0xA5 };

/* The tables of a graph, with free slots behind it. */
struct graph {
    uint8_t nodes[NODES * NHIEMAVUT_NODE_BYTES], edges[EDGES * NHIEMAVUT_EDGE_BYTES];
};

static struct graph graph, again;
static uint8_t journal[RECORDS * NHIEMAVUT_RECORD_BYTES], report[NHIEMAVUT_REPORT_BYTES];
static uint8_t image[NHIEMAVUT_MOST_IMAGE_BYTES], text[TEXT];

static uint32_t import(struct graph *g, const void *from, size_t length)
{
    return nhiemavut_import(from, length, g->nodes, sizeof g->nodes, g->edges, sizeof g->edges);
}

static uint32_t export(const struct graph *g, uint8_t *to, size_t room, uint64_t *length)
{
    return nhiemavut_export(g->nodes, sizeof g->nodes, g->edges, sizeof g->edges, to, room, length);
}

static size_t contents(const char *name, uint8_t *bytes, size_t room)
{
    FILE *file = fopen(name, "rb");
    size_t length = file == NULL ? 0 : fread(bytes, 1, room, file);
    if (file != NULL) {
        fclose(file);
    }
    return length;
}

static void run_pass(const char *program, const char *host)
{
    size_t image_length = contents(program, image, sizeof image), length = contents(host, text, sizeof text);
    uint64_t written;
    expect(import(&graph, text, length) == NHIEMAVUT_RESULT, "the host graph is read");
    expect(nhiemavut_run(graph.nodes, sizeof graph.nodes, graph.edges, sizeof graph.edges, journal, sizeof journal, image, image_length,
                         FUEL, report, sizeof report) == NHIEMAVUT_RESULT,
           "the pass comes to a result, which is");
    expect(export(&graph, text, sizeof text, &written) == NHIEMAVUT_RESULT, "a graph that is written as");
    printf("%.*s", (int)written, (const char *)text);
}

static void check_back(void)
{
    uint64_t length, needed;
    export(&graph, text, sizeof text, &length);
    memset(&again, UNTOUCHED, sizeof again);
    expect(import(&again, text, length) == NHIEMAVUT_RESULT && memcmp(&again, &graph, sizeof graph) == 0,
           "that text reads as the same tables, since no slot between live ones is free");
    expect(export(&graph, NULL, 0, &needed) == NHIEMAVUT_BUFFER_TOO_SHORT && needed == length,
           "with no buffer the length of the text is told");
    memset(text, UNTOUCHED, sizeof text);
    expect(export(&graph, text, length - 1, &needed) == NHIEMAVUT_BUFFER_TOO_SHORT && all(text, sizeof text, UNTOUCHED),
           "in a buffer that is one byte too short nothing is written");
    expect(export(&graph, text, length, &needed) == NHIEMAVUT_RESULT && all(text + length, sizeof text - length, UNTOUCHED),
           "and behind the text nothing is");
}

/* A text that is refused with this answer leaves the tables as they were. */
static void check_refused(const char *bad, uint32_t answer, const char *what)
{
    memset(&again, UNTOUCHED, sizeof again);
    expect(import(&again, bad, strlen(bad)) == answer && all((const uint8_t *)&again, sizeof again, UNTOUCHED), what);
}

int main(int argc, char **argv)
{
    if (argc != 3) {
        fprintf(stderr, "text PROGRAM_IMAGE HOST_GRAPH\n");
        return 2;
    }
    run_pass(argv[1], argv[2]);
    check_back();
    check_refused("[ (1, 7) | (1, 1, 1, 5 # pink) ]", NHIEMAVUT_BAD_TEXT, "a mark that is none is refused");
    check_refused("[ (1, 2147483648) | (1, 1, 2, empty) ]", NHIEMAVUT_BAD_NAMES, "an end that isn't there is, before an atom too large");
    check_refused("[ (1, 2147483648) | ]", NHIEMAVUT_TEXT_DOES_NOT_FIT, "which is refused by itself");
    return failures == 0 ? 0 : 1;
}
