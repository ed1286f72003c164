/*
 * A worked driver: runs a pass over a graph with a small allowance and a small journal, handles every answer, lends more
 * where the answer asks for it, undoes the pass, and runs it again to keep it.
 *
 *     driver PROGRAM_IMAGE
 *
 * The graph is a grid of grey nodes, and the pass that `make driver` gives is programs/2-colouring. Exits with 1 where the
 * pass comes to no result or a promise of the calls is broken.
 */
#include <stdio.h>
#include <string.h>

#include "nhiemavut.h"

enum { WIDTH = 6, HEIGHT = 4, NODES = WIDTH * HEIGHT, EDGES = (WIDTH - 1) * HEIGHT + WIDTH * (HEIGHT - 1) };
enum { GREY = 4, MOST_FUEL = 1000000, IMAGE_BYTES = 8192 };

/* All that is lent to a call. The tables have a few free slots, which this pass doesn't need. */
struct pass {
    uint8_t nodes[(NODES + 4) * NHIEMAVUT_NODE_BYTES];
    uint8_t edges[(EDGES + 4) * NHIEMAVUT_EDGE_BYTES];
    uint8_t journal[NHIEMAVUT_MOST_RECORDS * NHIEMAVUT_RECORD_BYTES];
    uint8_t report[NHIEMAVUT_REPORT_BYTES];
    uint8_t image[IMAGE_BYTES + 1];
    size_t image_length;
    size_t records; /* how much of the journal is lent */
    uint32_t fuel;
};

/* What the driver does on an answer. */
enum next { KEEP, GO_WITHOUT, MORE_FUEL, MORE_RECORDS, GIVE_UP };

static void put_edge(uint8_t *slot, unsigned source, unsigned target)
{
    slot[0] = 1;
    slot[4] = (uint8_t)(source >> 8);
    slot[5] = (uint8_t)source;
    slot[6] = (uint8_t)(target >> 8);
    slot[7] = (uint8_t)target;
}

static void make_graph(struct pass *p)
{
    uint8_t *edge = p->edges;
    memset(p->nodes, 0, sizeof p->nodes);
    memset(p->edges, 0, sizeof p->edges);
    for (unsigned i = 0; i < NODES; i++) {
        p->nodes[i * NHIEMAVUT_NODE_BYTES] = 1;
        p->nodes[i * NHIEMAVUT_NODE_BYTES + 1] = GREY;
        if ((i + 1) % WIDTH != 0) {
            put_edge(edge, i, i + 1);
            edge += NHIEMAVUT_EDGE_BYTES;
        }
        if (i + WIDTH < NODES) {
            put_edge(edge, i, i + WIDTH);
            edge += NHIEMAVUT_EDGE_BYTES;
        }
    }
}

static uint32_t number(const uint8_t *p)
{
    return (uint32_t)p[0] << 24 | (uint32_t)p[1] << 16 | (uint32_t)p[2] << 8 | p[3];
}

static uint32_t run(struct pass *p)
{
    return nhiemavut_run(p->nodes, sizeof p->nodes, p->edges, sizeof p->edges, p->journal,
                         p->records * NHIEMAVUT_RECORD_BYTES, p->image, p->image_length, p->fuel, p->report,
                         sizeof p->report);
}

/* Every answer of a run, and what to do on it. On all but 0 the graph is what it was before the call. */
static enum next handle(uint32_t answer)
{
    switch (answer) {
    case NHIEMAVUT_RESULT:
        return KEEP;
    case NHIEMAVUT_FAIL: /* the pass doesn't apply to this graph */
        return GO_WITHOUT;
    case NHIEMAVUT_OUT_OF_FUEL:
        return MORE_FUEL;
    case NHIEMAVUT_NO_RECORD_ROOM:
        return MORE_RECORDS;
    case NHIEMAVUT_NO_NODE_ROOM: /* lend longer tables: a graph that grows without end is the pass author's mistake */
    case NHIEMAVUT_NO_EDGE_ROOM:
        return GIVE_UP;
    case NHIEMAVUT_LABEL_TOO_LARGE: /* the pass counts beyond 32 bits or makes a label of more than eight atoms */
        return GIVE_UP;
    case NHIEMAVUT_BAD_REPORT: /* 9 to 14: the driver lends wrong buffers */
    case NHIEMAVUT_BAD_NODES:
    case NHIEMAVUT_BAD_EDGES:
    case NHIEMAVUT_BAD_JOURNAL:
    case NHIEMAVUT_TOO_MUCH_FUEL:
    case NHIEMAVUT_IMAGE_TOO_LONG:
        return GIVE_UP;
    case NHIEMAVUT_BAD_HOST: /* 15: the tables were damaged before the call */
        return GIVE_UP;
    case NHIEMAVUT_BAD_FORM: /* 16 to 19: the image is damaged, or was not made by the assembler */
    case NHIEMAVUT_BAD_REFERENCES:
    case NHIEMAVUT_BAD_PLACEMENT:
    case NHIEMAVUT_BAD_DEPTH:
        return GIVE_UP;
    default:
        return GIVE_UP;
    }
}

/* Runs the pass, lending twice as much whenever the answer asks for more. */
static uint32_t run_until_settled(struct pass *p, const struct pass *before, int *sound)
{
    for (;;) {
        uint32_t answer = run(p);
        printf("fuel %lu, %zu records: answer %lu, steps %lu, records %lu\n", (unsigned long)p->fuel, p->records,
               (unsigned long)answer, (unsigned long)number(p->report), (unsigned long)number(p->report + 4));
        enum next next = handle(answer);
        if (answer != NHIEMAVUT_RESULT) {
            *sound = *sound && memcmp(p->nodes, before->nodes, sizeof p->nodes) == 0 &&
                     memcmp(p->edges, before->edges, sizeof p->edges) == 0;
        }
        if (next == MORE_FUEL && p->fuel < MOST_FUEL) {
            p->fuel = p->fuel > MOST_FUEL / 2 ? MOST_FUEL : 2 * p->fuel;
        } else if (next == MORE_RECORDS && p->records < NHIEMAVUT_MOST_RECORDS) {
            p->records = p->records > NHIEMAVUT_MOST_RECORDS / 2 ? NHIEMAVUT_MOST_RECORDS : 2 * p->records;
        } else {
            return answer;
        }
    }
}

static void show(const struct pass *p)
{
    static const char *const marks = ".RGB#";
    for (unsigned i = 0; i < NODES; i++) {
        printf("%c%s", marks[p->nodes[i * NHIEMAVUT_NODE_BYTES + 1]], (i + 1) % WIDTH == 0 ? "\n" : " ");
    }
}

int main(int argc, char **argv)
{
    static struct pass p, before;
    int sound = 1;
    FILE *file = argc == 2 ? fopen(argv[1], "rb") : NULL;
    if (file == NULL) {
        fprintf(stderr, "driver PROGRAM_IMAGE\n");
        return 2;
    }
    p.image_length = fread(p.image, 1, sizeof p.image, file);
    fclose(file);
    make_graph(&p);
    p.fuel = 50;
    p.records = 40;
    before = p;

    printf("before the pass (# grey):\n");
    show(&p);
    uint32_t answer = run_until_settled(&p, &before, &sound);
    printf("after it:\n");
    show(&p);
    printf("after every answer but 0 the graph was what it had been: %s\n", sound ? "yes" : "NO");
    if (answer != NHIEMAVUT_RESULT) {
        return 1;
    }

    uint32_t records = number(p.report + 4);
    answer = nhiemavut_undo(p.nodes, sizeof p.nodes, p.edges, sizeof p.edges, p.journal,
                            p.records * NHIEMAVUT_RECORD_BYTES, records, p.report, sizeof p.report);
    int restored = answer == NHIEMAVUT_RESULT && memcmp(p.nodes, before.nodes, sizeof p.nodes) == 0 &&
                   memcmp(p.edges, before.edges, sizeof p.edges) == 0;
    printf("undone: answer %lu, the graph is restored byte for byte: %s\n", (unsigned long)answer, restored ? "yes" : "NO");

    answer = run_until_settled(&p, &before, &sound);
    printf("run again, to keep it: answer %lu\n", (unsigned long)answer);
    return answer == NHIEMAVUT_RESULT && restored && sound ? 0 : 1;
}
