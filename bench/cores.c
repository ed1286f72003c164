/*
 * Runs a runner image once, at the core that SMALL chooses, and prints answer, steps, records and a checksum of the graph that is left,
 * which is the same at either core for the same graph: cores IMAGE
 */
#include "runner_image.h"

enum { HEAD = 4, ATOM = 4 };

static uint32_t mix(uint32_t sum, uint32_t n)
{
    return (sum ^ n) * 16777619u;
}

/* Mixes in the live slots of a table: the number, mark, root flag and label of each, and its ends. */
static uint32_t mix_table(uint32_t sum, const uint8_t *table, size_t slots, size_t bytes, unsigned ends)
{
    for (size_t i = 0; i < slots; i++) {
        const uint8_t *p = table + bytes * i, *label = p + HEAD + END * ends;
        if (p[0] != 1)
            continue;
        sum = mix(mix(mix(mix(sum, (uint32_t)i), p[1]), p[2]), p[3]);
        for (unsigned k = 0; k < ends; k++)
            sum = mix(sum, number(p + HEAD + END * k, END));
        for (unsigned k = 0; k < p[3]; k++)
            sum = mix(sum, number(label + ATOM * k, ATOM));
    }
    return sum;
}

int main(int argc, char **argv)
{
    if (argc != 2) {
        fprintf(stderr, "cores IMAGE\n");
        return 2;
    }
    read_image(argv[1]);
    uint32_t answer = run_image(sizeof report);
    uint32_t sum = mix_table(mix_table(2166136261u, nodes, node_bytes / NODE, NODE, 0), edges, edge_bytes / EDGE, EDGE, 2);
    printf("%u %u %u %08x\n", (unsigned)answer, (unsigned)number(report, 4), (unsigned)number(report + 4, 4), (unsigned)sum);
    return 0;
}
