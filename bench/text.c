/*
 * Imports a text graph and exports it again, some times over, and prints the answers of both, the bytes of the exported text, and the least
 * microseconds of an import and of an export: text TEXT ROUNDS
 */
#define _POSIX_C_SOURCE 199309L
#include <stdio.h>
#include <stdlib.h>
#include <time.h>

#include "nhiemavut.h"

enum { LONGEST = 1 << 26, ROOM = 1 << 18 };

static uint8_t nodes[NHIEMAVUT_MOST_NODES * NHIEMAVUT_NODE_BYTES], edges[NHIEMAVUT_MOST_EDGES * NHIEMAVUT_EDGE_BYTES];
static uint8_t text[LONGEST], out[ROOM];

static double now(void)
{
    struct timespec t;
    clock_gettime(CLOCK_MONOTONIC, &t);
    return t.tv_sec * 1e6 + t.tv_nsec / 1e3;
}

static double least(double a, double b)
{
    return a < b ? a : b;
}

int main(int argc, char **argv)
{
    FILE *file = argc == 3 ? fopen(argv[1], "rb") : NULL;
    if (file == NULL) {
        fprintf(stderr, "text TEXT ROUNDS\n");
        return 2;
    }
    size_t length = fread(text, 1, sizeof text, file);
    fclose(file);
    uint32_t imported = 0, exported = 0;
    uint64_t written = 0;
    double importing = 1e18, exporting = 1e18;
    for (long round = atol(argv[2]); round > 0; round--) {
        double start = now();
        imported = nhiemavut_import(text, length, nodes, sizeof nodes, edges, sizeof edges);
        double middle = now();
        exported = nhiemavut_export(nodes, sizeof nodes, edges, sizeof edges, out, sizeof out, &written);
        importing = least(importing, middle - start);
        exporting = least(exporting, now() - middle);
    }
    printf("%u %u %llu %.1f %.1f\n", (unsigned)imported, (unsigned)exported, (unsigned long long)written, importing, exporting);
    return 0;
}
