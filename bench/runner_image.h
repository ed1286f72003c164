/*
 * A runner image in buffers that are lent to the run of a core, the small one where SMALL is set: what the C programs of the benchmarks
 * share.
 */
#ifndef RUNNER_IMAGE_H
#define RUNNER_IMAGE_H

#include <stdio.h>
#include <stdlib.h>
#include <string.h>

#include "nhiemavut.h"

#ifdef SMALL
#define RUN nhiemavut_small_run
enum {
    NODE = NHIEMAVUT_SMALL_NODE_BYTES,
    EDGE = NHIEMAVUT_SMALL_EDGE_BYTES,
    RECORD = NHIEMAVUT_SMALL_RECORD_BYTES,
    END = 1 /* bytes of the slot number at an edge's end */
};
#else
#define RUN nhiemavut_run
enum { NODE = NHIEMAVUT_NODE_BYTES, EDGE = NHIEMAVUT_EDGE_BYTES, RECORD = NHIEMAVUT_RECORD_BYTES, END = 2 };
#endif

enum { FIELDS = 5, MOST_BYTES = 65536 };

static uint8_t image[FIELDS * (MOST_BYTES + 3)], nodes[MOST_BYTES], edges[MOST_BYTES];
static uint8_t journal[NHIEMAVUT_MOST_RECORDS * NHIEMAVUT_RECORD_BYTES], report[NHIEMAVUT_REPORT_BYTES];
static size_t node_bytes, edge_bytes, journal_bytes, program_bytes;
static const uint8_t *program;
static uint32_t fuel;

static uint32_t number(const uint8_t *p, unsigned n)
{
    uint32_t x = 0;
    for (unsigned i = 0; i < n; i++)
        x = x << 8 | p[i];
    return x;
}

static void read_image(const char *name)
{
    FILE *file = fopen(name, "rb");
    if (file == NULL) {
        perror(name);
        exit(2);
    }
    size_t length = fread(image, 1, sizeof image, file), at = 0, size[FIELDS];
    const uint8_t *part[FIELDS];
    fclose(file);
    for (unsigned i = 0; i < FIELDS; i++) {
        if (length - at < 3 || image[at] != i + 1 || length - at - 3 < number(image + at + 1, 2)) {
            fprintf(stderr, "%s: not a runner image\n", name);
            exit(2);
        }
        size[i] = number(image + at + 1, 2);
        part[i] = image + at + 3;
        at += 3 + size[i];
    }
    if (number(part[2], 2) > NHIEMAVUT_MOST_RECORDS) {
        fprintf(stderr, "%s: too many records\n", name);
        exit(2);
    }
    memcpy(nodes, part[0], node_bytes = size[0]);
    memcpy(edges, part[1], edge_bytes = size[1]);
    journal_bytes = RECORD * number(part[2], 2);
    fuel = number(part[3], 4);
    program = part[4];
    program_bytes = size[4];
}

/* Runs what was read, with so much of the report lent. */
static uint32_t run_image(size_t report_bytes)
{
    return RUN(nodes, node_bytes, edges, edge_bytes, journal, journal_bytes, program, program_bytes, fuel, report, report_bytes);
}

#endif
