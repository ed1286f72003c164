/*
 * Times one interpreter on one runner image: harness IMAGE SECONDS runs it until so much time has passed, and prints
 * answer, steps, records, a checksum of all that it left, and the nanoseconds of one run. PROVED chooses the interpreter.
 */
#define _POSIX_C_SOURCE 200809L
#include <stdio.h>
#include <stdlib.h>
#include <string.h>
#include <time.h>

#ifdef PROVED
#include "nhiemavut.h"
#define CALL nhiemavut_run
enum { RECORD = NHIEMAVUT_RECORD_BYTES, MOST_RECORDS = NHIEMAVUT_MOST_RECORDS };
#else
#include "peer.h"
#define CALL peer_run
enum { RECORD = PEER_RECORD_BYTES, MOST_RECORDS = PEER_MOST_RECORDS };
#endif

static uint8_t image[65537], nodes[65536], edges[65536], journal[MOST_RECORDS * RECORD], report[8];

static uint32_t number(const uint8_t *p, unsigned n)
{
    uint32_t x = 0;
    for (unsigned i = 0; i < n; i++)
        x = x << 8 | p[i];
    return x;
}

static uint32_t mix(uint32_t sum, const uint8_t *p, size_t n)
{
    for (size_t i = 0; i < n; i++)
        sum = (sum ^ p[i]) * 16777619u;
    return sum;
}

static double now(void)
{
    struct timespec t;
    clock_gettime(CLOCK_MONOTONIC, &t);
    return (double)t.tv_sec * 1e9 + (double)t.tv_nsec;
}

int main(int argc, char **argv)
{
    FILE *file = argc == 3 ? fopen(argv[1], "rb") : NULL;
    if (file == NULL) {
        fprintf(stderr, "harness IMAGE SECONDS\n");
        return 2;
    }
    size_t length = fread(image, 1, sizeof image, file), at = 0, size[5];
    const uint8_t *part[5];
    for (unsigned i = 0; i < 5; i++) {
        if (length - at < 3 || image[at] != i + 1 || length - at - 3 < number(image + at + 1, 2)) {
            fprintf(stderr, "harness: not a runner image\n");
            return 2;
        }
        size[i] = number(image + at + 1, 2);
        part[i] = image + at + 3;
        at += 3 + size[i];
    }
    size_t records = RECORD * number(part[2], 2);
    uint32_t answer = 0;
    double limit = atof(argv[2]) * 1e9, start = now(), passed;
    unsigned long runs = 0;
    do {
        memcpy(nodes, part[0], size[0]);
        memcpy(edges, part[1], size[1]);
        answer = CALL(nodes, size[0], edges, size[1], journal, records, part[4], size[4], number(part[3], 4), report,
                      sizeof report);
        runs++;
        passed = now() - start;
    } while (passed < limit);
    uint32_t sum = mix(mix(mix(mix(2166136261u, nodes, size[0]), edges, size[1]), journal, records), report, 8);
    printf("%u %u %u %08x %.0f\n", (unsigned)answer, (unsigned)number(report, 4), (unsigned)number(report + 4, 4),
           (unsigned)sum, passed / (double)runs);
    return 0;
}
