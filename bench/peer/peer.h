/*
 * The peer: a plain C interpreter of the same images over the same tables, without proofs. The benchmarks measure the
 * proved interpreter against it. Its call takes what nhiemavut_run takes and leaves what it leaves.
 */
#ifndef PEER_H
#define PEER_H

#include <stddef.h>
#include <stdint.h>

/* A slot is its head and the atoms of its label; a record is its head and room for an edge slot. */
enum {
    PEER_ATOM_BYTES = 4,
    PEER_MOST_ATOMS = 8,
    PEER_LABEL_BYTES = PEER_MOST_ATOMS * PEER_ATOM_BYTES,
    PEER_NODE_HEAD = 4,
    PEER_EDGE_HEAD = 8,
    PEER_RECORD_HEAD = 4,
    PEER_NODE_BYTES = PEER_NODE_HEAD + PEER_LABEL_BYTES,
    PEER_EDGE_BYTES = PEER_EDGE_HEAD + PEER_LABEL_BYTES,
    PEER_RECORD_BYTES = PEER_RECORD_HEAD + PEER_EDGE_BYTES,
    PEER_MOST_NODES = 512,
    PEER_MOST_EDGES = 1024,
    PEER_MOST_RECORDS = 1024
};

uint32_t peer_run(uint8_t *nodes, size_t nodes_length, uint8_t *edges, size_t edges_length, uint8_t *journal,
                  size_t journal_length, const uint8_t *image, size_t image_length, uint32_t fuel, uint8_t *report,
                  size_t report_length);

#endif
