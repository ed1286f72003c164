/*
 * Nhiemavut: graph programs over lent tables, with a journal to undo.
 *
 * All buffers belong to the caller and are passed as a pointer and a length in bytes. Nothing is kept
 * between calls and nothing is allocated. Buffers of one call must not overlap. A buffer of no bytes may
 * have any pointer.
 *
 *   buffer    slot      most slots   a slot holds
 *   nodes     36 bytes  512          state, mark, root, label length, eight atoms
 *   edges     40 bytes  1,024        state, mark, zero, label length, source (2), target (2), eight atoms
 *   journal   44 bytes  1,024        kind, zero, slot number (2), the slot's bytes before the change
 *   report    8 bytes in all         steps (4), records (4)
 *
 * Numbers are big-endian, atoms signed 32-bit. A table may have no slots. A free slot is all zero.
 *
 * The small core is the same for displays that are short of room. Its slots hold one atom, and slot numbers have one byte:
 *
 *   nodes     8 bytes   128          state, mark, root, label length, one atom
 *   edges     10 bytes  255          state, mark, zero, label length, source (1), target (1), one atom
 *   journal   12 bytes  255          kind, slot number (1), the slot's bytes before the change
 *
 * nhiemavut_small_run and nhiemavut_small_undo take such tables and such a journal; nhiemavut_pack and nhiemavut_unpack carry a
 * graph to them and from them. Program images, reports and answers are the same.
 *
 * Old tables have room for four atoms in a label: their slots are as the wide ones but for the last four atoms, of 20 and 24 bytes.
 * nhiemavut_widen and nhiemavut_narrow carry a graph from them and to them.
 *
 * nhiemavut_import reads a graph in the text form of the GP 2 tools into wide tables, nhiemavut_export writes it; docs/TEXT.md has the
 * grammar.
 */
#ifndef NHIEMAVUT_H
#define NHIEMAVUT_H

#include <stddef.h>
#include <stdint.h>

#ifdef __cplusplus
extern "C" {
#endif

enum {
    NHIEMAVUT_NODE_BYTES = 36,
    NHIEMAVUT_EDGE_BYTES = 40,
    NHIEMAVUT_RECORD_BYTES = 44,
    NHIEMAVUT_REPORT_BYTES = 8,
    NHIEMAVUT_SMALL_NODE_BYTES = 8, /* of the small core */
    NHIEMAVUT_SMALL_EDGE_BYTES = 10,
    NHIEMAVUT_SMALL_RECORD_BYTES = 12,
    NHIEMAVUT_OLD_NODE_BYTES = 20, /* of old tables */
    NHIEMAVUT_OLD_EDGE_BYTES = 24,
    NHIEMAVUT_MOST_ATOMS = 8,
    NHIEMAVUT_SMALL_MOST_ATOMS = 1,
    NHIEMAVUT_OLD_MOST_ATOMS = 4,
    NHIEMAVUT_MOST_ELEMENTS = 8, /* of a label in a rule */
    NHIEMAVUT_MOST_NODES = 512,
    NHIEMAVUT_MOST_EDGES = 1024,
    NHIEMAVUT_MOST_RECORDS = 1024,
    NHIEMAVUT_SMALL_MOST_NODES = 128,
    NHIEMAVUT_SMALL_MOST_EDGES = 255,
    NHIEMAVUT_SMALL_MOST_RECORDS = 255,
    NHIEMAVUT_MOST_IMAGE_BYTES = 8192,
    NHIEMAVUT_MOST_FUEL = 1000000
};

/* The answers of a call. 7 is none of them and stays unused: an older switch's case 7 is dead code. */
enum {
    NHIEMAVUT_RESULT = 0,

    /* a run that came to no result: the graph is as it came */
    NHIEMAVUT_FAIL = 1,            /* the program failed */
    NHIEMAVUT_OUT_OF_FUEL = 2,     /* no fuel was left to enter a command */
    NHIEMAVUT_NO_NODE_ROOM = 3,    /* too few node slots for the nodes that a rule adds */
    NHIEMAVUT_NO_EDGE_ROOM = 4,    /* too few edge slots for the edges that a rule adds */
    NHIEMAVUT_NO_RECORD_ROOM = 5,  /* too few journal slots for the records of a rule */
    NHIEMAVUT_LABEL_TOO_LARGE = 6, /* a sum or difference leaves 32 bits, or a label has over eight atoms, on the
                                      small core over one */

    /* a refused call: nothing is run, undone, carried, read or written */
    NHIEMAVUT_BAD_REPORT = 9,      /* the report isn't 8 bytes; it is left as it was */
    NHIEMAVUT_BAD_NODES = 10,      /* the node table's length is no multiple of its slot's, or it has too many slots; widen,
                                      narrow, pack and unpack: this of either node table; widen and narrow: or one has more
                                      slots than the other */
    NHIEMAVUT_BAD_EDGES = 11,      /* the same of the edge table, or of either */
    NHIEMAVUT_BAD_JOURNAL = 12,    /* the same of the journal */
    NHIEMAVUT_TOO_MUCH_FUEL = 13,  /* run: the fuel is over 1,000,000 */
    NHIEMAVUT_IMAGE_TOO_LONG = 14, /* run: the image has over 8,192 bytes */
    NHIEMAVUT_BAD_HOST = 15,       /* run, and of what is carried or exported: a slot of either table breaks the layout */
    NHIEMAVUT_BAD_FORM = 16,       /* run: the image isn't a program, or has if and try in the old form (0x52, 0x53) */
    NHIEMAVUT_BAD_REFERENCES = 17, /* run: a rule, a procedure, a variable or a node that it names isn't there or is misused */
    NHIEMAVUT_BAD_PLACEMENT = 18,  /* run: a break isn't in a loop body of its own procedure, or a guard is between them */
    NHIEMAVUT_BAD_DEPTH = 19,      /* run: calls of procedures form a ring, or nest commands over 16 deep */
    NHIEMAVUT_BAD_RECORDS = 20,    /* undo: the count is over the journal's records, or a counted record has a kind
                                      other than 1 or 2, a second byte other than 0 (but on the small core, where that is
                                      the slot number), or a slot outside its table */
    NHIEMAVUT_BAD_TEXT = 22,       /* import: the text is outside the grammar */
    NHIEMAVUT_BAD_NAMES = 23,      /* import: an identifier stands twice among nodes or among edges, or an end isn't there */
    NHIEMAVUT_TEXT_DOES_NOT_FIT = 24, /* import: an integer outside of 32 bits, a label of over eight atoms, a mark that nodes or
                                         edges haven't, or more nodes or edges than the table has slots */
    NHIEMAVUT_BUFFER_TOO_SHORT = 25,  /* export: the text is longer than the buffer */
    NHIEMAVUT_LABEL_DOES_NOT_FIT = 26, /* narrow: a label has over four atoms */
    NHIEMAVUT_HOST_DOES_NOT_FIT = 29   /* pack: a label has over one atom; pack and unpack: a live slot has a number that the
                                          table carried to has not */
};

/*
 * Runs the program of an image on the graph in both tables. Each command that is entered takes one fuel and is one step.
 * What the journal holds before doesn't matter: a started run clears it first.
 *
 * Answers 0, with the result in both tables, a record of each change from the journal's front and zeros behind, and
 * steps and records in the report: nhiemavut_undo with that count of records gives the graph back. Answers 1 to 6 where
 * the run comes to no result: both tables are as they came, the journal is all zero, and the report has the steps and 0
 * records. Or the lowest of 9 to 19 that applies, before anything is run. A refused call leaves both tables and the
 * journal as they were, and writes zeros in the report, except on 9.
 */
uint32_t nhiemavut_run(uint8_t *nodes, size_t nodes_length,
                       uint8_t *edges, size_t edges_length,
                       uint8_t *journal, size_t journal_length,
                       const uint8_t *image, size_t image_length,
                       uint32_t fuel,
                       uint8_t *report, size_t report_length);

/*
 * Undoes the first `count` records of the journal: stores each record's bytes back in the slot that it names,
 * from the last to the first, and zeros those records.
 *
 * Answers 0, with 0 steps and the count in the report; or the lowest of 9, 10, 11, 12 and 20 that applies. A refused
 * call leaves both tables and the journal as they were, and writes zeros in the report, except on 9.
 */
uint32_t nhiemavut_undo(uint8_t *nodes, size_t nodes_length,
                        uint8_t *edges, size_t edges_length,
                        uint8_t *journal, size_t journal_length,
                        uint32_t count,
                        uint8_t *report, size_t report_length);

/*
 * Carries the graph in two old tables to two tables of as many slots, so that its labels have room for eight atoms. Each slot
 * keeps its number. What the tables that it is carried to hold before doesn't matter. Journals are not carried: undo before.
 *
 * Answers 0, with the same graph in the tables that it was carried to; or the lowest of 10, 11 and 15 that applies. A refused
 * call leaves these tables as they were.
 */
uint32_t nhiemavut_widen(const uint8_t *nodes, size_t nodes_length,
                         const uint8_t *edges, size_t edges_length,
                         uint8_t *to_nodes, size_t to_nodes_length,
                         uint8_t *to_edges, size_t to_edges_length);

/*
 * The same the other way, from tables to old ones. Answers 26 where a label has more than the four atoms that old tables have room
 * for, and none of the numbers above applies.
 */
uint32_t nhiemavut_narrow(const uint8_t *nodes, size_t nodes_length,
                          const uint8_t *edges, size_t edges_length,
                          uint8_t *to_nodes, size_t to_nodes_length,
                          uint8_t *to_edges, size_t to_edges_length);

/*
 * The calls above on the small core: the same, on small tables and with a small journal.
 */
uint32_t nhiemavut_small_run(uint8_t *nodes, size_t nodes_length,
                             uint8_t *edges, size_t edges_length,
                             uint8_t *journal, size_t journal_length,
                             const uint8_t *image, size_t image_length,
                             uint32_t fuel,
                             uint8_t *report, size_t report_length);

uint32_t nhiemavut_small_undo(uint8_t *nodes, size_t nodes_length,
                              uint8_t *edges, size_t edges_length,
                              uint8_t *journal, size_t journal_length,
                              uint32_t count,
                              uint8_t *report, size_t report_length);

/*
 * Carries the graph in two tables to two small ones. Each slot keeps its number; the tables may have other counts of slots, and those
 * that the graph leaves become free. What the small tables hold before doesn't matter. Journals are not carried: undo before.
 *
 * Answers 0, with the same graph in the small tables; or the lowest of 10, 11, 15 and 29 that applies. A refused call leaves the
 * small tables as they were.
 */
uint32_t nhiemavut_pack(const uint8_t *nodes, size_t nodes_length,
                        const uint8_t *edges, size_t edges_length,
                        uint8_t *to_nodes, size_t to_nodes_length,
                        uint8_t *to_edges, size_t to_edges_length);

/*
 * The same the other way, from small tables. It never answers 29 where the tables carried to have as many slots or more.
 */
uint32_t nhiemavut_unpack(const uint8_t *nodes, size_t nodes_length,
                          const uint8_t *edges, size_t edges_length,
                          uint8_t *to_nodes, size_t to_nodes_length,
                          uint8_t *to_edges, size_t to_edges_length);

/*
 * Reads a text graph into two tables: its nodes and edges take slots in the order read, and all other slots become free. What the tables
 * hold before doesn't matter. A text may have any length; reading it takes time of its length, and of its length times its items where
 * identifiers are long.
 *
 * Answers 0, with the graph in both tables; or the lowest of 10, 11, 22, 23 and 24 that applies to the whole text, but 23 only where it
 * lists at most 512 nodes and 1,024 edges. A refused call leaves both tables as they were.
 */
uint32_t nhiemavut_import(const uint8_t *text, size_t text_length,
                          uint8_t *nodes, size_t nodes_length,
                          uint8_t *edges, size_t edges_length);

/*
 * Writes the graph of two tables as text: its live slots in order, each under its slot number, an item to a line.
 *
 * Answers 0, with the text at the front of the buffer, which stays as it was behind it, and the text's length in `*length`; or the lowest of
 * 10, 11, 15 and 25 that applies. A refused call leaves the buffer as it was; `*length` is then 0, but on 25 the length of the text, so
 * that a call with no buffer asks for it. There is no zero byte behind the text.
 */
uint32_t nhiemavut_export(const uint8_t *nodes, size_t nodes_length,
                          const uint8_t *edges, size_t edges_length,
                          uint8_t *text, size_t text_length,
                          uint64_t *length);

#ifdef __cplusplus
}
#endif

#endif
