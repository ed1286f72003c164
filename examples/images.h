/*
 * Program images that more than one example runs. Each field is a tag, a length of two bytes and as many bytes.
 */
#include <stdint.h>

/* Case P of document 01: as long as possible, grey x to grey y becomes red x and blue x + y, with the edge turned round. */
static const uint8_t adding[] = {
    0x10, 0, 73,                                                    /* a rule */
    0x11, 0, 2, 1, 1,                                               /*   two int variables, x and y */
    0x12, 0, 24,                                                    /*   left: */
    0x20, 0, 6, 4, 0, 0x31, 0, 1, 0,                                /*     grey x */
    0x20, 0, 6, 4, 0, 0x31, 0, 1, 1,                                /*     grey y */
    0x21, 0, 3, 0, 0, 1,                                            /*     an edge from x to y */
    0x13, 0, 31,                                                    /*   right: */
    0x20, 0, 6, 1, 0, 0x31, 0, 1, 0,                                /*     red x */
    0x20, 0, 13, 3, 0, 0x32, 0, 8, 0x31, 0, 1, 0, 0x31, 0, 1, 1,    /*     blue x + y */
    0x21, 0, 3, 0, 1, 0,                                            /*     the edge turned round */
    0x14, 0, 1, 2,                                                  /*   both nodes are the interface */
    0x15, 0, 0,                                                     /*   no tests */
    0x54, 0, 4,                                                     /* a loop over */
    0x50, 0, 1, 0,                                                  /*   rule 0 */
};

/* A grey node's list of atoms is doubled, and the node is red then. */
static const uint8_t doubling[] = {
    0x10, 0, 39,                                                    /* a rule */
    0x11, 0, 1, 2,                                                  /*   one list variable, x */
    0x12, 0, 9, 0x20, 0, 6, 4, 0, 0x31, 0, 1, 0,                    /*   left: grey x */
    0x13, 0, 13, 0x20, 0, 10, 1, 0, 0x31, 0, 1, 0, 0x31, 0, 1, 0,   /*   right: red x:x */
    0x14, 0, 1, 1,                                                  /*   the node is the same */
    0x15, 0, 0,                                                     /*   no tests */
    0x50, 0, 1, 0,                                                  /* a call of the rule */
};
