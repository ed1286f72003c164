/*
 * Measures the deepest stack of a call: deepest IMAGE.. runs each runner image, at the core that SMALL chooses, on a stack of its own that
 * is painted before, and prints how many bytes of it were touched. What the caller's frame and the switch take is measured by a
 * run that is refused at once, and told apart. The wide core's program carries a graph between layouts there too, exports it and imports the text.
 */
#define _XOPEN_SOURCE 700
#include <ucontext.h>

#include "runner_image.h"

enum { STACK = 1 << 20, PAINT = 0xC5, OTHER_PAINT = 0x3A };

static uint8_t stack[STACK] __attribute__((aligned(64)));
static size_t report_bytes;
static uint32_t answer;
static ucontext_t here, there;

/* the bytes of a painted stack that a call touches, but for the last ones that it gives the paint's own value */
static size_t touched_paint(void (*call)(void), uint8_t paint)
{
    size_t untouched = 0;
    memset(stack, paint, sizeof stack);
    if (getcontext(&there) != 0)
        exit(2);
    there.uc_stack.ss_sp = stack;
    there.uc_stack.ss_size = sizeof stack;
    there.uc_link = &here;
    makecontext(&there, call, 0);
    swapcontext(&here, &there);
    while (untouched < sizeof stack && stack[untouched] == paint)
        untouched++;
    return sizeof stack - untouched;
}

/* the bytes that a call touches, from two paints; an image, if any is named, is read before each */
static size_t touched(void (*call)(void), const char *name)
{
    static const uint8_t paints[] = {PAINT, OTHER_PAINT};
    size_t most = 0;
    for (unsigned i = 0; i < sizeof paints; i++) {
        if (name != NULL)
            read_image(name);
        size_t bytes = touched_paint(call, paints[i]);
        most = bytes > most ? bytes : most;
    }
    return most;
}

static void run(void)
{
    answer = run_image(report_bytes);
}

static void measure(const char *name)
{
    report_bytes = 0;
    size_t refused = touched(run, name);
    report_bytes = sizeof report;
    size_t whole = touched(run, name);
    const char *last = strrchr(name, (char)47);
    printf("%-30s answer %2u: %6zu bytes of stack (%zu of them for a call that is refused at once)\n", last ? last + 1 : name,
           (unsigned)answer, whole, refused);
}

#ifndef SMALL
static uint8_t old_node[NHIEMAVUT_OLD_NODE_BYTES], old_edge[NHIEMAVUT_OLD_EDGE_BYTES];
static uint8_t small_node[NHIEMAVUT_SMALL_NODE_BYTES], small_edge[NHIEMAVUT_SMALL_EDGE_BYTES];
static uint8_t node[NHIEMAVUT_NODE_BYTES], edge[NHIEMAVUT_EDGE_BYTES];

static void widen(void)
{
    answer = nhiemavut_widen(old_node, sizeof old_node, old_edge, sizeof old_edge, node, sizeof node, edge, sizeof edge);
}

static void narrow(void)
{
    answer = nhiemavut_narrow(node, sizeof node, edge, sizeof edge, old_node, sizeof old_node, old_edge, sizeof old_edge);
}

static void unpack(void)
{
    answer = nhiemavut_unpack(small_node, sizeof small_node, small_edge, sizeof small_edge, node, sizeof node, edge, sizeof edge);
}

static void pack(void)
{
    answer = nhiemavut_pack(node, sizeof node, edge, sizeof edge, small_node, sizeof small_node, small_edge, sizeof small_edge);
}

static uint8_t text[1024];
static uint64_t text_bytes;

static void export(void)
{
    answer = nhiemavut_export(node, sizeof node, edge, sizeof edge, text, sizeof text, &text_bytes);
}

static void import(void)
{
    answer = nhiemavut_import(text, text_bytes, node, sizeof node, edge, sizeof edge);
}

/* A node with a loop, each with a label of as many atoms as fit, there and back, and as text. */
static void measure_others(void)
{
    static const struct {
        const char *name;
        void (*call)(void);
    } calls[] = {{"widen", widen}, {"narrow", narrow}, {"unpack", unpack}, {"pack", pack}, {"export", export}, {"import", import}};
    old_node[0] = old_edge[0] = small_node[0] = small_edge[0] = 1;
    old_node[3] = old_edge[3] = NHIEMAVUT_OLD_MOST_ATOMS;
    small_node[3] = small_edge[3] = NHIEMAVUT_SMALL_MOST_ATOMS;
    for (unsigned i = 0; i < sizeof calls / sizeof *calls; i++) {
        size_t whole = touched(calls[i].call, NULL);
        printf("%-30s answer %2u: %6zu bytes of stack\n", calls[i].name, (unsigned)answer, whole);
    }
}
#endif

int main(int argc, char **argv)
{
    for (int i = 1; i < argc; i++)
        measure(argv[i]);
#ifndef SMALL
    measure_others();
#endif
    return 0;
}
