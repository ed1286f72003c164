/*
 * The C functions that the kit's programs call and the C library has not. The kit has its own for x86-64; these stand for them in programs
 * for another processor (tools/module), which tests and benchmarks run.
 */
#include <errno.h>
#include <stdint.h>

int32_t rattle_errno(void);
void rattle_set_errno(int32_t error);

int32_t rattle_errno(void)
{
    return errno;
}

void rattle_set_errno(int32_t error)
{
    errno = error;
}
