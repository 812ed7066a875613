/* What a program of the kit calls in C beside the C library. The kit has it compiled for x86-64 alone; this stands for it where the program is linked
   for aarch64. */
#include <errno.h>

int rattle_errno(void);

int rattle_errno(void)
{
    return errno;
}
