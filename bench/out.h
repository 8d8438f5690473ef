// Whether all that was printed was written: 0, or 2 with a word on standard error, as for a full disk.
#include <stdio.h>

static int unwritten(void)
{
    if (fflush(stdout) == 0 && !ferror(stdout))
        return 0;
    fprintf(stderr, "bench: the figures could not be written\n");
    return 2;
}
