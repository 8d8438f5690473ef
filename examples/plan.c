/* Plans a design from C: `plan FILE` prints just what the plan program prints, for any lawful design, since it lends all the work that the
 * design wants:
 *
 *     plan 0 W H        the reply 0 and the box from the chip's lower left corner; then for each module k a line
 *     k x y w h         with its rectangle: the lower left corner, how wide and how high
 *     plan N P          or a refusal N of 01, and beside it the position among the bytes (1 to 7; else 0)
 *
 * The exit status is 0 done, 1 refused, 2 could not read or write. */
#include "cellweaver.h"
#include <stdio.h>
#include <stdlib.h>

enum { DONE, REFUSED, FAILED };

static uint8_t bytes[4096]; /* enough to decide every reading */

static int failed(const char *what)
{
    perror(what);
    return FAILED;
}

/* A line that is still in the buffer is not written yet: a full disk shows here. */
static int written(int status) { return fflush(stdout) != 0 || ferror(stdout) ? failed("standard output") : status; }

static int refused(size_t number, size_t value)
{
    printf("plan %zu %zu\n", number, value);
    return written(REFUSED);
}

/* Plans the first `length` of the bytes. */
static int plan(size_t length)
{
    /* what the design wants, and then just that */
    size_t width, height, modules, work_length, rows_length, value;
    size_t number = cellweaver_sizes(bytes, length, &width, &height, &modules, &work_length, &rows_length, &value);
    if (number != CELLWEAVER_DONE)
        return refused(number, value);
    uint8_t *work = malloc(work_length), *rows = malloc(rows_length);
    if (work == NULL || rows == NULL)
        return failed("memory");

    number = cellweaver_plan(bytes, length, work, work_length, rows, rows_length, &width, &height, &value);
    if (number != CELLWEAVER_DONE)
        return refused(number, value);
    printf("plan %zu %zu %zu\n", number, width, height);
    for (size_t k = 0; k < modules; k++) {
        const uint8_t *row = rows + 4 * k;
        printf("%zu %d %d %d %d\n", k, row[0], row[1], row[2], row[3]);
    }
    return written(DONE);
}

int main(int argc, char **argv)
{
    if (argc != 2) {
        fprintf(stderr, "usage: plan FILE\n");
        return FAILED;
    }
    FILE *file = fopen(argv[1], "rb");
    if (file == NULL)
        return failed(argv[1]);
    size_t length = fread(bytes, 1, sizeof bytes, file);
    if (ferror(file))
        return failed(argv[1]); /* what came before could be another design */
    fclose(file);
    return plan(length);
}
