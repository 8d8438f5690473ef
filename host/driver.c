/*
 * Calls the static library as requests on standard input say, and prints an answer for each call. host/cases.rs makes the requests, and
 * the answers that the independent implementation gives; host/README.md has the form of both.
 *
 * Each lent buffer stands between guards, so that a byte written outside of it shows.
 */
#include "cellweaver.h"
#include <inttypes.h>
#include <stdio.h>
#include <stdlib.h>
#include <string.h>

enum { GUARD = 64, GUARDED = 0xa5 };

struct lent {
    uint8_t *room; /* guard, the bytes, guard */
    uint8_t *at;
    size_t length;
};

static struct lent bytes, work, rows, out, kinds, weights, nets;

/* All that is lent, in the order of the sum, each by the letter of the request that lends it. */
static const struct {
    int letter;
    struct lent *buffer;
} all[] = {{'b', &bytes}, {'w', &work}, {'r', &rows}, {'o', &out}, {'k', &kinds}, {'g', &weights}, {'n', &nets}};
enum { BUFFERS = sizeof all / sizeof all[0] };

static uintmax_t calls;

static void fail(const char *what)
{
    fprintf(stderr, "driver: %s\n", what);
    exit(2);
}

static void lend(struct lent *buffer, size_t length)
{
    free(buffer->room);
    buffer->room = malloc(length + 2 * GUARD);
    if (buffer->room == NULL)
        fail("no memory");
    buffer->at = buffer->room + GUARD;
    buffer->length = length;
    memset(buffer->room, GUARDED, length + 2 * GUARD);
}

static int guarded(const struct lent *buffer)
{
    for (size_t i = 0; i < GUARD; i++)
        if (buffer->room[i] != GUARDED || buffer->at[buffer->length + i] != GUARDED)
            return 0;
    return 1;
}

/* FNV-1a with 64 bits, over what was summed before and one more buffer. */
static uint64_t summed(uint64_t sum, const struct lent *buffer)
{
    for (size_t i = 0; i < buffer->length; i++)
        sum = (sum ^ buffer->at[i]) * 0x100000001b3;
    return sum;
}

static void answer(const char *call, size_t number, size_t value, size_t width, size_t height)
{
    uint64_t sum = 0xcbf29ce484222325;
    calls++;
    for (int i = 0; i < BUFFERS; i++) {
        if (!guarded(all[i].buffer)) {
            fprintf(stderr, "driver: call %ju (%s) wrote outside of what was lent\n", calls, call);
            exit(1);
        }
        sum = summed(sum, all[i].buffer);
    }
    printf("%s %zu %zu %zu %zu %016" PRIx64 "\n", call, number, value, width, height, sum);
}

/* A number of a request: eight bytes, low byte first. */
static size_t number(void)
{
    uint8_t b[8];
    if (fread(b, 1, sizeof b, stdin) != sizeof b)
        fail("a request ends early");
    uint64_t n = 0;
    for (int i = 7; i >= 0; i--)
        n = n << 8 | b[i];
    return n;
}

static void take(struct lent *buffer)
{
    lend(buffer, number());
    if (fread(buffer->at, 1, buffer->length, stdin) != buffer->length)
        fail("a request ends early");
}

/* An edit's answer; the design that a granted edit puts into `out` is the next one to be handed over. */
static void edited(const char *call, size_t reply, size_t value)
{
    answer(call, reply, value, 0, 0);
    if (reply == CELLWEAVER_DONE) {
        lend(&bytes, value);
        memcpy(bytes.at, out.at, value);
    }
}

/* The bits of a double, as a number. */
static size_t bits(double number)
{
    uint64_t n;
    memcpy(&n, &number, sizeof n);
    return n;
}

/* A score's answer has the bits of the total and of the last amount for the box. A buffer begins where a double may. */
static void score(void)
{
    double total = 99, last = 99;
    size_t value = 99;
    const double *numbers = (const double *)weights.at;
    size_t reply = cellweaver_score(bytes.at, bytes.length, rows.at, rows.length, kinds.at, kinds.length, numbers,
                                    weights.length / sizeof *numbers, nets.at, nets.length, &total, &last, &value);
    answer("score", reply, value, bits(total), bits(last));
}

static void call(int request)
{
    size_t width = 99, height = 99, value = 99, modules = 99, lists = 99, places = 99, reply;
    switch (request) {
    case 'R':
        reply = cellweaver_read(bytes.at, bytes.length, &value);
        answer("read", reply, value, 0, 0);
        break;
    case 'S':
        reply = cellweaver_sizes(bytes.at, bytes.length, &width, &height, &modules, &lists, &places, &value);
        answer("sizes", reply, value, width, height);
        answer("wants", reply, modules, lists, places);
        break;
    case 'W':
        reply = cellweaver_write(bytes.at, bytes.length, out.at, out.length, &value);
        answer("write", reply, value, 0, 0);
        break;
    case 'L':
        reply = cellweaver_list(bytes.at, bytes.length, work.at, work.length, &value);
        answer("list", reply, value, 0, 0);
        break;
    case 'P':
        reply = cellweaver_plan(bytes.at, bytes.length, work.at, work.length, rows.at, rows.length, &width, &height, &value);
        answer("plan", reply, value, width, height);
        break;
    case 'A':
        reply = cellweaver_place(bytes.at, bytes.length, work.at, work.length, rows.at, rows.length, &width, &height, &value);
        answer("place", reply, value, width, height);
        break;
    case 'C':
        reply = cellweaver_check(bytes.at, bytes.length, rows.at, rows.length, &value);
        answer("check", reply, value, 0, 0);
        break;
    case 'V':
        score();
        break;
    case 'N': {
        size_t k = number(), clbs = number(), rams = number(), multipliers = number();
        reply = cellweaver_edit_need(bytes.at, bytes.length, k, clbs, rams, multipliers, work.at, work.length, out.at, out.length, &value);
        edited("need", reply, value);
        break;
    }
    case 'T': {
        size_t position = number();
        reply = cellweaver_edit_turn(bytes.at, bytes.length, position, work.at, work.length, out.at, out.length, &value);
        edited("turn", reply, value);
        break;
    }
    case 'E':
        printf("end %ju\n", calls);
        break;
    default:
        fail("no such request");
    }
}

static struct lent *lent_by(int request)
{
    for (int i = 0; i < BUFFERS; i++)
        if (all[i].letter == request)
            return all[i].buffer;
    return NULL;
}

int main(void)
{
    for (int i = 0; i < BUFFERS; i++)
        lend(all[i].buffer, 0);
    for (int request = getchar(); request != EOF; request = getchar()) {
        struct lent *buffer = lent_by(request);
        if (buffer != NULL)
            take(buffer);
        else
            call(request);
    }
    return fflush(stdout) == 0 ? 0 : 2;
}
