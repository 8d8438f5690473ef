// The stack that one call of each service takes, on the two largest designs. A call runs on a stack of its own that is painted before; the bytes
// from its top down to the last one that lost its paint are counted, less those of a call that does nothing.
#include "designs.h"
#include "out.h"
#include "../include/cellweaver.h"
#include <stdlib.h>
#include <string.h>
#include <ucontext.h>

enum { PAINT = 165, STACK = 1 << 18 };

static byte stack[STACK] __attribute__((aligned(64)));
static byte work[CELLWEAVER_MOST_WORK], rows[CELLWEAVER_MOST_ROWS], out[CELLWEAVER_MOST_BYTES];
static byte bytes[CELLWEAVER_MOST_BYTES];
static size_t length, width, height, value;
static size_t reply;

static void nothing(void)
{
}

static void read_it(void)
{
    reply = cellweaver_read(bytes, length, &value);
}

static void write_it(void)
{
    reply = cellweaver_write(bytes, length, out, sizeof out, &value);
}

static void list_it(void)
{
    reply = cellweaver_list(bytes, length, work, sizeof work, &value);
}

static void plan_it(void)
{
    reply = cellweaver_plan(bytes, length, work, sizeof work, rows, sizeof rows, &width, &height, &value);
}

static void place_it(void)
{
    reply = cellweaver_place(bytes, length, work, sizeof work, rows, sizeof rows, &width, &height, &value);
}

static void change_it(void)
{
    reply = cellweaver_edit_need(bytes, length, 0, 1, 0, 0, work, sizeof work, out, sizeof out, &value);
}

static void turn_it(void)
{
    reply = cellweaver_edit_turn(bytes, length, 30, work, sizeof work, out, sizeof out, &value);
}

static void check_it(void)
{
    reply = cellweaver_check(bytes, length, rows, sizeof rows, &value);
}

static void score_it(void)
{
    static const byte kinds[] = {CELLWEAVER_AREA, CELLWEAVER_RATIO, CELLWEAVER_WIRE}, nets[] = {3, 0, 7, 15, 2, 1, 2};
    static const double weights[] = {1, 0.5, 2};
    double total, last;
    reply = cellweaver_score(bytes, length, rows, sizeof rows, kinds, 3, weights, 3, nets, sizeof nets, &total, &last, &value);
}

static size_t painted_over(void (*call)(void))
{
    static ucontext_t outside, inside;
    memset(stack, PAINT, STACK);
    getcontext(&inside);
    inside.uc_stack.ss_sp = stack;
    inside.uc_stack.ss_size = STACK;
    inside.uc_link = &outside;
    makecontext(&inside, call, 0);
    swapcontext(&outside, &inside);
    size_t paint = 0;
    while (paint < STACK && stack[paint] == PAINT)
        paint++;
    return STACK - paint;
}

static const struct job {
    const char *name;
    void (*call)(void);
} JOBS[] = {{"read", read_it},   {"write", write_it}, {"list", list_it},          {"plan", plan_it},      {"place", place_it},
            {"check", check_it}, {"score", score_it}, {"edit need", change_it}, {"edit turn", turn_it}};

int main(void)
{
    static const struct design *const designs[] = {&LEVELS, &DEEP};
    size_t empty = painted_over(nothing);
    printf("\nstack of one call, in bytes, the larger of levels and deep\n");
    for (size_t j = 0; j < sizeof JOBS / sizeof *JOBS; j++) {
        size_t most = 0;
        for (int d = 0; d < 2; d++) {
            length = plain_write(designs[d], bytes, sizeof bytes).beside;
            // every job finds lists and rows
            plan_it();
            size_t taken = painted_over(JOBS[j].call) - empty;
            if (reply) {
                printf("%s gave %zu, so its stack is not measured\n", JOBS[j].name, reply);
                exit(1);
            }
            most = taken > most ? taken : most;
        }
        printf("%-12s %8zu\n", JOBS[j].name, most);
    }
    return unwritten();
}
