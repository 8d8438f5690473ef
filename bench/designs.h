// The designs that are measured. The two large ones have 01's largest chip and most modules, and blocks four rows high; they differ in
// the columns' kinds, in the needs and in the tree.
#include "plain.h"

// Columns in groups of eight, and a tree of four levels.
static const struct design LEVELS = {
    .width = 64,
    .height = 64,
    .block = 4,
    .kinds = {0, 0, 1, 0, 0, 2, 0, 0, 0, 0, 1, 0, 0, 2, 0, 0, 0, 0, 1, 0, 0, 2, 0, 0, 0, 0, 1, 0, 0, 2, 0, 0,
              0, 0, 1, 0, 0, 2, 0, 0, 0, 0, 1, 0, 0, 2, 0, 0, 0, 0, 1, 0, 0, 2, 0, 0, 0, 0, 1, 0, 0, 2, 0, 0},
    .modules = 16,
    .needs = {{120, 4, 2}, {64, 0, 3}, {90, 6, 0}, {150, 2, 2}, {48, 3, 1}, {200, 5, 4}, {75, 1, 0}, {110, 0, 0},
              {96, 4, 4}, {60, 8, 0}, {130, 2, 6}, {84, 0, 2}, {170, 3, 3}, {52, 2, 0}, {100, 5, 1}, {140, 1, 5}},
    .tokens = {2, 3, 1, 4, 5, 0, 0, 6, 7, 1, 8, 9, 0, 1, 1, 10, 11, 1, 12, 13, 1, 0, 14, 15, 0, 16, 17, 0, 1, 0, 0},
};

// Columns without a pattern, smaller needs, and a tree that is deep to the left and then to the right.
static const struct design DEEP = {
    .width = 64,
    .height = 64,
    .block = 4,
    .kinds = {0, 0, 0, 1, 0, 0, 0, 0, 2, 2, 0, 0, 1, 0, 0, 0, 0, 0, 1, 1, 0, 0, 0, 2, 0, 0, 0, 0, 0, 1, 0, 0,
              0, 2, 0, 0, 0, 0, 1, 0, 0, 0, 0, 0, 2, 0, 0, 1, 1, 0, 0, 0, 0, 0, 2, 0, 0, 0, 1, 0, 0, 0, 2, 0},
    .modules = 16,
    .needs = {{30, 1, 1}, {45, 2, 0}, {24, 0, 2}, {60, 1, 0}, {18, 3, 0}, {72, 0, 1}, {36, 2, 0}, {50, 0, 1},
              {28, 0, 0}, {64, 2, 1}, {20, 1, 2}, {40, 0, 1}, {56, 3, 0}, {33, 1, 0}, {25, 0, 1}, {60, 2, 1}},
    .tokens = {2, 3, 0, 4, 1, 5, 0, 6, 1, 7, 0, 8, 1, 9, 0, 10, 11, 12, 13, 14, 15, 16, 17, 1, 0, 1, 0, 1, 0, 1, 1},
};

// D of 01.
static const struct design D = {
    .width = 5,
    .height = 6,
    .block = 3,
    .kinds = {0, 1, 2, 0, 0},
    .modules = 2,
    .needs = {{2, 1, 0}, {3, 0, 1}},
    .tokens = {2, 3, 0},
};

// The two-lane pad kit (docs/EXAMPLES.md).
static const struct design PAD_KIT = {
    .width = 12,
    .height = 8,
    .block = 2,
    .kinds = {0, 0, 1, 0, 0, 2, 0, 0, 1, 0, 0, 0},
    .modules = 4,
    .needs = {{10, 0, 1}, {10, 0, 1}, {14, 1, 0}, {6, 4, 0}},
    .tokens = {5, 2, 3, 1, 0, 4, 0},
};
