// A planner in plain C, written from document 01 and orders 1 to 3 of 02, for the bench to compare with. Nothing in it
// is proved.
#include <stddef.h>

enum { MOST_TERMS = 8, MOST_NETS = 32, MOST_NAMES = 16, MOST_WEIGHT = 1000000 };
enum { MOST_COLUMNS = 64, MOST_ROWS = 64, MOST_MODULES = 16, MOST_TOKENS = 2 * MOST_MODULES - 1, MOST_NUMBER = 65535 };

typedef unsigned char byte;

struct need {
    int clbs, rams, multipliers;
};

struct design {
    int width, height, block;
    byte kinds[MOST_COLUMNS];
    int modules;
    struct need needs[MOST_MODULES];
    byte tokens[MOST_TOKENS];
};

// How a cut's slots are made: by every pair of stored shapes at each corner, by running minima over rows of heights, or by
// the source's short scan, which is for the children's own lists alone: to the letter of order 3, or with the look-up from
// the side of the last box kept.
enum way { BY_PAIRS, BY_ROWS, BY_LETTER, BY_SCAN };

struct answer {
    int number;    // 01's number of the reply
    size_t beside; // the position of a refusal of reading, the count of bytes written, the name that the checker gives
};

// Terms and nets as the library takes them: kinds and weights side by side; the nets one after another, each with its
// length before it.
enum { AREA, RATIO, WIRE };

struct cost {
    const byte *kinds;
    size_t kinds_length;
    const double *weights;
    size_t weights_length;
    const byte *nets;
    size_t nets_length;
};

struct score {
    int number;
    size_t name;
    double total, last;
};

struct box {
    int number, w, h;
};

size_t work_needed(const struct design *d);
struct answer plain_read(const byte *bytes, size_t length, struct design *d);
struct answer plain_write(const struct design *d, byte *out, size_t room);
int plain_list(const struct design *d, enum way way, byte *work, size_t room);
int plain_edit(struct design *d, int module, struct need need, enum way way, byte *work, size_t room);
struct box plain_plan(const struct design *d, enum way way, byte *work, size_t room, byte *rows, size_t rows_room);
struct answer plain_check(const struct design *d, const byte *rows, size_t room);
struct score plain_score(const struct design *d, const byte *rows, size_t room, const struct cost *cost);
