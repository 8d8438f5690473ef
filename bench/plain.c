#include "plain.h"
#include <string.h>

// ---- the design, and its tests

static int lawful_need(struct need n)
{
    if (n.clbs < 0 || n.clbs > MOST_NUMBER || n.rams < 0 || n.rams > MOST_NUMBER || n.multipliers < 0 || n.multipliers > MOST_NUMBER)
        return 0;
    return n.clbs != 0 || n.rams != 0 || n.multipliers != 0;
}

static int within_limits(const struct design *d)
{
    if (d->width < 1 || d->width > MOST_COLUMNS || d->height < 1 || d->height > MOST_ROWS || d->block < 1 || d->block > d->height)
        return 0;
    for (int x = 0; x < d->width; x++)
        if (d->kinds[x] > 2)
            return 0;
    if (d->modules < 1 || d->modules > MOST_MODULES)
        return 0;
    for (int k = 0; k < d->modules; k++)
        if (!lawful_need(d->needs[k]))
            return 0;
    return 1;
}

// What the tokens so far leave standing.
struct standing {
    int count;
    byte seen[MOST_MODULES];
};

static int take_token(struct standing *s, int modules, int token)
{
    if (token < 2)
        return --s->count >= 1;
    if (token - 2 >= modules || s->seen[token - 2])
        return 0;
    s->seen[token - 2] = 1;
    s->count++;
    return 1;
}

// 0, or 01's number of the first rule that the design breaks.
static int value_test(const struct design *d)
{
    if (!within_limits(d))
        return 4;
    struct standing s = {0};
    for (int t = 0; t < 2 * d->modules - 1; t++)
        if (!take_token(&s, d->modules, d->tokens[t]))
            return 5;
    return s.count == 1 ? 0 : 6;
}

size_t work_needed(const struct design *d)
{
    return (size_t)(2 * d->modules - 1) * d->height * d->width * d->width;
}

// ---- design bytes

struct cursor {
    const byte *bytes;
    size_t length, at;
};

// Takes the number at the cursor and moves past it; 0, or 1 or 2 with the cursor where it was.
static int take(struct cursor *c, int *value)
{
    int v = 0;
    for (int i = 0; i < 3; i++) {
        if (c->at + i >= c->length)
            return 1;
        int b = c->bytes[c->at + i];
        v |= (b & 127) << (7 * i);
        if (b < 128) {
            if ((i > 0 && b == 0) || v > MOST_NUMBER)
                return 2;
            c->at += i + 1;
            *value = v;
            return 0;
        }
    }
    return 2;
}

// Takes a number that has to lie between two others; where it does not, the number of the refusal is `outside`.
static int take_within(struct cursor *c, int low, int most, int outside, int *value)
{
    size_t from = c->at;
    int number = take(c, value);
    if (number == 0 && (*value < low || *value > most)) {
        c->at = from;
        return outside;
    }
    return number;
}

static int take_need(struct cursor *c, struct need *n)
{
    size_t from = c->at;
    int number;
    if ((number = take(c, &n->clbs)) || (number = take(c, &n->rams)) || (number = take(c, &n->multipliers)))
        return number;
    if (!lawful_need(*n)) {
        c->at = from;
        return 4;
    }
    return 0;
}

static int take_tokens(struct cursor *c, struct design *d)
{
    struct standing s = {0};
    for (int t = 0; t < 2 * d->modules - 1; t++) {
        size_t from = c->at;
        int number, token;
        if ((number = take_within(c, 0, d->modules + 1, 5, &token)))
            return number;
        if (!take_token(&s, d->modules, token)) {
            c->at = from;
            return 5;
        }
        d->tokens[t] = token;
    }
    if (s.count != 1) {
        c->at = c->length;
        return 6;
    }
    return 0;
}

static int take_design(struct cursor *c, struct design *d)
{
    int number, form, kind;
    if ((number = take_within(c, 1, 1, 3, &form)) || (number = take_within(c, 1, MOST_COLUMNS, 4, &d->width))
        || (number = take_within(c, 1, MOST_ROWS, 4, &d->height)) || (number = take_within(c, 1, d->height, 4, &d->block)))
        return number;
    for (int x = 0; x < d->width; x++) {
        if ((number = take_within(c, 0, 2, 4, &kind)))
            return number;
        d->kinds[x] = kind;
    }
    if ((number = take_within(c, 1, MOST_MODULES, 4, &d->modules)))
        return number;
    for (int k = 0; k < d->modules; k++)
        if ((number = take_need(c, &d->needs[k])))
            return number;
    if ((number = take_tokens(c, d)))
        return number;
    return c->at < c->length ? 7 : 0;
}

struct answer plain_read(const byte *bytes, size_t length, struct design *d)
{
    struct cursor c = {bytes, length, 0};
    memset(d, 0, sizeof *d);
    int number = take_design(&c, d);
    if (number == 0)
        return (struct answer){0, 0};
    memset(d, 0, sizeof *d);
    return (struct answer){number, c.at};
}

static size_t number_length(int v)
{
    return v < 128 ? 1 : v < 16384 ? 2 : 3;
}

static size_t design_length(const struct design *d)
{
    size_t n = 1 + number_length(d->width) + number_length(d->height) + number_length(d->block) + d->width + number_length(d->modules);
    for (int k = 0; k < d->modules; k++)
        n += number_length(d->needs[k].clbs) + number_length(d->needs[k].rams) + number_length(d->needs[k].multipliers);
    return n + 2 * d->modules - 1;
}

static byte *put(byte *at, int v)
{
    for (; v > 127; v >>= 7)
        *at++ = 128 | (v & 127);
    *at++ = v;
    return at;
}

struct answer plain_write(const struct design *d, byte *out, size_t room)
{
    int number = value_test(d);
    if (number)
        return (struct answer){number, 0};
    size_t length = design_length(d);
    if (room < length)
        return (struct answer){8, 0};
    byte *at = put(put(put(put(out, 1), d->width), d->height), d->block);
    for (int x = 0; x < d->width; x++)
        at = put(at, d->kinds[x]);
    at = put(at, d->modules);
    for (int k = 0; k < d->modules; k++)
        at = put(put(put(at, d->needs[k].clbs), d->needs[k].rams), d->needs[k].multipliers);
    for (int t = 0; t < 2 * d->modules - 1; t++)
        at = put(at, d->tokens[t]);
    return (struct answer){0, length};
}

// ---- lists

static byte *slot(const struct design *d, byte *work, int t, int x, int y)
{
    return work + ((size_t)(t * d->height + y) * d->width + x) * d->width;
}

static int whole_blocks(int block, int low, int far)
{
    int first = (low + block - 1) / block, past = far / block;
    return first < past ? past - first : 0;
}

// So many columns of each kind suit a need between two rows.
static int suits(const int columns[3], struct need n, int block, int low, int far)
{
    if (columns[0] * (far - low) < n.clbs)
        return 0;
    int blocks = whole_blocks(block, low, far);
    return columns[1] * blocks >= n.rams && columns[2] * blocks >= n.multipliers;
}

// The walk along the stair (order 2 of 02): from one column at full height it steps down while the rectangle still suits, and otherwise adds a
// column, until columns or rows are used up. What the rectangle holds beyond the need is carried from step to step; it suits if none of that is
// negative. The last of its whole blocks ends at the edge, in rows from the corner. Not inlined, and in variables of its own: so gcc keeps all
// of it in registers, and does not ask after each byte stored whether the design has changed.
__attribute__((noinline)) static void list_leaf_corner(const struct design *d, struct need n, int x, int y, byte *to)
{
    const byte *kinds = d->kinds + x;
    const int columns = d->width - x, block = d->block;
    int clb_columns = 0, ram_columns = 0, multiplier_columns = 0;
    int clbs = -n.clbs, rams = -n.rams, multipliers = -n.multipliers;
    int rows = d->height - y, blocks = whole_blocks(block, y, d->height);
    int edge = blocks ? d->height / block * block - y : 0;
    memset(to, 0, d->width);
    for (int j = 0; j < columns; j++) {
        switch (kinds[j]) {
        case 0:
            clb_columns++;
            clbs += rows;
            break;
        case 1:
            ram_columns++;
            rams += blocks;
            break;
        default:
            multiplier_columns++;
            multipliers += blocks;
        }
        while ((clbs | rams | multipliers) >= 0) {
            to[j] = rows;
            clbs -= clb_columns;
            if (rows == edge) {
                rams -= ram_columns;
                multipliers -= multiplier_columns;
                blocks--;
                edge = blocks ? edge - block : 0;
            }
            if (--rows == 0)
                return;
        }
    }
}

static void list_leaf(const struct design *d, byte *work, int t, struct need n)
{
    for (int y = 0; y < d->height; y++)
        for (int x = 0; x < d->width; x++)
            list_leaf_corner(d, n, x, y, slot(d, work, t, x, y));
}

// More than any height; a height more than that still is a byte.
enum { NONE = 128 };

// Writes a slot from the least height of a box of each width: those on the chip that are less than all before.
static void keep(const byte *least, int columns, int rows, int width, byte *to)
{
    int low = rows + 1;
    for (int j = 0; j < columns; j++) {
        to[j] = least[j] < low ? least[j] : 0;
        if (least[j] < low)
            low = least[j];
    }
    memset(to + columns, 0, width - columns);
}

// All pairs, at one corner.
static void pair_corner(const struct design *d, int vertical, byte *work, int left, int right, int x, int y, byte *least)
{
    const byte *l = slot(d, work, left, x, y);
    for (int i = 0; i < d->width - x; i++) {
        int rx = vertical ? x + i + 1 : x, ry = vertical ? y : y + l[i];
        if (l[i] == 0 || rx >= d->width || ry >= d->height)
            continue;
        const byte *r = slot(d, work, right, rx, ry);
        for (int j = 0; j < d->width - rx; j++) {
            if (r[j] == 0)
                continue;
            int w = vertical ? i + 1 + j : i > j ? i : j;
            int h = vertical ? (l[i] > r[j] ? l[i] : r[j]) : l[i] + r[j];
            if (h < least[w])
                least[w] = h;
        }
    }
}

static void list_cut_by_pairs(const struct design *d, int vertical, byte *work, int t, int left, int right)
{
    byte least[MOST_COLUMNS];
    for (int y = 0; y < d->height; y++)
        for (int x = 0; x < d->width; x++) {
            memset(least, NONE, sizeof least);
            pair_corner(d, vertical, work, left, right, x, y, least);
            keep(least, d->width - x, d->height - y, d->width, slot(d, work, t, x, y));
        }
}

// A slot filled: at each width the least height of a shape that is no wider.
static void fill(const byte *from, int columns, byte *to)
{
    byte low = NONE;
    for (int j = 0; j < columns; j++) {
        byte h = from[j] == 0 ? NONE : from[j];
        low = h < low ? h : low;
        to[j] = low;
    }
}

// A left shape paired with all right shapes at once, beside it or above it. Whole rows are taken: past the chip's columns stands NONE.
static void pair_beside(byte *restrict least, const byte *restrict filled, byte h)
{
    for (int j = 0; j < MOST_COLUMNS; j++) {
        byte high = filled[j] > h ? filled[j] : h;
        least[j] = high < least[j] ? high : least[j];
    }
}

static void pair_above(byte *restrict least, const byte *restrict filled, byte h)
{
    for (int j = 0; j < MOST_COLUMNS; j++) {
        byte high = filled[j] + h;
        least[j] = high < least[j] ? high : least[j];
    }
}

// Writes a slot from least heights that never rise: those that are less than the one before.
static void keep_falls(const byte *restrict least, int columns, int rows, int width, byte *restrict to)
{
    for (int j = 0; j < columns; j++)
        to[j] = least[j + 1] < least[j] && least[j + 1] <= rows ? least[j + 1] : 0;
    memset(to + columns, 0, width - columns);
}

static void list_cut_by_rows(const struct design *d, int vertical, byte *work, int t, int left, int right)
{
    static byte filled[MOST_ROWS][MOST_COLUMNS][2 * MOST_COLUMNS];
    byte least[1 + 2 * MOST_COLUMNS];
    memset(filled, NONE, sizeof filled);
    for (int y = 0; y < d->height; y++)
        for (int x = 0; x < d->width; x++)
            fill(slot(d, work, right, x, y), d->width - x, filled[y][x]);
    for (int y = 0; y < d->height; y++)
        for (int x = 0; x < d->width; x++) {
            int columns = d->width - x;
            const byte *l = slot(d, work, left, x, y);
            memset(least, NONE, sizeof least);
            for (int i = 0; i < columns; i++) {
                if (l[i] == 0)
                    continue;
                if (vertical && i + 1 < columns)
                    pair_beside(least + i + 2, filled[y][x + i + 1], l[i]);
                if (!vertical && y + l[i] < d->height)
                    pair_above(least + i + 1, filled[y + l[i]][x] + i, l[i]);
            }
            keep_falls(least, columns, d->height - y, d->width, slot(d, work, t, x, y));
        }
}

// The source's short scan to the letter of order 3 of 02, at a corner of a vertical cut, over the children's own lists. Left shapes are taken from
// the lowest up, which is the widest; one that reaches the chip's last column has no corner beside it. Beside each, the highest right shape no
// higher than it is looked up in its list, the lowest where all are higher; from there on right shapes are higher, up to the next left one's height.
static void scan_beside_to_the_letter(const byte *left, const byte *right, int columns, int width, byte *to)
{
    int last = columns + 1, wide = columns - 1;
    while (wide > 0 && left[wide - 1] == 0)
        wide--;
    while (wide > 0) {
        const byte *beside = right + wide * width;
        int height = left[wide - 1], next = wide - 1, found = -1;
        while (next > 0 && left[next - 1] == 0)
            next--;
        int stop = next > 0 ? left[next - 1] : 255;
        for (int k = 0; k < columns - wide; k++) {
            if (beside[k] == 0)
                continue;
            found = k;
            if (beside[k] <= height)
                break;
        }
        for (int k = found; k >= 0; k--) {
            if (beside[k] == 0)
                continue;
            if (beside[k] >= stop)
                break;
            if (wide + k + 1 < last) {
                last = wide + k + 1;
                to[last - 1] = beside[k] > height ? beside[k] : height;
            }
        }
        wide = next;
    }
}

// The same scan, with the look-up from the last right shape whose box would be narrower than the last kept, and down from there.
static void scan_beside(const byte *left, const byte *right, int columns, int width, byte *to)
{
    int last = columns + 1, wide = columns - 1;
    while (wide > 0 && left[wide - 1] == 0)
        wide--;
    while (wide > 0) {
        const byte *beside = right + wide * width;
        int height = left[wide - 1], next = wide - 1, k = last - 1 - wide, found = 0;
        while (next > 0 && left[next - 1] == 0)
            next--;
        int stop = next > 0 ? left[next - 1] : 255;
        for (; k > 0; k--) {
            if (beside[k - 1] == 0)
                continue;
            if (beside[k - 1] > height)
                break;
            found = k;
        }
        if (found) {
            last = wide + found;
            to[last - 1] = height;
        }
        for (; k > 0; k--) {
            if (beside[k - 1] == 0)
                continue;
            if (beside[k - 1] >= stop)
                break;
            last = wide + k;
            to[last - 1] = beside[k - 1];
        }
        wide = next;
    }
}

// And at a corner of a horizontal one, left shapes from the narrowest on: the widest right shape no wider is looked up, and wider ones follow, up to
// the next left one's width. A row of corners further up, the right slots are `row` bytes further on.
static void scan_above(const byte *left, const byte *right, int columns, int rows, size_t row, byte *to)
{
    int low = rows + 1, i = 0;
    while (i < columns && left[i] == 0)
        i++;
    while (i < columns) {
        int height = left[i], next = i + 1;
        while (next < columns && left[next] == 0)
            next++;
        if (height < rows) {
            const byte *above = right + height * row;
            int k = i;
            while (k >= 0 && above[k] == 0)
                k--;
            if (k >= 0 && height + above[k] < low)
                to[i] = low = height + above[k];
            for (k = i + 1; k < next; k++)
                if (above[k] && height + above[k] < low)
                    to[k] = low = height + above[k];
        }
        i = next;
    }
}

static void list_cut_by_scan(const struct design *d, enum way way, int vertical, byte *work, int t, int left, int right)
{
    for (int y = 0; y < d->height; y++)
        for (int x = 0; x < d->width; x++) {
            const byte *l = slot(d, work, left, x, y), *r = slot(d, work, right, x, y);
            byte *to = slot(d, work, t, x, y);
            memset(to, 0, d->width);
            if (vertical && way == BY_LETTER)
                scan_beside_to_the_letter(l, r, d->width - x, d->width, to);
            else if (vertical)
                scan_beside(l, r, d->width - x, d->width, to);
            else
                scan_above(l, r, d->width - x, d->height - y, (size_t)d->width * d->width, to);
        }
}

static void list_node(const struct design *d, enum way way, byte *work, int t, int left)
{
    int token = d->tokens[t];
    if (token >= 2)
        list_leaf(d, work, t, d->needs[token - 2]);
    else if (way == BY_PAIRS)
        list_cut_by_pairs(d, token == 0, work, t, left, t - 1);
    else if (way == BY_SCAN || way == BY_LETTER)
        list_cut_by_scan(d, way, token == 0, work, t, left, t - 1);
    else
        list_cut_by_rows(d, token == 0, work, t, left, t - 1);
}

// The tree by positions: each cut's left child, and each node's parent. The right child stands just before its cut.
struct tree {
    int left[MOST_TOKENS], parent[MOST_TOKENS];
};

static struct tree tree_of(const struct design *d)
{
    struct tree tree = {0};
    int stack[MOST_TOKENS], count = 0;
    for (int t = 0; t < 2 * d->modules - 1; t++) {
        if (d->tokens[t] < 2) {
            count -= 2;
            tree.left[t] = stack[count];
            tree.parent[stack[count]] = tree.parent[stack[count + 1]] = t;
        }
        stack[count++] = t;
    }
    return tree;
}

int plain_list(const struct design *d, enum way way, byte *work, size_t room)
{
    int number = value_test(d);
    if (number)
        return number;
    if (room < work_needed(d))
        return 8;
    struct tree tree = tree_of(d);
    for (int t = 0; t < 2 * d->modules - 1; t++)
        list_node(d, way, work, t, tree.left[t]);
    return 0;
}

// ---- edits

// The slot is a stair; zeros are passed eight at a time.
static int is_stair(const byte *slot, int width, int columns, int rows)
{
    static const byte zeros[8];
    int low = rows + 1, j = 0;
    while (j < width) {
        int end = j + 8 < width ? j + 8 : width;
        if (end == j + 8 && memcmp(slot + j, zeros, 8) == 0)
            j = end;
        for (; j < end; j++) {
            if (slot[j] == 0)
                continue;
            if (j >= columns || slot[j] >= low)
                return 0;
            low = slot[j];
        }
    }
    return 1;
}

static int all_stairs(const struct design *d, byte *work)
{
    for (int t = 0; t < 2 * d->modules - 1; t++)
        for (int y = 0; y < d->height; y++)
            for (int x = 0; x < d->width; x++)
                if (!is_stair(slot(d, work, t, x, y), d->width, d->width - x, d->height - y))
                    return 0;
    return 1;
}

int plain_edit(struct design *d, int module, struct need need, enum way way, byte *work, size_t room)
{
    int number = value_test(d);
    if (number)
        return number;
    if (module >= d->modules || !lawful_need(need))
        return 11;
    if (room < work_needed(d))
        return 8;
    if (!all_stairs(d, work))
        return 9;
    d->needs[module] = need;
    struct tree tree = tree_of(d);
    int root = 2 * d->modules - 2, t = 0;
    while (d->tokens[t] != module + 2)
        t++;
    list_node(d, way, work, t, 0);
    while (t != root) {
        t = tree.parent[t];
        list_node(d, way, work, t, tree.left[t]);
    }
    return 0;
}

// ---- choosing one floorplan

struct place {
    int x, y, w, h;
};

static struct place least_box(const struct design *d, const byte *list)
{
    struct place best = {0};
    for (int j = 0; j < d->width; j++)
        if (list[j] != 0 && (best.w == 0 || (j + 1) * list[j] < best.w * best.h))
            best = (struct place){0, 0, j + 1, list[j]};
    return best;
}

// The width of the right shape that makes the box at p with the left shape (w, h), or 0.
static int right_width(const struct design *d, int vertical, byte *work, int right, struct place p, int w, int h)
{
    int x = vertical ? p.x + w : p.x, y = vertical ? p.y : p.y + h;
    if (x >= d->width || y >= d->height)
        return 0;
    const byte *r = slot(d, work, right, x, y);
    for (int j = 0; j < d->width; j++) {
        int w2 = j + 1, h2 = r[j];
        if (h2 == 0)
            continue;
        if (vertical ? w + w2 == p.w && (h > h2 ? h : h2) == p.h : h + h2 == p.h && (w > w2 ? w : w2) == p.w)
            return w2;
    }
    return 0;
}

static void go_down(const struct design *d, byte *work, struct place box, byte *rows)
{
    struct tree tree = tree_of(d);
    struct place at[MOST_TOKENS];
    int root = 2 * d->modules - 2;
    at[root] = box;
    for (int t = root; t >= 0; t--) {
        struct place p = at[t];
        int token = d->tokens[t], vertical = token == 0, w2 = 0;
        if (token >= 2) {
            byte *row = rows + 4 * (token - 2);
            row[0] = p.x, row[1] = p.y, row[2] = p.w, row[3] = p.h;
            continue;
        }
        const byte *l = slot(d, work, tree.left[t], p.x, p.y);
        for (int i = 0; i < d->width && w2 == 0; i++)
            if (l[i] != 0 && (w2 = right_width(d, vertical, work, t - 1, p, i + 1, l[i]))) {
                int x = vertical ? p.x + i + 1 : p.x, y = vertical ? p.y : p.y + l[i];
                at[tree.left[t]] = (struct place){p.x, p.y, i + 1, l[i]};
                at[t - 1] = (struct place){x, y, w2, slot(d, work, t - 1, x, y)[w2 - 1]};
            }
    }
}

struct box plain_plan(const struct design *d, enum way way, byte *work, size_t room, byte *rows, size_t rows_room)
{
    int number = value_test(d);
    if (number)
        return (struct box){number, 0, 0};
    if (room < work_needed(d) || rows_room < 4 * (size_t)d->modules)
        return (struct box){8, 0, 0};
    plain_list(d, way, work, room);
    struct place box = least_box(d, slot(d, work, 2 * d->modules - 2, 0, 0));
    if (box.w == 0)
        return (struct box){10, 0, 0};
    go_down(d, work, box, rows);
    return (struct box){0, box.w, box.h};
}

// ---- the checker

static struct place row_of(const byte *rows, int k)
{
    return (struct place){rows[4 * k], rows[4 * k + 1], rows[4 * k + 2], rows[4 * k + 3]};
}

static int on_the_chip(const struct design *d, struct place p)
{
    return p.w > 0 && p.h > 0 && p.x + p.w <= d->width && p.y + p.h <= d->height;
}

static int place_suits(const struct design *d, struct place p, struct need n)
{
    int columns[3] = {0};
    for (int x = p.x; x < p.x + p.w; x++)
        columns[d->kinds[x]]++;
    return suits(columns, n, d->block, p.y, p.y + p.h);
}

// What the modules below a node cover, across and up: from the least begin to the greatest end. A cut is kept if its
// left side ends where its right side begins, or before.
struct span {
    int x, right, y, top;
};

static struct span both(struct span a, struct span b)
{
    return (struct span){a.x < b.x ? a.x : b.x, a.right > b.right ? a.right : b.right,
                         a.y < b.y ? a.y : b.y, a.top > b.top ? a.top : b.top};
}

// The position of the first cut that is not kept, or -1.
static int cut_not_kept(const struct design *d, const byte *rows)
{
    struct span standing[MOST_MODULES];
    int count = 0;
    for (int t = 0; t < 2 * d->modules - 1; t++) {
        int token = d->tokens[t];
        if (token >= 2) {
            struct place p = row_of(rows, token - 2);
            standing[count++] = (struct span){p.x, p.x + p.w, p.y, p.y + p.h};
            continue;
        }
        struct span left = standing[count - 2], right = standing[count - 1];
        if (token == 0 ? left.right > right.x : left.top > right.y)
            return t;
        standing[--count - 1] = both(left, right);
    }
    return -1;
}

struct answer plain_check(const struct design *d, const byte *rows, size_t room)
{
    int number = value_test(d);
    if (number)
        return (struct answer){number, 0};
    if (room < 4 * (size_t)d->modules)
        return (struct answer){8, 0};
    for (int k = 0; k < d->modules; k++) {
        struct place p = row_of(rows, k);
        if (!on_the_chip(d, p))
            return (struct answer){12, k};
        if (!place_suits(d, p, d->needs[k]))
            return (struct answer){13, k};
    }
    int t = cut_not_kept(d, rows);
    if (t >= 0)
        return (struct answer){14, t};
    return (struct answer){0, 0};
}

// ---- the score

static int lawful_terms(const struct cost *c)
{
    if (c->kinds_length > MOST_TERMS || c->weights_length != c->kinds_length)
        return 0;
    for (size_t i = 0; i < c->kinds_length; i++)
        // not so for what is not a number, whatever it is compared with
        if (c->kinds[i] > WIRE || !(c->weights[i] >= 0 && c->weights[i] <= MOST_WEIGHT))
            return 0;
    return 1;
}

static int lawful_nets(const struct cost *c, int modules)
{
    int count = 0;
    for (size_t at = 0; at < c->nets_length; at += 1 + c->nets[at]) {
        size_t n = c->nets[at];
        if (++count > MOST_NETS || n < 1 || n > MOST_NAMES || n > c->nets_length - at - 1)
            return 0;
        for (size_t i = 1; i <= n; i++)
            if (c->nets[at + i] >= modules)
                return 0;
    }
    return 1;
}

static int area(const struct design *d, const byte *rows)
{
    int right = 0, top = 0;
    for (int k = 0; k < d->modules; k++) {
        struct place p = row_of(rows, k);
        right = p.x + p.w > right ? p.x + p.w : right;
        top = p.y + p.h > top ? p.y + p.h : top;
    }
    return right * top;
}

static double ratio(const struct design *d, const byte *rows)
{
    double sum = 0;
    for (int k = 0; k < d->modules; k++) {
        double w = rows[4 * k + 2], h = rows[4 * k + 3];
        sum += w / h;
        sum += h / w;
    }
    return sum;
}

static int wire(const byte *rows, const struct cost *c)
{
    int sum = 0;
    for (size_t at = 0; at < c->nets_length; at += 1 + c->nets[at]) {
        struct span box = {0};
        for (int i = 1; i <= c->nets[at]; i++) {
            struct place p = row_of(rows, c->nets[at + i]);
            int x = 2 * p.x + p.w, y = 2 * p.y + p.h;
            struct span centre = {x, x, y, y};
            box = i == 1 ? centre : both(box, centre);
        }
        sum += box.right - box.x + box.top - box.y;
    }
    return sum;
}

struct score plain_score(const struct design *d, const byte *rows, size_t room, const struct cost *c)
{
    struct answer checked = plain_check(d, rows, room);
    if (checked.number)
        return (struct score){checked.number, checked.beside, 0, 0};
    if (!lawful_terms(c))
        return (struct score){15, 0, 0, 0};
    if (!lawful_nets(c, d->modules))
        return (struct score){16, 0, 0, 0};
    struct score s = {0, 0, 0, 0};
    for (size_t i = 0; i < c->kinds_length; i++) {
        s.last = c->kinds[i] == AREA ? area(d, rows) : c->kinds[i] == RATIO ? ratio(d, rows) : wire(rows, c);
        s.total += s.last * c->weights[i];
    }
    return s;
}
