// Counts the guest instructions of the proved services and of plain C doing the same jobs on the same inputs. What both leave in the bytes
// lent to them is compared first; where it differs there is no ratio. The one argument is the file where the plugin leaves its counts.
#include "designs.h"
#include "mark.h"
#include "out.h"
#include "../include/cellweaver.h"
#include <stdio.h>
#include <stdlib.h>
#include <string.h>
#include <sys/syscall.h>
#include <unistd.h>

typedef long long count;

// What stands in every lent byte before a run, unless the job begins with lists.
enum { BEFORE = 165 };

// Lent beyond what is needed, to see that it stays.
enum { BEYOND = 64 };

enum { BYTES = 256, ROWS = 4 * MOST_MODULES + BEYOND, WORK = MOST_TOKENS * MOST_ROWS * MOST_COLUMNS * MOST_COLUMNS + BEYOND };

static const char *counts;
static byte proved_work[WORK], plain_work[WORK], lists[WORK];

static count last_count(void)
{
    char line[32] = "";
    FILE *file = fopen(counts, "r");
    if (!file || !fgets(line, sizeof line, file)) {
        fprintf(stderr, "bench: no count in %s\n", counts);
        exit(2);
    }
    fclose(file);
    return atoll(line);
}

// Counts the instructions of a job.
#define COUNT(instructions, job) (syscall(START), (job), syscall(STOP), (instructions) = last_count())

static void same(const char *name, const char *job, int all_is_same)
{
    if (!all_is_same) {
        printf("%s, %s: proved code and C differ, so there is no ratio\n", name, job);
        exit(1);
    }
}

// A line of the table. A goal is the highest ratio wanted, or 0 for none.
static void line(const char *name, const char *job, count proved, count plain, double goal)
{
    double ratio = (double)proved / (double)plain;
    printf("%-8s %-34s %13lld %13lld %7.2f", name, job, proved, plain, ratio);
    if (goal)
        printf("   %.1f %s", goal, ratio < goal ? "met" : "missed");
    printf("\n");
}

// A design's bytes.
struct file {
    byte bytes[BYTES];
    size_t length;
};

static struct file file_of(const struct design *d)
{
    struct file file = {{0}, 0};
    file.length = plain_write(d, file.bytes, BYTES).beside;
    return file;
}

// ---- the jobs of plain C, from a design's bytes as the proved ones

static int write_file(const struct file *file, byte *out, size_t room)
{
    struct design d;
    int number = plain_read(file->bytes, file->length, &d).number;
    return number ? number : plain_write(&d, out, room).number;
}

static int list_file(const struct file *file, enum way way)
{
    struct design d;
    int number = plain_read(file->bytes, file->length, &d).number;
    return number ? number : plain_list(&d, way, plain_work, WORK);
}

static int edit_file(const struct file *file, int module, struct need need, enum way way)
{
    struct design d;
    int number = plain_read(file->bytes, file->length, &d).number;
    return number ? number : plain_edit(&d, module, need, way, plain_work, WORK);
}

static struct score score_file(const struct file *file, const byte *rows, const struct cost *cost)
{
    struct design d;
    struct answer read = plain_read(file->bytes, file->length, &d);
    return read.number ? (struct score){read.number, read.beside, 0, 0} : plain_score(&d, rows, ROWS, cost);
}

static int plan_file(const struct file *file, byte *rows)
{
    struct design d;
    int number = plain_read(file->bytes, file->length, &d).number;
    return number ? number : plain_plan(&d, BY_PAIRS, plain_work, WORK, rows, ROWS).number;
}

// ---- counted

struct counted {
    count proved, by_pairs, by_rows, by_letter, by_scan;
};

static struct counted less(struct counted a, struct counted b)
{
    return (struct counted){a.proved - b.proved, a.by_pairs - b.by_pairs, a.by_rows - b.by_rows, a.by_letter - b.by_letter,
                            a.by_scan - b.by_scan};
}

static struct counted listing(const char *name, const struct design *d)
{
    struct counted c;
    struct file file = file_of(d);
    size_t value;
    int number;
    memset(proved_work, BEFORE, WORK);
    COUNT(c.proved, number = cellweaver_list(file.bytes, file.length, proved_work, WORK, &value));
    same(name, "list", number == 0);
    memset(plain_work, BEFORE, WORK);
    COUNT(c.by_pairs, number = list_file(&file, BY_PAIRS));
    same(name, "list by all pairs", number == 0 && memcmp(proved_work, plain_work, WORK) == 0);
    memset(plain_work, BEFORE, WORK);
    COUNT(c.by_rows, number = list_file(&file, BY_ROWS));
    same(name, "list by rows", number == 0 && memcmp(proved_work, plain_work, WORK) == 0);
    memset(plain_work, BEFORE, WORK);
    COUNT(c.by_letter, number = list_file(&file, BY_LETTER));
    same(name, "list by the scan to the letter", number == 0 && memcmp(proved_work, plain_work, WORK) == 0);
    memset(plain_work, BEFORE, WORK);
    COUNT(c.by_scan, number = list_file(&file, BY_SCAN));
    same(name, "list by the scan", number == 0 && memcmp(proved_work, plain_work, WORK) == 0);
    return c;
}

// Each module listed alone on the same chip: what the leaves of the whole listing take.
static struct counted leaves(const char *name, const struct design *d)
{
    struct counted sum = {0, 0, 0, 0, 0};
    for (int k = 0; k < d->modules; k++) {
        struct design alone = *d;
        alone.modules = 1;
        alone.needs[0] = d->needs[k];
        alone.tokens[0] = 2;
        struct counted c = listing(name, &alone);
        sum = (struct counted){sum.proved + c.proved, sum.by_pairs + c.by_pairs, sum.by_rows + c.by_rows,
                               sum.by_letter + c.by_letter, sum.by_scan + c.by_scan};
    }
    return sum;
}

// An edit over the bytes in `lists`, which has to be given this reply. No edit goes by the scan.
static struct counted editing(const char *name, const struct design *d, int module, struct need need, int reply)
{
    struct counted c = {0, 0, 0, 0, 0};
    struct file file = file_of(d);
    byte edited[CELLWEAVER_MOST_BYTES];
    size_t value;
    int number;
    memcpy(proved_work, lists, WORK);
    COUNT(c.proved, number = cellweaver_edit_need(file.bytes, file.length, module, need.clbs, need.rams, need.multipliers, proved_work, WORK,
                                                  edited, CELLWEAVER_MOST_BYTES, &value));
    same(name, "edit", number == reply);
    memcpy(plain_work, lists, WORK);
    COUNT(c.by_pairs, number = edit_file(&file, module, need, BY_PAIRS));
    same(name, "edit by all pairs", number == reply && memcmp(proved_work, plain_work, WORK) == 0);
    memcpy(plain_work, lists, WORK);
    COUNT(c.by_rows, number = edit_file(&file, module, need, BY_ROWS));
    same(name, "edit by rows", number == reply && memcmp(proved_work, plain_work, WORK) == 0);
    return c;
}

// ---- the lines of each job

static void measure_list(const char *name, const struct design *d)
{
    struct counted leaf = leaves(name, d), all = listing(name, d), cut = less(all, leaf);
    line(name, "list; C scans to the letter", all.proved, all.by_letter, 1.1);
    line(name, "list; C by the scan", all.proved, all.by_scan, 1.1);
    line(name, "list; C by all pairs", all.proved, all.by_pairs, 1);
    line(name, "list; C by rows", all.proved, all.by_rows, 0);
    line(name, "  its leaves", leaf.proved, leaf.by_scan, 1.1);
    line(name, "  its cuts; C scans to the letter", cut.proved, cut.by_letter, 0);
    line(name, "  its cuts; C by the scan", cut.proved, cut.by_scan, 0);
    line(name, "  its cuts; C by all pairs", cut.proved, cut.by_pairs, 0);
    line(name, "  its cuts; C by rows", cut.proved, cut.by_rows, 0);
}

// The cuts of a design on its first columns alone, with needs in proportion: how each way grows with the width.
static void measure_width(const char *name, const struct design *d, int width)
{
    struct design narrow = *d;
    char job[64];
    narrow.width = width;
    for (int k = 0; k < d->modules; k++) {
        narrow.needs[k].clbs = d->needs[k].clbs * width / d->width;
        narrow.needs[k].rams = d->needs[k].rams * width / d->width;
        narrow.needs[k].multipliers = d->needs[k].multipliers * width / d->width;
    }
    struct counted cut = less(listing(name, &narrow), leaves(name, &narrow));
    snprintf(job, sizeof job, "cuts, W %d; C by the scan", width);
    line(name, job, cut.proved, cut.by_scan, 0);
    snprintf(job, sizeof job, "cuts, W %d; C by rows", width);
    line(name, job, cut.proved, cut.by_rows, 0);
    snprintf(job, sizeof job, "cuts, W %d; C by all pairs", width);
    line(name, job, cut.proved, cut.by_pairs, 0);
}

// The edit is counted granted, and again refused with 9, since the very last byte is made no stair's: what that takes is the stair test.
static void measure_edit(const char *name, const struct design *d, int module, struct need need)
{
    listing(name, d);
    memcpy(lists, proved_work, WORK);
    struct counted all = editing(name, d, module, need, 0);
    lists[work_needed(d) - 1] = 1;
    struct counted test = editing(name, d, module, need, 9), relist = less(all, test);
    line(name, "edit at a leaf; C by rows", all.proved, all.by_rows, 0);
    line(name, "  its stair test", test.proved, test.by_rows, 0);
    line(name, "  its relisting; C by all pairs", relist.proved, relist.by_pairs, 0);
    line(name, "  its relisting; C by rows", relist.proved, relist.by_rows, 1.5);
}

static void measure_plan(const char *name, const struct design *d)
{
    struct file file = file_of(d);
    byte proved[ROWS], plain[ROWS];
    size_t width, height, value;
    count a, b;
    int number;
    memset(proved_work, BEFORE, WORK);
    memset(proved, BEFORE, ROWS);
    COUNT(a, number = cellweaver_plan(file.bytes, file.length, proved_work, WORK, proved, ROWS, &width, &height, &value));
    same(name, "plan", number == 0);
    memset(plain_work, BEFORE, WORK);
    memset(plain, BEFORE, ROWS);
    COUNT(b, number = plan_file(&file, plain));
    same(name, "plan", number == 0 && memcmp(proved, plain, ROWS) == 0 && memcmp(proved_work, plain_work, WORK) == 0);
    line(name, "plan; C by all pairs", a, b, 0);
}

// As many terms and nets as there may be: terms of all kinds, weights that round, nets of 2 to 16 of the 16 modules.
static const byte KINDS[MOST_TERMS] = {AREA, RATIO, WIRE, RATIO, WIRE, AREA, RATIO, WIRE};
static const double WEIGHTS[MOST_TERMS] = {1, 0.1, 1.0 / 3, 1000000, 0.7, 2.5, 12345.678, 1e-9};

static size_t put_nets(byte *nets)
{
    size_t length = 0;
    for (int net = 0; net < MOST_NETS; net++) {
        int members = 2 + net % (MOST_NAMES - 1);
        nets[length++] = members;
        for (int i = 0; i < members; i++)
            nets[length++] = (5 * net + 3 * i) % MOST_MODULES;
    }
    return length;
}

static void measure_score(const char *name, const struct design *d)
{
    struct file file = file_of(d);
    byte rows[ROWS], nets[MOST_NETS * (1 + MOST_NAMES)];
    struct cost cost = {KINDS, MOST_TERMS, WEIGHTS, MOST_TERMS, nets, put_nets(nets)};
    struct score proved = {0, 0, BEFORE, BEFORE}, plain = {0, 0, BEFORE, BEFORE};
    count a, b;
    same(name, "plan", plain_plan(d, BY_ROWS, plain_work, WORK, rows, ROWS).number == 0);
    COUNT(a, proved.number = cellweaver_score(file.bytes, file.length, rows, ROWS, KINDS, MOST_TERMS, WEIGHTS,
                                              MOST_TERMS, nets, cost.nets_length, &proved.total, &proved.last,
                                              &proved.name));
    COUNT(b, plain = score_file(&file, rows, &cost));
    // bit by bit, and not as numbers
    same(name, "score", proved.number == 0 && plain.number == 0 && proved.name == plain.name
                            && memcmp(&proved.total, &plain.total, sizeof plain.total) == 0
                            && memcmp(&proved.last, &plain.last, sizeof plain.last) == 0);
    line(name, "score", a, b, 1.5);
}

static void measure_bytes(const char *name, const struct design *d)
{
    struct file file = file_of(d);
    byte proved[BYTES], plain[BYTES];
    struct design read;
    size_t value;
    count a, b, c, e;
    int number;
    COUNT(a, number = cellweaver_read(file.bytes, file.length, &value));
    same(name, "read", number == 0);
    COUNT(b, number = plain_read(file.bytes, file.length, &read).number);
    same(name, "read", number == 0);
    memset(proved, BEFORE, BYTES);
    COUNT(c, number = cellweaver_write(file.bytes, file.length, proved, BYTES, &value));
    same(name, "write", number == 0 && memcmp(proved, file.bytes, file.length) == 0);
    memset(plain, BEFORE, BYTES);
    COUNT(e, number = write_file(&file, plain, BYTES));
    same(name, "write", number == 0 && memcmp(proved, plain, BYTES) == 0);
    line(name, "read", a, b, 0);
    line(name, "write", c - a, e - b, 0);
}

int main(int arguments, char **argument)
{
    if (arguments != 2) {
        fprintf(stderr, "bench: run it by bench/run\n");
        return 2;
    }
    counts = argument[1];
    printf("Guest instructions. Every lent byte is %d before a run (before an edit: the design's lists), set outside the count.\n\n", BEFORE);
    printf("%-8s %-34s %13s %13s %7s   %s\n", "design", "job", "proved", "plain C", "ratio", "goal");
    measure_list("levels", &LEVELS);
    measure_list("deep", &DEEP);
    for (int width = 16; width <= LEVELS.width; width += 16)
        measure_width("levels", &LEVELS, width);
    measure_edit("levels", &LEVELS, 5, (struct need){210, 5, 4});
    measure_edit("deep", &DEEP, 0, (struct need){36, 2, 1});
    measure_plan("D", &D);
    measure_plan("pad kit", &PAD_KIT);
    measure_score("levels", &LEVELS);
    measure_score("deep", &DEEP);
    measure_bytes("levels", &LEVELS);
    measure_bytes("D", &D);
    return unwritten();
}
