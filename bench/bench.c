/* Measures four calls of the library beside beads.c and beside the plain solver of tests/solver.c, in one run. The
 * measure is processor time; with an argument it is instructions, and the program is to be run as run.sh runs it, under
 * callgrind with dumps in files whose names begin with the argument. Before a call is measured the answers of all three
 * are compared. */
#include "beads.h"
#include "calls.h"
#include "supply.h"

#include <stdio.h>
#include <stdlib.h>
#include <string.h>
#include <time.h>

enum { SIZES = 3, BATCHES = 9 };
static const size_t long_plans[SIZES] = {64, 256, 1024}, short_plans[SIZES] = {0, 4, 16};
static const enum call measured[] = {NORMAL_FORM, EQUAL, LOOPS, LEAD_IN_CHECK};
enum { MEASURED = sizeof measured / sizeof measured[0] };
static const char *dumps; /* how the names of callgrind's dumps begin, or null to measure time */

/* The plans of one family in one size: v; one equal to v; one joined to v; a lead-in from v to it. */
struct subject {
    struct bytes catalogue, v, equal, joined, lead_in;
};

/* percent is the chance that a pair conflicts; with 0 each command conflicts with the next. */
struct family {
    const char *name;
    const size_t *sizes;
    unsigned commands, percent;
    void (*make)(struct subject *s, const struct family *f, size_t size);
};

/* ---- Families */

/* All pairs conflict: one chain of commands 2 to N, which each command enters behind itself. */
static unsigned full_chain(uint8_t *head, uint8_t *record, unsigned commands) {
    for (unsigned a = 1; a < commands; a++) {
        head[a] = (uint8_t)a;
        record[2 * a] = (uint8_t)(a + 1);
        record[2 * a + 1] = head[a + 1] = a + 1 < commands ? (uint8_t)(a + 1) : 0;
    }
    return commands - 1;
}

/* Each command lists the larger ones that it conflicts with. */
static unsigned random_chains(uint8_t *head, uint8_t *record, unsigned commands, unsigned percent) {
    unsigned records = 0;
    for (unsigned a = 1; a <= commands; a++) {
        head[a] = 0;
        for (unsigned b = a + 1; b <= commands && records < 255; b++) {
            if (percent == 0 ? b != a + 1 : !chance(percent)) continue;
            records++;
            record[2 * records] = (uint8_t)b;
            record[2 * records + 1] = head[a];
            head[a] = (uint8_t)records;
        }
    }
    return records;
}

static void make_catalogue(struct bytes *catalogue, const struct family *f) {
    uint8_t *head = catalogue->at + 1, *record = catalogue->at + f->commands;
    unsigned records = f->percent == 100 ? full_chain(head, record, f->commands)
                                         : random_chains(head, record, f->commands, f->percent);
    catalogue->at[0] = (uint8_t)f->commands;
    catalogue->at[1] = (uint8_t)records;
    catalogue->size = 2 + f->commands + 2 * records;
}

static void random_letters(struct bytes *plan, size_t size, unsigned commands) {
    plan->size = size;
    for (size_t i = 0; i < size; i++) plan->at[i] = (uint8_t)(1 + below(commands) + 128 * below(2));
}

static void turn(const struct bytes *v, size_t by, struct bytes *turned) {
    turned->size = v->size;
    memcpy(turned->at, v->at + by, v->size - by);
    memcpy(turned->at + v->size - by, v->at, by);
}

static void make_random(struct subject *s, const struct family *f, size_t size) {
    random_letters(&s->v, size, f->commands);
    turn(&s->v, size / 3, &s->joined);
}

/* Random letters, four letters in the middle, and the undo of the first letters: the core is at most the middle. */
static void make_around(struct bytes *plan, unsigned commands, size_t size) {
    size_t half = size / 2 - 2;
    random_letters(plan, size, commands);
    for (uint8_t i = 0; i < 4; i++) plan->at[half + i] = i + 1;
    for (size_t i = 0; i < half; i++) plan->at[size - 1 - i] = undo_of(plan->at[i]);
}

static void make_cancel(struct subject *s, const struct family *f, size_t size) {
    make_around(&s->v, f->commands, size);
    make_around(&s->joined, f->commands, size);
}

/* A run of each command, upwards, which takes many rounds; downwards it takes none. The lead-in is long. */
static void make_settle(struct subject *s, const struct family *f, size_t size) {
    s->v.size = s->joined.size = size;
    for (size_t i = 0; i < size; i++) s->v.at[i] = s->joined.at[size - 1 - i] = (uint8_t)(1 + f->commands * i / size);
}

static void make_ring(struct subject *s, const struct family *f, size_t size) {
    s->v.size = size;
    for (size_t i = 0; i < size; i++) s->v.at[i] = i < 8 ? (uint8_t)(1 + below(f->commands)) : s->v.at[i - 8];
    turn(&s->v, size / 3, &s->joined);
}

static void make_odd_ring(struct subject *s, const struct family *f, size_t size) {
    s->v.size = size;
    memset(s->v.at, (int)f->commands, size);
    s->v.at[size - 1] = 1;
    turn(&s->v, size / 2, &s->joined);
}

static const struct family family[] = {
    {"free", long_plans, 24, 100, make_random},
    {"path", long_plans, 24, 0, make_random},
    {"24/20%", long_plans, 24, 20, make_random},
    {"24/50%", long_plans, 24, 50, make_random},
    {"24/80%", long_plans, 24, 80, make_random},
    {"8/50%", long_plans, 8, 50, make_random},
    {"2/100%", long_plans, 2, 100, make_random},
    {"cancel", long_plans, 24, 50, make_cancel},
    {"settle", long_plans, 24, 0, make_settle},
    {"ring", long_plans, 24, 100, make_ring},
    {"odd ring", long_plans, 2, 100, make_odd_ring},
    {"24/50%", short_plans, 24, 50, make_random},
    {"8/50%", short_plans, 8, 50, make_random},
};
enum { FAMILIES = sizeof family / sizeof family[0] };

static const char legend[] =
    "  N/P%      random letters of N commands, P pairs in 100 conflict; free: all of 24; path: each with the next\n"
    "  cancel    random letters, then their undo, around four letters that stay\n"
    "  settle    a run of each of 24 commands upwards, for 23 rounds, and downwards, on a path\n"
    "  ring      eight letters over and over, all commands conflict\n"
    "  odd ring  one letter over and over but for one place, where the library's rotation search is quadratic\n";

static struct question question_of(const struct subject *s, enum call call) {
    const struct bytes *second = call == EQUAL ? &s->equal : &s->joined;
    return (struct question){call, {s->catalogue.at, s->catalogue.size},
                             {{s->v.at, s->v.size}, {second->at, second->size}, {s->lead_in.at, s->lead_in.size}}};
}

static void prepare(struct subject *s, const struct family *f, size_t size) {
    struct conflicts k;
    struct area area[MOST_AREAS] = {{s->lead_in.at, MOST_LETTERS}};
    seed_random(1);
    make_catalogue(&s->catalogue, f);
    f->make(s, f, size);
    if (solver_catalogue(s->catalogue.at, s->catalogue.size, &k) != 0) exit(1);
    struct question loops = question_of(s, LOOPS);
    int64_t answer = ask_solver(&loops, area);
    s->lead_in.size = answer > 0 ? (size_t)answer - 1 : 0;
    equal_plan(&k, &s->v, &s->equal);
}

/* ---- Answers */

enum { LIBRARY, BEADS, SOLVER, ENGINES };
typedef int64_t ask(const struct question *q, const struct area *area);
static int64_t ask_beads(const struct question *q, const struct area *area) { return ASK_MEASURED(beads, q, area); }
static ask *const engine[ENGINES] = {ask_library, ask_beads, ask_solver};
static const char *const engine_name[ENGINES] = {"library", "beads", "solver"};

static uint8_t space[ENGINES][2][MOST_LETTERS];

static bool joins(const struct question *q, const uint8_t *lead_in, size_t size) {
    static uint8_t spare[2][MOST_LETTERS];
    struct question check = {LEAD_IN_CHECK, q->catalogue, {q->plan[0], q->plan[1], {lead_in, size}}};
    return ask_solver(&check, (struct area[MOST_AREAS]){{spare[0], MOST_LETTERS}, {spare[1], MOST_LETTERS}}) == 1;
}

/* The solver's answer and the solver's bytes; for loops any lead-in that the solver lets pass. */
static bool agrees(const struct question *q, unsigned e, const int64_t *answer) {
    if (q->call == LOOPS) return answer[e] >= 1 && joins(q, space[e][0], (size_t)answer[e] - 1);
    return answer[e] >= 0 && answer[e] == answer[SOLVER] && memcmp(space[e], space[SOLVER], sizeof space[e]) == 0;
}

static void compare_answers(const struct question *q) {
    int64_t answer[ENGINES];
    memset(space, 0, sizeof space);
    for (unsigned e = 0; e < ENGINES; e++)
        answer[e] = engine[e](q, (struct area[MOST_AREAS]){{space[e][0], room(q, 0)}, {space[e][1], room(q, 1)}});
    for (unsigned e = 0; e < ENGINES; e++) {
        if (agrees(q, e, answer)) continue;
        fprintf(stderr, "bench: %s: %s answers %lld, the solver %lld, or other bytes\n", call_name[q->call],
                engine_name[e], (long long)answer[e], (long long)answer[SOLVER]);
        exit(1);
    }
}

/* ---- Measuring */

struct cost {
    double of[ENGINES];
};

static double seconds(void) {
    struct timespec now;
    clock_gettime(CLOCK_PROCESS_CPUTIME_ID, &now);
    return (double)now.tv_sec + 1e-9 * (double)now.tv_nsec;
}

/* Microseconds per call over a batch of some milliseconds. */
static double batch(ask *ask, const struct question *q, const struct area *area) {
    double start = seconds(), taken = 0;
    size_t calls = 0;
    for (size_t more = 1; taken < 0.002; more *= 2) {
        for (size_t i = 0; i < more; i++) ask(q, area);
        calls += more;
        taken = seconds() - start;
    }
    return 1e6 * taken / (double)calls;
}

/* The least of some batches, of all engines in turn. */
static struct cost measure_time(const struct question *q, const struct area *area) {
    struct cost least = {{1e30, 1e30, 1e30}};
    for (unsigned i = 0; i < BATCHES; i++) {
        for (unsigned e = 0; e < ENGINES; e++) {
            double taken = batch(engine[e], q, area);
            if (taken < least.of[e]) least.of[e] = taken;
        }
    }
    return least;
}

/* Callgrind counts inside this function alone, and dumps the count when it ends. */
__attribute__((noinline)) int64_t counted_call(ask *ask, const struct question *q, const struct area *area) {
    volatile int64_t answer = ask(q, area);
    return answer;
}

/* The instructions in the latest dump, which is removed. */
static double latest_count(void) {
    static unsigned dump;
    char name[4096], line[4096];
    double count = 0;
    snprintf(name, sizeof name, "%s.%u", dumps, ++dump);
    FILE *file = fopen(name, "r");
    while (file && fgets(line, sizeof line, file) && sscanf(line, "totals: %lf", &count) != 1) continue;
    if (!file || count == 0) {
        fprintf(stderr, "bench: callgrind has left no count in %s\n", name);
        exit(1);
    }
    fclose(file);
    remove(name);
    return count;
}

static struct cost count_instructions(const struct question *q, const struct area *area) {
    struct cost cost;
    for (unsigned e = 0; e < ENGINES; e++) {
        counted_call(engine[e], q, area);
        cost.of[e] = latest_count();
    }
    return cost;
}

static struct cost measure(const struct question *q) {
    struct area area[MOST_AREAS] = {{space[LIBRARY][0], room(q, 0)}, {space[LIBRARY][1], room(q, 1)}};
    compare_answers(q);
    return dumps ? count_instructions(q, area) : measure_time(q, area);
}

/* ---- The table */

/* The library's ratios to one engine. */
struct ratios {
    size_t count;
    double at[FAMILIES * SIZES];
};

static struct ratios ratios_long[CALLS][ENGINES], ratios_short[CALLS][ENGINES];

static int by_value(const void *a, const void *b) {
    double x = *(const double *)a, y = *(const double *)b;
    return (x > y) - (x < y);
}

static double median(struct ratios *r) {
    qsort(r->at, r->count, sizeof r->at[0], by_value);
    return (r->at[(r->count - 1) / 2] + r->at[r->count / 2]) / 2;
}

static void print_cell(const struct cost *cost, struct ratios *kept) {
    printf(dumps ? "%12.0f " : "%12.1f ", cost->of[LIBRARY]);
    for (unsigned e = BEADS; e < ENGINES; e++) {
        double ratio = cost->of[LIBRARY] / cost->of[e];
        kept[e].at[kept[e].count++] = ratio;
        printf(" %6.2f", ratio);
    }
    fflush(stdout);
}

static void print_row(const struct family *f, const struct subject *subject, enum call call) {
    struct ratios *kept = f->sizes == long_plans ? ratios_long[call] : ratios_short[call];
    struct cost cost[SIZES];
    printf("  %-12s", f->name);
    for (unsigned i = 0; i < SIZES; i++) {
        struct question q = question_of(&subject[i], call);
        cost[i] = measure(&q);
        print_cell(&cost[i], kept);
    }
    for (unsigned e = 0; e < ENGINES && f->sizes == long_plans; e++)
        printf(e == 0 ? "  %7.1f" : "%7.1f", cost[SIZES - 1].of[e] / cost[0].of[e]);
    putchar('\n');
}

static void print_header(const char *name, const size_t *sizes) {
    printf("%-14s", name);
    for (unsigned i = 0; i < SIZES; i++) printf("%5zu letters   beads  plain", sizes[i]);
    puts(sizes == long_plans ? "   growth  beads  plain" : "");
}

static void print_call(const struct subject (*subject)[SIZES], enum call call) {
    putchar('\n');
    for (unsigned f = 0; f < FAMILIES; f++) {
        if (f == 0) print_header(call_name[call], family[f].sizes);
        else if (family[f].sizes != family[f - 1].sizes) print_header("", family[f].sizes);
        print_row(&family[f], subject[f], call);
    }
}

static void print_medians(void) {
    puts("\nMedian ratio   64 to 1,024 letters:  beads  plain   0 to 16 letters:  beads  plain");
    for (unsigned i = 0; i < MEASURED; i++) {
        enum call call = measured[i];
        printf("  %-13s%27.2f %6.2f%25.2f %6.2f\n", call_name[call], median(&ratios_long[call][BEADS]),
               median(&ratios_long[call][SOLVER]), median(&ratios_short[call][BEADS]),
               median(&ratios_short[call][SOLVER]));
    }
}

int main(int count, char **argument) {
    static struct subject subject[FAMILIES][SIZES];
    dumps = count > 1 ? argument[1] : NULL;
    printf("%s per call of the library, and as a multiple of bench/beads.c and of the plain tests/solver.c.\n",
           dumps ? "Instructions" : "Microseconds");
    if (dumps) puts("A memset or memcpy of some thousand bytes may count as one instruction for each byte.");
    printf("Growth: 1,024 letters as a multiple of 64, for the library and for each of the two.\n%s", legend);
    for (unsigned f = 0; f < FAMILIES; f++)
        for (unsigned i = 0; i < SIZES; i++) prepare(&subject[f][i], &family[f], family[f].sizes[i]);
    for (unsigned i = 0; i < MEASURED; i++) print_call(subject, measured[i]);
    print_medians();
    return 0;
}
