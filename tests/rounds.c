/* Loops calls for the program cases_rounds, and what it must print for them. Usage: rounds ask|check [SEED [CALLS]].
 * `rounds ask` writes the calls as the program reads them, then one that is cut short. `rounds check` draws the same
 * calls again, reads what the program has printed and compares each line with the solver's answer, and with the one
 * that is known beforehand where the plans are made for it. A difference prints the call in hexadecimal and fails. */
#include "solver.h"
#include "supply.h"

#include <inttypes.h>
#include <stdio.h>
#include <stdlib.h>
#include <string.h>

/* The largest catalogue and plan that the program reads. Line 17 refuses no catalogue that small. */
enum { MOST_CATALOGUE = 1024, MOST_FRAMED = 1100, REFUSALS = 8 };

static uint64_t seed = 1, calls;

/* The call, a plan to throw away, and the answer if it is known beforehand. */
static struct bytes catalogue, plan[2], spare;
static struct {
    bool is, joined;
    unsigned rounds;
} known;

/* How often two loops were apart or joined with each number of rounds, and how often each line refused. */
static uint64_t answered[2][MOST_COMMANDS], refused[REFUSALS + 1];

/* ---- Calls whose answers are known */

/* The catalogue of a path, from which bit c of cut takes out the conflict of c and c + 1. */
static void path(unsigned commands, uint32_t cut) {
    unsigned records = 0;
    uint8_t *record = catalogue.at + 2 + commands;
    for (unsigned c = 1; c <= commands; c++) {
        bool tied = c < commands && !(cut >> c & 1);
        if (tied) {
            *record++ = (uint8_t)(c + 1);
            *record++ = 0;
            records++;
        }
        catalogue.at[1 + c] = (uint8_t)(tied ? records : 0);
    }
    catalogue.at[0] = (uint8_t)commands;
    catalogue.at[1] = (uint8_t)records;
    catalogue.size = (size_t)(record - catalogue.at);
}

/* How a plan goes through a part of a path: not at all, or once through its commands, upwards, downwards, or upwards
 * with the first of them undone. Upwards takes a round for each command but one, downwards takes none. */
enum way { MISSING, UPWARDS, DOWNWARDS, UNDONE, WAYS };

static void add_part(struct bytes *to, unsigned from, unsigned last, enum way way) {
    if (way == MISSING) return;
    for (unsigned c = from; c <= last; c++) to->at[to->size++] = (uint8_t)(way == DOWNWARDS ? from + last - c : c);
    if (way == UNDONE) to->at[to->size - (last - from) - 1] |= 128;
}

static void know_part(unsigned from, unsigned last, enum way v, enum way w) {
    bool turned = (v == UPWARDS && w == DOWNWARDS) || (v == DOWNWARDS && w == UPWARDS);
    bool up = v == UPWARDS || v == UNDONE || w == UPWARDS || w == UNDONE;
    if (v != w && !turned) known.joined = false;
    if (up && last - from > known.rounds) known.rounds = last - from;
}

/* Plans that go through the parts of a path as way says, plan 1 and plan 2 by turns. */
static void through_parts(unsigned commands, uint32_t cut, const enum way *way) {
    path(commands, cut);
    plan[0].size = plan[1].size = 0;
    known.is = known.joined = true;
    known.rounds = 0;
    for (unsigned from = 1, last = 1; last <= commands; last++) {
        if (last < commands && !(cut >> last & 1)) continue;
        add_part(&plan[0], from, last, way[0]);
        add_part(&plan[1], from, last, way[1]);
        know_part(from, last, way[0], way[1]);
        way += 2;
        from = last + 1;
    }
}

/* A plan upwards, from command 1 to a last one, or downwards. */
static void run(struct bytes *to, unsigned last, enum way way) {
    to->size = 0;
    if (last > 0) add_part(to, 1, last, way);
}

static void know(bool joined, unsigned rounds) {
    known.is = true;
    known.joined = joined;
    known.rounds = rounds;
}

/* The path 1-2-...-s, in a catalogue of s commands or more: (1, ..., s) beside itself, backwards, and (1); and beside a
 * plan that has a command less and takes more rounds. Each also with its plans exchanged. */
static void on_path(unsigned commands, unsigned s, bool exchanged, void use(void)) {
    struct bytes *v = &plan[exchanged], *w = &plan[!exchanged];
    path(commands, 0);
    run(v, s, UPWARDS);
    run(w, s, UPWARDS);
    know(true, s - 1);
    use();
    run(w, s, DOWNWARDS);
    use();
    run(w, 1, UPWARDS);
    know(s == 1, s - 1);
    use();
    run(v, s, DOWNWARDS);
    run(w, s - 1, UPWARDS);
    know(false, s > 1 ? s - 2 : 0);
    use();
}

/* Two empty plans, and two plans that are empty once a pair is taken off. */
static void on_empty(unsigned commands, void use(void)) {
    path(commands, 0);
    plan[0].size = plan[1].size = 0;
    know(true, 0);
    use();
    if (commands == 0) return;
    for (unsigned i = 0; i < 2; i++) {
        memcpy(plan[i].at, "\1\0\201", 3);
        plan[i].size = 3;
        use();
    }
}

/* Every two ways through three parts, of 2, 4 and 3 commands. */
static void on_three_parts(void use(void)) {
    enum way way[6];
    for (unsigned number = 0; number < WAYS * WAYS * WAYS * WAYS * WAYS * WAYS; number++) {
        for (unsigned i = 0, rest = number; i < 6; i++, rest /= WAYS) way[i] = (enum way)(rest % WAYS);
        through_parts(9, 1u << 2 | 1u << 6, way);
        use();
    }
}

static void known_calls(void use(void)) {
    for (unsigned s = 1; s <= MOST_COMMANDS; s++) {
        for (unsigned i = 0; i < 4; i++) on_path(i < 2 ? s : MOST_COMMANDS, s, i % 2, use);
    }
    for (unsigned n = 0; n <= MOST_COMMANDS; n++) on_empty(n, use);
    on_three_parts(use);
}

/* ---- Calls at random */

/* Ways through the parts of a path at random, the same for both plans most of the time, and the plans rewritten. */
static void random_parts(void) {
    struct conflicts k;
    enum way way[2 * MOST_COMMANDS];
    unsigned commands = chance(30) ? MOST_COMMANDS : 1 + (unsigned)below(MOST_COMMANDS);
    unsigned cuts = (unsigned)below(60), others = (unsigned)below(30);
    uint32_t cut = 0;
    for (unsigned c = 1; c < commands; c++) cut |= (uint32_t)chance(cuts) << c;
    for (unsigned i = 0; i < 2 * MOST_COMMANDS; i += 2) {
        way[i] = chance(10) ? (enum way)below(WAYS) : chance(50) ? UPWARDS : DOWNWARDS;
        way[i + 1] = chance(others) ? (enum way)below(WAYS) : way[i] == UPWARDS && chance(50) ? DOWNWARDS : way[i];
    }
    through_parts(commands, cut, way);
    solver_catalogue(catalogue.at, catalogue.size, &k);
    for (unsigned i = 0; i < 2; i++)
        if (chance(60)) equal_plan(&k, &plan[i], &plan[i]);
}

/* Plans that are random, equal, joined, and nearly so; plan 1 is often conjugated by letters. */
static void random_plans(const struct conflicts *k) {
    size_t which = below(100);
    random_plan(k, &plan[0]);
    if (chance(40)) joined_plan(k, &plan[0], &plan[0], &spare);
    if (which < 20) random_plan(k, &plan[1]);
    else if (which < 40) equal_plan(k, &plan[0], &plan[1]);
    else joined_plan(k, &plan[0], &plan[1], &spare);
    if (which < 8 || which >= 75) spoil_plan(k, &plan[1]);
}

static void damage(const struct conflicts *k) {
    if (chance(30)) damage_plan(k, &plan[0], MOST_PLAN);
    if (chance(30)) damage_plan(k, &plan[1], MOST_PLAN);
    if (chance(60)) damage_catalogue(&catalogue);
    if (chance(10)) damage_catalogue(&catalogue);
}

static void random_call(void) {
    struct conflicts k;
    known.is = false;
    if (chance(30)) {
        random_parts();
        return;
    }
    bool settling = below(300) == 0;
    if (settling) long_settling(&catalogue, &plan[0], &plan[1]);
    else
        do random_catalogue(&catalogue);
        while (catalogue.size > MOST_CATALOGUE);
    solver_catalogue(catalogue.at, catalogue.size, &k);
    if (!settling) random_plans(&k);
    if (!settling && chance(25)) damage(&k);
    if (catalogue.size > MOST_CATALOGUE) catalogue.size = MOST_CATALOGUE;
    for (unsigned i = 0; i < 2; i++)
        if (plan[i].size > MOST_FRAMED) plan[i].size = MOST_FRAMED;
}

/* ---- Asking */

static void put_size(size_t size) {
    putchar((int)(size & 255));
    putchar((int)(size >> 8));
}

static void ask(void) {
    put_size(catalogue.size);
    put_size(plan[0].size);
    put_size(plan[1].size);
    fwrite(catalogue.at, 1, catalogue.size, stdout);
    fwrite(plan[0].at, 1, plan[0].size, stdout);
    fwrite(plan[1].at, 1, plan[1].size, stdout);
}

/* ---- Checking */

static void print_bytes(const char *name, const struct bytes *bytes) {
    fprintf(stderr, "  %s, %zu bytes:", name, bytes->size);
    for (size_t i = 0; i < bytes->size; i++) fprintf(stderr, " %02x", bytes->at[i]);
    fputc('\n', stderr);
}

static void fail(const char *what, const char *printed, const char *expected) {
    fprintf(stderr, "rounds: seed %" PRIu64 ", call %" PRIu64 ": %s\n", seed, calls, what);
    fprintf(stderr, "  the program prints: %s  expected: %s", printed, expected);
    print_bytes("catalogue", &catalogue);
    print_bytes("plan 1", &plan[0]);
    print_bytes("plan 2", &plan[1]);
    exit(1);
}

/* How many commands occur in the core of a plan. */
static unsigned core_commands(const struct bytes *of) {
    uint8_t core[MOST_PLAN];
    uint32_t set = 0;
    int64_t size = solver_core(catalogue.at, catalogue.size, of->at, of->size, core, sizeof core);
    for (int64_t i = 0; i < size; i++) set |= 1u << command_of(core[i]);
    return (unsigned)__builtin_popcount(set);
}

/* The line of two loops. The lead-in is free, so its length is taken from the program where it is not too long. */
static void check_verdict(const char *printed) {
    static uint8_t area[MOST_LEAD_IN];
    char expected[80];
    unsigned rounds;
    size_t length = 0;
    int64_t answer = solver_loops_rounds(catalogue.at, catalogue.size, plan[0].at, plan[0].size, plan[1].at,
                                         plan[1].size, area, sizeof area, &rounds);
    if (answer > 0) sscanf(printed, "joined %zu", &length);
    if (answer > 0) snprintf(expected, sizeof expected, "joined %zu %u\n", length, rounds);
    else if (answer == 0) snprintf(expected, sizeof expected, "apart %u\n", rounds);
    else snprintf(expected, sizeof expected, "refused %d, by the solver\n", (int)-answer);
    if (known.is && (known.joined != (answer > 0) || known.rounds != rounds))
        fail("the solver's answer is not the one that is known", printed, expected);
    if (strcmp(printed, expected) != 0) fail("the answers differ", printed, expected);
    if (length > layout_of(catalogue.at, catalogue.size).commands * (plan[0].size + plan[1].size))
        fail("the lead-in is longer than N(n + m)", printed, expected);
    if (rounds > 0 && rounds >= core_commands(&plan[0]) && rounds >= core_commands(&plan[1]))
        fail("there are not fewer rounds than commands in a core", printed, expected);
    answered[answer > 0][rounds]++;
}

static void check(void) {
    char printed[80], expected[80];
    uint64_t fault[2];
    if (fgets(printed, sizeof printed, stdin) == NULL) fail("there is no line", "\n", "a line\n");
    int64_t refusal = solver_fault(catalogue.at, catalogue.size, plan[0].at, plan[0].size, plan[1].at, plan[1].size,
                                   NULL, 0, fault);
    if (refusal == 0) {
        check_verdict(printed);
        return;
    }
    snprintf(expected, sizeof expected, "refused %d %d %d\n", (int)-refusal, (int)fault[0], (int)fault[1]);
    if (strcmp(printed, expected) != 0) fail("the refusals differ", printed, expected);
    refused[-refusal]++;
}

/* ---- The whole */

/* Every answer must have come up: joined and apart with each number of rounds, and each line that can refuse. */
static void print_answers(void) {
    uint64_t sum[3] = {0};
    bool all = true;
    for (unsigned i = 0; i < MOST_COMMANDS; i++) {
        sum[0] += answered[0][i];
        sum[1] += answered[1][i];
        all &= answered[0][i] > 0 && answered[1][i] > 0;
    }
    for (unsigned i = 1; i <= REFUSALS; i++) {
        sum[2] += refused[i];
        all &= refused[i] > 0;
    }
    printf("rounds: %" PRIu64 " calls, seed %" PRIu64 ": %" PRIu64 " joined, %" PRIu64 " apart, %" PRIu64
           " refused: all agree\n", calls, seed, sum[1], sum[0], sum[2]);
    if (!all && calls >= 100000) {
        fputs("rounds: an answer has never come up\n", stderr);
        exit(1);
    }
}

static void (*used)(void);

static void count_and_use(void) {
    calls++;
    used();
}

int main(int count, char **argument) {
    uint64_t wanted = 300000;
    bool asking = count > 1 && strcmp(argument[1], "ask") == 0;
    if (!asking && (count < 2 || strcmp(argument[1], "check") != 0)) {
        fputs("usage: rounds ask|check [SEED [CALLS]]\n", stderr);
        return 2;
    }
    if (count > 2) seed = strtoull(argument[2], NULL, 10);
    if (count > 3) wanted = strtoull(argument[3], NULL, 10);
    seed_random(seed);
    used = asking ? ask : check;
    known_calls(count_and_use);
    while (calls < wanted) {
        random_call();
        count_and_use();
    }
    if (asking) {
        fwrite("\2\0\1\0\1\0\1\0\0", 1, 9, stdout); /* a call without the last byte of its second plan */
        return fflush(stdout) != 0;
    }
    if (getchar() != EOF) {
        fputs("rounds: the program prints more lines than there are calls\n", stderr);
        return 1;
    }
    print_answers();
    return 0;
}
