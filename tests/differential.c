/* Puts random questions about plans to the library and to the solver and compares the answers, every byte of the areas,
 * and bytes beside them. Usage: differential [SEED [CALLS]]. A difference prints the question in hexadecimal and fails.
 * A question with a catalogue of the first edition is put once more with the catalogue written in the second. For short
 * plans searches say what the answers must be. notation.c does all this for texts. */
#include "brute.h"
#include "calls.h"
#include "guarded.h"
#include "supply.h"

#include <inttypes.h>
#include <signal.h>
#include <stdio.h>
#include <stdlib.h>
#include <string.h>

static uint64_t seed = 1, calls, rewritten_calls;

/* The inputs as drawn, the guarded memory they are handed over in, and the areas: the library's and the solver's.
 * Behind the plans stands the list of places, which some calls take as their plan 2. */
enum { LIST = 3 };
static struct bytes catalogue, plan[4];
static struct guarded given[5], lent[MOST_AREAS];

/* The catalogue rewritten in the second edition, and the areas for that. */
static struct bytes rewritten;
static struct guarded given_again, lent_again[MOST_AREAS];

static _Alignas(uint64_t) uint8_t expected_bytes[MOST_AREAS][MOST_GUARDED];
static struct question question;

/* How often each call gave each answer: 0, minus 1 to 17, or ABOVE for any answer above 0. */
enum { ABOVE = 18, ANSWERS = 19 };
static uint64_t answers[TEXT_CALLS][ANSWERS];

/* Which of them a call takes as its plan 1, 2 or 3. */
static unsigned drawn(enum call call, unsigned number) { return call >= PLAN_CALLS && number == 1 ? LIST : number; }

/* ---- When something is wrong */

static void print_bytes(const char *name, const uint8_t *at, size_t size) {
    fprintf(stderr, "  %s, %zu bytes:", name, size);
    for (size_t i = 0; i < size; i++) fprintf(stderr, " %02x", at[i]);
    fputc('\n', stderr);
}

static void fail(const char *what) {
    static const char *const plan_name[4] = {"plan 1", "plan 2", "plan 3", "places"};
    fprintf(stderr, "differential: seed %" PRIu64 ", call %" PRIu64 ", %s: %s\n", seed, calls,
            call_name[question.call], what);
    print_bytes("catalogue", catalogue.at, catalogue.size);
    for (unsigned i = 0; i < plans_of[question.call]; i++) {
        unsigned from = drawn(question.call, i);
        print_bytes(plan_name[from], plan[from].at, plan[from].size);
    }
    for (unsigned i = 0; i < areas_of[question.call]; i++) fprintf(stderr, "  area %u: %zu bytes\n", i, lent[i].size);
    exit(1);
}

static void fail_answers(int64_t got, int64_t expected) {
    fprintf(stderr, "  the library answers %" PRId64 ", the solver %" PRId64 "\n", got, expected);
    fail("the answers differ");
}

static void stopped(int signal_number) {
    (void)signal_number;
    fail("the call touched memory that it was not handed, or ran out of stack");
}

static void catch_stops(void) {
    static uint8_t stack[1 << 16];
    stack_t other = {.ss_sp = stack, .ss_size = sizeof stack};
    struct sigaction action = {.sa_handler = stopped, .sa_flags = SA_ONSTACK};
    sigaltstack(&other, NULL);
    sigaction(SIGSEGV, &action, NULL);
    sigaction(SIGBUS, &action, NULL);
    sigaction(SIGILL, &action, NULL);
}

/* ---- One call */

/* Copies an input to guarded memory; an empty one is handed over as a null pointer half of the time. */
static struct slice give(struct guarded *g, const struct bytes *from) {
    guarded_bytes(g, from->at, from->size, chance(50));
    return (struct slice){from->size == 0 && chance(50) ? NULL : g->at, from->size};
}

static void give_all(void) {
    question.catalogue = give(&given[0], &catalogue);
    for (unsigned i = 0; i < 3; i++) question.plan[i] = give(&given[1 + i], &plan[i]);
}

/* Mostly as many bytes, or numbers, as are needed, or more; else one less, or far less. Always as many where no size is
 * told. */
static size_t area_size(enum call call, unsigned area) {
    size_t which = below(100), each = unit(call, area), needed = room(&question, area) / each, size = needed;
    if (area >= sized_areas_of[call]) return needed;
    if (which < 30) size = needed + 1 + below(40);
    if (which >= 90 && needed > 0) size = which < 98 ? needed - 1 : below(needed);
    return size * each < 60000 ? size * each : 60000;
}

/* The lead-in that the library gives is free: it must be a normal form, short enough, and join the two loops. */
static void check_lead_in(const struct conflicts *k, int64_t got) {
    static uint8_t space[2][MOST_GUARDED];
    struct area spare[MOST_AREAS] = {{space[0], sizeof space[0]}, {space[1], sizeof space[1]}};
    struct question check = question;
    struct word u, normal;
    size_t size = (size_t)got - 1;
    if (got < 1) fail("the loops are joined and the library says otherwise");
    if (size > room(&question, 0)) fail("the lead-in is longer than N(n + m)");
    check.call = LEAD_IN_CHECK;
    check.plan[2] = (struct slice){lent[0].at, size};
    if (ask_solver(&check, spare) != 1) fail("the lead-in does not join the loops");
    solver_word(lent[0].at, size, &u);
    memcpy(normal.letter, u.letter, u.size);
    normal.size = u.size;
    solver_normal(k, &normal);
    if (u.size != size || !solver_same(&u, &normal)) fail("the lead-in is not a normal form");
    if (!guarded_holds(&lent[0], u.letter, size)) fail("bytes past the lead-in are changed");
}

/* The slots that the library gives: of two conflicting letters the earlier has the smaller one, and the longest chain
 * of conflicting letters has as many letters as there are slots in use. By any numbering of which the former holds the
 * letters of a chain have different slots, so none has fewer. */
static void check_slots(size_t size) {
    static uint16_t slots[MOST_PLAN], chain[MOST_PLAN];
    struct conflicts k;
    uint64_t in_use, longest = 0;
    solver_catalogue(catalogue.at, catalogue.size, &k);
    memcpy(slots, lent[1].at, size * sizeof slots[0]);
    memcpy(&in_use, lent[2].at, sizeof in_use);
    for (size_t i = size; i-- > 0;) {
        chain[i] = 1;
        for (size_t j = i + 1; j < size; j++) {
            if (!conflict(&k, lent[0].at[i], lent[0].at[j])) continue;
            if (slots[i] >= slots[j]) fail("of two conflicting letters the earlier does not have the smaller slot");
            if (chain[j] >= chain[i]) chain[i] = (uint16_t)(chain[j] + 1);
        }
        if (chain[i] > longest) longest = chain[i];
    }
    if (in_use != longest) fail("the longest chain has not as many letters as there are slots in use");
}

/* Lends an area again in which the same bytes stand that stood in the first one before the call. */
static struct area lend_again(unsigned i) {
    guarded_again(&lent_again[i], &lent[i], chance(50));
    return (struct area){lent[i].size == 0 && chance(50) ? NULL : lent_again[i].at, lent[i].size};
}

/* What stands in an area of the first call, and must stand in that of the second: the place of a fault of the catalogue
 * is another one there. */
static const uint8_t *expected_again(int64_t got, unsigned i) {
    static uint64_t fault[2];
    if (!tells_fault(question.call) || got == 0 || got == -BUSPLAN_PLACES) return lent[i].at;
    memcpy(fault, lent[i].at, sizeof fault);
    if (fault[0] == 0 && fault[1] > 0) fault[1] = rewritten_place(catalogue.at, fault[1]);
    return (const uint8_t *)fault;
}

/* Puts the question to the library once more, with the catalogue rewritten: it must give the same answer and leave the
 * same bytes, also as a lead-in. */
static void compare_rewritten(int64_t got) {
    struct area area[MOST_AREAS] = {{0}};
    struct question again = question;
    rewritten.size = rewrite_catalogue(catalogue.at, catalogue.size, rewritten.at);
    again.catalogue = give(&given_again, &rewritten);
    for (unsigned i = 0; i < areas_of[again.call]; i++) area[i] = lend_again(i);
    calls++;
    rewritten_calls++;
    if (ask_library(&again, area) != got) fail("another answer with the catalogue rewritten");
    if (!guarded_holds(&given_again, rewritten.at, rewritten.size)) fail("the rewritten catalogue is changed");
    for (unsigned i = 0; i < areas_of[again.call]; i++)
        if (!guarded_holds(&lent_again[i], expected_again(got, i), lent[i].size))
            fail("other bytes with the catalogue rewritten");
}

/* Asks both and compares. Returns the library's answer. */
static int64_t compare(enum call call) {
    struct area area[MOST_AREAS] = {{0}}, expected_area[MOST_AREAS] = {{0}};
    struct conflicts k;
    question.call = call;
    for (unsigned i = 0; i < areas_of[call]; i++) {
        guarded_noise(&lent[i], area_size(call, i), chance(50), below(1 << 15));
        memcpy(expected_bytes[i], lent[i].at, lent[i].size);
        expected_area[i] = (struct area){expected_bytes[i], lent[i].size};
        area[i] = (struct area){lent[i].size == 0 && chance(50) ? NULL : lent[i].at, lent[i].size};
    }
    calls++;
    int64_t got = ask_library(&question, area), expected = ask_solver(&question, expected_area);
    answers[call][expected > 0 ? ABOVE : -expected]++;
    if (call == LOOPS && expected > 0) {
        solver_catalogue(catalogue.at, catalogue.size, &k);
        check_lead_in(&k, got);
    } else {
        if (got != expected) fail_answers(got, expected);
        for (unsigned i = 0; i < areas_of[call]; i++)
            if (!guarded_holds(&lent[i], expected_bytes[i], lent[i].size)) fail("the bytes of an area differ");
    }
    if (call == SLOTS && got > 0) check_slots((size_t)got);
    if (!guarded_holds(&given[0], catalogue.at, catalogue.size)) fail("the catalogue is changed");
    for (unsigned i = 0; i < plans_of[call]; i++) {
        const struct bytes *from = &plan[drawn(call, i)];
        if (!guarded_holds(&given[1 + drawn(call, i)], from->at, from->size)) fail("a plan is changed, or the places");
    }
    if (!fault_tells(&question, got)) fail("another refusal is told as the fault");
    if (is_first_edition(catalogue.at, catalogue.size) && catalogue.size <= MOST_LETTERS / 2) compare_rewritten(got);
    return got;
}

/* ---- One round: a catalogue, two plans and a lead-in, and all calls on them */

/* Plan 1 is often conjugated by letters, so that there is much to take off before its core is left. */
static void draw_plans(const struct conflicts *k) {
    random_plan(k, &plan[0]);
    if (chance(40)) joined_plan(k, &plan[0], &plan[0], &plan[2]);
    random_plan(k, &plan[2]);
    size_t which = below(100);
    if (which < 20) random_plan(k, &plan[1]);
    else if (which < 40) equal_plan(k, &plan[0], &plan[1]);
    else joined_plan(k, &plan[0], &plan[1], &plan[2]);
    if (which < 8 || which >= 75) spoil_plan(k, &plan[1]);
    if (below(1500) == 0) lengthen_lead_in(&plan[0], &plan[1], &plan[2]);
}

static void damage(const struct conflicts *k) {
    if (chance(8)) damage_plan(k, &plan[0], MOST_PLAN);
    if (chance(8)) damage_plan(k, &plan[1], MOST_PLAN);
    if (chance(5)) damage_plan(k, &plan[2], MOST_LEAD_IN);
    if (chance(40)) damage_catalogue(&catalogue);
    if (chance(8)) damage_catalogue(&catalogue);
}

/* Puts what the library wrote as a lead-in, or what the solver wrote, in the place of plan 3. */
static void take_lead_in(int64_t answer) {
    struct area area[MOST_AREAS] = {{expected_bytes[0], MOST_GUARDED}};
    bool solvers = chance(30);
    if (solvers) answer = ask_solver(&question, area);
    plan[2].size = (size_t)answer - 1;
    memcpy(plan[2].at, solvers ? expected_bytes[0] : lent[0].at, plan[2].size);
    question.plan[2] = give(&given[3], &plan[2]);
}

/* Whether the solver's answer to a call on one plan is this word. */
static bool solver_writes(enum call call, struct slice on, const struct word *w) {
    struct area area[MOST_AREAS] = {{expected_bytes[0], MOST_GUARDED}};
    struct question q = {call, question.catalogue, {on}};
    return ask_solver(&q, area) == (int64_t)w->size && memcmp(expected_bytes[0], w->letter, w->size) == 0;
}

/* For short plans: normal forms, cores and the verdict on loops by trying all steps. A core is joined to its plan, and
 * no loop that is joined to it is shorter. A damaged catalogue that is still accepted may have other conflicts than
 * before, so it is read again. */
static void ask_brute(void) {
    struct conflicts k;
    struct word brute[2], core;
    struct area area[MOST_AREAS] = {{expected_bytes[0], MOST_GUARDED}};
    solver_catalogue(catalogue.at, catalogue.size, &k);
    for (unsigned i = 0; i < 2; i++) {
        solver_word(plan[i].at, plan[i].size, &brute[i]);
        if (brute[i].size > MOST_BRUTE) return;
        brute_least(&k, &brute[i], KEPT);
        if (!solver_writes(NORMAL_FORM, question.plan[i], &brute[i])) fail("the search finds another normal form");
        solver_word(brute[i].letter, brute[i].size, &core);
        brute_least(&k, &core, PAIRS_OFF);
        if (!solver_writes(CORE, question.plan[i], &core)) fail("the search finds another core");
        brute_least(&k, &brute[i], TURNED);
        if (core.size != brute[i].size) fail("the search finds a shorter loop than the core");
        brute_least(&k, &core, TURNED);
        if (!solver_same(&core, &brute[i])) fail("the search finds the core apart from its plan");
    }
    question.call = LOOPS;
    bool joined = ask_solver(&question, area) > 0;
    if (joined != solver_same(&brute[0], &brute[1])) fail("the search finds another verdict");
}

/* For a short normal form w of plan 1: its slots by trying all chains, and of even fewer letters by trying all ways to
 * number them. */
static void ask_brute_slots(const struct conflicts *k, const struct word *w) {
    uint8_t area[MOST_PLAN];
    uint16_t slots[MOST_PLAN];
    unsigned smallest[MOST_NUMBERED];
    uint64_t in_use[1];
    size_t longest = 0, fewest;
    if (busplan_slots(PUT(question.catalogue), PUT(question.plan[0]), area, MOST_PLAN, slots, MOST_PLAN, in_use)
        != (int64_t)w->size) fail("the slots are not those of the normal form");
    for (size_t i = 0; i < w->size; i++) {
        size_t chain = brute_chain(k, w, i);
        if (slots[i] != chain - 1) fail("the search finds another chain to a letter than its slot says");
        if (chain > longest) longest = chain;
    }
    if (in_use[0] != longest) fail("the search finds another longest chain");
    if (w->size > MOST_NUMBERED) return;
    brute_numbers(k, w, smallest, &fewest);
    for (size_t i = 0; i < w->size; i++)
        if (slots[i] != smallest[i]) fail("the search finds a smaller slot");
    if (in_use[0] != fewest) fail("the search finds fewer slots");
}

/* Every pair of its places, by trying all arrangements. */
static void ask_brute_precedence(const struct conflicts *k, const struct word *w) {
    unsigned before[MOST_ARRANGED];
    brute_before(k, w, before);
    for (uint16_t i = 0; i < w->size; i++) {
        for (uint16_t j = 0; j < w->size; j++) {
            const uint16_t pair[2] = {i, j};
            int64_t got = busplan_precedence(PUT(question.catalogue), PUT(question.plan[0]), pair, 2);
            int64_t expected = i == j ? -BUSPLAN_PLACES : (int64_t)(before[i] >> j & 1);
            if (got == expected) continue;
            fprintf(stderr, "  the library answers %" PRId64 " for places %u %u\n", got, i, j);
            fail("the search finds another answer for these places");
        }
    }
}

/* Asks about places in the normal form of plan 1; where that or the catalogue is refused, about any. */
static void ask_places(void) {
    struct conflicts k;
    struct word w;
    uint64_t fault[2];
    bool right = solver_fault(PUT(catalogue), plan[0].at, plan[0].size, NULL, 0, NULL, 0, fault) == 0;
    plan[LIST].size = w.size = 0;
    if (right) {
        solver_catalogue(catalogue.at, catalogue.size, &k);
        solver_word(plan[0].at, plan[0].size, &w);
        solver_normal(&k, &w);
        random_places(&k, &w, &plan[LIST]);
    }
    if (!right || chance(40))
        do damage_places(w.size, &plan[LIST]);
        while (chance(40));
    question.plan[1] = give(&given[1 + LIST], &plan[LIST]);
    compare(PRECEDENCE);
    compare(PRECEDENCE_FAULT);
    if (!right || w.size > MOST_ARRANGED || !chance(10)) return;
    question.call = SLOTS;
    ask_brute_slots(&k, &w);
    question.call = PRECEDENCE;
    ask_brute_precedence(&k, &w);
}

/* Damage upon damage, so that several lines hold and the first of them is to be told with its place. */
static void damage_more(const struct conflicts *k) {
    for (unsigned i = 0; i < 4; i++) {
        damage(k);
        give_all();
        compare(FAULT);
    }
    ask_places();
}

static void round_of_calls(void) {
    struct conflicts k;
    bool settling = below(2000) == 0, damaged = !settling && chance(25);
    if (settling) long_settling(&catalogue, &plan[0], &plan[1]);
    else random_catalogue(&catalogue);
    if (solver_catalogue(catalogue.at, catalogue.size, &k) != 0) fail("a catalogue that should be right is refused");
    if (!settling) draw_plans(&k);
    if (damaged) damage(&k);
    give_all();
    compare(NORMAL_FORM);
    compare(CORE);
    compare(SLOTS);
    compare(EQUAL);
    compare(FAULT);
    compare(LEAD_IN_CHECK);
    int64_t answer = compare(LOOPS);
    if (answer > 0) {
        take_lead_in(answer);
        if (compare(LEAD_IN_CHECK) == 0) fail("a lead-in of two joined loops does not pass the check");
    }
    if (answer >= 0 && chance(10)) ask_brute();
    ask_places();
    if (damaged) damage_more(&k);
}

/* ---- The whole */

/* Whether a call can give an answer: 0, minus 1 to 17, or ABOVE. Refusal 10 is retired and must not come up. */
static bool possible(enum call call, unsigned answer) {
    if (answer == ABOVE) return !tells_fault(call);
    return answer <= 8 || (answer == 9 && sized_areas_of[call] > 0) || tellable(teller_of(call), -(int64_t)answer);
}

/* Every answer that a call can give must have come up, and no other. */
static void print_answers(void) {
    printf("%-16s %8s %8s", "answer", "above 0", "0");
    for (int i = 1; i <= 9; i++) printf(" %8d", -i);
    printf(" %8d %8d\n", -BUSPLAN_PLACES, -BUSPLAN_RECORD_COUNT);
    for (unsigned call = 0; call < TEXT_CALLS; call++) {
        printf("%-16s %8" PRIu64 " %8" PRIu64, call_name[call], answers[call][ABOVE], answers[call][0]);
        for (unsigned i = 1; i <= 9; i++) printf(" %8" PRIu64, answers[call][i]);
        printf(" %8" PRIu64 " %8" PRIu64 "\n", answers[call][BUSPLAN_PLACES], answers[call][BUSPLAN_RECORD_COUNT]);
        for (unsigned i = 0; i < ANSWERS; i++) {
            bool expected = possible((enum call)call, i);
            if (calls >= 100000 && expected != (answers[call][i] > 0)) {
                fprintf(stderr, "differential: %s gave answer %u %s\n", call_name[call], i, expected ? "never" : "too");
                exit(1);
            }
        }
    }
}

int main(int count, char **argument) {
    uint64_t wanted = 3000000;
    if (count > 1) seed = strtoull(argument[1], NULL, 10);
    if (count > 2) wanted = strtoull(argument[2], NULL, 10);
    seed_random(seed);
    catch_stops();
    for (unsigned i = 0; i < 5; i++) guarded_open(&given[i]);
    guarded_open(&given_again);
    for (unsigned i = 0; i < MOST_AREAS; i++) {
        guarded_open(&lent[i]);
        guarded_open(&lent_again[i]);
    }
    while (calls < wanted) round_of_calls();
    print_answers();
    printf("differential: %" PRIu64 " calls, %" PRIu64 " of them with a rewritten catalogue, seed %" PRIu64
           ": all agree\n", calls, rewritten_calls, seed);
    return 0;
}
