/* Measures the stack of each call and holds it to the numbers in busplan.h. A call runs on a stack of its own whose
 * pages may not be touched: each that it touches is opened, and filled, when it does. So every page counts that the
 * call touches, also where it only looks whether the stack has room, and of the last one every byte that it writes. */
#define _GNU_SOURCE
#include "calls.h"
#include "texts.h"

#include <signal.h>
#include <stdio.h>
#include <stdlib.h>
#include <string.h>
#include <sys/mman.h>
#include <ucontext.h>

enum { STACK = 1 << 23, PAGE = 1 << 12, PAINT = 0xA5, ROUNDS = 1000 };

static const size_t promised[CALLS] = {BUSPLAN_NORMAL_FORM_STACK, BUSPLAN_CORE_STACK, BUSPLAN_EQUAL_STACK,
                                       BUSPLAN_LOOPS_STACK, BUSPLAN_LEAD_IN_CHECK_STACK, BUSPLAN_FAULT_STACK,
                                       BUSPLAN_SLOTS_STACK, BUSPLAN_PRECEDENCE_STACK, BUSPLAN_PRECEDENCE_FAULT_STACK,
                                       BUSPLAN_WRITE_OUT_STACK, BUSPLAN_TEXT_FAULT_STACK};

static uint8_t *stack, *lowest, *start;
static struct bytes catalogue, v, w, u, places;
static struct question question;
static int64_t answer;

/* The most that a call used so far, and the sizes of the catalogue and of the plans, of the plan and its places or of
 * the text, that it was first used with. */
static struct {
    size_t used, size[4];
} most[CALLS];

static void fail(const char *what) {
    fprintf(stderr, "stack: %s: %s\n", call_name[question.call], what);
    exit(1);
}

/* ---- A call on a stack of its own */

static void open_page(int number, siginfo_t *info, void *context) {
    uint8_t *touched = info->si_addr, *page = (uint8_t *)((uintptr_t)touched & ~(uintptr_t)(PAGE - 1));
    (void)context;
    if (touched < stack || touched >= stack + STACK || mprotect(page, PAGE, PROT_READ | PROT_WRITE) != 0) {
        signal(number, SIG_DFL);
        return;
    }
    memset(page, PAINT, PAGE);
    if (touched < lowest) lowest = touched;
}

static void prepare(void) {
    static uint8_t other[1 << 16];
    stack_t signals = {.ss_sp = other, .ss_size = sizeof other};
    struct sigaction action = {.sa_sigaction = open_page, .sa_flags = SA_ONSTACK | SA_SIGINFO};
    stack = mmap(NULL, STACK, PROT_NONE, MAP_PRIVATE | MAP_ANONYMOUS, -1, 0);
    if (stack == MAP_FAILED || sigaltstack(&signals, NULL) != 0 || sigaction(SIGSEGV, &action, NULL) != 0)
        fail("cannot lend a stack");
}

static void ask(void) {
    static _Alignas(uint64_t) uint8_t space[MOST_AREAS][MOST_LETTERS];
    struct area area[MOST_AREAS];
    for (unsigned i = 0; i < MOST_AREAS; i++) area[i] = (struct area){space[i], room(&question, i)};
    start = __builtin_frame_address(0);
    answer = ask_library(&question, area);
}

/* The bytes between the frame that asks and the lowest byte that was touched. */
static size_t stack_used(void) {
    ucontext_t here, lent;
    lowest = stack + STACK;
    if (mprotect(stack, STACK, PROT_NONE) != 0 || getcontext(&lent) != 0) fail("cannot lend a stack");
    lent.uc_stack = (stack_t){.ss_sp = stack, .ss_size = STACK};
    lent.uc_link = &here;
    makecontext(&lent, ask, 0);
    if (swapcontext(&here, &lent) != 0) fail("cannot lend a stack");
    uint8_t *written = (uint8_t *)((uintptr_t)lowest & ~(uintptr_t)(PAGE - 1));
    while (*written == PAINT) written++;
    return (size_t)(start - (written < lowest ? written : lowest));
}

static struct slice of(const struct bytes *bytes) { return (struct slice){bytes->at, bytes->size}; }

/* Asks first on the stack that is there, so that what is found or bound once is so before the measurement. */
static void measure(enum call call) {
    question = (struct question){call, of(&catalogue), {of(&v), of(&w), of(&u)}};
    if (call >= PLAN_CALLS) question.plan[1] = of(&places);
    ask();
    int64_t before = answer;
    size_t used = stack_used();
    if (answer != before) fail("another answer on a stack of its own");
    if (used <= most[call].used) return;
    most[call].used = used;
    most[call].size[0] = catalogue.size;
    for (unsigned i = 0; i < plans_of[call]; i++) most[call].size[1 + i] = question.plan[i].size;
}

/* ---- What is asked */

/* Every call on these plans and, of those that take places, on some in the normal form of the first. */
static void measure_plans(void) {
    struct conflicts k;
    struct word normal;
    uint64_t fault[2];
    places.size = normal.size = 0;
    if (solver_fault(catalogue.at, catalogue.size, v.at, v.size, NULL, 0, NULL, 0, fault) == 0) {
        solver_catalogue(catalogue.at, catalogue.size, &k);
        solver_word(v.at, v.size, &normal);
        solver_normal(&k, &normal);
        random_places(&k, &normal, &places);
    }
    if (chance(20)) damage_places(normal.size, &places);
    for (unsigned call = 0; call < TEXT_CALLS; call++) measure((enum call)call);
}

/* Under a catalogue in which each command conflicts with the next: a run of 1 and then each other command once, upwards
 * and downwards, as far as size goes. No loops take longer to settle. The lead-in has size letters. Then once more with
 * the catalogue rewritten in the second edition. */
static void ask_settling(unsigned commands, size_t size) {
    size_t plan = size < MOST_PLAN ? size : MOST_PLAN;
    uint8_t rewritten[6 * MOST_COMMANDS];
    catalogue.size = 2 + commands + 2 * (size_t)(commands - 1);
    catalogue.at[0] = (uint8_t)commands;
    catalogue.at[1] = (uint8_t)(commands - 1);
    for (unsigned a = 1; a <= commands; a++) catalogue.at[1 + a] = (uint8_t)(a % commands);
    for (unsigned a = 1; a < commands; a++) {
        catalogue.at[commands + 2 * a] = (uint8_t)(a + 1);
        catalogue.at[commands + 2 * a + 1] = 0;
    }
    v.size = w.size = plan;
    for (size_t i = 0; i < plan; i++) {
        size_t ones = plan < commands ? 1 : plan - commands + 1;
        v.at[i] = w.at[plan - 1 - i] = (uint8_t)(i < ones ? 1 : 2 + i - ones);
    }
    u.size = size;
    memset(u.at, 1, size);
    measure_plans();
    catalogue.size = rewrite_catalogue(catalogue.at, catalogue.size, rewritten);
    memcpy(catalogue.at, rewritten, catalogue.size);
    measure_plans();
}

/* Under the largest catalogue: 1,024 records that all stand in the chains of all commands but the last. */
static void ask_largest(void) {
    struct layout l = {catalogue.at, MOST_COMMANDS, MOST_RECORDS, 2};
    catalogue.size = whole_size(&l);
    memset(catalogue.at, 0, catalogue.size);
    catalogue.at[0] = 128 + MOST_COMMANDS;
    catalogue.at[2] = MOST_RECORDS / 256;
    for (unsigned a = 1; a < MOST_COMMANDS; a++) catalogue.at[head_place(&l, a)] = 1;
    for (unsigned r = 1; r <= MOST_RECORDS; r++) {
        unsigned next = r < MOST_RECORDS ? r + 1 : 0;
        catalogue.at[record_place(&l, r)] = MOST_COMMANDS;
        catalogue.at[record_place(&l, r) + 1] = (uint8_t)next;
        catalogue.at[record_place(&l, r) + 2] = (uint8_t)(next >> 8);
    }
    v.size = w.size = u.size = MOST_PLAN;
    for (size_t i = 0; i < MOST_PLAN; i++) v.at[i] = w.at[i] = u.at[i] = (uint8_t)(1 + i % MOST_COMMANDS);
    measure_plans();
    v.size = 0;
    for (unsigned call = TEXT_CALLS; call < CALLS; call++) measure((enum call)call);
}

/* Plans of any kind and size, joined and not, and now and then a long lead-in. */
static void ask_random(void) {
    struct conflicts k;
    random_catalogue(&catalogue);
    solver_catalogue(catalogue.at, catalogue.size, &k);
    random_plan(&k, &v);
    if (chance(50)) joined_plan(&k, &v, &w, &u);
    else random_plan(&k, &w);
    random_plan(&k, &u);
    if (chance(5)) lengthen_lead_in(&v, &w, &u);
    if (chance(10)) long_settling(&catalogue, &v, &w);
    if (chance(10)) damage_catalogue(&catalogue);
    measure_plans();
}

/* A text in the place of plan 1, of any kind and size, now and then damaged. */
static void ask_random_text(void) {
    random_catalogue(&catalogue);
    random_text(layout_of(catalogue.at, catalogue.size).commands, &v);
    if (chance(2)) lengthen_text(&v);
    if (chance(20)) damage_text(&v);
    for (unsigned call = TEXT_CALLS; call < CALLS; call++) measure((enum call)call);
}

/* The same with so many brackets in one another, a minus before each, around a command. */
static void ask_nest(size_t depth) {
    random_catalogue(&catalogue);
    v.size = 4 * depth + 1;
    for (size_t i = 0; i < depth; i++) {
        memcpy(v.at + 2 * i, "-(", 2);
        memcpy(v.at + 2 * depth + 1 + 2 * i, ")1", 2);
    }
    v.at[2 * depth] = '1';
    for (unsigned call = TEXT_CALLS; call < CALLS; call++) measure((enum call)call);
}

int main(void) {
    static const size_t sizes[] = {0, 1, 2, 24, 43, 85, 86, 171, 172, 256, 341, 342, 512, 513, 1023, 1024, 1025,
                                   2048, 2049, 7168, 7169, 8192, 8193, 49152};
    prepare();
    for (size_t i = 0; i < sizeof sizes / sizeof sizes[0]; i++)
        for (unsigned commands = 2; commands <= MOST_COMMANDS; commands += 11) ask_settling(commands, sizes[i]);
    ask_largest();
    for (unsigned i = 0; i < ROUNDS; i++) ask_random();
    for (size_t depth = 0; depth <= MOST_NESTING; depth++) ask_nest(depth);
    ask_nest(MOST_TEXT / 4 - 1);
    for (unsigned i = 0; i < ROUNDS; i++) ask_random_text();
    for (unsigned call = 0; call < CALLS; call++) {
        const size_t *size = most[call].size;
        question.call = (enum call)call;
        printf("stack: %-16s %6zu bytes of %6zu, first with a catalogue of %zu bytes and ", call_name[call],
               most[call].used, promised[call], size[0]);
        if (call < PLAN_CALLS) printf("plans of %zu, %zu, %zu\n", size[1], size[2], size[3]);
        else if (call < TEXT_CALLS) printf("a plan of %zu and %zu places\n", size[1], size[2] / sizeof(uint16_t));
        else printf("a text of %zu\n", size[1]);
        if (most[call].used > promised[call]) fail("that is more than busplan.h says");
        if (promised[call] > BUSPLAN_STACK) fail("busplan.h says more than BUSPLAN_STACK");
    }
    return 0;
}
