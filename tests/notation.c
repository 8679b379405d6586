/* Puts texts to the library and to the reader and compares the answers, every byte of the areas, and bytes beside them:
 * every short text of some bytes, for which a search by trying endings also says where a text is wrong; some huge ones;
 * and random ones, right and damaged. Usage: notation [SEED [TEXTS]]. A difference prints the text and fails. */
#include "calls.h"
#include "guarded.h"
#include "texts.h"

#include <inttypes.h>
#include <signal.h>
#include <stdio.h>
#include <stdlib.h>
#include <string.h>
#include <unistd.h>

enum { SHORT = 7, PATIENCE = 30 };

static uint64_t seed = 1, texts, calls;

/* The inputs as drawn, the guarded memory they are handed over in, and the area: the library's and the reader's. */
static struct bytes catalogue, text;
static struct guarded given[2], lent;
static _Alignas(uint64_t) uint8_t expected_bytes[MOST_GUARDED];
static struct question question;

/* How often each call gave each answer: 0, minus 1 to 17, or ABOVE for any answer above 0. */
enum { ABOVE = 18, ANSWERS = 19 };
static uint64_t answers[CALLS][ANSWERS];

/* ---- When something is wrong */

static void fail(const char *what) {
    fprintf(stderr, "notation: seed %" PRIu64 ", text %" PRIu64 ", %s: %s\n  catalogue, %zu bytes:", seed, texts,
            call_name[question.call], what, catalogue.size);
    for (size_t i = 0; i < catalogue.size; i++) fprintf(stderr, " %02x", catalogue.at[i]);
    fprintf(stderr, "\n  area: %zu bytes\n  text, %zu bytes: ", lent.size, text.size);
    for (size_t i = 0; i < text.size; i++) {
        bool prints = text.at[i] >= ' ' && text.at[i] <= '~' && text.at[i] != '\\';
        fprintf(stderr, prints ? "%c" : "\\x%02x", text.at[i]);
    }
    fputc('\n', stderr);
    exit(1);
}

static void fail_answers(int64_t got, int64_t expected) {
    fprintf(stderr, "  the library answers %" PRId64 ", the reader %" PRId64 "\n", got, expected);
    fail("the answers differ");
}

static void stopped(int number) {
    static uint64_t before;
    if (number == SIGALRM && before != calls) {
        before = calls;
        alarm(PATIENCE);
        return;
    }
    fail(number == SIGALRM ? "the call takes too long"
                           : "the call touched memory that it was not handed, or ran out of stack");
}

static void catch_stops(void) {
    static const int signals[] = {SIGSEGV, SIGBUS, SIGILL, SIGALRM};
    static uint8_t stack[1 << 16];
    stack_t other = {.ss_sp = stack, .ss_size = sizeof stack};
    struct sigaction action = {.sa_handler = stopped, .sa_flags = SA_ONSTACK};
    sigaltstack(&other, NULL);
    for (size_t i = 0; i < sizeof signals / sizeof *signals; i++) sigaction(signals[i], &action, NULL);
    alarm(PATIENCE);
}

/* ---- One text */

/* Copies an input to guarded memory; an empty one is handed over as a null pointer half of the time. */
static struct slice give(struct guarded *g, const struct bytes *from) {
    guarded_bytes(g, from->at, from->size, chance(50));
    return (struct slice){from->size == 0 && chance(50) ? NULL : g->at, from->size};
}

/* Asks both and compares. */
static void compare(enum call call, size_t size) {
    struct area area[MOST_AREAS] = {{0}}, expected_area[MOST_AREAS] = {{expected_bytes, size}};
    question.call = call;
    guarded_noise(&lent, size, chance(50), below(1 << 15));
    memcpy(expected_bytes, lent.at, size);
    area[0] = (struct area){size == 0 && chance(50) ? NULL : lent.at, size};
    calls++;
    int64_t got = ask_library(&question, area), expected = ask_solver(&question, expected_area);
    answers[call][expected > 0 ? ABOVE : -expected]++;
    if (got != expected) fail_answers(got, expected);
    if (!guarded_holds(&lent, expected_bytes, size))
        fail(call == WRITE_OUT ? "the bytes of the area differ" : "the plan or the place differs");
    if (!guarded_holds(&given[0], catalogue.at, catalogue.size)) fail("the catalogue is changed");
    if (!guarded_holds(&given[1], text.at, text.size)) fail("the text is changed");
}

/* The length of the plan that is written out, or minus a refusal. */
static int64_t length_wanted(void) {
    struct area area[MOST_AREAS] = {{expected_bytes, MOST_PLAN}};
    question.call = WRITE_OUT;
    return ask_solver(&question, area);
}

/* Mostly as many bytes as the plan has, or some more; else one less, or far less. Of a refused text any number. */
static size_t area_size(int64_t length) {
    size_t which = below(100);
    if (length < 0) return which < 20 ? 0 : below(2 * MOST_PLAN);
    size_t size = (size_t)length;
    if (which < 30) return size + 1 + below(40);
    if (which < 40) return MOST_PLAN + below(40);
    if (which < 80 || size == 0) return size;
    return which < 95 ? size - 1 : below(size);
}

static void compare_text(void) {
    texts++;
    question.catalogue = give(&given[0], &catalogue);
    question.plan[0] = give(&given[1], &text);
    compare(TEXT_FAULT, 2 * sizeof(uint64_t));
    compare(WRITE_OUT, area_size(length_wanted()));
}

/* ---- Short texts, and where they are wrong by trying endings */

/* In a text a bracket that is right, with its count, is written ITEM once it has been looked at. */
enum { ITEM = '@' };

static bool is_number(const char *word, size_t size, unsigned least, unsigned most) {
    unsigned number = 0;
    if (size == 0 || size > 3 || (size > 1 && word[0] == '0')) return false;
    for (size_t i = 0; i < size; i++) {
        if (word[i] < '0' || word[i] > '9') return false;
        number = 10 * number + (unsigned)(word[i] - '0');
    }
    return number >= least && number <= most;
}

/* Whether each word between blanks is a number or an ITEM, with a minus or not. */
static bool is_flat(const char *from, const char *to) {
    while (from < to) {
        const char *word = from;
        while (from < to && *from != ' ') from++;
        size_t size = (size_t)(from - word), minus = size > 0 && *word == '-';
        bool item = size == minus + 1 && word[minus] == ITEM;
        if (size > 0 && !item && !is_number(word + minus, size - minus, 1, MOST_COMMANDS)) return false;
        if (from < to) from++;
    }
    return true;
}

/* Whether this is a text: brackets are taken away from the inside out. */
static bool is_text(const char *from) {
    char left[4 * SHORT], *closing;
    strcpy(left, from);
    while ((closing = strchr(left, ')'))) {
        char *opening = closing;
        while (opening > left && *opening != '(') opening--;
        const char *count = closing + 1, *behind = count + strspn(count, "0123456789");
        if (*opening != '(' || !is_flat(opening + 1, closing)) return false;
        if (behind > count && !is_number(count, (size_t)(behind - count), 0, 255)) return false;
        *opening = ITEM;
        memmove(opening + 1, behind, strlen(behind) + 1);
    }
    return is_flat(left, left + strlen(left));
}

/* Whether some ending makes this a text: if any does, closing brackets do, with a number before them if need be. */
static bool can_be_mended(const char *from) {
    for (unsigned number = 0; number < 2; number++) {
        char ended[4 * SHORT];
        sprintf(ended, "%s%s", from, number == 1 ? "1" : "");
        for (size_t i = 0; i <= strlen(from); i++, strcat(ended, ")"))
            if (is_text(ended)) return true;
    }
    return false;
}

/* Puts a text that is wrong at a place, or not if the place is behind its NUL byte, to both. */
static void compare_short(const char *from, size_t wrong) {
    uint64_t fault[2] = {0, 0};
    text.size = strlen(from);
    memcpy(text.at, from, text.size);
    compare_text();
    int64_t answer = solver_text_fault(catalogue.at, catalogue.size, text.at, text.size, fault);
    bool refused = answer == -BUSPLAN_TEXT;
    if (refused != (wrong <= text.size) || (refused && (fault[0] != 1 || fault[1] != wrong)))
        fail("the search finds another place where the text is wrong");
}

/* Each byte behind some that can be mended, and so on; behind one that spoils it all any two bytes. */
static void compare_all_short(char *start, size_t size) {
    static const char bytes[] = " ()-012459x";
    for (const char *byte = bytes; *byte != '\0'; byte++) {
        start[size] = *byte;
        start[size + 1] = '\0';
        if (can_be_mended(start)) {
            compare_short(start, is_text(start) ? size + 2 : size + 1);
            if (size + 1 < SHORT) compare_all_short(start, size + 1);
        } else {
            compare_short(start, size);
            start[size + 1] = bytes[below(sizeof bytes - 1)];
            start[size + 2] = bytes[below(sizeof bytes - 1)];
            start[size + 3] = '\0';
            compare_short(start, size);
        }
    }
}

/* A catalogue without records, of the second edition or of the first. */
static void set_catalogue(unsigned commands, bool second) {
    catalogue.size = second ? 3 + 2 * commands : 2 + commands;
    memset(catalogue.at, 0, catalogue.size);
    catalogue.at[0] = (uint8_t)(second ? 128 + commands : commands);
}

static void try_short(void) {
    char start[SHORT + 3];
    set_catalogue(MOST_COMMANDS, false);
    compare_short("", 1);
    compare_all_short(start, 0);
}

/* ---- Huge texts */

/* A piece many times and an end, under a catalogue of 4 commands. The place is counted from the end if that is said. */
static const struct huge {
    const char *piece, *end;
    int64_t answer;
    bool from_end;
    size_t place;
} huge[] = {
    {" ", "", 0, false, 0},
    {" ", "1", 1, false, 0},
    {" ", "\t", -13, true, 1},
    {"1 ", "", -15, false, 0},
    {"1 ", ")", -13, true, 1},
    {"(", "", -13, true, 0},
    {"-(", "-", -13, true, 0},
    {"(", "25", -13, true, 1},
    {"(1)0 ", "", 0, false, 0},
    {"(1)0 ", "5", -8, true, 1},
    {"(1)0 ", "-24 5", -8, true, 4},
    {"()255 ", "2", 1, false, 0},
    {" (1 -(2)3)0", "0", -13, true, 1},
    {"((1)2 -(3 4)0 (5)0)0 ", "1", -8, false, 15},
    {"()1 ", "(((((((((", -13, true, 0},
    {"()1 ", "((((((((()))))))))", -14, true, 10},
};

static void try_huge(const struct huge *h) {
    enum { TIMES = 1 << 18 };
    uint8_t area[1] = {77}, *bytes = malloc(TIMES * strlen(h->piece) + strlen(h->end)), *to = bytes;
    uint64_t fault[2] = {77, 77};
    text.size = (size_t)sprintf((char *)text.at, "%d times \"%s\", then \"%s\"", TIMES, h->piece, h->end);
    if (bytes == NULL) fail("no memory");
    for (size_t i = 0; i < TIMES; i++, to += strlen(h->piece)) memcpy(to, h->piece, strlen(h->piece));
    memcpy(to, h->end, strlen(h->end));
    size_t size = (size_t)(to - bytes) + strlen(h->end), place = h->from_end ? size - h->place : h->place;
    int64_t told = busplan_text_fault(catalogue.at, catalogue.size, bytes, size, fault);
    int64_t answer = busplan_write_out(catalogue.at, catalogue.size, bytes, size, area, sizeof area);
    bool refused = h->answer < 0;
    texts++;
    calls += 2;
    if (answer != h->answer || told != (refused ? answer : 0)) fail_answers(answer, h->answer);
    if (fault[0] != (refused ? 1 : 77) || fault[1] != (refused ? place : 77)) fail("another plan or place, huge text");
    if ((area[0] == 77) != (answer <= 0)) fail("another byte in the area, huge text");
    free(bytes);
}

/* ---- Random texts */

static void draw_catalogue(void) {
    static const uint8_t commands[] = {0, 1, 4, 23, 24, 24};
    if (chance(60)) set_catalogue(commands[below(sizeof commands)], chance(50));
    else random_catalogue(&catalogue);
    if (!chance(25)) return;
    damage_catalogue(&catalogue);
    if (chance(30)) damage_catalogue(&catalogue);
}

static void try_random(void) {
    unsigned claimed = layout_of(catalogue.at, catalogue.size).commands;
    random_text(catalogue.size > 0 && claimed < MOST_COMMANDS ? claimed : MOST_COMMANDS, &text);
    if (below(4000) == 0) lengthen_text(&text);
    if (chance(40))
        do damage_text(&text);
        while (chance(30));
    compare_text();
}

/* ---- The whole */

/* Whether a call can give an answer: 0, minus 1 to 17, or ABOVE. */
static bool possible(enum call call, unsigned answer) {
    if (answer == ABOVE || answer == BUSPLAN_AREA_SIZE) return call == WRITE_OUT;
    return answer == 0 || tellable(teller_of(call), -(int64_t)answer);
}

static void check_answers(void) {
    for (unsigned call = TEXT_CALLS; call < CALLS; call++) {
        for (unsigned i = 0; i < ANSWERS; i++) {
            bool expected = possible((enum call)call, i);
            if (expected == (answers[call][i] > 0)) continue;
            fprintf(stderr, "notation: %s gave answer %u %s\n", call_name[call], i, expected ? "never" : "too");
            exit(1);
        }
    }
}

int main(int count, char **argument) {
    uint64_t wanted = 1000000;
    if (count > 1) seed = strtoull(argument[1], NULL, 10);
    if (count > 2) wanted = strtoull(argument[2], NULL, 10);
    seed_random(seed);
    catch_stops();
    guarded_open(&given[0]);
    guarded_open(&given[1]);
    guarded_open(&lent);
    try_short();
    uint64_t all_short = texts;
    set_catalogue(4, false);
    for (size_t i = 0; i < sizeof huge / sizeof *huge; i++) try_huge(&huge[i]);
    for (uint64_t i = 0; i < wanted; i++) {
        if (i % 8 == 0) draw_catalogue();
        try_random();
    }
    if (wanted >= 100000) check_answers();
    printf("notation: %" PRIu64 " short texts, %zu huge ones, %" PRIu64 " at random, seed %" PRIu64 ": all agree\n",
           all_short, sizeof huge / sizeof *huge, wanted, seed);
    return 0;
}
