/* A console for bus plans. It reads lines from standard input, as the list below says, and answers on standard output.
 * Plans are typed in the beacon team's notation, and the library reads them.
 *
 * A mistake is reported on standard error with its line number, and one in a plan or in places with its column. Nothing
 * of its line is taken, and the exit status will be 1. After a mistake in a line that gives, or may have been meant to
 * give, a part of the catalogue, no question is answered until a corrected line has come: a good commands line, or a
 * good conflicts line that names all commands that the bad one names and after which all pairs hold that can be read in
 * it.
 *
 * Build, after `sh tests/archive.sh`, from the repository's root:
 *   gcc -O2 -Iinclude examples/console.c target/staticlib/libbusplan.a -o target/console
 */
#define _POSIX_C_SOURCE 200809L
#include "busplan.h"

#include <stdarg.h>
#include <stdbool.h>
#include <stdio.h>
#include <stdlib.h>
#include <string.h>
#include <strings.h>
#include <unistd.h>

static const char help_text[] =
    "commands 4              the number of commands, 0 to 24; comes first, and clears the conflicts\n"
    "conflicts 1-2, 2-3 3-4  pairs that conflict (all others may swap), added to those given before\n"
    "conflicts               after a mistake, says that what holds is right\n"
    "catalogue               shows what holds: the pairs, and the catalogue's bytes in hexadecimal\n"
    "plan (1 -2)3            a plan written out, here 1 -2 1 -2 1 -2\n"
    "normal 1 3 -1           the normal form of a plan\n"
    "core 1 2 -1             the core of a plan\n"
    "slots 1 3 2 4           the slots of a plan's normal form: which letters can go out together\n"
    "precedence 1 2 3 / 0 2  does the letter at place 0 of the normal form stay before the letter at place 2?\n"
    "equal (1 3)2 / 3 3 1 1  do two plans have the same effect?\n"
    "loops 1 2 / 2 1         are two loops joined, and by which lead-in?\n"
    "check 1 2 / 2 1 / 1     is the third plan a lead-in from the first loop to the second?\n"
    "help                    prints this list\n"
    "quit                    ends the console, as the end of the input does\n"
    "A plan is commands and groups with blanks between them. 3 does command 3, and -3 undoes it. (1 -2)3 is a group\n"
    "taken 3 times, 0 to 255, and (1 -2) once; -(1 2)3 undoes all of it. Groups nest up to 8 deep. Commas, tabs and\n"
    "the filler 0 are no part of a plan. Written out, a plan has at most 1,024 commands, and a lead-in too.\n"
    "/ stands between plans. Blanks and commas separate pairs, and a pair is two numbers and a dash.\n"
    "Places count from 0 and are taken two by two, with / before them, blanks between them and commas between pairs.\n"
    "No number has a leading zero. # starts a comment.\n";

#define BLANKS " \t"
#define SEPARATORS " \t,"

enum { MOST_LINE = 1 << 20, MOST_PLANS = 3, MOST_SHOWN = 40 };

/* Linux hands over at most 4,095 bytes of a line that is typed on a terminal and drops the rest in silence: a line of
 * 4,095 may be a cut one. */
enum { MOST_TERMINAL_LINE = 4094 };

/* The line being read, up to its end, a NUL byte or the limit. */
static char text[MOST_LINE + 1];
static unsigned long line_number;

static int status = EXIT_SUCCESS;
static bool done, terminal;

/* ---- Messages */

/* Reports a mistake on standard error; false, so that a function that finds one can return it. */
static bool complain(const char *format, ...) {
    va_list arguments;
    va_start(arguments, format);
    fprintf(stderr, "line %lu: ", line_number);
    vfprintf(stderr, format, arguments);
    fputc('\n', stderr);
    va_end(arguments);
    status = EXIT_FAILURE;
    return false;
}

struct word {
    const char *at;
    size_t size;
};

/* A word for a message: bytes that don't print are written \xNN, and a long word is shortened. */
static const char *shown(struct word word) {
    static char buffer[4 * MOST_SHOWN + sizeof "..."];
    char *end = buffer;
    for (size_t i = 0; i < word.size && i < MOST_SHOWN; i++) {
        unsigned char c = (unsigned char)word.at[i];
        if (c > ' ' && c <= '~' && c != '\\') *end++ = (char)c;
        else end += sprintf(end, "\\x%02x", c);
    }
    strcpy(end, word.size > MOST_SHOWN ? "..." : "");
    return buffer;
}

/* ---- Words and numbers */

/* Takes the next word off a text; false if there is none. */
static bool next_word(const char **rest, const char *separators, struct word *word) {
    word->at = *rest + strspn(*rest, separators);
    word->size = strcspn(word->at, separators);
    *rest = word->at + word->size;
    return word->size > 0;
}

static bool is(struct word word, const char *name) {
    return word.size == strlen(name) && memcmp(word.at, name, word.size) == 0;
}

/* Whether nothing follows the last argument. */
static bool ended(const char *rest) {
    struct word word;
    return !next_word(&rest, BLANKS, &word) || complain("words after the last argument: %s", shown(word));
}

/* No catalogue has a command of this number, and no normal form a place of that. */
enum { NO_COMMAND = 127, NO_PLACE = 65535 };

/* Takes a number off the front of a word: decimal digits with no leading zero. However many digits it has, one above
 * most counts as most. */
static bool take_number(struct word *word, unsigned most, unsigned *number) {
    size_t digits = 0;
    *number = 0;
    for (; digits < word->size && word->at[digits] >= '0' && word->at[digits] <= '9'; digits++) {
        *number = 10 * *number + (unsigned)(word->at[digits] - '0');
        if (*number > most) *number = most;
    }
    bool leading_zero = digits > 1 && word->at[0] == '0';
    word->at += digits;
    word->size -= digits;
    return digits > 0 && !leading_zero;
}

static bool take_dash(struct word *word) {
    if (word->size == 0 || *word->at != '-') return false;
    word->at++;
    word->size--;
    return true;
}

/* ---- Catalogue */

static unsigned commands;
static struct pairs {
    bool holds[BUSPLAN_MAX_COMMANDS + 1][BUSPLAN_MAX_COMMANDS + 1]; /* [a][b] with a < b */
} conflicts;
static uint8_t catalogue[BUSPLAN_MAX_CATALOGUE];
static size_t catalogue_size; /* 0 until a commands line has come */

/* Reads a pair of commands up to most: exactly two numbers and a dash. The smaller command goes to *a. */
static bool read_pair(struct word word, unsigned most, unsigned *a, unsigned *b) {
    unsigned x, y;
    if (!take_number(&word, NO_COMMAND, &x) || !take_dash(&word) || !take_number(&word, NO_COMMAND, &y)) return false;
    if (word.size > 0) return false;
    *a = x < y ? x : y;
    *b = x < y ? y : x;
    return *a >= 1 && *a < *b && *b <= most;
}

/* Whether the catalogue is written in the second edition, in which R and every index take two bytes. */
static bool second_edition;

static void put_byte(unsigned byte) { catalogue[catalogue_size++] = (uint8_t)byte; }

static void put_index(unsigned index) {
    put_byte(index & 255);
    if (second_edition) put_byte(index >> 8);
}

/* How many larger commands conflict with command a. */
static unsigned chain_size(unsigned a) {
    unsigned size = 0;
    for (unsigned b = a + 1; b <= commands; b++) size += conflicts.holds[a][b];
    return size;
}

/* Puts the records of the chain of command a, of which first is the number of the first. */
static void put_chain(unsigned a, unsigned first) {
    unsigned left = chain_size(a), next = first;
    for (unsigned b = a + 1; b <= commands; b++) {
        if (!conflicts.holds[a][b]) continue;
        put_byte(b);
        next++;
        left--;
        put_index(left > 0 ? next : 0);
    }
}

/* Writes the catalogue's bytes: for each command a chain of the larger commands that conflict with it, with one record
 * for each pair. The first edition counts up to 255 records; for more pairs, 276 at the most, the second is written. */
static void pack_catalogue(void) {
    unsigned first[BUSPLAN_MAX_COMMANDS + 2] = {0, 1}; /* the number of the first record of each chain */
    for (unsigned a = 1; a <= commands; a++) first[a + 1] = first[a] + chain_size(a);
    unsigned records = first[commands + 1] - 1;
    second_edition = records > 255;
    catalogue_size = 0;
    put_byte(second_edition ? 128 + commands : commands);
    put_index(records);
    for (unsigned a = 1; a <= commands; a++) put_index(chain_size(a) > 0 ? first[a] : 0);
    for (unsigned a = 1; a <= commands; a++) put_chain(a, first[a]);
}

/* ---- Mistakes in the catalogue */

/* The kinds of lines that give a part of the catalogue. */
enum part { COMMANDS, CONFLICTS, NEITHER };

/* The first bad commands line since a good one, or 0. */
static unsigned long bad_commands;

/* Lines that were to give conflicts and are not corrected yet, with the commands that each names, as bits, and the
 * pairs in it that can be read. Where there are more, the last one stands for them. */
enum { MOST_MISTAKES = 64 };
static struct mistake {
    unsigned long line;
    uint32_t names;
    struct pairs pairs;
} mistakes[MOST_MISTAKES];
static size_t mistake_count;

/* The commands that a text names, whatever stands around the numbers: gathered byte by byte. */
struct names {
    uint32_t commands;
    unsigned number;
};

static void gather(struct names *names, int c) {
    if (c >= '0' && c <= '9') {
        if (names->number < NO_COMMAND) names->number = 10 * names->number + (unsigned)(c - '0');
        return;
    }
    if (names->number >= 1 && names->number <= BUSPLAN_MAX_COMMANDS) names->commands |= 1u << names->number;
    names->number = 0;
}

static uint32_t named(struct word word) {
    struct names names = {0, 0};
    for (size_t i = 0; i < word.size; i++) gather(&names, word.at[i]);
    gather(&names, '\n');
    return names.commands;
}

static struct word whole(const char *rest) { return (struct word){rest, strlen(rest)}; }

/* The commands in words that begin as pairs do: in a line that is not for pairs they may be some all the same. */
static uint32_t named_in_pairs(const char *rest) {
    struct word word;
    uint32_t names = 0;
    while (next_word(&rest, SEPARATORS, &word)) {
        struct word left = word;
        unsigned x, y;
        if (take_number(&left, NO_COMMAND, &x) && take_dash(&left) && take_number(&left, NO_COMMAND, &y))
            names |= named(word);
    }
    return names;
}

/* What a correction must name of what a bad line names; numbers above N are no commands. */
static uint32_t awaited_names(const struct mistake *mistake) { return mistake->names & ((2u << commands) - 1); }

/* Whether a pair of a bad line does not hold. */
static bool lacks(const struct mistake *mistake, unsigned a, unsigned b) {
    return mistake->pairs.holds[a][b] && !conflicts.holds[a][b];
}

static bool lacks_any(const struct mistake *mistake) {
    for (unsigned a = 1; a <= commands; a++)
        for (unsigned b = a + 1; b <= commands; b++)
            if (lacks(mistake, a, b)) return true;
    return false;
}

/* A line was bad that was to give conflicts, names these commands and has this text, as far as it can be read. */
static void spoil_conflicts(uint32_t names, const char *rest) {
    struct word word;
    unsigned a, b;
    bool another = mistake_count == 0 || mistakes[mistake_count - 1].line != line_number;
    if (another && mistake_count < MOST_MISTAKES) mistakes[mistake_count++] = (struct mistake){.line = line_number};
    struct mistake *last = &mistakes[mistake_count - 1];
    last->names |= names;
    while (next_word(&rest, SEPARATORS, &word))
        if (read_pair(word, BUSPLAN_MAX_COMMANDS, &a, &b)) last->pairs.holds[a][b] = true;
}

/* A line was bad that gives this part. */
static void spoil(enum part part, uint32_t names, const char *rest) {
    if (part == CONFLICTS) spoil_conflicts(names, rest);
    if (part != COMMANDS) return;
    if (bad_commands == 0) bad_commands = line_number;
    if (named_in_pairs(rest) != 0) spoil_conflicts(named_in_pairs(rest), rest);
}

/* A good conflicts line corrects each bad one whose commands it names and whose pairs now hold, so that one more line
 * of a list is not easily taken for a correction. A line with no pair says that what holds is right. */
static void correct(const char *rest) {
    struct word word;
    bool all = !next_word(&rest, SEPARATORS, &word);
    uint32_t names = all ? 0 : named(whole(word.at));
    size_t left = 0;
    for (size_t i = 0; i < mistake_count; i++) {
        bool covered = (awaited_names(&mistakes[i]) & ~names) == 0 && !lacks_any(&mistakes[i]);
        if (all || covered) printf("line %lu counts as corrected\n", mistakes[i].line);
        else mistakes[left++] = mistakes[i];
    }
    mistake_count = left;
}

#define AWAITED "is awaited (conflicts alone keeps what holds)"

/* What a correction of a bad conflicts line must have. */
static const char *awaited(const struct mistake *mistake) {
    static char buffer[64 + 3 * BUSPLAN_MAX_COMMANDS + 6 * 276]; /* 276 pairs at the most */
    uint32_t names = awaited_names(mistake);
    int size = sprintf(buffer, "%s", names == 0 ? "" : " that names");
    for (unsigned k = 1; k <= commands; k++)
        if (names >> k & 1) size += sprintf(buffer + size, " %u", k);
    if (lacks_any(mistake)) size += sprintf(buffer + size, " and gives");
    for (unsigned a = 1; a <= commands; a++)
        for (unsigned b = a + 1; b <= commands; b++)
            if (lacks(mistake, a, b)) size += sprintf(buffer + size, " %u-%u", a, b);
    return buffer;
}

/* Why no question is answered, or NULL. */
static const char *hindrance(void) {
    static char buffer[2048];
    if (bad_commands != 0) {
        snprintf(buffer, sizeof buffer, "after the mistake on line %lu a commands line is awaited", bad_commands);
        return buffer;
    }
    if (catalogue_size == 0) return "no commands line has come yet";
    if (mistake_count == 0) return NULL;
    snprintf(buffer, sizeof buffer, "after the mistake on line %lu a conflicts line%s " AWAITED,
             mistakes->line, awaited(mistakes));
    return buffer;
}

/* A good line has come. */
static void settle(enum part part, const char *rest) {
    if (part == COMMANDS && bad_commands != 0) {
        printf("line %lu counts as corrected\n", bad_commands);
        bad_commands = 0;
    }
    if (part == CONFLICTS) correct(rest);
    if (part != NEITHER && hindrance()) printf("no question is answered: %s\n", hindrance());
}

/* ---- Lines that give and show the catalogue */

/* Counts the pairs, and prints each behind a blank if wanted. */
static unsigned count_pairs(bool print) {
    unsigned count = 0;
    for (unsigned a = 1; a <= commands; a++) {
        for (unsigned b = a + 1; b <= commands; b++) {
            if (!conflicts.holds[a][b]) continue;
            count++;
            if (print) printf(" %u-%u", a, b);
        }
    }
    return count;
}

static bool take_commands(const char *rest) {
    struct word word;
    unsigned number;
    if (!next_word(&rest, BLANKS, &word)) return complain("commands takes the number of commands, 0 to 24");
    struct word left = word;
    if (!take_number(&left, NO_COMMAND, &number) || left.size > 0 || number > BUSPLAN_MAX_COMMANDS)
        return complain("not a number of commands, 0 to 24: %s", shown(word));
    if (!ended(rest)) return false;
    if (catalogue_size > 0) printf("conflicts cleared: %u\n", count_pairs(false));
    commands = number;
    conflicts = (struct pairs){0};
    pack_catalogue();
    return true;
}

static bool take_conflicts(const char *rest) {
    struct pairs taken = conflicts;
    struct word word;
    unsigned a, b;
    if (catalogue_size == 0 || bad_commands != 0) return complain("conflicts before a good commands line");
    while (next_word(&rest, SEPARATORS, &word)) {
        if (!read_pair(word, commands, &a, &b))
            return complain("not a pair of two different commands from 1 to %u: %s", commands, shown(word));
        taken.holds[a][b] = true;
    }
    conflicts = taken;
    pack_catalogue();
    return true;
}

/* Shows a catalogue only if the library takes it. */
static bool show_catalogue(const char *rest) {
    uint64_t fault[2];
    if (!ended(rest)) {
        if (named_in_pairs(rest) != 0) spoil_conflicts(named_in_pairs(rest), rest);
        return false;
    }
    if (catalogue_size > 0) {
        int64_t answer = busplan_fault(catalogue, catalogue_size, NULL, 0, NULL, 0, NULL, 0, fault);
        if (answer < 0) return complain("%s", busplan_refusal_text(answer));
        printf("%u command%s\n", commands, commands == 1 ? "" : "s");
        fputs(count_pairs(false) == 0 ? "no conflicts" : "conflicts:", stdout);
        count_pairs(true);
        printf("\nbytes:");
        for (size_t i = 0; i < catalogue_size; i++) printf(" %02x", catalogue[i]);
        putchar('\n');
    }
    if (hindrance()) printf("no question is answered: %s\n", hindrance());
    return true;
}

/* ---- Plans */

/* The plans of a question: as typed, and as the library writes them out. */
static struct plan {
    struct word typed;
    uint8_t at[BUSPLAN_MAX_WRITE_OUT_ROOM];
    size_t size;
} plan[MOST_PLANS];
static uint8_t area[2][BUSPLAN_MAX_CHECK_ROOM]; /* the largest room that a call asks for */

static const char *plan_name(unsigned plans, unsigned number) {
    static const char *const names[] = {"plan 1", "plan 2", "plan 3"};
    return plans == 1 ? "the plan" : names[number];
}

/* Places in the normal form of a plan: as typed, and as numbers. Of two bytes of a line at most one begins a number. */
static struct {
    const char *typed;
    uint16_t at[MOST_LINE / 2];
    size_t size;
} places;

/* Finds as many plans as a question takes, with / between them, and the places behind them if it takes some; false
 * after a message. */
static bool find_plans(const char *verb, unsigned plans, bool takes_places, const char *rest) {
    static const char *const wanted[] = {"one plan", "two plans, with / between them",
                                         "three plans, with / between them"};
    unsigned found = 1;
    rest += strspn(rest, BLANKS);
    for (const char *c = rest; *c != '\0'; c++) found += *c == '/';
    if (found != plans + takes_places)
        return complain("%s takes %s", verb,
                        takes_places ? "a plan and places of its normal form, with / between them" : wanted[plans - 1]);
    for (unsigned i = 0; i < plans; i++) {
        plan[i].typed = (struct word){rest, strcspn(rest, "/")};
        rest += plan[i].typed.size + 1;
    }
    places.typed = takes_places ? rest : "";
    return true;
}

/* The column of a byte of the line. */
static size_t column_of(const char *at) { return (size_t)(at - text) + 1; }

static bool is_digit(char c) { return c >= '0' && c <= '9'; }

/* Why a plan cannot go on as it does at a place, or cannot end there. */
static const char *wrong_at(struct word typed, size_t place) {
    char here = place < typed.size ? typed.at[place] : '\0', before = place > 0 ? typed.at[place - 1] : ' ';
    size_t number = place;
    while (number > 0 && is_digit(typed.at[number - 1])) number--;
    bool count = number > 0 && typed.at[number - 1] == ')';
    if (is_digit(here))
        return count ? "a count is 0 to 255, with no leading zero" : "a command is 1 to 24, with no leading zero";
    if (before == '-') return "a command or a group must follow a minus directly";
    if (here == '\0') return "a bracket is not closed";
    if (here == ')') return "no bracket is open";
    if (here == '-' || here == '(') return "a blank is missing here";
    return "a plan has numbers, - ( ) and blanks alone";
}

/* What stands around a place, between blanks; nothing at the plan's end. */
static struct word word_at(struct word typed, size_t place) {
    size_t from = place, to = place;
    if (place == typed.size) return (struct word){typed.at, 0};
    while (from > 0 && typed.at[from - 1] != ' ') from--;
    while (to < typed.size && typed.at[to] != ' ') to++;
    return (struct word){typed.at + from, to - from};
}

static unsigned number_at(struct word typed, size_t place) {
    struct word left = {typed.at + place, typed.size - place};
    unsigned number;
    take_number(&left, NO_COMMAND, &number);
    return number;
}

/* Says in the planner's words why the library did not write a plan out. */
static bool explain(const char *name, struct word typed) {
    uint64_t fault[2] = {0, 0};
    int64_t reason = busplan_text_fault(catalogue, catalogue_size, (const uint8_t *)typed.at, typed.size, fault);
    size_t place = (size_t)fault[1], column = column_of(typed.at + place);
    struct word word = word_at(typed, place);
    if (reason == -BUSPLAN_TEXT)
        return complain("%s, column %zu: %s%s%s", name, column, wrong_at(typed, place), word.size > 0 ? ": " : "",
                        shown(word));
    if (reason == -BUSPLAN_NESTING)
        return complain("%s, column %zu: groups nest up to 8 deep, and here deeper", name, column);
    if (reason == -BUSPLAN_PLAN_BYTE)
        return complain("%s, column %zu: %u is no command of this catalogue", name, column, number_at(typed, place));
    if (reason == -BUSPLAN_WRITTEN_SIZE)
        return complain("%s has over 1,024 commands when it is written out, more than can be typed", name);
    return complain("%s", busplan_refusal_text(reason));
}

/* Whether a comma stands between two words of the places, or at an end, where none may; true after a message. One may
 * stand between two pairs. */
static bool stray_comma(const char *from, const char *to) {
    bool between = places.size > 0 && places.size % 2 == 0 && *to;
    const char *comma = memchr(from, ',', (size_t)(to - from));
    if (comma && between) comma = memchr(comma + 1, ',', (size_t)(to - comma - 1));
    if (comma) complain("the places, column %zu: a comma that does not stand between two pairs", column_of(comma));
    return comma;
}

/* Reads the places of a question; false after a message. */
static bool read_places(void) {
    const char *rest = places.typed, *before = rest;
    struct word word;
    for (places.size = 0; next_word(&rest, SEPARATORS, &word); before = rest) {
        struct word left = word;
        unsigned number;
        if (stray_comma(before, word.at)) return false;
        if (!take_number(&left, NO_PLACE, &number) || left.size > 0)
            return complain("the places, column %zu: a place is a number from 0, with no leading zero: %s",
                            column_of(word.at), shown(word));
        places.at[places.size++] = (uint16_t)number;
    }
    return !stray_comma(before, before + strlen(before));
}

/* Reads the plans of a question; false after a message. */
static bool read_plans(const char *verb, unsigned plans, bool takes_places, const char *rest) {
    if (!find_plans(verb, plans, takes_places, rest)) return false;
    for (unsigned i = 0; i < plans; i++) {
        struct plan *p = &plan[i];
        int64_t size = busplan_write_out(catalogue, catalogue_size, (const uint8_t *)p->typed.at, p->typed.size,
                                         p->at, sizeof p->at);
        if (size < 0) return explain(plan_name(plans, i), p->typed);
        p->size = (size_t)size;
    }
    return read_places();
}

/* A letter as it is typed: a command, or minus one for its undo. */
static int typed_as(uint8_t letter) { return letter > 128 ? 128 - letter : letter; }

static void print_plan(const char *what, const uint8_t *letter, size_t size) {
    printf("%s:%s", what, size == 0 ? " (empty)" : "");
    for (size_t i = 0; i < size; i++) printf(" %d", typed_as(letter[i]));
    putchar('\n');
}

/* ---- Questions: each prints the library's answer, if it is no refusal, and returns it */

static int64_t ask_plan(void) {
    print_plan("plan", plan[0].at, plan[0].size);
    return 0;
}

static int64_t print_normal_form(const char *what, const struct plan *p) {
    int64_t answer = busplan_normal_form(catalogue, catalogue_size, p->at, p->size, area[0], sizeof area[0]);
    if (answer >= 0) print_plan(what, area[0], (size_t)answer);
    return answer;
}

static int64_t ask_normal(void) { return print_normal_form("normal form", &plan[0]); }

static int64_t ask_core(void) {
    int64_t answer = busplan_core(catalogue, catalogue_size, plan[0].at, plan[0].size, area[0], sizeof area[0]);
    if (answer >= 0) print_plan("core", area[0], (size_t)answer);
    return answer;
}

/* Prints the letters slot by slot. */
static int64_t ask_slots(void) {
    static uint16_t slots[BUSPLAN_MAX_SLOTS_ROOM];
    uint64_t in_use[1];
    int64_t answer = busplan_slots(catalogue, catalogue_size, plan[0].at, plan[0].size, area[0], sizeof area[0],
                                   slots, BUSPLAN_MAX_SLOTS_ROOM, in_use);
    if (answer < 0) return answer;
    print_plan("normal form", area[0], (size_t)answer);
    printf("slots in use: %u\n", (unsigned)in_use[0]);
    for (unsigned slot = 0; slot < in_use[0]; slot++) {
        printf("  slot %u:", slot);
        for (size_t i = 0; i < (size_t)answer; i++)
            if (slots[i] == slot) printf(" %d", typed_as(area[0][i]));
        putchar('\n');
    }
    return answer;
}

static int64_t precedence(const uint16_t *at, size_t size) {
    return busplan_precedence(catalogue, catalogue_size, plan[0].at, plan[0].size, at, size);
}

/* The library says yes or no of all pairs together. Which of them it is that do not stay is asked pair by pair. */
static int64_t ask_precedence(void) {
    int64_t answer = precedence(places.at, places.size);
    if (answer < 0) return answer;
    print_normal_form("normal form", &plan[0]);
    if (answer == 1) puts(places.size > 0 ? "yes, in every arrangement" : "yes, since no places are given");
    if (answer == 0) puts("no, not in every arrangement");
    for (const uint16_t *pair = places.at; answer == 0 && pair < places.at + places.size; pair += 2)
        if (precedence(pair, 2) == 0)
            printf("  %d at place %u does not stay before %d at place %u\n", typed_as(area[0][pair[0]]), pair[0],
                   typed_as(area[0][pair[1]]), pair[1]);
    return answer;
}

/* Which places a normal form has. */
static const char *places_of(int64_t length) {
    static char buffer[64];
    if (length == 0) return "is empty, and has no place";
    if (length == 1) return "has the place 0 alone";
    snprintf(buffer, sizeof buffer, "has the places 0 to %d", (int)length - 1);
    return buffer;
}

/* Says in the planner's words why the library refused the places. */
static bool explain_places(void) {
    uint64_t fault[2] = {0, 0};
    const char *rest = places.typed;
    struct word word, second;
    int64_t length = busplan_normal_form(catalogue, catalogue_size, plan[0].at, plan[0].size, area[0], sizeof area[0]);
    busplan_precedence_fault(catalogue, catalogue_size, plan[0].at, plan[0].size, places.at, places.size, fault);
    const uint16_t *pair = places.at + 2 * fault[1];
    for (uint64_t i = 0; i <= 2 * fault[1]; i++) next_word(&rest, SEPARATORS, &word);
    if (!next_word(&rest, SEPARATORS, &second))
        return complain("the places, column %zu: a place without a second one: %s", column_of(word.at), shown(word));
    if (pair[0] < length) word = second;
    if (pair[0] < length && pair[1] < length)
        return complain("the places, column %zu: the same place twice: %s", column_of(word.at), shown(word));
    return complain("the places, column %zu: the normal form %s: %s", column_of(word.at), places_of(length),
                    shown(word));
}

static int64_t ask_equal(void) {
    int64_t answer = busplan_equal(catalogue, catalogue_size, plan[0].at, plan[0].size, plan[1].at, plan[1].size);
    if (answer == 1) puts("equal");
    if (answer == 0) {
        puts("not equal; the normal forms are");
        print_normal_form("  plan 1", &plan[0]);
        print_normal_form("  plan 2", &plan[1]);
    }
    return answer;
}

static int64_t ask_loops(void) {
    int64_t answer = busplan_loops(catalogue, catalogue_size, plan[0].at, plan[0].size, plan[1].at, plan[1].size,
                                   area[0], sizeof area[0]);
    if (answer == 0) puts("apart");
    if (answer > 0) print_plan("joined, lead-in", area[0], (size_t)answer - 1);
    return answer;
}

/* No normal form holds a 0, so in areas of zeros the first 0 ends it. */
static int64_t ask_check(void) {
    memset(area, 0, sizeof area);
    int64_t answer = busplan_lead_in_check(catalogue, catalogue_size, plan[0].at, plan[0].size,
                                           plan[1].at, plan[1].size, plan[2].at, plan[2].size,
                                           area[0], sizeof area[0], area[1], sizeof area[1]);
    if (answer == 1) puts("yes, a lead-in");
    if (answer == 0) {
        puts("no, not a lead-in; the normal forms are");
        print_plan("  plan 1 then plan 3", area[0], strnlen((const char *)area[0], sizeof area[0]));
        print_plan("  plan 3 then plan 2", area[1], strnlen((const char *)area[1], sizeof area[1]));
    }
    return answer;
}

/* ---- Lines */

static bool help(const char *rest) {
    if (!ended(rest)) return false;
    fputs(help_text, stdout);
    return true;
}

static bool quit(const char *rest) {
    done = ended(rest);
    return done;
}

/* A first word, what part of the catalogue its line gives, and the function that obeys the line and is false after a
 * mistake; for a question the number of its plans, whether it takes places, and the function that asks it. */
static const struct verb {
    const char *name;
    enum part part;
    bool (*obey)(const char *rest);
    unsigned plans;
    bool places;
    int64_t (*ask)(void);
} verbs[] = {
    {"commands", COMMANDS, take_commands, 0, false, NULL},
    {"conflicts", CONFLICTS, take_conflicts, 0, false, NULL},
    {"catalogue", NEITHER, show_catalogue, 0, false, NULL},
    {"help", NEITHER, help, 0, false, NULL},
    {"quit", NEITHER, quit, 0, false, NULL},
    {"plan", NEITHER, NULL, 1, false, ask_plan},
    {"normal", NEITHER, NULL, 1, false, ask_normal},
    {"core", NEITHER, NULL, 1, false, ask_core},
    {"slots", NEITHER, NULL, 1, false, ask_slots},
    {"precedence", NEITHER, NULL, 1, true, ask_precedence},
    {"equal", NEITHER, NULL, 2, false, ask_equal},
    {"loops", NEITHER, NULL, 2, false, ask_loops},
    {"check", NEITHER, NULL, 3, false, ask_check},
};

static const struct verb *find_verb(struct word word) {
    for (size_t i = 0; i < sizeof verbs / sizeof *verbs; i++)
        if (is(word, verbs[i].name)) return &verbs[i];
    return NULL;
}

static bool obey_verb(const struct verb *verb, const char *rest) {
    if (verb->obey) return verb->obey(rest);
    if (hindrance()) return complain("not answered: %s", hindrance());
    if (!read_plans(verb->name, verb->plans, verb->places, rest)) return false;
    int64_t answer = verb->ask();
    if (answer == -BUSPLAN_PLACES) return explain_places();
    return answer >= 0 || complain("%s", busplan_refusal_text(answer));
}

/* What makes a line as a whole a mistake. */
enum damage { NONE, NUL_BYTE, INNER_CR, TOO_LONG };

static const char *told(enum damage damage) {
    static const char *const texts[] = {"", "a NUL byte", "a CR that is not at its end", "over 1,048,576 bytes"};
    return damage == TOO_LONG && terminal ? "over 4,094 bytes, and a terminal may have cut it" : texts[damage];
}

/* Reads the next line to its end, however long it is; false at the end of the input. The commands that it names go to
 * *names, also where they are not kept. A NUL byte is kept as a newline, which no word of a good line has. */
static bool read_line(enum damage *damage, uint32_t *names) {
    size_t size = 0, most = terminal ? MOST_TERMINAL_LINE : MOST_LINE;
    struct names gathered = {0, 0};
    int c;
    line_number++;
    *damage = NONE;
    while ((c = getchar()) != EOF && c != '\n') {
        gather(&gathered, c);
        if (*damage == NONE && c == '\0') *damage = NUL_BYTE;
        if (size > 0 && text[size - 1] == '\r' && c != '\r') *damage = INNER_CR;
        if (size == most) *damage = TOO_LONG;
        else text[size++] = c == '\0' ? '\n' : (char)c;
    }
    gather(&gathered, '\n');
    *names = gathered.commands;
    while (size > 0 && text[size - 1] == '\r') size--;
    text[size] = '\0';
    return !ferror(stdin) && (c != EOF || size > 0 || *damage != NONE);
}

/* Whether an unknown word may have been meant for commands: a word that is one letter away shares two of these. */
static bool like_commands(struct word word) {
    static const char *const threes[] = {"com", "omm", "mma", "man", "and", "nds"};
    unsigned shared = 0;
    for (size_t i = 0; i + 3 <= word.size; i++)
        for (size_t k = 0; k < sizeof threes / sizeof *threes; k++)
            if (strncasecmp(word.at + i, threes[k], 3) == 0) shared++;
    return shared >= 2;
}

/* Says that a first word is unknown, and which part of the catalogue its line may have been meant to give. */
static enum part guess(struct word word, enum damage damage) {
    bool counts = like_commands(word);
    if (damage == NONE)
        complain("unknown word, perhaps meant for the catalogue, so a %s: %s",
                 counts ? "commands line is awaited" : "conflicts line " AWAITED, shown(word));
    return counts ? COMMANDS : CONFLICTS;
}

/* Obeys a line. A damaged one is a mistake of the kind that its first word says, if that word is whole; behind a CR
 * there may be further lines, also in a comment. What is kept of a line that is too long may end within a number. */
static void obey_line(enum damage damage, uint32_t names) {
    const char *rest = text;
    struct word word;
    if (damage != NONE) complain("nothing of this line is taken: %s", told(damage));
    for (char *cr = text; (cr = strchr(cr, '\r')); ) *cr = ' ';
    if (damage == INNER_CR) spoil_conflicts(names, text);
    size_t end = strcspn(text, "#");
    bool cut = damage == TOO_LONG && text[end] == '\0';
    text[end] = '\0';
    if (!next_word(&rest, BLANKS, &word) && !cut) return;
    if (damage == NONE || damage == NUL_BYTE) names = named(whole(text));
    const struct verb *verb = cut && *rest == '\0' ? NULL : find_verb(word);
    const char *readable = damage == TOO_LONG ? "" : text;
    if (!verb) spoil(guess(word, damage), names, readable);
    else if (damage != NONE || !obey_verb(verb, rest)) spoil(verb->part, names, readable);
    else settle(verb->part, rest);
}

int main(int count, char **arguments) {
    enum damage damage;
    uint32_t names;
    if (count > 1) {
        fprintf(stderr, "%s reads standard input and takes no arguments: %s <FILE\n", arguments[0], arguments[0]);
        return 2;
    }
    terminal = isatty(STDIN_FILENO);
    bool prompt = terminal && isatty(STDOUT_FILENO);
    for (;;) {
        if (prompt && !done) fputs("> ", stdout);
        if (fflush(stdout) != 0 || ferror(stdout)) {
            complain("cannot write standard output");
            break;
        }
        if (done || !read_line(&damage, &names)) break;
        obey_line(damage, names);
    }
    if (ferror(stdin)) complain("cannot read standard input");
    if (prompt && !done) putchar('\n');
    return status;
}
