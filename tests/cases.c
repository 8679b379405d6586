/* The manual's cases, its edges, its slips, its texts, slots and places, and its table of refusals, as rows with the
 * answers that it gives, but for the pairs of a normal form, which no call for C tells. Every row is put to the library
 * and to the solver, or the reader of texts, with empty slices as null pointers and not, and with its catalogue as it
 * stands and, if that is of the first edition, rewritten in the second. Then what busplan.h says of the room for areas
 * and in words of each refusal. */
#include "calls.h"
#include "guarded.h"

#include <inttypes.h>
#include <stdio.h>
#include <stdlib.h>
#include <string.h>

/* What a row may say of an area: as large as stated, or one byte or number less, or how many there are. */
enum { EXACT = -1, ONE_LESS = -2 };

/* The answer of a row whose loops are joined: some lead-in, which is then checked. */
enum { JOINED = 1000000 };

struct row {
    const char *name;
    enum call call;
    struct slice catalogue, plan[3];
    int area[MOST_AREAS];
    int64_t answer;
    struct slice written[MOST_AREAS];
};

#define U(k) (128 + (k))
#define P(...) {(const uint8_t[]){__VA_ARGS__}, sizeof (const uint8_t[]){__VA_ARGS__}}
#define PAIR(a, b) {(const uint8_t *)(const uint64_t[2]){a, b}, 2 * sizeof(uint64_t)}
#define NUMBERS(...) {(const uint8_t *)(const uint16_t[]){__VA_ARGS__}, sizeof (const uint16_t[]){__VA_ARGS__}}
#define ONE_NUMBER(a) {(const uint8_t *)(const uint64_t[1]){a}, sizeof(uint64_t)}
#define NONE {NULL, 0}
#define NORMAL(name, catalogue, plan, area, answer, written) \
    {name, NORMAL_FORM, catalogue, {plan, NONE, NONE}, {area, EXACT}, answer, {written, NONE}}
#define REFUSED(name, catalogue, plan, area, refusal) \
    {name, NORMAL_FORM, catalogue, {plan, NONE, NONE}, {area, EXACT}, -(refusal), {NONE, NONE}}
#define CORE_OF(name, catalogue, plan, area, answer, written) \
    {name, CORE, catalogue, {plan, NONE, NONE}, {area, EXACT}, answer, {written, NONE}}
#define SAME(name, catalogue, v, w, answer) \
    {name, EQUAL, catalogue, {v, w, NONE}, {EXACT, EXACT}, answer, {NONE, NONE}}
#define LOOP(name, catalogue, v, w, area, answer) \
    {name, LOOPS, catalogue, {v, w, NONE}, {area, EXACT}, answer, {NONE, NONE}}
#define LEAD(name, catalogue, v, w, u, area0, area1, answer, vu, uw) \
    {name, LEAD_IN_CHECK, catalogue, {v, w, u}, {area0, area1}, answer, {vu, uw}}
#define FAULTY(name, catalogue, v, w, u, refusal, plan, place) \
    {name, FAULT, catalogue, {v, w, u}, {EXACT, EXACT}, -(refusal), {PAIR(plan, place), NONE}}
#define FAULTLESS(name, catalogue, v, w, u) \
    {name, FAULT, catalogue, {v, w, u}, {EXACT, EXACT}, 0, {NONE, NONE}}

/* The slots of a plan; a plan that is refused them; places that stay in order or not; and places, or a plan or a
 * catalogue before them, that are refused, which both calls tell. */
#define SLOTTED(name, catalogue, plan, area, slots_room, answer, written, slots, in_use) \
    {name, SLOTS, catalogue, {plan, NONE, NONE}, {area, slots_room}, answer, {written, slots, ONE_NUMBER(in_use)}}
#define NO_SLOTS(name, catalogue, plan, area, slots_room, refusal) \
    {name, SLOTS, catalogue, {plan, NONE, NONE}, {area, slots_room}, -(refusal), {NONE, NONE}}
#define PRECEDES(name, catalogue, plan, places, answer) \
    {name, PRECEDENCE, catalogue, {plan, places, NONE}, {EXACT, EXACT}, answer, {NONE, NONE}}, \
    {name, PRECEDENCE_FAULT, catalogue, {plan, places, NONE}, {EXACT, EXACT}, 0, {NONE, NONE}}
#define MISPLACED(name, catalogue, plan, places, refusal, plan_number, place) \
    {name, PRECEDENCE, catalogue, {plan, places, NONE}, {EXACT, EXACT}, -(refusal), {NONE, NONE}}, \
    {name, PRECEDENCE_FAULT, catalogue, {plan, places, NONE}, {EXACT, EXACT}, -(refusal), \
     {PAIR(plan_number, place), NONE}}

/* A text that is written out, in an area of any size or one that is refused with 9; and one in which something else is
 * wrong, which both calls tell, whatever the area. */
#define TEXT(s) {(const uint8_t *)(s), sizeof (s) - 1}
#define WRITES(name, catalogue, text, area, answer, written) \
    {name, WRITE_OUT, catalogue, {TEXT(text), NONE, NONE}, {area, EXACT}, answer, {written, NONE}}, \
    {name, TEXT_FAULT, catalogue, {TEXT(text), NONE, NONE}, {EXACT, EXACT}, 0, {NONE, NONE}}
#define WRONG(name, catalogue, text, refusal, plan, place) \
    {name, WRITE_OUT, catalogue, {TEXT(text), NONE, NONE}, {EXACT, EXACT}, -(refusal), {NONE, NONE}}, \
    {name, WRITE_OUT, catalogue, {TEXT(text), NONE, NONE}, {0, EXACT}, -(refusal), {NONE, NONE}}, \
    {name, TEXT_FAULT, catalogue, {TEXT(text), NONE, NONE}, {EXACT, EXACT}, -(refusal), {PAIR(plan, place), NONE}}

/* Conflicts 1-2, 2-3, 3-4, in the first edition and in the second. */
#define K P(4, 3, 1, 2, 3, 0, 2, 0, 3, 0, 4, 0)
#define K2 P(132, 3, 0, 1, 0, 2, 0, 3, 0, 0, 0, 2, 0, 0, 3, 0, 0, 4, 0, 0)
#define NO_COMMANDS P(0, 0)

/* Filled by fill_long: plans of fillers, plans of the letter 1, catalogues of 24 and 25 commands without conflicts, a
 * catalogue of 24 commands that all conflict, one of two commands whose first chain goes through 255 records, rings of
 * 130 letters: 2 but for one 1, at the end or in the middle, or one -1 at the end; 1,023 fillers with a 1 at the end;
 * each of 24 commands in turn, over and over; the numbers 0, 1, 2 and so on; as many zeros; and the places 0 1 0 1 and
 * so on, of which there are more pairs than 16 bits count. */
enum { LONG_LIST = 140000 };
static uint8_t fillers[MOST_LEAD_IN + 1], ones[MOST_LEAD_IN + 1], twenty_four[26], twenty_five[27], long_chain[514];
static uint8_t one_late[130], one_amid[130], undo_late[130], late_one[MOST_PLAN], dense[72], in_turn[MOST_PLAN];
static uint16_t counting[MOST_PLAN], zeros[MOST_PLAN], zero_one[LONG_LIST];

/* Filled by fill_editions: 127 commands in the first edition; and, in the second, 25 and 127 commands; 1,025 records,
 * with all else wrong too, of one command and of 25; all pairs of 24 commands, a record for each; two commands of which
 * the first has its chain begin at record 256 of 256; three of which the first has a chain through 1,024 records, with
 * 3 at its end; and the same but for the last record, which leads back to the first or has command 1. */
static uint8_t narrow_127[2 + 127], wide_25[3 + 2 * 25], wide_127[3 + 2 * 127], records_1025[3 + 2 + 3 * 1025];
static uint8_t commands_and_records[3 + 2 * 25 + 3 * 1025], all_pairs[3 + 2 * 24 + 3 * 276];
static uint8_t record_256[3 + 2 * 2 + 3 * 256], longest_chain[3 + 2 * 3 + 3 * 1024];
static uint8_t longest_endless[sizeof longest_chain], longest_own[sizeof longest_chain];
#define FILLERS(n) {fillers, n}
#define ONES(n) {ones, n}
#define TWENTY_FOUR {twenty_four, sizeof twenty_four}
#define TWENTY_FIVE {twenty_five, sizeof twenty_five}
#define LONG_CHAIN {long_chain, sizeof long_chain}
#define ONE_LATE {one_late, sizeof one_late}
#define ONE_AMID {one_amid, sizeof one_amid}
#define UNDO_LATE {undo_late, sizeof undo_late}
#define LATE_ONE {late_one, sizeof late_one}
#define DENSE {dense, sizeof dense}
#define IN_TURN(n) {in_turn, n}
#define WHOLE(array) {array, sizeof array}
#define CUT(array) {array, sizeof array - 1}
#define COUNTING(n) {(const uint8_t *)counting, (n) * sizeof(uint16_t)}
#define ZEROS(n) {(const uint8_t *)zeros, (n) * sizeof(uint16_t)}
#define ZERO_ONE(n) {(const uint8_t *)zero_one, (n) * sizeof(uint16_t)}

static void fill_long(void) {
    memset(ones, 1, sizeof ones);
    memset(one_late, 2, sizeof one_late);
    memset(one_amid, 2, sizeof one_amid);
    memset(undo_late, 2, sizeof undo_late);
    one_late[129] = 1;
    one_amid[64] = 1;
    undo_late[129] = U(1);
    late_one[MOST_PLAN - 1] = 1;
    twenty_four[0] = 24;
    twenty_five[0] = 25;
    long_chain[0] = 2;
    long_chain[1] = 255;
    long_chain[2] = 1;
    dense[0] = 24;
    dense[1] = 23;
    for (unsigned r = 1; r <= 23; r++) {
        dense[1 + r] = (uint8_t)r;
        dense[24 + 2 * r] = (uint8_t)(r + 1);
        dense[24 + 2 * r + 1] = r < 23 ? (uint8_t)(r + 1) : 0;
    }
    for (unsigned i = 0; i < MOST_PLAN; i++) {
        in_turn[i] = (uint8_t)(1 + i % 24);
        counting[i] = (uint16_t)i;
    }
    for (unsigned i = 0; i < LONG_LIST; i++) zero_one[i] = i % 2;
    for (unsigned r = 1; r <= 255; r++) {
        long_chain[2 + 2 * r] = 2;
        long_chain[2 + 2 * r + 1] = r < 255 ? (uint8_t)(r + 1) : 0;
    }
}

/* N, R, and a record of the second edition. */
static void set_counts(uint8_t *to, unsigned commands, unsigned records) {
    to[0] = (uint8_t)(128 + commands);
    to[1] = (uint8_t)records;
    to[2] = (uint8_t)(records >> 8);
}

static void set_record(uint8_t *to, unsigned record, unsigned command, unsigned next) {
    uint8_t *at = to + 2 * (to[0] - 128) + 3 * record;
    at[0] = (uint8_t)command;
    at[1] = (uint8_t)next;
    at[2] = (uint8_t)(next >> 8);
}

/* The chain of each command has the larger ones. */
static void fill_all_pairs(void) {
    unsigned record = 0;
    set_counts(all_pairs, 24, 276);
    for (unsigned a = 1; a < 24; a++) {
        all_pairs[1 + 2 * a] = (uint8_t)(record + 1);
        all_pairs[2 + 2 * a] = (uint8_t)((record + 1) >> 8);
        for (unsigned b = a + 1; b <= 24; b++) {
            record++;
            set_record(all_pairs, record, b, b < 24 ? record + 1 : 0);
        }
    }
}

static void fill_editions(void) {
    narrow_127[0] = 127;
    set_counts(wide_25, 25, 0);
    set_counts(wide_127, 127, 0);
    memset(records_1025, 255, sizeof records_1025);
    set_counts(records_1025, 1, 1025);
    set_counts(commands_and_records, 25, 1025);
    fill_all_pairs();
    set_counts(record_256, 2, 256);
    record_256[4] = 1;
    for (unsigned r = 1; r <= 256; r++) set_record(record_256, r, 2, 0);
    set_counts(longest_chain, 3, 1024);
    longest_chain[3] = 1;
    for (unsigned r = 1; r < 1024; r++) set_record(longest_chain, r, 2, r + 1);
    set_record(longest_chain, 1024, 3, 0);
    memcpy(longest_endless, longest_chain, sizeof longest_chain);
    memcpy(longest_own, longest_chain, sizeof longest_chain);
    set_record(longest_endless, 1024, 2, 1);
    set_record(longest_own, 1024, 1, 0);
}

static const struct row rows[] = {
    /* Bench cases */
    NORMAL("case 1", K, NONE, EXACT, 0, NONE),
    NORMAL("case 2", K, P(1, U(1)), EXACT, 0, NONE),
    NORMAL("case 3", K, P(1, 3, U(1)), EXACT, 1, P(3)),
    NORMAL("case 4", K, P(1, 2, U(1)), EXACT, 3, P(1, 2, U(1))),
    CORE_OF("case 4: the core", K, P(1, 2, U(1)), EXACT, 1, P(2)),
    LOOP("case 4 and its core", K, P(1, 2, U(1)), P(2), EXACT, JOINED),
    NORMAL("case 5", K, P(3, 1), EXACT, 2, P(1, 3)),
    NORMAL("case 6", K, P(4, 2, 1), EXACT, 3, P(2, 1, 4)),
    NORMAL("case 7", K, P(2, 4, 3, 1, U(3)), EXACT, 3, P(2, 1, 4)),
    SAME("case 7 and case 6", K, P(2, 4, 3, 1, U(3)), P(4, 2, 1), 1),
    REFUSED("case 8: room for 2", K, P(0, 1, 0), 2, 9),
    NORMAL("case 8: room for 3", K, P(0, 1, 0), 3, 1, P(1)),
    LOOP("case 9", K, P(1, 2), P(2, 1), EXACT, JOINED),
    LEAD("case 9: lead-in 1", K, P(1, 2), P(2, 1), P(1), EXACT, EXACT, 1, P(1, 2, 1), P(1, 2, 1)),
    LEAD("case 9: 2 is no lead-in", K, P(1, 2), P(2, 1), P(2), EXACT, EXACT, 0, P(1, 2, 2), P(2, 2, 1)),
    LEAD("case 9: lead-in -2", K, P(1, 2), P(2, 1), P(U(2)), EXACT, EXACT, 1, P(1), P(1)),
    LOOP("case 10", K, P(1), P(U(1)), EXACT, 0),
    LOOP("case 11", K, P(1, 2, 1, U(2)), P(1, 1), EXACT, 0),
    LOOP("case 12", K, P(2, 1, 3), P(1, 3, 2), EXACT, JOINED),
    LEAD("case 12: lead-in 2", K, P(2, 1, 3), P(1, 3, 2), P(2), EXACT, EXACT, 1, P(2, 1, 3, 2), P(2, 1, 3, 2)),
    LOOP("case 13", K, P(1, 1, 4), P(1, 4, 4), EXACT, 0),
    LOOP("case 14", NO_COMMANDS, NONE, NONE, 0, JOINED),
    LEAD("case 14: the empty lead-in", NO_COMMANDS, NONE, NONE, NONE, 0, 0, 1, NONE, NONE),

    /* Edges: the number of commands, plan sizes, bytes, areas */
    NORMAL("24 commands", TWENTY_FOUR, P(24, 1, U(24), U(1), 24), EXACT, 1, P(24)),
    REFUSED("25 commands in the right size", TWENTY_FIVE, NONE, EXACT, 2),
    REFUSED("25 commands in a wrong size", P(25, 0), NONE, EXACT, 1),
    NORMAL("1,024 letters", K, ONES(1024), EXACT, 1024, ONES(1024)),
    NORMAL("1,024 fillers", K, FILLERS(1024), EXACT, 0, NONE),
    REFUSED("1,025 letters", K, ONES(1025), EXACT, 7),
    REFUSED("1,025 fillers", K, FILLERS(1025), EXACT, 7),
    NORMAL("byte 4", K, P(4), EXACT, 1, P(4)),
    NORMAL("byte 132", K, P(132), EXACT, 1, P(132)),
    REFUSED("byte 5", K, P(5), EXACT, 8),
    REFUSED("byte 128", K, P(128), EXACT, 8),
    REFUSED("byte 133", K, P(133), EXACT, 8),
    REFUSED("byte 255", K, P(1, 2, 255), EXACT, 8),
    REFUSED("byte 128 with 24 commands", TWENTY_FOUR, P(128), EXACT, 8),
    NORMAL("byte 0 with no commands", NO_COMMANDS, P(0, 0), EXACT, 0, NONE),
    REFUSED("byte 1 with no commands", NO_COMMANDS, P(1), EXACT, 8),
    REFUSED("byte 129 with no commands", NO_COMMANDS, P(129), EXACT, 8),
    REFUSED("an area of one byte less", K, P(1, U(1)), ONE_LESS, 9),
    REFUSED("no area", K, P(0), 0, 9),
    NORMAL("fillers between", K, P(0, 1, 3, 0, U(1)), EXACT, 1, P(3)),
    LOOP("loops in an area of one byte less", K, P(1, 2), P(2, 1), ONE_LESS, -9),
    LOOP("apart in an area of one byte less", K, P(1), P(2), ONE_LESS, -9),
    LOOP("fillers need room too", K, P(0, 1), P(1, 0), 15, -9),
    LOOP("fillers with room", K, P(0, 1), P(1, 0), 16, JOINED),
    LOOP("two long loops", TWENTY_FOUR, ONES(1024), ONES(1024), EXACT, JOINED),
    LOOP("two empty loops", K, NONE, NONE, 0, JOINED),
    LOOP("an empty loop and a loop", K, NONE, P(1), EXACT, 0),
    LOOP("two loops of one core", K, P(1, 2, U(1)), P(3, 2, U(3)), EXACT, JOINED),
    LOOP("a ring of 130 letters, turned", K, ONE_LATE, ONE_AMID, EXACT, JOINED),
    LOOP("a ring of 130 letters, its last one undone", K, ONE_LATE, UNDO_LATE, EXACT, 0),

    /* Catalogues */
    REFUSED("no catalogue", NONE, NONE, EXACT, 1),
    REFUSED("a catalogue of one byte", P(0), NONE, EXACT, 1),
    REFUSED("a byte less", P(4, 3, 1, 2, 3, 0, 2, 0, 3, 0, 4), NONE, EXACT, 1),
    REFUSED("a byte more", P(4, 3, 1, 2, 3, 0, 2, 0, 3, 0, 4, 0, 0), NONE, EXACT, 1),
    REFUSED("a head above R", P(1, 0, 1), NONE, EXACT, 3),
    REFUSED("a next index above R, and a command 0", P(2, 1, 0, 0, 0, 2), NONE, EXACT, 3),
    REFUSED("a record of no command", P(0, 1, 0, 0), NONE, EXACT, 4),
    REFUSED("a record of command 0", P(2, 1, 1, 0, 0, 0), NONE, EXACT, 4),
    REFUSED("a record of command N + 1", P(2, 1, 1, 0, 3, 0), NONE, EXACT, 4),
    REFUSED("an unreached record of command N + 1", P(2, 1, 0, 0, 3, 0), NONE, EXACT, 4),
    REFUSED("an unreached record with next above R", P(2, 1, 0, 0, 1, 2), NONE, EXACT, 3),
    REFUSED("a record whose next is itself", P(2, 1, 0, 1, 1, 1), NONE, EXACT, 5),
    REFUSED("two records round and round", P(2, 2, 1, 0, 2, 2, 2, 1), NONE, EXACT, 5),
    REFUSED("5 of command 2 before 6 of command 1", P(2, 2, 1, 2, 1, 0, 1, 2), NONE, EXACT, 5),
    REFUSED("a command in its own chain", P(2, 1, 1, 0, 1, 0), NONE, EXACT, 6),
    REFUSED("a command at the end of its own chain", P(2, 2, 1, 0, 2, 2, 1, 0), NONE, EXACT, 6),
    NORMAL("an unreached record whose next is itself", P(2, 1, 0, 0, 1, 1), P(2, 1), EXACT, 2, P(1, 2)),
    NORMAL("chains that share a tail", P(3, 2, 1, 2, 0, 2, 2, 3, 0), P(3, 2, 1, U(3)), EXACT, 4, P(3, 2, 1, U(3))),
    NORMAL("a pair named twice", P(2, 2, 1, 2, 2, 0, 1, 0), P(2, 1), EXACT, 2, P(2, 1)),
    NORMAL("a pair named by the larger command", P(2, 1, 0, 1, 1, 0), P(2, 1), EXACT, 2, P(2, 1)),
    NORMAL("a chain of 255 records", LONG_CHAIN, P(2, 1), EXACT, 2, P(2, 1)),

    /* Catalogues of the second edition */
    NORMAL("K in the second edition", K2, P(2, 4, 3, 1, U(3)), EXACT, 3, P(2, 1, 4)),
    LOOP("K in the second edition: loops", K2, P(1, 2), P(2, 1), EXACT, JOINED),
    LOOP("K in the second edition: an area of one byte less", K2, P(1, 2), P(2, 1), 15, -9),
    REFUSED("K in the second edition: byte 5", K2, P(5), EXACT, 8),
    REFUSED("K in the second edition: byte 133", K2, P(133), EXACT, 8),
    NORMAL("no commands in the second edition", P(128, 0, 0), P(0, 0), EXACT, 0, NONE),
    LOOP("two empty loops in the second edition", P(128, 0, 0), NONE, NONE, 0, JOINED),
    REFUSED("no commands in the second edition: byte 1", P(128, 0, 0), P(1), EXACT, 8),
    FAULTY("128 alone", P(128), NONE, NONE, NONE, 1, 0, 0),
    FAULTY("128 and a byte", P(128, 0), NONE, NONE, NONE, 1, 0, 0),
    FAULTY("a byte more in the second edition", P(128, 0, 0, 0), NONE, NONE, NONE, 1, 0, 0),
    FAULTY("heads of one byte", P(130, 0, 0, 0, 0), NONE, NONE, NONE, 1, 0, 0),
    FAULTY("records of two bytes", P(130, 1, 0, 1, 0, 0, 0, 2, 0), NONE, NONE, NONE, 1, 0, 0),
    FAULTY("R with its high byte first", P(130, 0, 1, 1, 0, 0, 0, 2, 0, 0), NONE, NONE, NONE, 1, 0, 0),
    FAULTY("127 commands in the first edition", WHOLE(narrow_127), NONE, NONE, NONE, 2, 0, 0),
    FAULTY("25 commands in the second edition", WHOLE(wide_25), ONES(1025), P(5), P(5), 2, 0, 0),
    FAULTY("25 commands in the second edition and a byte less", CUT(wide_25), NONE, NONE, NONE, 1, 0, 0),
    FAULTY("127 commands in the second edition", WHOLE(wide_127), NONE, NONE, NONE, 2, 0, 0),
    FAULTY("1,025 records", WHOLE(records_1025), ONES(1025), P(5), P(5), 17, 0, 1),
    FAULTY("1,025 records and a byte less", CUT(records_1025), NONE, NONE, NONE, 1, 0, 0),
    FAULTY("1,025 records of 25 commands", WHOLE(commands_and_records), NONE, NONE, NONE, 2, 0, 0),
    FAULTY("65,535 records in a wrong size", P(128, 255, 255), NONE, NONE, NONE, 1, 0, 0),
    FAULTY("a head of 256, R = 1", P(129, 1, 0, 0, 1, 1, 0, 0), NONE, NONE, NONE, 3, 0, 3),
    FAULTY("a head of R + 1", P(129, 1, 0, 2, 0, 1, 0, 0), NONE, NONE, NONE, 3, 0, 3),
    FAULTY("the second head of 257, R = 1", P(130, 1, 0, 1, 0, 1, 1, 2, 0, 0), NONE, NONE, NONE, 3, 0, 5),
    FAULTY("a next index of 256 before a command", P(130, 1, 0, 1, 0, 0, 0, 0, 0, 1), NONE, NONE, NONE, 3, 0, 8),
    FAULTY("the next index of record 2 in the second edition", P(130, 2, 0, 1, 0, 0, 0, 2, 0, 0, 2, 3, 0), NONE, NONE,
           NONE, 3, 0, 11),
    FAULTY("a record of command 0 in the second edition", P(130, 1, 0, 1, 0, 0, 0, 0, 0, 0), NONE, NONE, NONE, 4, 0, 7),
    FAULTY("record 2 of command 130", P(130, 2, 0, 1, 0, 0, 0, 2, 0, 0, 130, 0, 0), NONE, NONE, NONE, 4, 0, 10),
    FAULTY("a record with no commands in the second edition", P(128, 1, 0, 1, 0, 0), NONE, NONE, NONE, 4, 0, 3),
    FAULTY("5 of command 2 in the second edition", P(130, 1, 0, 0, 0, 1, 0, 1, 1, 0), NONE, NONE, NONE, 5, 0, 5),
    FAULTY("6 of command 2 in the second edition", P(130, 1, 0, 0, 0, 1, 0, 2, 0, 0), NONE, NONE, NONE, 6, 0, 5),
    NORMAL("an unreached record in the second edition", P(130, 1, 0, 0, 0, 0, 0, 1, 1, 0), P(2, 1), EXACT, 2, P(1, 2)),
    NORMAL("a chain that begins at record 256", WHOLE(record_256), P(2, 1), EXACT, 2, P(2, 1)),
    NORMAL("a chain of 1,024 records", WHOLE(longest_chain), P(3, 2, 1), EXACT, 3, P(2, 3, 1)),
    SAME("the last record of a chain of 1,024", WHOLE(longest_chain), P(3, 1), P(1, 3), 0),
    FAULTLESS("a chain of 1,024 records", WHOLE(longest_chain), P(1), P(2), NONE),
    FAULTY("a chain of 1,024 records that doesn't end", WHOLE(longest_endless), NONE, NONE, NONE, 5, 0, 3),
    FAULTY("command 1 at the end of its chain of 1,024 records", WHOLE(longest_own), NONE, NONE, NONE, 6, 0, 3),
    SLOTTED("all 276 pairs, a record for each", WHOLE(all_pairs), IN_TURN(1024), EXACT, EXACT, 1024, IN_TURN(1024),
            COUNTING(1024), 1024),
    SAME("all 276 pairs: the last two commands", WHOLE(all_pairs), P(23, 24), P(24, 23), 0),
    REFUSED("1,025 records before a plan", WHOLE(records_1025), P(5), EXACT, 17),
    CORE_OF("1,025 records before a core", WHOLE(records_1025), P(5), 0, -17, NONE),
    SAME("1,025 records before two plans", WHOLE(records_1025), P(5), ONES(1025), -17),
    LOOP("1,025 records before two loops", WHOLE(records_1025), P(5), ONES(1025), 0, -17),
    LEAD("1,025 records before a lead-in", WHOLE(records_1025), P(5), P(5), ONES(49153), 0, 0, -17, NONE, NONE),
    NO_SLOTS("1,025 records before slots", WHOLE(records_1025), P(5), 0, 0, 17),
    MISPLACED("1,025 records before the places", WHOLE(records_1025), P(5), NUMBERS(0), 17, 0, 1),
    WRONG("1,025 records before the text", WHOLE(records_1025), "x", 17, 0, 1),
    WRITES("a text under K in the second edition", K2, "4 -(1)2", 3, 3, P(4, U(1), U(1))),
    WRONG("command 5 of 4 in the second edition", K2, "5", 8, 1, 0),

    /* Cores */
    CORE_OF("the core of an empty plan", K, NONE, EXACT, 0, NONE),
    CORE_OF("the core of a plan without effect", K, P(1, 2, U(2), U(1)), EXACT, 0, NONE),
    CORE_OF("the core of fillers", NO_COMMANDS, FILLERS(1024), EXACT, 0, NONE),
    CORE_OF("a core in normal form", K, P(4, 2, 1), EXACT, 3, P(2, 1, 4)),
    CORE_OF("a core is not turned", K, P(2, 1), EXACT, 2, P(2, 1)),
    CORE_OF("a pair off before it is shortest would leave 1, 2", K, P(U(1), 1, 2, 1), EXACT, 2, P(2, 1)),
    CORE_OF("pairs off one behind the other", K, P(1, 2, 3, U(2), U(1)), EXACT, 1, P(3)),
    CORE_OF("two letters alike are no pair", K, P(1, 2, 1), EXACT, 3, P(1, 2, 1)),
    CORE_OF("one letter is no pair", K, P(1, 3), EXACT, 2, P(1, 3)),
    CORE_OF("a pair with a letter on either side that does not conflict", K, P(4, 1, 2, U(1), 4), EXACT, 3, P(2, 4, 4)),
    CORE_OF("1,024 letters that are a core", K, ONES(1024), EXACT, 1024, ONES(1024)),
    CORE_OF("a core with room to spare", K, P(1, 2, U(1)), 40, 1, P(2)),
    CORE_OF("a core with room for it alone", K, P(1, 2, U(1)), 1, -9, NONE),
    CORE_OF("a core in an area of one byte less", K, P(0, 1), ONE_LESS, -9, NONE),
    CORE_OF("the core of 1,025 letters", K, ONES(1025), EXACT, -7, NONE),
    CORE_OF("the core of a byte 5", K, P(1, 5), EXACT, -8, NONE),
    CORE_OF("the core under a catalogue of one byte", P(0), P(1), EXACT, -1, NONE),

    /* Faults of catalogues */
    FAULTY("no catalogue", NONE, NONE, NONE, NONE, 1, 0, 0),
    FAULTY("a catalogue of one byte", P(24), NONE, NONE, NONE, 1, 0, 0),
    FAULTY("a byte more", P(0, 0, 0), NONE, NONE, NONE, 1, 0, 0),
    FAULTY("25 commands in a wrong size", P(25, 0), ONES(1025), P(5), P(5), 1, 0, 0),
    FAULTY("25 commands in the right size", TWENTY_FIVE, NONE, NONE, NONE, 2, 0, 0),
    FAULTY("a head without records", P(1, 0, 1), NONE, NONE, NONE, 3, 0, 2),
    FAULTY("the second head", P(3, 1, 1, 2, 3, 2, 2), NONE, NONE, NONE, 3, 0, 3),
    FAULTY("a next index before a command", P(2, 1, 0, 0, 0, 2), NONE, NONE, NONE, 3, 0, 5),
    FAULTY("the next index of record 2", P(2, 2, 1, 0, 2, 0, 0, 3), NONE, NONE, NONE, 3, 0, 7),
    FAULTY("a record of command 0", P(2, 1, 1, 0, 0, 0), NONE, NONE, NONE, 4, 0, 4),
    FAULTY("an unreached record of command N + 1", P(2, 1, 0, 0, 3, 0), NONE, NONE, NONE, 4, 0, 4),
    FAULTY("record 2 of command N + 1", P(2, 2, 1, 0, 2, 0, 3, 0), NONE, NONE, NONE, 4, 0, 6),
    FAULTY("a record with no commands", P(0, 1, 1, 0), NONE, NONE, NONE, 4, 0, 2),
    FAULTY("a record whose next is itself", P(2, 1, 0, 1, 1, 1), NONE, NONE, NONE, 5, 0, 3),
    FAULTY("5 of command 2 before 6 of command 1", P(2, 2, 1, 2, 1, 0, 1, 2), NONE, NONE, NONE, 5, 0, 3),
    FAULTY("two chains that don't end", P(2, 1, 1, 1, 1, 1), NONE, NONE, NONE, 5, 0, 2),
    FAULTY("a command in its own chain", P(2, 1, 1, 0, 1, 0), NONE, NONE, NONE, 6, 0, 2),
    FAULTY("command 2 in its own chain", P(2, 1, 0, 1, 2, 0), NONE, NONE, NONE, 6, 0, 3),
    FAULTY("command 2 at the end of its own chain", P(2, 2, 0, 1, 1, 2, 2, 0), P(5), NONE, NONE, 6, 0, 3),

    /* Faults of plans */
    FAULTY("a byte of plan 1", K, P(5), NONE, NONE, 8, 1, 0),
    FAULTY("byte 128 of plan 1", K, P(1, 128), NONE, NONE, 8, 1, 1),
    FAULTY("the size of plan 1", K, ONES(1025), P(5), P(5), 7, 1, 0),
    FAULTY("plan 1's 8 before plan 2's 7", K, P(1, 0, 5), ONES(1025), NONE, 8, 1, 2),
    FAULTY("the size of plan 1 before its bytes", NO_COMMANDS, ONES(1025), NONE, NONE, 7, 1, 0),
    FAULTY("the last byte of 1,024", NO_COMMANDS, LATE_ONE, NONE, NONE, 8, 1, 1023),
    FAULTY("the size of plan 2", K, ONES(1024), ONES(1025), P(5), 7, 2, 0),
    FAULTY("a byte of plan 2", K, NONE, P(1, 5), NONE, 8, 2, 1),
    FAULTY("the first of two bytes of plan 2", K, P(1), P(4, 128, 133), ONES(49153), 8, 2, 1),
    FAULTY("49,153 bytes of plan 3", K, NONE, NONE, ONES(49153), 7, 3, 0),
    FAULTY("a byte of plan 3", K, P(1), P(2), P(132, 133), 8, 3, 1),
    FAULTY("a byte of plan 3 alone", NO_COMMANDS, NONE, NONE, P(0, 0, 0, 129), 8, 3, 3),
    FAULTLESS("no commands and no plans", NO_COMMANDS, NONE, NONE, NONE),
    FAULTLESS("1,025 bytes of plan 3", K, P(4, 132), FILLERS(1024), ONES(1025)),
    FAULTLESS("49,152 bytes of plan 3", K, ONES(1024), ONES(1024), ONES(49152)),
    FAULTLESS("an unreached record whose next is itself", P(2, 1, 0, 0, 1, 1), P(2), P(129), P(130)),
    FAULTLESS("chains that share a tail", P(3, 2, 1, 2, 0, 2, 2, 3, 0), NONE, NONE, P(3)),
    FAULTLESS("24 commands", TWENTY_FOUR, P(24), P(152), P(24)),
    FAULTLESS("a chain of 255 records", LONG_CHAIN, P(1), P(2), NONE),

    /* Slots */
    SLOTTED("no letters", K, NONE, 0, 0, 0, NONE, NONE, 0),
    SLOTTED("no commands", NO_COMMANDS, FILLERS(3), EXACT, EXACT, 0, NONE, NONE, 0),
    SLOTTED("two and two", K, P(1, 3, 2, 4), EXACT, EXACT, 4, P(1, 3, 2, 4), NUMBERS(0, 0, 1, 1), 2),
    SLOTTED("letters of one command", K, P(1, 1, 1), EXACT, EXACT, 3, P(1, 1, 1), NUMBERS(0, 1, 2), 3),
    SLOTTED("24 independent commands", TWENTY_FOUR, IN_TURN(24), EXACT, EXACT, 24, IN_TURN(24), ZEROS(24), 1),
    SLOTTED("24 commands that conflict", DENSE, IN_TURN(24), EXACT, EXACT, 24, IN_TURN(24), COUNTING(24), 24),
    SLOTTED("1,024 letters that conflict", DENSE, IN_TURN(1024), EXACT, EXACT, 1024, IN_TURN(1024), COUNTING(1024),
            1024),
    SLOTTED("1,024 letters of one command", K, ONES(1024), EXACT, EXACT, 1024, ONES(1024), COUNTING(1024), 1024),
    SLOTTED("slots are not in the order of the letters", K, P(1, 2, 3, 1, 4), EXACT, EXACT, 5, P(1, 2, 1, 3, 4),
            NUMBERS(0, 1, 2, 2, 3), 4),
    SLOTTED("a late letter in an early slot", K, P(1, 2, 1, 4), EXACT, EXACT, 4, P(1, 2, 1, 4), NUMBERS(0, 1, 2, 0), 3),
    SLOTTED("one more than the largest slot", K, P(2, 2, 4, 3), EXACT, EXACT, 4, P(2, 2, 4, 3), NUMBERS(0, 1, 0, 2), 3),
    SLOTTED("an undo conflicts with its command", K, P(1, 2, U(1)), EXACT, EXACT, 3, P(1, 2, U(1)), NUMBERS(0, 1, 2),
            3),
    SLOTTED("what has cancelled has no slot", K, P(0, 2, 4, 3, 1, U(3)), EXACT, EXACT, 3, P(2, 1, 4),
            NUMBERS(0, 1, 0), 2),
    SLOTTED("all has cancelled", K, P(1, 2, U(2), U(1)), EXACT, EXACT, 0, NONE, NONE, 0),
    SLOTTED("slots with room to spare", K, P(3, 1), 20, 30, 2, P(1, 3), NUMBERS(0, 0), 1),
    NO_SLOTS("an area of one byte less", K, P(0, 1), ONE_LESS, EXACT, 9),
    NO_SLOTS("slots of one number less", K, P(0, 1), EXACT, ONE_LESS, 9),
    NO_SLOTS("room for the normal form alone", K, P(1, U(1)), 0, 0, 9),
    NO_SLOTS("as many bytes as numbers are needed", K, P(1, 2, 3, 4), EXACT, 2, 9),
    NO_SLOTS("a byte before the areas", K, P(5), 0, 0, 8),
    NO_SLOTS("1,025 letters before the areas", K, ONES(1025), 0, 0, 7),
    NO_SLOTS("25 commands before the plan", TWENTY_FIVE, P(5), 0, 0, 2),
    NO_SLOTS("an endless chain before the plan", P(2, 1, 0, 1, 1, 1), P(5), EXACT, EXACT, 5),

    /* Places that stay in order */
    PRECEDES("no places", K, P(1, 2, 3), NONE, 1),
    PRECEDES("no places of no letters", NO_COMMANDS, NONE, NONE, 1),
    PRECEDES("two that conflict", K, P(1, 2), NUMBERS(0, 1), 1),
    PRECEDES("the later one first", K, P(1, 2), NUMBERS(1, 0), 0),
    PRECEDES("1 before 3 through 2", K, P(1, 2, 3), NUMBERS(0, 2), 1),
    PRECEDES("1 before 4 through 2 and 3", K, P(1, 2, 3, 4), NUMBERS(0, 3), 1),
    PRECEDES("no conflict", TWENTY_FOUR, P(1, 2, 3), NUMBERS(0, 2), 0),
    PRECEDES("2 between 1 and 4, and no chain", K, P(1, 2, 4), NUMBERS(0, 2), 0),
    PRECEDES("a chain must go forwards", K, P(1, 3, 2), NUMBERS(0, 1), 0),
    PRECEDES("letters of one command", K, P(1, 3, 1), NUMBERS(0, 1), 1),
    PRECEDES("letters of one command, the later one first", K, P(1, 1), NUMBERS(1, 0), 0),
    PRECEDES("a letter of one command as link", K, P(1, 1, 2), NUMBERS(0, 2), 1),
    PRECEDES("a command and its undo", K, P(1, 2, U(1)), NUMBERS(0, 2), 1),
    PRECEDES("places of the normal form", K, P(2, 4, 3, 1, U(3)), NUMBERS(0, 1), 1),
    PRECEDES("places of the normal form that swap", K, P(2, 4, 3, 1, U(3)), NUMBERS(0, 2), 0),
    PRECEDES("two pairs", K, P(1, 2, 3), NUMBERS(0, 2, 1, 2), 1),
    PRECEDES("the first of two pairs does not", K, P(1, 3, 2), NUMBERS(0, 1, 0, 2), 0),
    PRECEDES("the second of two pairs does not", K, P(1, 3, 2), NUMBERS(0, 2, 0, 1), 0),
    PRECEDES("1,024 letters", DENSE, IN_TURN(1024), NUMBERS(0, 1023, 1022, 1023), 1),
    PRECEDES("1,024 letters that swap", TWENTY_FOUR, IN_TURN(1024), NUMBERS(0, 1000), 0),
    PRECEDES("70,000 pairs", K, P(1, 2), ZERO_ONE(LONG_LIST), 1),

    /* Places that are refused */
    MISPLACED("the same place twice", K, P(1, 2), NUMBERS(0, 0), 16, 0, 0),
    MISPLACED("the same place twice, of other letters", K, P(1, 2, 3), NUMBERS(0, 1, 2, 2), 16, 0, 1),
    MISPLACED("one place", K, P(1, 2), NUMBERS(0), 16, 0, 0),
    MISPLACED("three places", K, P(1, 2), NUMBERS(0, 1, 0), 16, 0, 1),
    MISPLACED("three places, also where a pair does not stay", K, P(1, 3), NUMBERS(0, 1, 0), 16, 0, 1),
    MISPLACED("all pairs before a no", K, P(1, 2), NUMBERS(1, 0, 1, 0, 1, 1), 16, 0, 2),
    MISPLACED("place L", K, P(1, 2, 3), NUMBERS(0, 3), 16, 0, 0),
    MISPLACED("place L first", K, P(1, 2, 3), NUMBERS(3, 0), 16, 0, 0),
    MISPLACED("place L of the normal form", K, P(1, 3, U(1), 4), NUMBERS(0, 1, 0, 2), 16, 0, 1),
    MISPLACED("a place of no letters", K, P(1, U(1)), NUMBERS(0, 1), 16, 0, 0),
    MISPLACED("place 65,535", K, ONES(1024), NUMBERS(0, 1023, 0, 65535), 16, 0, 1),
    MISPLACED("place 256 of 2", K, P(1, 2), NUMBERS(0, 256), 16, 0, 0),
    MISPLACED("place 1,024 of 1,024", K, ONES(1024), NUMBERS(0, 1024), 16, 0, 0),
    MISPLACED("the first of two", K, P(1, 2), NUMBERS(0, 1, 1, 1, 0, 2), 16, 0, 1),
    MISPLACED("the last of 70,000 pairs", K, P(1, 2), ZERO_ONE(LONG_LIST - 1), 16, 0, LONG_LIST / 2 - 1),
    MISPLACED("a byte before the places", K, P(1, 5), NUMBERS(0), 8, 1, 1),
    MISPLACED("1,025 letters before the places", K, ONES(1025), NUMBERS(0), 7, 1, 0),
    MISPLACED("a catalogue of one byte before the places", P(0), P(5), NUMBERS(0, 0), 1, 0, 0),
    MISPLACED("25 commands before the places", TWENTY_FIVE, P(1), NUMBERS(0, 0), 2, 0, 0),
    MISPLACED("an index before the places", P(1, 0, 1), P(1), NUMBERS(0, 0), 3, 0, 2),
    MISPLACED("a record before the places", P(2, 1, 1, 0, 0, 0), P(1), NUMBERS(0, 0), 4, 0, 4),
    MISPLACED("an endless chain before the places", P(2, 1, 0, 1, 1, 1), P(1), NUMBERS(0, 0), 5, 0, 3),
    MISPLACED("a command in its own chain before the places", P(2, 1, 0, 1, 2, 0), P(1), NUMBERS(0, 0), 6, 0, 3),

    /* Texts, under 24 commands where nothing else is said */
    WRITES("an empty text", TWENTY_FOUR, "", 0, 0, NONE),
    WRITES("an empty text under no commands", NO_COMMANDS, "", 0, 0, NONE),
    WRITES("empty brackets", TWENTY_FOUR, "()", 0, 0, NONE),
    WRITES("a blank in brackets", TWENTY_FOUR, "( )", 0, 0, NONE),
    WRITES("blanks", TWENTY_FOUR, "   ", EXACT, 0, NONE),
    WRITES("the count 0", TWENTY_FOUR, "(1)0", EXACT, 0, NONE),
    WRITES("a minus before the count 0", TWENTY_FOUR, "-(1)0", EXACT, 0, NONE),
    WRITES("65,025 bytes, 0 times", TWENTY_FOUR, "(((1)255)255)0", EXACT, 0, NONE),
    WRITES("the count 0 in an area of 0", TWENTY_FOUR, "(1 2 3)0", 0, 0, NONE),
    WRITES("nothing, very often", TWENTY_FOUR, "(((((((()255)255)255)255)255)255)255)255", 0, 0, NONE),
    WRITES("eight brackets in one another", TWENTY_FOUR, "((((((((7))))))))", 1, 1, P(7)),
    WRITES("commands with blanks at both ends", TWENTY_FOUR, "  1 -24  10 ", 3, 3, P(1, U(24), 10)),
    WRITES("a repeated group", TWENTY_FOUR, "(1 -2)3", 6, 6, P(1, U(2), 1, U(2), 1, U(2))),
    WRITES("an undone group", TWENTY_FOUR, "-(1 2)", 2, 2, P(U(2), U(1))),
    WRITES("a repeated group undone", TWENTY_FOUR, "-(1 2)2", 4, 4, P(U(2), U(1), U(2), U(1))),
    WRITES("a count belongs to its bracket", TWENTY_FOUR, "(1)2 3", 3, 3, P(1, 1, 3)),
    WRITES("a number behind a blank is no count", TWENTY_FOUR, "(1) 2", 2, 2, P(1, 2)),
    WRITES("undone in an undone group", TWENTY_FOUR, "-(-1 -(2 3)2)", 5, 5, P(2, 3, 2, 3, 1)),
    WRITES("undone three times", TWENTY_FOUR, "-(-(-1))", 1, 1, P(U(1))),
    WRITES("groups in a group", TWENTY_FOUR, "((1)2 -(3 4)0 5)2", 6, 6, P(1, 1, 5, 1, 1, 5)),
    WRITES("an area with room to spare", TWENTY_FOUR, "1 2", 40, 2, P(1, 2)),
    WRITES("1,024 bytes", TWENTY_FOUR, "((1)16)64", EXACT, 1024, ONES(1024)),
    WRITES("1,024 bytes in 1,023", TWENTY_FOUR, "((1)16)64", ONE_LESS, -9, NONE),
    WRITES("2 bytes in 1", TWENTY_FOUR, " 1  2 ", 1, -9, NONE),
    WRITES("a byte in none", K, "4", 0, -9, NONE),
    WRONG("the number 0", TWENTY_FOUR, "0", 13, 1, 0),
    WRONG("a leading zero", TWENTY_FOUR, "01", 13, 1, 0),
    WRONG("a closing bracket", TWENTY_FOUR, ")", 13, 1, 0),
    WRONG("a byte 0", TWENTY_FOUR, "\0", 13, 1, 0),
    WRONG("the number 25", TWENTY_FOUR, "25", 13, 1, 1),
    WRONG("the number 30", TWENTY_FOUR, "30", 13, 1, 1),
    WRONG("no blank before a minus", TWENTY_FOUR, "1-2", 13, 1, 1),
    WRONG("no blank before a bracket", TWENTY_FOUR, "1(2)", 13, 1, 1),
    WRONG("two minuses", TWENTY_FOUR, "--1", 13, 1, 1),
    WRONG("a blank behind a minus", TWENTY_FOUR, "- 1", 13, 1, 1),
    WRONG("a closing bracket behind a minus", TWENTY_FOUR, "-)", 13, 1, 1),
    WRONG("a closing bracket behind a command", TWENTY_FOUR, "1)", 13, 1, 1),
    WRONG("a minus and nothing", TWENTY_FOUR, "-", 13, 1, 1),
    WRONG("an opening bracket and nothing", TWENTY_FOUR, "(", 13, 1, 1),
    WRONG("a tab", TWENTY_FOUR, "1\t2", 13, 1, 1),
    WRONG("a comma", TWENTY_FOUR, "1, 2", 13, 1, 1),
    WRONG("a newline at the end", TWENTY_FOUR, "12\n", 13, 1, 2),
    WRONG("three digits", TWENTY_FOUR, "123", 13, 1, 2),
    WRONG("the number 25, 0 times", TWENTY_FOUR, "(25)0", 13, 1, 2),
    WRONG("a minus and a closing bracket", TWENTY_FOUR, "(-)", 13, 1, 2),
    WRONG("a minus and nothing in brackets", TWENTY_FOUR, "(-", 13, 1, 2),
    WRONG("a bracket that is not closed", TWENTY_FOUR, "(1", 13, 1, 2),
    WRONG("no blank behind a bracket", TWENTY_FOUR, "(1)-2", 13, 1, 3),
    WRONG("a minus and nothing at the end", TWENTY_FOUR, "1 -", 13, 1, 3),
    WRONG("the count 00", TWENTY_FOUR, "(1)00", 13, 1, 4),
    WRONG("the count 01", TWENTY_FOUR, "(1)01", 13, 1, 4),
    WRONG("no blank behind a count", TWENTY_FOUR, "(1)2(3)", 13, 1, 4),
    WRONG("the count 256", TWENTY_FOUR, "(1)256", 13, 1, 5),
    WRONG("the count 260", TWENTY_FOUR, "(1)260", 13, 1, 5),
    WRONG("a number before the nesting", TWENTY_FOUR, "1 (((((((((25", 13, 1, 12),
    WRONG("a missing bracket before the nesting", TWENTY_FOUR, "(((((((((1))))))))", 13, 1, 18),
    WRONG("nine brackets in one another", TWENTY_FOUR, "(((((((((1)))))))))", 14, 1, 8),
    WRONG("nine empty brackets", TWENTY_FOUR, "((((((((()))))))))", 14, 1, 8),
    WRONG("nine brackets, 0 times", TWENTY_FOUR, "(((((((((1)))))))))0", 14, 1, 8),
    WRONG("the nesting before a command", K, "5 (((((((((1)))))))))", 14, 1, 10),
    WRONG("command 5 of 4", K, "5", 8, 1, 0),
    WRONG("command 5 of 4 undone", K, "-5", 8, 1, 1),
    WRONG("command 24 of 4, 0 times", K, "(24)0", 8, 1, 1),
    WRONG("the first of two commands", K, "1 (5)0 6", 8, 1, 3),
    WRONG("a command before the size", K, "((((1)255)255)255)255 7", 8, 1, 22),
    WRONG("command 1 of none", NO_COMMANDS, " 1", 8, 1, 1),
    WRONG("4,228,250,625 bytes", TWENTY_FOUR, "((((1)255)255)255)255", 15, 1, 0),
    WRONG("1,025 bytes", TWENTY_FOUR, "((1)16)64 2", 15, 1, 0),
    WRONG("1,025 bytes in brackets", TWENTY_FOUR, "((1)205)5", 15, 1, 0),
    WRONG("no catalogue before the text", NONE, "x", 1, 0, 0),
    WRONG("25 commands before the text", TWENTY_FIVE, "x", 2, 0, 0),
    WRONG("an index before the text", P(1, 0, 1), "x", 3, 0, 2),
    WRONG("a record before the text", P(2, 1, 1, 0, 0, 0), "x", 4, 0, 4),
    WRONG("an endless chain before the text", P(2, 1, 0, 1, 1, 1), "x", 5, 0, 3),
    WRONG("a command in its own chain before the text", P(2, 1, 0, 1, 2, 0), "x", 6, 0, 3),

    /* The order of the table over several plans */
    SAME("a byte of plan 1 before the size of plan 2", K, P(5), ONES(1025), -8),
    SAME("the size of plan 1 before a byte of plan 2", K, ONES(1025), P(5), -7),
    SAME("the size of plan 2", K, P(1), ONES(1025), -7),
    SAME("a byte of plan 2", K, P(1), P(5), -8),
    SAME("the catalogue before the plans", P(25, 0), ONES(1025), P(200), -1),
    LOOP("a byte of plan 2 before the area", K, P(1), P(5), 0, -8),
    LOOP("the size of plan 2 before the area", K, P(1), ONES(1025), 0, -7),
    LEAD("1,025 bytes of lead-in", K, P(1), P(1), ONES(1025), EXACT, EXACT, 1, ONES(1026), ONES(1026)),
    LEAD("49,152 bytes of lead-in", K, NONE, NONE, ONES(49152), EXACT, EXACT, 1, ONES(49152), ONES(49152)),
    LEAD("49,153 bytes of lead-in", K, NONE, NONE, ONES(49153), EXACT, EXACT, -7, NONE, NONE),
    LEAD("a byte of plan 2 before the lead-in", K, NONE, P(5), ONES(49153), EXACT, EXACT, -8, NONE, NONE),
    LEAD("a byte of the lead-in before the areas", K, P(1), P(1), P(5), 0, 0, -8, NONE, NONE),
    LEAD("both areas too small", K, P(1), P(1), P(2), 1, 1, -9, NONE, NONE),
    LEAD("area 0 of one byte less", K, P(1), P(1), P(2), ONE_LESS, EXACT, -9, NONE, NONE),
    LEAD("area 1 of one byte less", K, P(1), P(1), P(2), EXACT, ONE_LESS, -9, NONE, NONE),
    LEAD("no lead-in", K, P(1), P(2), P(3), EXACT, EXACT, 0, P(1, 3), P(3, 2)),
    LEAD("areas with room to spare", K, P(1, U(1)), P(0), P(1, 4), 20, 30, 1, P(1, 4), P(1, 4)),

    /* Slips */
    SAME("slip 1: to cancel across a conflicting command", K, P(1, 2, U(1)), P(2), 0),
    SAME("slip 2: to read chains as independent pairs", K, P(2, 1), P(1, 2), 0),
    SAME("slip 2: and the others as conflicts", K, P(3, 1), P(1, 3), 1),
    NORMAL("slip 3: end letters", K, P(3, 1, 2, U(3), U(1)), EXACT, 5, P(1, 3, 2, U(1), U(3))),
    CORE_OF("slip 3: the core is 2", K, P(3, 1, 2, U(3), U(1)), EXACT, 1, P(2)),
    LOOP("slip 3: joined to its core", K, P(3, 1, 2, U(3), U(1)), P(2), EXACT, JOINED),
    LOOP("slip 3: only the written first letter", K, P(1, 3, 2, U(3)), P(1, 2), EXACT, JOINED),
    LOOP("slip 3: only the written last letter", K, P(1, 2, U(1), 3), P(2, 3), EXACT, JOINED),
    LOOP("slip 4: cores that differ", K, P(1, 2, 3), P(3, 1, 2), EXACT, JOINED),
    LOOP("slip 4: three rounds", K, P(1, 2, 3, 4), P(4, 3, 2, 1), EXACT, JOINED),
    LOOP("slip 4: the smallest command as apex", K, P(1, 1, 2, 3), P(1, 2, 3, 1), EXACT, JOINED),
    LOOP("rings that agree at one end only", K, P(2, 1, 2), P(2, 1, 1), EXACT, 0),
    LOOP("slip 5: one ring for several parts", K, P(1, 2, 4), P(2, 1, 4), EXACT, JOINED),
    LOOP("slip 5: parts that are apart", K, P(1, 1, 2, 4), P(1, 2, 4, 4), EXACT, 0),
    LOOP("slip 6: net counts", K, P(1, 2, U(1), 2), P(2, 2), EXACT, 0),
    LOOP("slip 6: net counts in one ring", K, P(1, 2, 1, 2), P(1, 1, 2, 2), EXACT, 0),
};

static struct guarded lent[MOST_AREAS];
static _Alignas(uint64_t) uint8_t nothing[1];

static void fail(const struct row *row, const char *who, const char *what, int64_t answer) {
    fprintf(stderr, "cases: %s: %s, by the %s: %s (answer %" PRId64 ")\n", row->name, call_name[row->call], who, what,
            answer);
    exit(1);
}

/* The lead-in in area 0 must be a normal form of at most N(n + m) letters and pass both checks. */
static void check_lead_in(const struct row *row, const struct question *asked, const char *who, int64_t answer) {
    static uint8_t space[2][MOST_GUARDED];
    struct area spare[MOST_AREAS] = {{space[0], sizeof space[0]}, {space[1], sizeof space[1]}};
    struct question q = *asked;
    struct conflicts k;
    struct word u, normal;
    size_t size = (size_t)answer - 1;
    if (answer < 1 || size > room(asked, 0)) fail(row, who, "not the length of a lead-in", answer);
    if (!guarded_holds(&lent[0], lent[0].at, size)) fail(row, who, "bytes past the lead-in are changed", answer);
    q.call = LEAD_IN_CHECK;
    q.plan[2] = (struct slice){lent[0].at, size};
    if (ask_library(&q, spare) != 1 || ask_solver(&q, spare) != 1) fail(row, who, "not a lead-in", answer);
    solver_catalogue(row->catalogue.at, row->catalogue.size, &k);
    solver_word(lent[0].at, size, &u);
    solver_word(lent[0].at, size, &normal);
    solver_normal(&k, &normal);
    if (u.size != size || !solver_same(&u, &normal)) fail(row, who, "not a normal form", answer);
}

static struct slice give(struct slice slice, bool nulls) {
    return slice.size == 0 && !nulls ? (struct slice){nothing, 0} : slice;
}

/* The bytes of an area of a row. */
static size_t area_size(const struct row *row, const struct question *q, unsigned area) {
    size_t exact = room(q, area), each = unit(row->call, area);
    if (area >= sized_areas_of[row->call] || row->area[area] == EXACT) return exact;
    return row->area[area] == ONE_LESS ? exact - each : (size_t)row->area[area] * each;
}

/* The catalogue of a row, rewritten in the second edition where it is of the first and that is asked for. */
static struct slice catalogue_of(const struct row *row, bool rewritten) {
    static uint8_t bytes[2 * sizeof long_chain];
    struct slice from = row->catalogue;
    if (!rewritten || !is_first_edition(from.at, from.size)) return from;
    return (struct slice){bytes, rewrite_catalogue(from.at, from.size, bytes)};
}

/* What a row writes in an area: a fault of a catalogue that is rewritten has its place there. */
static struct slice written_in(const struct row *row, unsigned area, bool rewritten) {
    static uint64_t fault[2];
    struct slice written = row->written[area];
    bool first = is_first_edition(row->catalogue.at, row->catalogue.size);
    if (!rewritten || !first || !tells_fault(row->call) || row->answer == 0 || row->answer == -BUSPLAN_PLACES)
        return written;
    memcpy(fault, written.at, sizeof fault);
    if (fault[0] == 0 && fault[1] > 0) fault[1] = rewritten_place(row->catalogue.at, fault[1]);
    return (struct slice){(const uint8_t *)fault, sizeof fault};
}

static void run(const struct row *row, bool library, bool nulls, bool rewritten) {
    const char *who = library ? "library" : "solver";
    struct question q = {.call = row->call, .catalogue = give(catalogue_of(row, rewritten), nulls)};
    struct area area[MOST_AREAS] = {{0}};
    for (unsigned i = 0; i < 3; i++) q.plan[i] = give(row->plan[i], nulls);
    for (unsigned i = 0; i < areas_of[row->call]; i++) {
        size_t size = area_size(row, &q, i);
        guarded_noise(&lent[i], size, true, size);
        area[i] = (struct area){size == 0 && nulls ? NULL : lent[i].at, size};
    }
    int64_t answer = library ? ask_library(&q, area) : ask_solver(&q, area);
    if (library && !fault_tells(&q, answer)) fail(row, who, "another refusal is told as the fault", answer);
    if (row->answer == JOINED) {
        check_lead_in(row, &q, who, answer);
        return;
    }
    if (answer != row->answer) fail(row, who, "another answer", answer);
    for (unsigned i = 0; i < areas_of[row->call]; i++) {
        struct slice written = written_in(row, i, rewritten);
        if (!guarded_holds(&lent[i], written.at, written.size)) fail(row, who, "other bytes in an area", answer);
    }
}

/* A row that no other line refuses is refused by 9 just where an area has a byte or number less than busplan.h
 * says. What a text needs is in no macro, but its rows have areas of just that size and less. */
static void check_room(const struct row *row) {
    struct question q = {row->call, row->catalogue, {row->plan[0], row->plan[1], row->plan[2]}};
    struct area area[MOST_AREAS];
    unsigned sized = sized_areas_of[row->call];
    if ((row->answer < 0 && row->answer != -BUSPLAN_AREA_SIZE) || row->call == WRITE_OUT) return;
    for (unsigned less = 0; less <= sized && sized > 0; less++) {
        for (unsigned i = 0; i < areas_of[row->call]; i++) {
            guarded_noise(&lent[i], room(&q, i), true, 0);
            area[i] = (struct area){lent[i].at, lent[i].size};
        }
        if (less > 0 && area[less - 1].size == 0) continue;
        if (less > 0) area[less - 1].size -= unit(row->call, less - 1);
        if ((ask_library(&q, area) == -BUSPLAN_AREA_SIZE) != (less > 0))
            fail(row, "library", less > 0 ? "passed in one less" : "refused in the room that it needs", -9);
    }
}

/* The largest room is what the largest plans ask for. */
_Static_assert(BUSPLAN_MAX_CATALOGUE == 3 + 2 * BUSPLAN_MAX_COMMANDS + 3 * BUSPLAN_MAX_RECORDS, "the catalogue");
_Static_assert(BUSPLAN_MAX_FORM_ROOM == BUSPLAN_FORM_ROOM(BUSPLAN_MAX_PLAN), "the room for a form");
_Static_assert(BUSPLAN_MAX_SLOTS_ROOM == BUSPLAN_SLOTS_ROOM(BUSPLAN_MAX_PLAN), "the room for slots");
_Static_assert(BUSPLAN_MAX_LOOPS_ROOM
               == BUSPLAN_LOOPS_ROOM(BUSPLAN_MAX_COMMANDS, BUSPLAN_MAX_PLAN, BUSPLAN_MAX_PLAN), "the room for loops");
_Static_assert(BUSPLAN_MAX_CHECK_ROOM == BUSPLAN_CHECK_ROOM0(BUSPLAN_MAX_PLAN, BUSPLAN_MAX_LEAD_IN), "area 0");
_Static_assert(BUSPLAN_MAX_CHECK_ROOM == BUSPLAN_CHECK_ROOM1(BUSPLAN_MAX_LEAD_IN, BUSPLAN_MAX_PLAN), "area 1");
_Static_assert(BUSPLAN_MAX_WRITE_OUT_ROOM == BUSPLAN_MAX_PLAN, "the room for a plan written out");
_Static_assert(BUSPLAN_MAX_NESTING == MOST_NESTING, "how deep brackets nest");

/* What the words for an answer have in them, and the words for no other number. */
static const struct {
    int64_t answer;
    const char *word;
} texts[] = {
    {-1, "2 + N + 2R"}, {-2, "24 commands"}, {-3, "index"}, {-4, "record whose"}, {-5, "doesn't end"},
    {-6, "its own chain"}, {-7, "a lead-in over"}, {-8, "byte that"}, {-9, "area"}, {-11, "framed"},
    {-12, "letters that cancelled"}, {-13, "notation"}, {-14, "deeper than 8"}, {-15, "written out"},
    {-16, "different places"}, {-17, "1,024 records"}, {0, "not refused"}, {1, "not refused"},
    {INT64_MAX, "not refused"}, {-10, "no refusal of this library"}, {-18, "no refusal of this library"},
    {INT64_MIN, "no refusal of this library"},
};

static void check_texts(void) {
    size_t count = sizeof texts / sizeof texts[0];
    for (size_t i = 0; i < count; i++) {
        const char *text = busplan_refusal_text(texts[i].answer);
        for (size_t j = 0; j < count; j++) {
            if ((strstr(text, texts[j].word) != NULL) == (strcmp(texts[i].word, texts[j].word) == 0)) continue;
            fprintf(stderr, "cases: the text of answer %" PRId64 " is \"%s\"\n", texts[i].answer, text);
            exit(1);
        }
    }
}

int main(void) {
    size_t count = sizeof rows / sizeof rows[0];
    fill_long();
    fill_editions();
    for (unsigned i = 0; i < MOST_AREAS; i++) guarded_open(&lent[i]);
    for (size_t i = 0; i < count; i++) {
        for (unsigned way = 0; way < 8; way++) run(&rows[i], way / 4 == 1, way % 2 == 1, way / 2 % 2 == 1);
        check_room(&rows[i]);
    }
    check_texts();
    printf("cases: %zu rows, library and solver, in both editions: all as the manual says; room and texts as busplan.h "
           "says\n", count);
    return 0;
}
