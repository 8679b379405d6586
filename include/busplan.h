/* busplan: comparing bus plans. C interface (C99 or later, C++) of the proved library libbusplan.a; docs/MANUAL.md is
 * its manual.
 *
 * A catalogue says which commands conflict. The first edition is:
 *   byte 0        N, the number of commands, 0 to 24
 *   byte 1        R, the number of records, 0 to 255
 *   N bytes       the head index of command 1 to N
 *   R records     two bytes each: a command, and the index of the next record
 * The whole is exactly 2 + N + 2R bytes. A first byte of 128 or more begins the second edition, in which R and every
 * index take two bytes, low byte first:
 *   byte 0        128 + N
 *   2 bytes       R, 0 to 1,024
 *   2N bytes      the head index of command 1 to N
 *   R records     three bytes each: a command, and the index of the next record
 * The whole is exactly 3 + 2N + 3R bytes. Every call takes either edition. In both, records are numbered from 1, and
 * index 0 ends a chain. Commands a and b conflict if b stands in the chain of a or a in the chain of b. Chains may
 * share their tails; in the first edition they must where there are more pairs than records: 24 commands that all
 * conflict are 276 pairs, more than the 255 records that its R can count.
 *
 * A plan is a string of bytes: k, 1 to N, does command k; 128 + k undoes it; 0 is a filler with no effect. A plan has
 * at most BUSPLAN_MAX_PLAN bytes, a lead-in handed in for checking at most BUSPLAN_MAX_LEAD_IN.
 *
 * A text is a plan in the beacon team's notation, as it is typed: a sequence of items.
 *   12            does command 12; a number from 1 to 24
 *   (1 -2)3       a sequence in brackets, taken so often: 0 to 255 times, once where no number stands there
 *   -12, -(1 2)3  undoes the command, or the whole repeated group: backwards, with each command undone
 * The minus stands directly before its number or bracket, the count directly after its bracket. At least one blank
 * (byte 32) stands between two items, and blanks may stand at either end of a sequence. No number has a leading zero,
 * but the count 0 is allowed. Empty texts and empty brackets are the empty plan. Brackets nest at most
 * BUSPLAN_MAX_NESTING deep, and the plan written out has at most BUSPLAN_MAX_PLAN bytes; a text may have any length.
 *
 * Every call takes any bytes, of any length, and answers with a result of at least 0, or with minus the number of
 * exactly one refusal. It reads only what it is handed, keeps nothing between calls, and may be called from several
 * threads at once. Areas must not overlap anything else that is handed over. Bytes of an area past those written keep
 * their contents, and a refused call changes no byte of any area.
 *
 * Each byte string or area is a pointer and a length, and so is each list or area of 16-bit numbers, with the number of
 * them as its length. An empty one may be a null pointer with length 0.
 *
 * Platform: Linux on x86-64. The archive needs nothing but the C library's memory functions.
 */
#ifndef BUSPLAN_H
#define BUSPLAN_H

#include <stddef.h>
#include <stdint.h>

#ifdef __cplusplus
extern "C" {
#endif

#define BUSPLAN_VERSION "2.2.0"

#define BUSPLAN_MAX_COMMANDS 24
#define BUSPLAN_MAX_RECORDS 1024
#define BUSPLAN_MAX_PLAN 1024
#define BUSPLAN_MAX_LEAD_IN 49152
#define BUSPLAN_MAX_CATALOGUE 3123 /* 3 + 2 * 24 + 3 * 1024 */
#define BUSPLAN_MAX_NESTING 8

/* The room that each area must have at least, in bytes, and for slots in 16-bit numbers, from N and the byte counts of
 * the plans, and the most that any call asks for: an area of that size is never refused. N is byte 0 of the catalogue,
 * in the second edition less 128. */
#define BUSPLAN_FORM_ROOM(plan_size) ((size_t)(plan_size))
#define BUSPLAN_SLOTS_ROOM(plan_size) ((size_t)(plan_size))
#define BUSPLAN_LOOPS_ROOM(commands, v_size, w_size) ((size_t)(commands) * ((size_t)(v_size) + (size_t)(w_size)))
#define BUSPLAN_CHECK_ROOM0(v_size, u_size) ((size_t)(v_size) + (size_t)(u_size))
#define BUSPLAN_CHECK_ROOM1(u_size, w_size) ((size_t)(u_size) + (size_t)(w_size))
#define BUSPLAN_MAX_FORM_ROOM 1024      /* BUSPLAN_MAX_PLAN */
#define BUSPLAN_MAX_SLOTS_ROOM 1024     /* BUSPLAN_MAX_PLAN, in 16-bit numbers */
#define BUSPLAN_MAX_LOOPS_ROOM 49152    /* 24 * (1024 + 1024) */
#define BUSPLAN_MAX_CHECK_ROOM 50176    /* 1024 + 49152, for either area */
#define BUSPLAN_MAX_WRITE_OUT_ROOM 1024 /* BUSPLAN_MAX_PLAN */

/* The stack that each call needs at the most, in bytes. These are measured (docs/MEASUREMENTS.md) and rounded up, not
 * proved. A thread has needs of its own beside them: 16 kB more are enough with glibc. */
#define BUSPLAN_NORMAL_FORM_STACK 36000
#define BUSPLAN_CORE_STACK 36000
#define BUSPLAN_SLOTS_STACK 36000
#define BUSPLAN_PRECEDENCE_STACK 36000
#define BUSPLAN_PRECEDENCE_FAULT_STACK 36000
#define BUSPLAN_EQUAL_STACK 36000
#define BUSPLAN_LOOPS_STACK 300000
#define BUSPLAN_LEAD_IN_CHECK_STACK 300000
#define BUSPLAN_FAULT_STACK 8000
#define BUSPLAN_WRITE_OUT_STACK 8000
#define BUSPLAN_TEXT_FAULT_STACK 8000
#define BUSPLAN_STACK 300000 /* any of them */

/* Why a call is refused: the first of these that holds. Those of the catalogue come first, in the order 1, 2, 17, 3, 4,
 * 5, 6. Behind them come 7 and 8, those of the first plan before those of the second, and then 9; with a list of places
 * 7, 8, 16, and for a text 13, 14, 8, 15, 9. A call returns minus the number; busplan_fault tells the plan and the
 * place, busplan_text_fault those of a text, and busplan_precedence_fault those of a plan with a list of places. No
 * function here returns 12: it is of the normal form call from Rattle, which also tells the places of the letters that
 * cancelled with each other. */
enum busplan_refusal {
    BUSPLAN_CATALOGUE_SIZE = 1, /* catalogue under 2 bytes, or not 2 + N + 2R; second edition: 3, and 3 + 2N + 3R */
    BUSPLAN_COMMAND_COUNT = 2,  /* N above 24 */
    BUSPLAN_INDEX = 3,          /* a head or next index above R */
    BUSPLAN_RECORD_COMMAND = 4, /* a record whose command is 0 or above N */
    BUSPLAN_ENDLESS_CHAIN = 5,  /* a command whose chain doesn't end */
    BUSPLAN_OWN_CHAIN = 6,      /* a command that stands in its own chain */
    BUSPLAN_PLAN_SIZE = 7,      /* a plan over 1,024 bytes (a lead-in over 49,152) */
    BUSPLAN_PLAN_BYTE = 8,      /* a byte that is not 0, 1 to N or 129 to 128 + N; in a text a command above N */
    BUSPLAN_AREA_SIZE = 9,      /* an area smaller than the call asks for */
    /* 10 is retired: no call returns it, and it is not used again. */
    BUSPLAN_FRAMING = 11,       /* the input of the program loops is badly framed; no call returns it */
    BUSPLAN_PAIRS_SIZE = 12,    /* from Rattle alone: too little room for the places of the letters that cancelled */
    BUSPLAN_TEXT = 13,          /* a text that is not in the notation */
    BUSPLAN_NESTING = 14,       /* a text whose brackets nest deeper than 8 */
    BUSPLAN_WRITTEN_SIZE = 15,  /* a text whose plan, written out, is over 1,024 bytes */
    BUSPLAN_PLACES = 16,        /* a pair of places that is not two different places of the normal form */
    BUSPLAN_RECORD_COUNT = 17   /* R above 1,024; after 2 and before 3 */
};

/* What a call's answer says if it is a refusal, in English, without the plan and the place. */
static inline const char *busplan_refusal_text(int64_t answer) {
    switch (answer) {
    case -BUSPLAN_CATALOGUE_SIZE: return "the catalogue is not 2 + N + 2R bytes long, or 3 + 2N + 3R (second edition)";
    case -BUSPLAN_COMMAND_COUNT: return "the catalogue has more than 24 commands";
    case -BUSPLAN_INDEX: return "the catalogue has a head or next index above R";
    case -BUSPLAN_RECORD_COMMAND: return "the catalogue has a record whose command is 0 or above N";
    case -BUSPLAN_ENDLESS_CHAIN: return "the catalogue has a command whose chain doesn't end";
    case -BUSPLAN_OWN_CHAIN: return "the catalogue has a command that stands in its own chain";
    case -BUSPLAN_PLAN_SIZE: return "a plan is over 1,024 bytes, or a lead-in over 49,152";
    case -BUSPLAN_PLAN_BYTE: return "a plan has a byte that is no command, undo or filler, or a text a command above N";
    case -BUSPLAN_AREA_SIZE: return "an area is smaller than the call asks for";
    case -BUSPLAN_FRAMING: return "the input is badly framed";
    case -BUSPLAN_PAIRS_SIZE: return "there is too little room for the places of the letters that cancelled";
    case -BUSPLAN_TEXT: return "a text is not in the notation";
    case -BUSPLAN_NESTING: return "a text has brackets that nest deeper than 8";
    case -BUSPLAN_WRITTEN_SIZE: return "the plan of a text is over 1,024 bytes when it is written out";
    case -BUSPLAN_PLACES: return "a pair of places is not two different places of the normal form";
    case -BUSPLAN_RECORD_COUNT: return "the catalogue has more than 1,024 records";
    default: return answer < 0 ? "no refusal of this library" : "not refused";
    }
}

/* The normal form of a plan: the shortest plan of the same effect and, of those, the first in the order 1, -1, 2, -2
 * and so on. area: at least BUSPLAN_FORM_ROOM(plan_size) bytes. Returns the length of the normal form, which stands at
 * the start of it. Which letters of the plan cancelled with each other is not told here, but to callers from Rattle. */
int64_t busplan_normal_form(const uint8_t *catalogue, size_t catalogue_size,
                            const uint8_t *plan, size_t plan_size,
                            uint8_t *area, size_t area_size);

/* The core of a plan, in normal form: what is left of a shortest plan of the same effect when a command and its undo, in
 * either order, of which one can come first and the other last, are taken off, until there is no such pair. area: at
 * least BUSPLAN_FORM_ROOM(plan_size) bytes. Returns the length of the core, which stands at the start of it. */
int64_t busplan_core(const uint8_t *catalogue, size_t catalogue_size,
                     const uint8_t *plan, size_t plan_size,
                     uint8_t *area, size_t area_size);

/* The slots of a plan: its normal form, and beside each letter of it a number from 0. Letters of one slot are
 * independent and can go out together; of two conflicting letters the earlier has the smaller slot, and letters of one
 * command conflict. A letter's slot is 0 if no earlier letter conflicts with it, and else one more than the largest
 * slot of the earlier letters that do. No other numbers of which this order holds are smaller at any letter, or have
 * fewer different ones among them. area: at least BUSPLAN_FORM_ROOM(plan_size) bytes; slots: at least
 * BUSPLAN_SLOTS_ROOM(plan_size) numbers. Returns the length of the normal form. It stands at the start of area, and as
 * many slots at the start of slots; in_use[0] is how many different slots there are, 0 for an empty normal form. A
 * refused call changes neither area, nor slots, nor in_use. in_use must point to a number. */
int64_t busplan_slots(const uint8_t *catalogue, size_t catalogue_size,
                      const uint8_t *plan, size_t plan_size,
                      uint8_t *area, size_t area_size,
                      uint16_t *slots, size_t slots_size,
                      uint64_t in_use[1]);

/* Whether letters of a plan's normal form stay in order. places are places in the normal form, counted from 0 and taken
 * two by two; the list may have any length. Returns 1 for yes: the first letter of each pair stays before the second in
 * every arrangement of the normal form that swaps of independent neighbours reach, where a letter stays the same letter
 * wherever it is swapped to. This is so exactly if a chain of letters, each before the next and in conflict with it,
 * leads from the first to the second. Returns 0 for no. An empty list is yes. A list that is refused (16) is refused
 * before any no. */
int64_t busplan_precedence(const uint8_t *catalogue, size_t catalogue_size,
                           const uint8_t *plan, size_t plan_size,
                           const uint16_t *places, size_t places_size);

/* What is wrong with a catalogue, a plan and a list of places in its normal form: the first of refusals 1 to 8, 16 and
 * 17 that holds, in the order above, as minus its number, and then fault[0] is the plan (1, or 0 for the catalogue and
 * for the list) and fault[1] the place, counted from 0. For 16 the place is the number of the pair, from 0: the first
 * pair that lacks its second place, names a place past the normal form (its length or more) or names the same place
 * twice. Returns 0 if none holds, and fault keeps its contents. fault must point to two numbers.
 * busplan_precedence with the same catalogue, plan and list is refused for just this, and where 0 is returned it is not
 * refused. */
int64_t busplan_precedence_fault(const uint8_t *catalogue, size_t catalogue_size,
                                 const uint8_t *plan, size_t plan_size,
                                 const uint16_t *places, size_t places_size,
                                 uint64_t fault[2]);

/* Whether two plans have the same effect. Returns 1 for yes, 0 for no. */
int64_t busplan_equal(const uint8_t *catalogue, size_t catalogue_size,
                      const uint8_t *v, size_t v_size,
                      const uint8_t *w, size_t w_size);

/* Whether two loops are joined: whether some lead-in u, of any length, makes (undo of u, v, u) equal to w.
 * area: at least BUSPLAN_LOOPS_ROOM(N, v_size, w_size) bytes. Returns 0 for apart, and writes nothing; for joined the
 * length of such a lead-in plus 1, and the lead-in, in normal form, stands at the start of area. */
int64_t busplan_loops(const uint8_t *catalogue, size_t catalogue_size,
                      const uint8_t *v, size_t v_size,
                      const uint8_t *w, size_t w_size,
                      uint8_t *area, size_t area_size);

/* Whether u is a lead-in from v to w. area0: at least BUSPLAN_CHECK_ROOM0(v_size, u_size) bytes; area1: at least
 * BUSPLAN_CHECK_ROOM1(u_size, w_size) bytes. Afterwards, for yes and for no, they begin with the normal forms of v
 * followed by u, and of u followed by w. Their lengths are not returned; no normal form holds a 0, so in an area filled
 * with 0 beforehand the first 0 ends it. Returns 1 for yes (the two are the same), 0 for no. */
int64_t busplan_lead_in_check(const uint8_t *catalogue, size_t catalogue_size,
                              const uint8_t *v, size_t v_size,
                              const uint8_t *w, size_t w_size,
                              const uint8_t *u, size_t u_size,
                              uint8_t *area0, size_t area0_size,
                              uint8_t *area1, size_t area1_size);

/* What is wrong with a catalogue and up to three plans, empty where a call has fewer: the first of refusals 1 to 8 and
 * 17 that holds, in the order above, as minus its number, and then fault[0] is the plan (1, 2 or 3 in the order given,
 * 0 for the catalogue) and fault[1] the place in it, counted from 0; an index of two bytes has the place of its low
 * byte. Returns 0 if none holds, and fault keeps its contents. v and w may have BUSPLAN_MAX_PLAN bytes, and u
 * BUSPLAN_MAX_LEAD_IN. fault must point to two numbers.
 * A call with the same catalogue and plans is refused for just this, and where 0 is returned it is refused for an area
 * alone (9) or for a list of places (16), if at all: so this tells the place of any refusal from 1 to 8 and of 17. */
int64_t busplan_fault(const uint8_t *catalogue, size_t catalogue_size,
                      const uint8_t *v, size_t v_size,
                      const uint8_t *w, size_t w_size,
                      const uint8_t *u, size_t u_size,
                      uint64_t fault[2]);

/* The plan that a text writes out: its items one after the other, a group as often as its count says. area: as many
 * bytes as that plan has, and BUSPLAN_MAX_WRITE_OUT_ROOM are always enough. Returns the length of the plan, which
 * stands at the start of it; it holds no filler, and every other call takes it. */
int64_t busplan_write_out(const uint8_t *catalogue, size_t catalogue_size,
                          const uint8_t *text, size_t text_size,
                          uint8_t *area, size_t area_size);

/* What is wrong with a catalogue and a text: the first of refusals 1 to 6, 17, 13, 14, 8 and 15 that holds, in the
 * order above, as minus its number, and then fault[0] is 0 for the catalogue or 1 for the text, and fault[1] the place
 * in it, which counts from 0. The places of a text are these:
 *   13  the first byte after which no ending could mend the text; the text's length if it only stops too soon
 *   14  the first opening bracket that nests deeper than 8
 *   8   the first digit of the first command above N, whatever the counts of the groups are that it stands in
 *   15  0
 * Returns 0 if none holds, and fault keeps its contents. fault must point to two numbers.
 * busplan_write_out with the same catalogue and text is refused for just this, and where 0 is returned it is refused
 * for its area alone (9), if at all. */
int64_t busplan_text_fault(const uint8_t *catalogue, size_t catalogue_size,
                           const uint8_t *text, size_t text_size,
                           uint64_t fault[2]);

#ifdef __cplusplus
}
#endif

#endif
