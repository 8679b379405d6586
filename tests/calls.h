/* The calls behind one function, so that a test can put the same question to the library and to the solver. */
#ifndef CALLS_H
#define CALLS_H

#include "busplan.h"
#include "reader.h"
#include "solver.h"

/* The first PLAN_CALLS calls take plans. Those behind them take a list of places in the place of plan 2, as bytes, and
 * from TEXT_CALLS on a text in the place of plan 1. */
enum call {
    NORMAL_FORM, CORE, EQUAL, LOOPS, LEAD_IN_CHECK, FAULT, SLOTS, PRECEDENCE, PRECEDENCE_FAULT, WRITE_OUT, TEXT_FAULT,
    CALLS, PLAN_CALLS = PRECEDENCE, TEXT_CALLS = WRITE_OUT
};
static const char *const call_name[CALLS] = {"normal_form", "core", "equal", "loops", "lead_in_check", "fault", "slots",
                                             "precedence", "precedence_fault", "write_out", "text_fault"};

/* How many plans and how many areas a call takes, and of how many areas it is told the sizes. The two numbers that a
 * fault is told in count as an area, and so does the one for the slots in use. */
enum { MOST_AREAS = 3 };
static const unsigned plans_of[CALLS] = {1, 1, 2, 2, 3, 3, 1, 2, 2, 1, 1};
static const unsigned areas_of[CALLS] = {1, 1, 0, 1, 2, 1, 3, 0, 1, 1, 1};
static const unsigned sized_areas_of[CALLS] = {1, 1, 0, 1, 2, 0, 2, 0, 0, 1, 0};

struct slice {
    const uint8_t *at;
    size_t size;
};

struct area {
    uint8_t *at;
    size_t size;
};

struct question {
    enum call call;
    struct slice catalogue, plan[3];
};

static inline bool tells_fault(enum call call) {
    return call == FAULT || call == PRECEDENCE_FAULT || call == TEXT_FAULT;
}

/* How many bytes one of what an area's size counts has. */
static inline size_t unit(enum call call, unsigned area) {
    return call == SLOTS && area == 1 ? sizeof(uint16_t) : 1;
}

/* The bytes that an area must have at least, as busplan.h says, for the number of commands that byte 0 of the catalogue
 * claims, in either edition; for a text as many as any needs. */
static inline size_t room(const struct question *q, unsigned area) {
    size_t v = q->plan[0].size, w = q->plan[1].size, u = q->plan[2].size;
    if (tells_fault(q->call)) return 2 * sizeof(uint64_t);
    if (q->call == SLOTS && area == 1) return BUSPLAN_SLOTS_ROOM(v) * sizeof(uint16_t);
    if (q->call == SLOTS && area == 2) return sizeof(uint64_t);
    if (q->call == WRITE_OUT) return BUSPLAN_MAX_WRITE_OUT_ROOM;
    if (q->call == LOOPS) return BUSPLAN_LOOPS_ROOM(layout_of(q->catalogue.at, q->catalogue.size).commands, v, w);
    if (q->call == LEAD_IN_CHECK) return area == 0 ? BUSPLAN_CHECK_ROOM0(v, u) : BUSPLAN_CHECK_ROOM1(u, w);
    return BUSPLAN_FORM_ROOM(v);
}

#define PUT(s) (s).at, (s).size

/* Bytes that are handed over as numbers: a list of places, an area for slots, or one or two numbers of 64 bits. They
 * begin at a place that suits them. */
#define PUT_PLACES(s) (const uint16_t *)(const void *)(s).at, (s).size / sizeof(uint16_t)
#define PUT_SLOTS(s) (uint16_t *)(void *)(s).at, (s).size / sizeof(uint16_t)
#define PUT_LONG(s) (uint64_t *)(void *)(s).at

/* Puts a question to the calls whose names begin with prefix: to the four that bench/ measures, or to any. */
#define ASK_MEASURED(prefix, q, area) \
    ((q)->call == NORMAL_FORM ? prefix##_normal_form(PUT((q)->catalogue), PUT((q)->plan[0]), PUT((area)[0])) \
     : (q)->call == EQUAL ? prefix##_equal(PUT((q)->catalogue), PUT((q)->plan[0]), PUT((q)->plan[1])) \
     : (q)->call == LOOPS ? prefix##_loops(PUT((q)->catalogue), PUT((q)->plan[0]), PUT((q)->plan[1]), PUT((area)[0])) \
     : prefix##_lead_in_check(PUT((q)->catalogue), PUT((q)->plan[0]), PUT((q)->plan[1]), PUT((q)->plan[2]), \
                              PUT((area)[0]), PUT((area)[1])))
#define ASK(prefix, q, area) \
    ((q)->call == CORE ? prefix##_core(PUT((q)->catalogue), PUT((q)->plan[0]), PUT((area)[0])) \
     : (q)->call == FAULT ? prefix##_fault(PUT((q)->catalogue), PUT((q)->plan[0]), PUT((q)->plan[1]), \
                                           PUT((q)->plan[2]), PUT_LONG((area)[0])) \
     : (q)->call == SLOTS ? prefix##_slots(PUT((q)->catalogue), PUT((q)->plan[0]), PUT((area)[0]), \
                                           PUT_SLOTS((area)[1]), PUT_LONG((area)[2])) \
     : (q)->call == PRECEDENCE ? prefix##_precedence(PUT((q)->catalogue), PUT((q)->plan[0]), PUT_PLACES((q)->plan[1])) \
     : (q)->call == PRECEDENCE_FAULT ? prefix##_precedence_fault(PUT((q)->catalogue), PUT((q)->plan[0]), \
                                                                 PUT_PLACES((q)->plan[1]), PUT_LONG((area)[0])) \
     : (q)->call == WRITE_OUT ? prefix##_write_out(PUT((q)->catalogue), PUT((q)->plan[0]), PUT((area)[0])) \
     : (q)->call == TEXT_FAULT ? prefix##_text_fault(PUT((q)->catalogue), PUT((q)->plan[0]), PUT_LONG((area)[0])) \
     : ASK_MEASURED(prefix, q, area))

static inline int64_t ask_library(const struct question *q, const struct area *area) { return ASK(busplan, q, area); }
static inline int64_t ask_solver(const struct question *q, const struct area *area) { return ASK(solver, q, area); }

/* The call that tells the place of a refusal by another. */
static inline enum call teller_of(enum call call) {
    return call < PLAN_CALLS ? FAULT : call < TEXT_CALLS ? PRECEDENCE_FAULT : TEXT_FAULT;
}

/* Whether it can be told: of a catalogue 1 to 6 and 17, of a plan 7 and 8, of a list of places 16, of a text 8 and 13
 * to 15. */
static inline bool tellable(enum call teller, int64_t answer) {
    if ((answer >= -BUSPLAN_OWN_CHAIN && answer < 0) || answer == -BUSPLAN_RECORD_COUNT) return true;
    if (teller == TEXT_FAULT)
        return answer == -BUSPLAN_PLAN_BYTE || (answer >= -BUSPLAN_WRITTEN_SIZE && answer <= -BUSPLAN_TEXT);
    return answer == -BUSPLAN_PLAN_SIZE || answer == -BUSPLAN_PLAN_BYTE
        || (teller == PRECEDENCE_FAULT && answer == -BUSPLAN_PLACES);
}

/* Whether the library, asked what is wrong with so many of the plans, tells this answer if it can, and else nothing. */
static inline bool tells(const struct question *q, enum call teller, unsigned plans, int64_t answer) {
    uint64_t fault[2];
    struct area area[MOST_AREAS] = {{(uint8_t *)fault, sizeof fault}};
    struct question told = *q;
    told.call = teller;
    for (unsigned i = plans; i < 3; i++) told.plan[i] = (struct slice){NULL, 0};
    return ask_library(&told, area) == (tellable(teller, answer) ? answer : 0);
}

/* Whether the library's fault, for the plans, the list or the text that the call has, says what busplan.h promises of
 * this answer: such a refusal and no other is told, and beside those there is 9 alone, for a call that is told sizes of
 * areas. Of a plan with a list busplan_fault tells what is not about the list. */
static inline bool fault_tells(const struct question *q, int64_t answer) {
    enum call teller = teller_of(q->call);
    bool other = answer >= 0 || (answer == -BUSPLAN_AREA_SIZE && sized_areas_of[q->call] > 0);
    return tells(q, teller, plans_of[q->call], answer) && (tellable(teller, answer) || other)
        && (teller != PRECEDENCE_FAULT || tells(q, FAULT, 1, answer));
}

#endif
