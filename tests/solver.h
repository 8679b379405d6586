/* A second solver, written from the specification alone, to compare the library with. It works on words: it cancels,
 * sorts, takes pairs off and settles letter by letter, and keeps no pilings. Nothing about it is proved. */
#ifndef SOLVER_H
#define SOLVER_H

#include "layout.h"

enum { MOST_PLAN = 1024, MOST_LEAD_IN = 49152, MOST_LETTERS = 1 << 16 };

/* Which commands conflict: bit b of with[a], for a and b from 1 to commands. Every command conflicts with itself. */
struct conflicts {
    unsigned commands;
    uint32_t with[MOST_COMMANDS + 1];
};

/* Letters without fillers: k does command k, 128 + k undoes it. */
struct word {
    size_t size;
    uint8_t letter[MOST_LETTERS];
};

static inline unsigned command_of(uint8_t letter) { return letter & 127; }
static inline uint8_t undo_of(uint8_t letter) { return letter ^ 128; }
static inline bool conflict(const struct conflicts *k, uint8_t x, uint8_t y) {
    return k->with[command_of(x)] >> command_of(y) & 1;
}

/* The first of lines 1, 2, 17 and 3 to 6 that holds, or 0 and the conflicts. */
int solver_catalogue(const uint8_t *bytes, size_t size, struct conflicts *k);

/* The letters of a plan; the word made normal; whether two words are the same. */
void solver_word(const uint8_t *plan, size_t size, struct word *w);
void solver_normal(const struct conflicts *k, struct word *w);
bool solver_same(const struct word *a, const struct word *b);

/* The calls, with the arguments and the answers of busplan.h. */
int64_t solver_normal_form(const uint8_t *catalogue, size_t catalogue_size, const uint8_t *plan, size_t plan_size,
                           uint8_t *area, size_t area_size);
int64_t solver_core(const uint8_t *catalogue, size_t catalogue_size, const uint8_t *plan, size_t plan_size,
                    uint8_t *area, size_t area_size);
int64_t solver_equal(const uint8_t *catalogue, size_t catalogue_size, const uint8_t *v, size_t v_size,
                     const uint8_t *w, size_t w_size);
int64_t solver_loops(const uint8_t *catalogue, size_t catalogue_size, const uint8_t *v, size_t v_size,
                     const uint8_t *w, size_t w_size, uint8_t *area, size_t area_size);
int64_t solver_lead_in_check(const uint8_t *catalogue, size_t catalogue_size, const uint8_t *v, size_t v_size,
                             const uint8_t *w, size_t w_size, const uint8_t *u, size_t u_size,
                             uint8_t *area0, size_t area0_size, uint8_t *area1, size_t area1_size);
int64_t solver_fault(const uint8_t *catalogue, size_t catalogue_size, const uint8_t *v, size_t v_size,
                     const uint8_t *w, size_t w_size, const uint8_t *u, size_t u_size, uint64_t fault[2]);
int64_t solver_slots(const uint8_t *catalogue, size_t catalogue_size, const uint8_t *plan, size_t plan_size,
                     uint8_t *area, size_t area_size, uint16_t *slots, size_t slots_size, uint64_t in_use[1]);
int64_t solver_precedence(const uint8_t *catalogue, size_t catalogue_size, const uint8_t *plan, size_t plan_size,
                          const uint16_t *places, size_t places_size);
int64_t solver_precedence_fault(const uint8_t *catalogue, size_t catalogue_size, const uint8_t *plan, size_t plan_size,
                                const uint16_t *places, size_t places_size, uint64_t fault[2]);

/* solver_loops, which where it gives 0 or more also counts the rounds: the most that a part of either core takes. */
int64_t solver_loops_rounds(const uint8_t *catalogue, size_t catalogue_size, const uint8_t *v, size_t v_size,
                            const uint8_t *w, size_t w_size, uint8_t *area, size_t area_size, unsigned *rounds);

#endif
