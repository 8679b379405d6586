/* Random catalogues, plans, lead-ins and lists of places, right and damaged, from one seed. */
#ifndef SUPPLY_H
#define SUPPLY_H

#include "solver.h"

/* A byte string to hand over. */
struct bytes {
    size_t size;
    uint8_t at[MOST_LETTERS];
};

void seed_random(uint64_t seed);
size_t below(size_t bound);
bool chance(unsigned percent);

/* A right catalogue of either edition, now and then with many records; one damage to it, of those that lines 1 to 6 and
 * 17 name. */
void random_catalogue(struct bytes *catalogue);
void damage_catalogue(struct bytes *catalogue);

/* A plan of random size; plans made from a plan v. Each keeps to commands 1 to N and to MOST_PLAN bytes. */
void random_plan(const struct conflicts *k, struct bytes *plan);
void equal_plan(const struct conflicts *k, const struct bytes *v, struct bytes *plan);
void joined_plan(const struct conflicts *k, const struct bytes *v, struct bytes *plan, struct bytes *lead_in);
void spoil_plan(const struct conflicts *k, struct bytes *plan);

/* Makes a lead-in u from v to w longer: v some times before it, w some times behind it, then fillers. */
void lengthen_lead_in(const struct bytes *v, const struct bytes *w, struct bytes *u);

/* Two joined loops that take many rounds to settle, under a catalogue in which each command conflicts with the next. */
void long_settling(struct bytes *catalogue, struct bytes *v, struct bytes *w);

/* Makes a plan too long for line 7, or gives it a byte that line 8 refuses. */
void damage_plan(const struct conflicts *k, struct bytes *plan, size_t most);

/* A list of places in a word, two by two, as 16-bit numbers: often such that a chain of conflicting letters leads from
 * the first of each pair, or of most, to the second, and now and then with many pairs. One damage to a list for a word
 * of so many letters: a number too many or too few, a place past the word, or the same place twice. */
void random_places(const struct conflicts *k, const struct word *w, struct bytes *places);
void damage_places(size_t letters, struct bytes *places);

#endif
