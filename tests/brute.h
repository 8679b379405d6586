/* Searches through every word that plain steps reach, through every chain of conflicting letters and through every
 * numbering, for short words: a second opinion on the solver. */
#ifndef BRUTE_H
#define BRUTE_H

#include "solver.h"

enum { MOST_BRUTE = 6 };

/* What may be done at the ends of a word: nothing; a first and a last letter that undo each other taken off, which
 * leads to the core if the word is shortest; the first letter moved to the end. */
enum ends { KEPT, PAIRS_OFF, TURNED };

/* w, of at most MOST_BRUTE letters, becomes the first word, shortest first and then by the order 1, -1, 2, -2, ...,
 * that can be made of it by swapping neighbours that do not conflict, taking out neighbours that undo each other, and
 * what may be done at the ends. */
void brute_least(const struct conflicts *k, struct word *w, enum ends ends);

enum { MOST_ARRANGED = 7, MOST_NUMBERED = 5 };

/* Bit j of before[i] says that in every arrangement of w, of at most MOST_ARRANGED letters, that swaps of neighbours
 * that do not conflict reach, the letter from place i stands before the letter from place j. */
void brute_before(const struct conflicts *k, const struct word *w, unsigned before[MOST_ARRANGED]);

/* How many letters the longest chain of conflicting letters, each before the next, has that ends at a place. */
size_t brute_chain(const struct conflicts *k, const struct word *w, size_t last);

/* Of all ways to number the letters of w, of at most MOST_NUMBERED, so that of two conflicting letters the earlier has
 * the smaller number: the smallest number that each letter has in any of them, and the fewest different ones. */
void brute_numbers(const struct conflicts *k, const struct word *w, unsigned smallest[MOST_NUMBERED], size_t *fewest);

#endif
