/* Searches through every word that plain steps reach, and through more; see brute.h. A word is kept as a number, its
 * last letter in the lowest byte, each letter as 2k for k and 2k + 1 for its undo. Then a smaller number is an earlier
 * word, and a shorter word is a smaller number. */
#include "brute.h"

#include <stdio.h>
#include <stdlib.h>
#include <string.h>

enum { BUCKET_BITS = 14, BUCKETS = 1 << BUCKET_BITS };

static uint64_t found[BUCKETS], bucket[BUCKETS];
static size_t count;

static void find(uint64_t word) {
    size_t at = (size_t)(word * 0x9E3779B97F4A7C15u >> (64 - BUCKET_BITS));
    while (bucket[at] != 0) {
        if (bucket[at] == word + 1) return;
        at = (at + 1) % BUCKETS;
    }
    if (count == BUCKETS / 2) {
        fputs("brute: too many words\n", stderr);
        exit(1);
    }
    bucket[at] = word + 1;
    found[count++] = word;
}

static void find_first(uint64_t word) {
    memset(bucket, 0, sizeof bucket);
    count = 0;
    find(word);
}

static uint64_t pack(const struct word *w) {
    uint64_t packed = 0;
    for (size_t i = 0; i < w->size; i++)
        packed = packed << 8 | (uint64_t)(2 * command_of(w->letter[i]) + (w->letter[i] >> 7));
    return packed;
}

static void unpack(uint64_t packed, struct word *w) {
    w->size = 0;
    for (uint64_t left = packed; left != 0; left >>= 8) w->size++;
    for (size_t i = w->size; i-- > 0; packed >>= 8) {
        uint8_t code = packed & 255;
        w->letter[i] = (uint8_t)((code & 1) << 7 | code >> 1);
    }
}

/* Finds what is left of w without its first and its last letter, or w turned by one letter. */
static void step_at_the_ends(const struct word *w, uint64_t packed, enum ends ends) {
    unsigned top = (unsigned)(8 * (w->size - 1));
    uint64_t behind = packed & (((uint64_t)1 << top) - 1);
    if (ends == TURNED) find(behind << 8 | packed >> top);
    if (ends == PAIRS_OFF && w->letter[0] == undo_of(w->letter[w->size - 1])) find(behind >> 8);
}

/* Finds every word that one step makes of w. */
static void step(const struct conflicts *k, struct word *w, enum ends ends) {
    uint64_t packed = pack(w);
    for (size_t i = 0; i + 1 < w->size; i++) {
        unsigned low = (unsigned)(8 * (w->size - 2 - i));
        uint64_t x = packed >> low >> 8 & 255, y = packed >> low & 255;
        uint64_t rest = packed & ~((uint64_t)0xFFFF << low);
        if (x == (y ^ 1))
            find(rest >> low >> 16 << low | (rest & (((uint64_t)1 << low) - 1)));
        if (!conflict(k, w->letter[i], w->letter[i + 1]))
            find(rest | (y << 8 | x) << low);
    }
    if (w->size > 1) step_at_the_ends(w, packed, ends);
}

void brute_least(const struct conflicts *k, struct word *w, enum ends ends) {
    find_first(pack(w));
    uint64_t least = found[0];
    for (size_t i = 0; i < count; i++) {
        if (found[i] < least) least = found[i];
        unpack(found[i], w);
        step(k, w, ends);
    }
    unpack(least, w);
}

/* ---- Arrangements: a word of places, each with 1 more than its number as a letter */

static unsigned place_in(uint64_t packed, size_t size, size_t at) {
    return (unsigned)(packed >> (8 * (size - 1 - at)) & 255) - 1;
}

/* Finds every arrangement that one swap makes of another. */
static void swap(const struct conflicts *k, const struct word *w, uint64_t packed) {
    for (size_t i = 0; i + 1 < w->size; i++) {
        unsigned low = (unsigned)(8 * (w->size - 2 - i));
        unsigned x = place_in(packed, w->size, i), y = place_in(packed, w->size, i + 1);
        uint64_t rest = packed & ~((uint64_t)0xFFFF << low);
        if (!conflict(k, w->letter[x], w->letter[y])) find(rest | ((uint64_t)(y + 1) << 8 | (x + 1)) << low);
    }
}

void brute_before(const struct conflicts *k, const struct word *w, unsigned before[MOST_ARRANGED]) {
    uint64_t packed = 0;
    for (size_t i = 0; i < w->size; i++) packed = packed << 8 | (i + 1);
    find_first(packed);
    for (size_t i = 0; i < w->size; i++) before[i] = ~0u;
    for (size_t i = 0; i < count; i++) {
        unsigned behind = 0;
        for (size_t at = w->size; at-- > 0;) {
            unsigned place = place_in(found[i], w->size, at);
            before[place] &= behind;
            behind |= 1u << place;
        }
        swap(k, w, found[i]);
    }
}

/* ---- Chains and numberings */

size_t brute_chain(const struct conflicts *k, const struct word *w, size_t last) {
    size_t longest = 0;
    for (size_t i = 0; i < last; i++) {
        size_t chain = conflict(k, w->letter[i], w->letter[last]) ? brute_chain(k, w, i) : 0;
        if (chain > longest) longest = chain;
    }
    return longest + 1;
}

static bool fits(const struct conflicts *k, const struct word *w, const unsigned *number, size_t at) {
    for (size_t i = 0; i < at; i++)
        if (conflict(k, w->letter[i], w->letter[at]) && number[i] >= number[at]) return false;
    return true;
}

static size_t different(const unsigned *number, size_t size) {
    uint32_t set = 0;
    for (size_t i = 0; i < size; i++) set |= 1u << number[i];
    return (size_t)__builtin_popcount(set);
}

/* Numbers the letters from a place on in every way. Numbers below the size are enough: to count the different ones up
 * from 0 makes none larger and keeps their order. */
static void number_from(const struct conflicts *k, const struct word *w, size_t at, unsigned *number,
                        unsigned *smallest, size_t *fewest) {
    if (at == w->size) {
        if (different(number, at) < *fewest) *fewest = different(number, at);
        for (size_t i = 0; i < at; i++)
            if (number[i] < smallest[i]) smallest[i] = number[i];
        return;
    }
    for (number[at] = 0; number[at] < w->size; number[at]++)
        if (fits(k, w, number, at)) number_from(k, w, at + 1, number, smallest, fewest);
}

void brute_numbers(const struct conflicts *k, const struct word *w, unsigned smallest[MOST_NUMBERED], size_t *fewest) {
    unsigned number[MOST_NUMBERED];
    *fewest = w->size;
    for (size_t i = 0; i < w->size; i++) smallest[i] = (unsigned)w->size;
    number_from(k, w, 0, number, smallest, fewest);
}
