/* Memory between two pages that may not be touched; see guarded.h. */
#define _GNU_SOURCE
#include "guarded.h"

#include <stdio.h>
#include <stdlib.h>
#include <string.h>
#include <sys/mman.h>

enum { PAGE = 1 << 14, NOISE = 1 << 15 };

/* Random bytes, and as many again as may be asked for from any of the first NOISE places. */
static uint8_t noise[GUARD + NOISE + MOST_GUARDED + GUARD];

static void make_noise(void) {
    uint64_t state = 0x853C49E6748FEA9Bu;
    for (size_t i = 0; i < sizeof noise; i++) {
        state = state * 6364136223846793005u + 1442695040888963407u;
        noise[i] = (uint8_t)(state >> 56);
    }
}

void guarded_open(struct guarded *g) {
    uint8_t *memory = mmap(NULL, MOST_GUARDED + 2 * PAGE, PROT_NONE, MAP_PRIVATE | MAP_ANONYMOUS, -1, 0);
    if (memory == MAP_FAILED || mprotect(memory + PAGE, MOST_GUARDED, PROT_READ | PROT_WRITE) != 0) {
        perror("guarded memory");
        exit(1);
    }
    if (noise[0] == 0) make_noise();
    g->first = g->at = memory + PAGE;
    g->noise = noise + GUARD;
    g->size = 0;
}

/* How many bytes beside them, before and behind, may be touched and are compared. */
static size_t before(const struct guarded *g) {
    size_t there = (size_t)(g->at - g->first);
    return there < GUARD ? there : GUARD;
}

static size_t after(const struct guarded *g) {
    size_t there = (size_t)(g->first + MOST_GUARDED - g->at) - g->size;
    return there < GUARD ? there : GUARD;
}

void guarded_noise(struct guarded *g, size_t size, bool behind, size_t noise_from) {
    g->noise = noise + GUARD + noise_from % NOISE;
    g->size = size;
    g->at = behind ? g->first + MOST_GUARDED - size : g->first;
    memcpy(g->at - before(g), g->noise - before(g), before(g) + size + after(g));
}

void guarded_again(struct guarded *g, const struct guarded *other, bool behind) {
    guarded_noise(g, other->size, behind, (size_t)(other->noise - noise) - GUARD);
}

void guarded_bytes(struct guarded *g, const uint8_t *bytes, size_t size, bool behind) {
    guarded_noise(g, size, behind, size);
    memcpy(g->at, bytes, size);
}

bool guarded_holds(const struct guarded *g, const uint8_t *bytes, size_t size) {
    return memcmp(g->at - before(g), g->noise - before(g), before(g)) == 0
        && (size == 0 || memcmp(g->at, bytes, size) == 0)
        && memcmp(g->at + size, g->noise + size, g->size - size + after(g)) == 0;
}
