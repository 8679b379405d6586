/* Memory to hand to the library. It lies against a page that may not be touched, so that a byte read or written past
 * its end, or before its start, stops the test. What a call leaves in it and beside it can be compared. */
#ifndef GUARDED_H
#define GUARDED_H

#include <stdbool.h>
#include <stddef.h>
#include <stdint.h>

enum { MOST_GUARDED = 1 << 16, GUARD = 64 };

struct guarded {
    uint8_t *first, *at;
    const uint8_t *noise;
    size_t size;
};

void guarded_open(struct guarded *g);

/* Sets size bytes aside, against the page behind or against the page before, with noise in them and beside them. */
void guarded_noise(struct guarded *g, size_t size, bool behind, size_t noise_from);

/* As many bytes as another has, with the same noise. */
void guarded_again(struct guarded *g, const struct guarded *other, bool behind);

/* The same with given bytes in them. */
void guarded_bytes(struct guarded *g, const uint8_t *bytes, size_t size, bool behind);

/* Whether the bytes are these, then noise as before, and the bytes beside them are as they were. */
bool guarded_holds(const struct guarded *g, const uint8_t *bytes, size_t size);

#endif
