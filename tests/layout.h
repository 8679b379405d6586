/* Where the parts of a catalogue stand, in either edition, and a catalogue of the first written in the second. */
#ifndef LAYOUT_H
#define LAYOUT_H

#include <stdbool.h>
#include <stddef.h>
#include <stdint.h>

enum { MOST_COMMANDS = 24, MOST_RECORDS = 1024 };

/* R and every index take width bytes, low byte first: one in the first edition, two in the second. */
struct layout {
    const uint8_t *bytes;
    unsigned commands, records, width;
};

static inline unsigned index_at(const struct layout *l, size_t place) {
    return l->width == 1 ? l->bytes[place] : l->bytes[place] + 256u * l->bytes[place + 1];
}

/* What the first bytes of a catalogue claim, whether the others are there or not. N or R is 0 if it is not there. */
static inline struct layout layout_of(const uint8_t *bytes, size_t size) {
    struct layout l = {bytes, 0, 0, 1};
    if (size > 0) l.commands = bytes[0] % 128;
    if (size > 0 && bytes[0] >= 128) l.width = 2;
    if (size > l.width) l.records = index_at(&l, 1);
    return l;
}

/* The places of the head of a command and of the command of a record, behind which its next index stands. */
static inline size_t head_place(const struct layout *l, unsigned command) { return 1 + l->width * (size_t)command; }
static inline size_t record_place(const struct layout *l, unsigned record) {
    return l->width * (size_t)l->commands + (1 + l->width) * (size_t)record;
}

static inline size_t whole_size(const struct layout *l) {
    return 1 + l->width + l->width * (size_t)l->commands + (1 + l->width) * (size_t)l->records;
}

static inline unsigned head_of(const struct layout *l, unsigned command) { return index_at(l, head_place(l, command)); }
static inline unsigned record_command(const struct layout *l, unsigned r) { return l->bytes[record_place(l, r)]; }
static inline unsigned record_next(const struct layout *l, unsigned r) { return index_at(l, record_place(l, r) + 1); }

static inline bool is_first_edition(const uint8_t *bytes, size_t size) { return size == 0 || bytes[0] < 128; }

/* Writes a catalogue of the first edition in the second, right or not, and returns its new size, at most twice the old
 * one: R, the heads and the next indices get a high byte. One that is too short for N and R stays as it is. */
static inline size_t rewrite_catalogue(const uint8_t *bytes, size_t size, uint8_t *to) {
    size_t records = size > 0 ? 2 + (size_t)bytes[0] : 2, written = 0;
    for (size_t i = 0; i < size; i++) {
        bool command = i >= records && (i - records) % 2 == 0;
        to[written++] = bytes[i];
        if (i > 0 && !command) to[written++] = 0;
    }
    if (size > 1) to[0] += 128;
    return written;
}

/* Where a head, or a byte of a record, stands then; place 0 stays. */
static inline size_t rewritten_place(const uint8_t *bytes, size_t place) {
    size_t records = 2 + (size_t)bytes[0], behind = place - records;
    if (place < records) return place == 0 ? 0 : 2 * place - 1;
    return 2 * records - 1 + 3 * (behind / 2) + behind % 2;
}

#endif
