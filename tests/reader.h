/* A second reader of the beacon team's notation, written from the specification alone, to compare the library with.
 * It reads a text once, into a tree of its items, and writes that out forwards or backwards. Nothing about it is
 * proved. */
#ifndef READER_H
#define READER_H

#include <stddef.h>
#include <stdint.h>

enum { MOST_TEXT = 1 << 16, MOST_NESTING = 8 };

/* The calls, with the arguments and the answers of busplan.h, for texts of up to MOST_TEXT bytes. */
int64_t solver_write_out(const uint8_t *catalogue, size_t catalogue_size, const uint8_t *text, size_t text_size,
                         uint8_t *area, size_t area_size);
int64_t solver_text_fault(const uint8_t *catalogue, size_t catalogue_size, const uint8_t *text, size_t text_size,
                          uint64_t fault[2]);

#endif
