/* Four calls of busplan.h in hand-written C: what the library is measured beside. */
#ifndef BEADS_H
#define BEADS_H

#include <stddef.h>
#include <stdint.h>

int64_t beads_normal_form(const uint8_t *catalogue, size_t catalogue_size, const uint8_t *plan, size_t plan_size,
                          uint8_t *area, size_t area_size);
int64_t beads_equal(const uint8_t *catalogue, size_t catalogue_size, const uint8_t *v, size_t v_size,
                    const uint8_t *w, size_t w_size);
int64_t beads_loops(const uint8_t *catalogue, size_t catalogue_size, const uint8_t *v, size_t v_size,
                    const uint8_t *w, size_t w_size, uint8_t *area, size_t area_size);
int64_t beads_lead_in_check(const uint8_t *catalogue, size_t catalogue_size, const uint8_t *v, size_t v_size,
                            const uint8_t *w, size_t w_size, const uint8_t *u, size_t u_size,
                            uint8_t *area0, size_t area0_size, uint8_t *area1, size_t area1_size);

#endif
