/* What tests/install.sh compiles with the installed library, as C and as C++. It prints the normal form of (1, 3, -1),
 * with its length before it, and what is wrong with (1, 5): the refusal, the plan and the place. */
#include <busplan.h>
#include <stdio.h>

int main(void) {
    const uint8_t k[] = {4, 3, 1, 2, 3, 0, 2, 0, 3, 0, 4, 0}, plan[] = {1, 3, 129}, wrong[] = {1, 5};
    uint8_t area[BUSPLAN_FORM_ROOM(sizeof plan)];
    uint64_t fault[2];
    int64_t length = busplan_normal_form(k, sizeof k, plan, sizeof plan, area, sizeof area);
    int64_t refusal = busplan_fault(k, sizeof k, wrong, sizeof wrong, NULL, 0, NULL, 0, fault);
    printf("%d %d, %d %d %d\n", (int)length, area[0], (int)refusal, (int)fault[0], (int)fault[1]);
    return busplan_refusal_text(length) == busplan_refusal_text(refusal);
}
