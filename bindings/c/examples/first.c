/* A first index: cc first.c librstar.a */
#include "rstar.h"

#include <inttypes.h>
#include <stdio.h>

int main(void) {
    const rstar_box boxes[] = {{{0, 0}, {4, 4}}, {{3, 3}, {9, 9}}, {{20, 0}, {22, 5}}};
    const uint64_t ids[] = {7, 8, 9};
    const rstar_box area = {{4, 4}, {6, 6}};
    rstar_index index = RSTAR_INDEX_EMPTY;
    uint64_t answers[10] = {0};
    if (rstar_index_load(&index, boxes, 3, ids, 3) != RSTAR_OK) {
        return 1;
    }
    size_t found = rstar_index_meeting(&index, &area, answers, 10);
    for (size_t i = 0; i < found; i++) {
        printf("%" PRIu64 "\n", answers[i]); /* 7 and 8, in any order */
    }
    rstar_index_clear(&index);
    return 0;
}
