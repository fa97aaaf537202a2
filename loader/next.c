/* What loader_next leaves as it is: it writes the indexes of the scans that count, and no other word. Steps a plan of two scans with words
   past its counts, and one in a slot of a variable, that no plan of the planner has. Fails where one of them changes. */
#include "loader.h"
#include <stdio.h>
#include <string.h>

enum { LAST_SCAN = LOADER_MAX_SCANS - 1, LAST_SELECT = LOADER_MAX_SELECTS - 1 };

int main(void)
{
    /* (variable 0, attribute 5, variable 1), (variable 1, attribute 9, the constant 7); select variable 1. */
    static const struct loader_query query = {
        .variable_count = 2, .statement_count = 2, .select_count = 1,
        .statements = {
            { .entity = 0, .attribute = 5, .is_constant = 0, .value = 1 },
            { .entity = 1, .attribute = 9, .is_constant = 1, .value = 7 },
        },
        .select = { 1 },
    };
    /* The indexes of the six plans, scan 0 going fastest; then the first again. */
    static const uint64_t indexes[][2] = {
        { LOADER_AEVT, LOADER_AEVT }, { LOADER_AVET, LOADER_AEVT }, { LOADER_AEVT, LOADER_AVET }, { LOADER_AVET, LOADER_AVET },
        { LOADER_AEVT, LOADER_EAVT }, { LOADER_AVET, LOADER_EAVT }, { LOADER_AEVT, LOADER_AEVT },
    };
    static struct loader_plan plan, next;
    static struct loader_answer answer;

    if (loader_plan(&query, &plan, &answer) != 0) {
        printf("plan refused: number %llu, place %llu\n", (unsigned long long)answer.number, (unsigned long long)answer.place);
        return 1;
    }
    plan.scans[LAST_SCAN].index = 9;
    plan.scans[2].flow = 3;
    plan.slots[0].is_constant = 2;
    plan.slots[0].value = 11;
    plan.slots[LOADER_MAX_SLOTS - 1].is_constant = 2;
    plan.select[LAST_SELECT] = 65536;
    next = plan;
    for (int i = 1; i < 7; i++) {
        if (loader_next(&next, &answer) != 0) {
            printf("next refused: number %llu, place %llu\n", (unsigned long long)answer.number, (unsigned long long)answer.place);
            return 1;
        }
        plan.scans[0].index = indexes[i][0];
        plan.scans[1].index = indexes[i][1];
        if (answer.first != (i < 6) || memcmp(&next, &plan, sizeof plan) != 0) {
            printf("next: step %d is not the plan with the next indexes and every other word as it was\n", i);
            return 1;
        }
    }
    return 0;
}
