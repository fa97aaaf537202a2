/* A plan that selects a constant: the check, evaluation, text and the name of any select answer 29 at the lowest such select, and nothing
   else is written; its cost is answered. */
#include "loader.h"
#include <stdio.h>
#include <string.h>

static const uint64_t aevt[] = { 5, 3, 7 }, avet[] = { 5, 7, 3 }, eavt[] = { 3, 5, 7 }, ends[] = { 1, 1 };
static int wrong;

static void says(const char *call, uint64_t result, const struct loader_answer *answer, uint64_t number, uint64_t place)
{
    if (result != number || answer->number != number || answer->place != place) {
        printf("%s: %llu at %llu\n", call, (unsigned long long)answer->number, (unsigned long long)answer->place);
        wrong = 1;
    }
}

int main(void)
{
    struct loader_plan plan;
    struct loader_answer answer;
    uint64_t rows[2] = { 77, 77 };
    uint8_t text[64] = "as it was";
    memset(&plan, 0, sizeof plan);
    /* (x, 5, 7) over avet; slot 0 is x, slot 1 the constant 7 */
    plan.scan_count = 1;
    plan.slot_count = 2;
    plan.select_count = 2;
    plan.scans[0] = (struct loader_scan){ LOADER_AVET, LOADER_IN_OUT, 0, 5, 1 };
    plan.slots[1] = (struct loader_slot){ 1, 7 };
    plan.select[1] = 1;
    says("check", loader_check(&plan, &answer), &answer, LOADER_CONSTANT_SELECTED, 1);
    says("evaluate", loader_evaluate(&plan, aevt, 3, avet, 3, eavt, 3, 0, rows, 2, &answer), &answer, LOADER_CONSTANT_SELECTED, 1);
    says("text", loader_text(&plan, (const uint8_t *)"x", 1, ends, 2, text, sizeof text, &answer), &answer, LOADER_CONSTANT_SELECTED, 1);
    says("name", loader_select_name(&plan, (const uint8_t *)"x", 1, ends, 2, 0, &answer), &answer, LOADER_CONSTANT_SELECTED, 1);
    says("cost", loader_cost(&plan, &answer), &answer, 0, 0);
    if (rows[0] != 77 || rows[1] != 77 || strcmp((const char *)text, "as it was") != 0) {
        puts("a refused call wrote");
        wrong = 1;
    }
    plan.select[1] = 0;
    says("check of x twice", loader_check(&plan, &answer), &answer, 0, 0);
    plan.select[0] = 2;
    plan.select[1] = 1;
    says("26 before it", loader_check(&plan, &answer), &answer, LOADER_NO_SUCH_SELECT, 0);
    return wrong;
}
