/* The estimator's four calls as document 01 has them: a result, and a set in eight bytes. */
#include "document01.h"

enum { SET_BYTES = 8, STEP_TEXT_NUMBERS = 50 };

static uint32_t result_of(struct refusal refusal)
{
    return (uint32_t)(100 * refusal.place + refusal.number);
}

static uint32_t answer_set(const struct bus_set *answer, uint8_t *set, size_t set_len)
{
    if (set_len < SET_BYTES)
        return result_of(refuse(6, 0));
    for (unsigned byte = 0; byte < SET_BYTES; byte++) {
        set[byte] = 0;
        for (unsigned bit = 0; bit < 8; bit++)
            if (answer->has[8 * byte + bit + 1])
                set[byte] = (uint8_t)(set[byte] + (1u << bit));
    }
    return 0;
}

uint32_t document01_observed(const uint8_t *case_text, size_t case_len, uint8_t *set, size_t set_len)
{
    struct grid_case grid;
    struct bus_set observed;
    struct refusal refusal = read_case_text(case_text, case_len, &grid);
    if (refusal.number != 0)
        return result_of(refusal);
    observe(&grid, &observed);
    return answer_set(&observed, set, set_len);
}

uint32_t document01_unconfirmed(const uint8_t *case_text, size_t case_len, uint8_t *set, size_t set_len)
{
    struct grid_case grid;
    struct bus_set unconfirmed;
    struct refusal refusal = read_case_text(case_text, case_len, &grid);
    if (refusal.number != 0)
        return result_of(refusal);
    find_unconfirmed(&grid, &unconfirmed);
    return answer_set(&unconfirmed, set, set_len);
}

uint32_t document01_fewest(const uint8_t *case_text, size_t case_len, size_t budget, uint8_t *set, size_t set_len)
{
    struct grid_case grid;
    struct bus_set added;
    struct refusal refusal = read_case_text(case_text, case_len, &grid);
    if (refusal.number == 0)
        refusal = place_fewest(&grid, budget, &added);
    if (refusal.number != 0)
        return result_of(refusal);
    return answer_set(&added, set, set_len);
}

uint32_t document01_replay(const uint8_t *case_text, size_t case_len, const uint8_t *step_text, size_t step_len,
                           uint8_t *set, size_t set_len)
{
    struct grid_case grid;
    struct step steps[MOST_STEPS];
    size_t step_count;
    struct bus_set reached;
    struct refusal refusal = read_case_text(case_text, case_len, &grid);
    if (refusal.number != 0)
        return result_of(refusal);
    refusal = read_step_text(step_text, step_len, steps, &step_count);
    if (refusal.number != 0)
        return result_of(refuse(refusal.number + STEP_TEXT_NUMBERS, refusal.place));
    refusal = replay(&grid, steps, step_count, &reached);
    if (refusal.number != 0)
        return result_of(refusal);
    return answer_set(&reached, set, set_len);
}
