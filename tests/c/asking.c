#include "asking.h"

#include "wozgrzyt.h"

#include <string.h>

const char *const call_names[CALL_COUNT] = {"wz_observed", "wz_unconfirmed", "wz_fewest", "wz_replay"};

static struct question ask(enum call call, const char *case_text)
{
    struct question question = {.call = call, .case_text = (const uint8_t *)case_text, .case_len = strlen(case_text)};
    return question;
}

struct question ask_observed(const char *case_text)
{
    return ask(OBSERVED, case_text);
}

struct question ask_unconfirmed(const char *case_text)
{
    return ask(UNCONFIRMED, case_text);
}

struct question ask_fewest(const char *case_text, size_t budget)
{
    struct question question = ask(FEWEST, case_text);
    question.budget = budget;
    return question;
}

struct question ask_replay(const char *case_text, const char *step_text)
{
    struct question question = ask(REPLAY, case_text);
    question.step_text = (const uint8_t *)step_text;
    question.step_len = strlen(step_text);
    return question;
}

uint32_t library_reply(const struct question *q, uint8_t *set, size_t set_len)
{
    switch (q->call) {
    case OBSERVED:
        return wz_observed(q->case_text, q->case_len, set, set_len);
    case UNCONFIRMED:
        return wz_unconfirmed(q->case_text, q->case_len, set, set_len);
    case FEWEST:
        return wz_fewest(q->case_text, q->case_len, q->budget, set, set_len);
    default:
        return wz_replay(q->case_text, q->case_len, q->step_text, q->step_len, set, set_len);
    }
}
