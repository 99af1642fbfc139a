#include "expecting.h"

#include "checking.h"
#include "guarded.h"

#include <stdbool.h>
#include <stdio.h>
#include <stdlib.h>
#include <string.h>

enum { TEXT_ROOM = 40000, GUARD = 32, MOST_LENT = 64, SET_BYTES = 8 };

static struct guarded case_memory, step_memory;
static const char *asked_now = "nothing";

static const char *name_at_fault(void)
{
    return asked_now;
}

void prepare_expectations(void)
{
    make_guarded(&case_memory, TEXT_ROOM);
    make_guarded(&step_memory, TEXT_ROOM);
    say_at_fault(name_at_fault);
}

static void put_buses(const char *buses, uint8_t set[SET_BYTES])
{
    char *rest;
    memset(set, 0, SET_BYTES);
    for (unsigned long bus = strtoul(buses, &rest, 10); bus != 0; bus = strtoul(rest, &rest, 10))
        set[(bus - 1) / 8] |= (uint8_t)(1u << (bus - 1) % 8);
}

static bool replies_over(const struct question *question, size_t set_len, uint32_t result, const char *buses,
                         int filling)
{
    uint8_t lent[GUARD + MOST_LENT + GUARD], expected[sizeof lent];
    for (size_t i = 0; i < sizeof lent; i++)
        lent[i] = filling < 0 ? (uint8_t)(i * 37 + 11) : (uint8_t)filling;
    memcpy(expected, lent, sizeof lent);
    if (result == 0)
        put_buses(buses, expected + GUARD);
    return library_reply(question, lent + GUARD, set_len) == result && memcmp(lent, expected, sizeof lent) == 0;
}

static bool replies(struct question question, size_t set_len, uint32_t result, const char *buses)
{
    if (question.case_text != NULL)
        question.case_text = guard_text(&case_memory, question.case_text, question.case_len);
    if (question.step_text != NULL)
        question.step_text = guard_text(&step_memory, question.step_text, question.step_len);
    return replies_over(&question, set_len, result, buses, 0x00) &&
           replies_over(&question, set_len, result, buses, 0xff) && replies_over(&question, set_len, result, buses, -1);
}

void expect_reply(const char *name, struct question question, size_t set_len, uint32_t result, const char *buses)
{
    char whole_name[200];
    snprintf(whole_name, sizeof whole_name, "%s: %s\n", call_names[question.call], name);
    asked_now = whole_name;
    bool holds = replies(question, set_len, result, buses);
    whole_name[strcspn(whole_name, "\n")] = '\0';
    check(holds, whole_name);
    asked_now = "nothing";
}

void expect_set(const char *name, struct question question, const char *buses)
{
    expect_reply(name, question, SET_BYTES, 0, buses);
}

void expect_refusal(const char *name, struct question question, uint32_t result)
{
    expect_reply(name, question, SET_BYTES, result, "");
}

static bool every_call_replies(const uint8_t *case_text, size_t case_len, uint32_t result)
{
    static const size_t lent[] = {0, 7, 8, 16};
    static const char *const step_texts[] = {"end\n", "step\t65\tO\nend\n", "nonsense"};
    static const size_t budgets[] = {0, 8, 9};
    bool holds = true;
    for (size_t i = 0; i < sizeof lent / sizeof *lent; i++)
        for (int call = 0; call < CALL_COUNT; call++)
            for (size_t j = 0; j < 3; j++) {
                struct question question = ask_replay("", step_texts[j]);
                question.call = (enum call)call;
                question.case_text = case_text;
                question.case_len = case_len;
                question.budget = budgets[j];
                holds = holds && replies(question, lent[i], result, "");
            }
    return holds;
}

void expect_case_refusal(const char *name, const uint8_t *case_text, size_t case_len, uint32_t result)
{
    char whole_name[200];
    snprintf(whole_name, sizeof whole_name, "every call: %s\n", name);
    asked_now = whole_name;
    bool holds = every_call_replies(case_text, case_len, result);
    whole_name[strcspn(whole_name, "\n")] = '\0';
    check(holds, whole_name);
    asked_now = "nothing";
}

void expect_case_text_refusal(const char *name, const char *case_text, uint32_t result)
{
    expect_case_refusal(name, (const uint8_t *)case_text, strlen(case_text), result);
}
