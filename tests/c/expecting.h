/* What the library must reply to a question, and what it must leave in memory. Each expectation is one check: the
 * question is asked with the texts in guarded memory, and several times with different bytes in and around the memory
 * lent for the set. */
#ifndef EXPECTING_H
#define EXPECTING_H

#include "asking.h"

void prepare_expectations(void);

/* `buses`: the rising numbers, separated by blanks. */
void expect_set(const char *name, struct question question, const char *buses);
void expect_refusal(const char *name, struct question question, uint32_t result);
/* With `set_len` bytes lent for the set; `buses` counts only if `result` is 0. */
void expect_reply(const char *name, struct question question, size_t set_len, uint32_t result, const char *buses);
/* The same refusal of the case text by every call, whatever the step text, the budget and the room for the set. */
void expect_case_refusal(const char *name, const uint8_t *case_text, size_t case_len, uint32_t result);
/* The same for a text with no NUL in it. */
void expect_case_text_refusal(const char *name, const char *case_text, uint32_t result);

#endif
