/* A question to one of the library's four calls. */
#ifndef ASKING_H
#define ASKING_H

#include <stddef.h>
#include <stdint.h>

enum call { OBSERVED, UNCONFIRMED, FEWEST, REPLAY, CALL_COUNT };

/* A field that a call does not take is not used. */
struct question {
    enum call call;
    const uint8_t *case_text;
    size_t case_len;
    const uint8_t *step_text;
    size_t step_len;
    size_t budget;
};

extern const char *const call_names[CALL_COUNT];

struct question ask_observed(const char *case_text);
struct question ask_unconfirmed(const char *case_text);
struct question ask_fewest(const char *case_text, size_t budget);
struct question ask_replay(const char *case_text, const char *step_text);

/* The library's reply. */
uint32_t library_reply(const struct question *question, uint8_t *set, size_t set_len);

#endif
