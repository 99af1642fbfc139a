/* Document 01 in C, with document 02's parallel circuits, rounds and default budget, written from their words alone and
 * for plainness. The library and the programs are compared with it. Sets are arrays of truth values. Buses count from 1
 * and are their own index. */
#ifndef DOCUMENT01_H
#define DOCUMENT01_H

#include <stdbool.h>
#include <stddef.h>
#include <stdint.h>

enum {
    MOST_BUSES = 64,
    MOST_LINES = 256,
    LEAST_SAID_CIRCUITS = 2,
    MOST_CIRCUITS = 8,
    MOST_STEPS = 1024,
    MOST_BUDGET = 8,
    DEFAULT_BUDGET = 3,
    CASE_TEXT_LIMIT = 8192,
    STEP_TEXT_LIMIT = 16384,
    MOST_PRINTED = 2048
};

/* `circuits` is 0 for two buses that are not joined. No rule of observation or of placing asks for it. */
struct grid_case {
    size_t buses;
    bool joined[MOST_BUSES + 1][MOST_BUSES + 1];
    uint8_t circuits[MOST_BUSES + 1][MOST_BUSES + 1];
    size_t neighbour_count[MOST_BUSES + 1];
    unsigned neighbours[MOST_BUSES + 1][MOST_BUSES];
    bool zero_injection[MOST_BUSES + 1];
    bool open_site[MOST_BUSES + 1];
    bool unit[MOST_BUSES + 1];
};

struct bus_set {
    bool has[MOST_BUSES + 1];
};

/* `by` is the bus in the reason: the unit's bus for N, the zero-injection bus for Z, 0 for O. */
struct step {
    unsigned bus;
    char reason;
    unsigned by;
};

/* Number 0: not refused. */
struct refusal {
    unsigned number;
    size_t place;
};

struct refusal refuse(unsigned number, size_t place);
struct refusal accept(void);

/* document01_texts.c */
void join_buses(struct grid_case *grid, unsigned a, unsigned b, unsigned circuits);
struct refusal read_case_text(const uint8_t *text, size_t length, struct grid_case *grid);
struct refusal read_step_text(const uint8_t *text, size_t length, struct step steps[MOST_STEPS], size_t *step_count);
/* Whether `length` bytes have the form of a number, and which. */
bool read_number(const uint8_t *digits, size_t length, unsigned *number);

/* document01_observing.c */
void spread_by_zero_injection(const struct grid_case *grid, struct bus_set *observed);
void add_unit(const struct grid_case *grid, unsigned bus, struct bus_set *observed);
void observe(const struct grid_case *grid, struct bus_set *observed);
bool reason_holds(const struct grid_case *grid, const struct bus_set *observed, struct step step);
size_t derive(const struct grid_case *grid, struct step steps[MOST_BUSES]);
struct refusal replay(const struct grid_case *grid, const struct step *steps, size_t step_count,
                      struct bus_set *observed);

/* document01_rounds.c: the buses that each round adds, of the rounds that add any. Gives how many there are. */
size_t observe_in_rounds(const struct grid_case *grid, struct bus_set added[MOST_BUSES]);

/* document01_placing.c */
void find_unconfirmed(const struct grid_case *grid, struct bus_set *unconfirmed);
struct refusal place_fewest(const struct grid_case *grid, size_t budget, struct bus_set *added);

/* document01_calls.c: the four calls of the estimator, as include/wozgrzyt.h has them. */
uint32_t document01_observed(const uint8_t *case_text, size_t case_len, uint8_t *set, size_t set_len);
uint32_t document01_unconfirmed(const uint8_t *case_text, size_t case_len, uint8_t *set, size_t set_len);
uint32_t document01_fewest(const uint8_t *case_text, size_t case_len, size_t budget, uint8_t *set, size_t set_len);
uint32_t document01_replay(const uint8_t *case_text, size_t case_len, const uint8_t *step_text, size_t step_len,
                           uint8_t *set, size_t set_len);

/* document01_programs.c: what the three programs print for an input. Each returns the length of what it printed, and
 * gives the refusal's number, or 0. */
size_t print_day_report(const uint8_t *input, size_t length, char printed[MOST_PRINTED], unsigned *number);
size_t print_plan(const uint8_t *input, size_t length, char printed[MOST_PRINTED], unsigned *number);
size_t print_rounds(const uint8_t *input, size_t length, char printed[MOST_PRINTED], unsigned *number);

#endif
