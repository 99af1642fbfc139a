/* Wozgrzyt for C programs: which buses of a grid its phasor units observe.
 *
 * Link with libwozgrzyt.a (x86-64 Linux); `pkg-config --cflags --libs wozgrzyt` says how. In a checkout the archive is
 * target/staticlib/libestimator.a. There are four calls. Each is given the whole case as a text and answers a set of
 * buses. Each checks everything itself: any bytes, any lengths and any budget get a reply.
 *
 * THE CASE TEXT
 *
 * One record to a line. One tab separates two fields, and one line feed ends each line, the last one too. The records
 * come in this order:
 *
 *     grid\t3\n             the number of buses n, from 1 to 64
 *     bus\t1\tI\tY\n        n records in the order of their numbers: the number, the class (Z: zero injection,
 *     bus\t2\tZ\tN\n        I: anything else) and the site (Y: a new unit may be put here, N: it may not)
 *     bus\t3\tI\tY\n
 *     line\t1\t2\n          0 to 256 lines between two buses, the lower bus first, rising by the first bus and then
 *     line\t2\t3\t2\n       by the second. A third number says how many parallel circuits the line has, 2 to 8. It is
 *                           left off for one circuit. No answer depends on it
 *     pmu\t1\n              0 to 64 installed units, rising
 *     end\n                 and nothing after it
 *
 * A number has 1 to 4 digits and no leading zero, except 0 itself. The text has at most 8,192 bytes.
 *
 * THE STEP TEXT (for wz_replay)
 *
 *     step\t1\tO\n          bus 1 is observed by its own unit
 *     step\t2\tN\t1\n       bus 2 is observed as a neighbour of the unit at bus 1
 *     step\t3\tZ\t2\n       bus 3 is observed by zero injection at bus 2
 *     end\n                 and nothing after it
 *
 * 0 to 1,024 steps, at most 16,384 bytes.
 *
 * THE ANSWER
 *
 * On success a call returns 0 and writes the first WZ_SET_BYTES bytes of `set`, which are eight. Bus 1 is the lowest
 * bit of the first byte, bus 8 its highest, bus 9 the lowest bit of the second byte, bus 64 the highest of the eighth.
 * The call leaves the bytes from the ninth on as they were. `wz_has(set, bus)` asks for one bus.
 *
 * A REFUSAL
 *
 * Any other result is a refusal, and the call changed no byte of `set`. The result is 100 times the place plus the
 * refusal's number: `wz_number(result)` is the number, which `enum wz_refusal` names, and `wz_place(result)` the place.
 *
 *     number   given exactly when                                                        place         by
 *       1      the case text has more than 8,192 bytes                                   0             all
 *       2      case text: a word, field count, class, site or number form is wrong, a    line          all
 *              record or a line feed is missing, or something follows `end`
 *       3      case text: the grid's number is not 1 to 64, a bus number is 0 or above   line          all
 *              n, a line's circuits are written and not 2 to 8, or this is the 257th
 *              line record
 *       4      case text: the bus is not the next one, a line's first bus is not below   line          all
 *              its second, or line or pmu records do not rise
 *       6      fewer than eight bytes are lent for the set                               0             all
 *       7      a step's bus, or the bus in its reason, is above n                        step          wz_replay
 *       8      the step's bus is already observed                                        step          wz_replay
 *       9      the step's reason does not hold at its place in the list                  step          wz_replay
 *      10      the budget is above 8                                                     0             wz_fewest
 *      11      no addition within the budget has all buses observed                      0             wz_fewest
 *      51      the step text has more than 16,384 bytes                                  0             wz_replay
 *      52      step text: a word, field count, reason or number form is wrong, a         line          wz_replay
 *              record or a line feed is missing, or something follows `end`
 *      53      step text: a number is 0 or above 64                                      line          wz_replay
 *      62      step text: this is the 1,025th step                                       line (1,025)  wz_replay
 *
 * Lines and steps count from 1. A missing record is refused at the line where it should be, and what follows `end` at
 * the line after it. If several refusals apply, the call gives the first of these: the case text's (1, then the first
 * bad line, and in that line 2 before 3 before 4), the step text's (51, then the first bad line, and in that line 52,
 * 53, 62), 10, the first bad step's (7 before 8 before 9), 11, 6. So the whole step text is read before step 1 is
 * tried.
 *
 * MEMORY
 *
 * The texts are only read. They must not change during a call, and `set` must not overlap them. A pointer may be NULL
 * if its length is 0. A call allocates nothing and keeps no state: calls may run at once from many threads on different
 * sets, and the same input always gives the same reply.
 *
 * STACK
 *
 * WZ_OBSERVED_STACK, WZ_UNCONFIRMED_STACK, WZ_FEWEST_STACK and WZ_REPLAY_STACK (below) are the most bytes that each
 * call takes of the caller's stack. This is measured and not proved: tests/c/boundary_stack.c runs each call on a
 * painted stack, on 64 buses, with a budget of 8 or with 1,024 steps, and prints what it took. The dynamic linker takes
 * some 3,000 bytes at the first call of a program, for which they have room.
 *
 * TIME
 *
 * wz_observed, wz_unconfirmed and wz_replay take some microseconds: docs/SPEED.md has figures.
 * wz_fewest searches, and its time can grow exponentially with the grid. The IEEE systems of 14, 30 and 57 buses take
 * under a millisecond. The slowest grid of 64 buses that was found takes 1.6 seconds (docs/SPEED.md). A call cannot be
 * interrupted, so a caller who must not wait asks it in a process of its own.
 *
 * EXAMPLE
 *
 *     static const char grid[] = "grid\t2\nbus\t1\tI\tY\nbus\t2\tI\tY\nline\t1\t2\npmu\t1\nend\n";
 *     uint8_t set[WZ_SET_BYTES];
 *     uint32_t result = wz_observed((const uint8_t *)grid, strlen(grid), set, sizeof set);
 *
 * gives result 0 and set[0] 3: buses 1 and 2. examples/observed.c reads a case from a file.
 */
#ifndef WOZGRZYT_H
#define WOZGRZYT_H

#include <stddef.h>
#include <stdint.h>

#define WZ_VERSION "1.0.0"

/* The limits: the most buses, lines, circuits of a line, new units, steps, and bytes of the two texts. */
#define WZ_MOST_BUSES 64
#define WZ_MOST_LINES 256
#define WZ_MOST_CIRCUITS 8
#define WZ_MOST_BUDGET 8
#define WZ_MOST_STEPS 1024
#define WZ_CASE_BYTES 8192
#define WZ_STEP_BYTES 16384

/* The bytes that a call needs for its set. */
#define WZ_SET_BYTES 8

/* The bytes of stack that each call takes at most (see STACK). */
#define WZ_OBSERVED_STACK 20480
#define WZ_UNCONFIRMED_STACK 20480
#define WZ_FEWEST_STACK 32768
#define WZ_REPLAY_STACK 16384

#ifdef __cplusplus
extern "C" {
#endif

/* The numbers of the refusals (see A REFUSAL). */
enum wz_refusal {
    WZ_CASE_TOO_LONG = 1,     /* the case text is over its bytes */
    WZ_CASE_FORM = 2,         /* case text: a record's form, or a record is missing or too many */
    WZ_CASE_RANGE = 3,        /* case text: a number is out of its range, or a 257th line */
    WZ_CASE_ORDER = 4,        /* case text: buses, lines or units are not in their order */
    WZ_SET_TOO_SHORT = 6,     /* fewer than WZ_SET_BYTES are lent */
    WZ_STEP_NO_BUS = 7,       /* a step names a bus that the grid does not have */
    WZ_STEP_OBSERVED = 8,     /* a step's bus is already observed */
    WZ_STEP_REASON = 9,       /* a step's reason does not hold */
    WZ_BUDGET_TOO_LARGE = 10, /* the budget is above WZ_MOST_BUDGET */
    WZ_NO_ADDITION = 11,      /* no addition within the budget has all buses observed */
    WZ_STEPS_TOO_LONG = 51,   /* the step text is over its bytes */
    WZ_STEPS_FORM = 52,       /* step text: a record's form, or a record is missing or too many */
    WZ_STEPS_RANGE = 53,      /* step text: a number is out of its range */
    WZ_STEPS_TOO_MANY = 62    /* step text: a step after WZ_MOST_STEPS */
};

/* The refusal's number in a result; 0 if it is none. */
static inline unsigned wz_number(uint32_t result)
{
    return result % 100;
}

/* The refusal's place in a result: a line of a text, a step, or 0. */
static inline unsigned wz_place(uint32_t result)
{
    return result / 100;
}

/* Whether the bus is in the set, 1 or 0. A number that is not 1 to 64 is no bus of any set. */
static inline int wz_has(const uint8_t *set, unsigned bus)
{
    if (bus < 1 || bus > WZ_MOST_BUSES)
        return 0;
    return (set[(bus - 1) / 8] >> ((bus - 1) % 8)) & 1;
}

/* The observed set: every bus that the installed units and the zero-injection buses determine.
 * Refuses 1, 2, 3, 4, 6. */
uint32_t wz_observed(const uint8_t *case_text, size_t case_len, uint8_t *set, size_t set_len);

/* The buses of installed units that no other unit confirms. Two units confirm each other if their buses are joined or
 * share a neighbour. The empty set is the verdict yes. Refuses 1, 2, 3, 4, 6. */
uint32_t wz_unconfirmed(const uint8_t *case_text, size_t case_len, uint8_t *set, size_t set_len);

/* The fewest new units, at most `budget` (0 to 8), with which all buses are observed: the sites added, without the
 * installed units. New units go only on Y sites that have none. Among the smallest additions it is the first by
 * comparing their rising lists number by number. Refuses 1, 2, 3, 4, 10, 11, 6. */
uint32_t wz_fewest(const uint8_t *case_text, size_t case_len, size_t budget, uint8_t *set, size_t set_len);

/* The set that a list of steps reaches, whether or not a further step would be allowed after it.
 * Refuses 1, 2, 3, 4, 51, 52, 53, 62, 7, 8, 9, 6. */
uint32_t wz_replay(const uint8_t *case_text, size_t case_len, const uint8_t *step_text, size_t step_len, uint8_t *set,
                   size_t set_len);

#ifdef __cplusplus
}
#endif

#endif
