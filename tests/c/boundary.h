/* The parts of the boundary's test, and the grids that they share. A grid is given without its units and `end`. */
#ifndef BOUNDARY_H
#define BOUNDARY_H

/* Document 01's seven buses: `grid` on line 1, buses on 2 to 8, lines on 9 to 14. What is added starts on line 15. */
#define SEVEN_BUSES \
    "grid\t7\n"     \
    "bus\t1\tI\tY\nbus\t2\tZ\tY\nbus\t3\tZ\tY\nbus\t4\tI\tY\nbus\t5\tZ\tY\nbus\t6\tI\tY\nbus\t7\tI\tY\n"
#define SEVEN SEVEN_BUSES "line\t1\t2\nline\t2\t3\nline\t3\t4\nline\t3\t7\nline\t4\t5\nline\t5\t6\n"
#define SEVEN_UNIT_3 SEVEN "pmu\t3\nend\n"

/* Two buses and no line; what is added starts on line 4. */
#define TWO "grid\t2\nbus\t1\tI\tY\nbus\t2\tZ\tN\n"

void check_grids(void);
void check_outside_grids(const char *cases);
void check_case_readings(void);
void check_step_readings(void);
void check_names(void);
void check_limits(void);
void check_memory(void);
void check_threads(void);
void check_stack(void);

#endif
