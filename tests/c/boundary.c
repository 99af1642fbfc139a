/* Calls the library as the estimator would, on inputs whose replies were worked out by hand.
   usage: boundary FOLDER_OF_CASE_TEXTS */
#include "boundary.h"

#include "checking.h"
#include "expecting.h"

#include <stdio.h>

int main(int argc, char **argv)
{
    if (argc != 2) {
        printf("usage: boundary FOLDER_OF_CASE_TEXTS\n");
        return 2;
    }
    prepare_expectations();
    check_grids();
    check_outside_grids(argv[1]);
    check_case_readings();
    check_step_readings();
    check_names();
    check_limits();
    check_memory();
    check_threads();
    check_stack();
    return end_of_checks();
}
