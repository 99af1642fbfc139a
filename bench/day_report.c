/* The day report's program over tests/c's document 01, for bench/run. */
#include "document01.h"

#include <stdio.h>

int main(void)
{
    static uint8_t input[CASE_TEXT_LIMIT + 1];
    static char printed[MOST_PRINTED];
    unsigned number;
    size_t length = fread(input, 1, sizeof input, stdin);
    size_t printed_length = print_day_report(input, length, printed, &number);
    return fwrite(printed, 1, printed_length, stdout) != printed_length;
}
