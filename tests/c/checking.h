/* Counts checks, prints a line for each that fails, and the last line 'N passed, M failed'. */
#ifndef CHECKING_H
#define CHECKING_H

#include <stdbool.h>
#include <stddef.h>
#include <stdint.h>

void check(bool holds, const char *name);
/* Prints the last line; the status for the program to end with. */
int end_of_checks(void);
/* Prints bytes as a string of C. */
void print_bytes(const char *name, const uint8_t *bytes, size_t length);

#endif
