/* Runs one of the three programs on an input and takes what it prints. */
#ifndef RUNNING_H
#define RUNNING_H

#include <stdbool.h>
#include <stddef.h>
#include <stdint.h>

enum program { DAY, PLAN, ROUNDS, PROGRAM_COUNT };

enum feeding {
    FEED_PIPE,  /* through a pipe, as fast as it takes it */
    FEED_BYTES, /* through a pipe, each byte after the one before was read */
    FEED_FILE,  /* from a file */
    FEED_CLOSED /* standard input is closed */
};

enum { PRINTED_ROOM = 4096 };

/* `ended_well`: with status 0. */
struct printed {
    bool ended_well;
    size_t length;
    char bytes[PRINTED_ROOM];
};

extern const char *const program_names[PROGRAM_COUNT];

/* The paths of the three programs, then the words of an emulator's command, if there is one. */
void prepare_running(char **words, int count);
bool is_emulated(void);
void run_program(enum program program, enum feeding feeding, const uint8_t *input, size_t length,
                 struct printed *printed);

#endif
