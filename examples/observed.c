/* Reads a case from a file and prints the buses that its units observe, or the refusal in words.
   usage: observed CASE
   Ends with 0 after an answer, 1 after a refusal, 2 if the file cannot be read or the answer cannot be written. */
#include "wozgrzyt.h"

#include <errno.h>
#include <stdio.h>
#include <string.h>

/* One byte more than a case text may have: a longer file is cut here, and the library refuses it as too long. */
#define ROOM (WZ_CASE_BYTES + 1)

/* Reads at most ROOM bytes of the file. Gives their count, or -1 after saying what went wrong. */
static int read_case(const char *path, uint8_t *text)
{
    FILE *file = fopen(path, "rb");
    if (file == NULL) {
        fprintf(stderr, "observed: %s: %s\n", path, strerror(errno));
        return -1;
    }
    size_t length = fread(text, 1, ROOM, file);
    if (ferror(file)) {
        fprintf(stderr, "observed: %s: %s\n", path, strerror(errno));
        fclose(file);
        return -1;
    }
    fclose(file);
    return (int)length;
}

/* What a refusal of wz_observed means. */
static const char *words_of(unsigned number)
{
    switch (number) {
    case WZ_CASE_TOO_LONG:
        return "the text is over its 8,192 bytes";
    case WZ_CASE_FORM:
        return "a record is wrong in its form, missing, or one too many";
    case WZ_CASE_RANGE:
        return "a number is out of its range, or there are over 256 lines";
    case WZ_CASE_ORDER:
        return "buses, lines or units are not in their order";
    case WZ_SET_TOO_SHORT:
        return "the memory for the set has fewer than eight bytes";
    default:
        return "a refusal that this program does not know";
    }
}

static void print_refusal(const char *path, uint32_t result)
{
    fprintf(stderr, "observed: %s: ", path);
    if (wz_place(result) != 0)
        fprintf(stderr, "line %u: ", wz_place(result));
    fprintf(stderr, "%s (refusal %u)\n", words_of(wz_number(result)), wz_number(result));
}

static void print_set(const uint8_t *set)
{
    printf("observed:");
    for (unsigned bus = 1; bus <= WZ_MOST_BUSES; bus++)
        if (wz_has(set, bus))
            printf(" %u", bus);
    printf("\n");
}

int main(int argc, char **argv)
{
    if (argc != 2) {
        fprintf(stderr, "usage: observed CASE\n");
        return 2;
    }
    uint8_t text[ROOM], set[WZ_SET_BYTES];
    int length = read_case(argv[1], text);
    if (length < 0)
        return 2;

    uint32_t result = wz_observed(text, (size_t)length, set, sizeof set);
    if (result != 0) {
        print_refusal(argv[1], result);
        return 1;
    }
    print_set(set);
    if (fflush(stdout) != 0) {
        fprintf(stderr, "observed: the answer cannot be written: %s\n", strerror(errno));
        return 2;
    }
    return 0;
}
