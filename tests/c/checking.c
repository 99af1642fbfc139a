#include "checking.h"

#include <stdio.h>

static unsigned long passed, failed;

void check(bool holds, const char *name)
{
    if (holds) {
        passed++;
        return;
    }
    failed++;
    printf("failed: %s\n", name);
}

int end_of_checks(void)
{
    printf("%lu passed, %lu failed\n", passed, failed);
    return failed == 0 ? 0 : 1;
}

static void print_byte(uint8_t byte)
{
    if (byte == '\t')
        printf("\\t");
    else if (byte == '\n')
        printf("\\n\"\n    \"");
    else if (byte == '"' || byte == '\\')
        printf("\\%c", byte);
    else if (byte < 32 || byte > 126)
        printf("\\%03o", byte);
    else
        printf("%c", byte);
}

void print_bytes(const char *name, const uint8_t *bytes, size_t length)
{
    printf("%s, %zu bytes:\n    \"", name, length);
    for (size_t i = 0; i < length; i++)
        print_byte(bytes[i]);
    printf("\"\n");
}
