// The study that went before the proved search (kept_groups.h), on the case text on standard input. Prints the fewest
// units within a budget of 8 as one number, as the program timed does; 0 for none.
#include "kept_groups.h"

int main(void)
{
    set answer = 0;
    if (!read_text() || !valid())
        return 1;
    int k = study_fewest(8, &answer);
    return printf("%llu\n", k < 0 ? 0ull : (unsigned long long)answer) < 0;
}
