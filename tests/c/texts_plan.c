/* Drawn first lines of the planning program's input, of every form, good and bad. */
#include "texts.h"

#include <string.h>

static void add_bad_plan_line(struct dice *dice, struct text *text)
{
    static const char *const lines[] = {"plan",        "plan\t8",     "plan\t\n",     "plan 8\n",      "plan\r\n",
                                        "plan\t8\r\n", "plan\t08\n",  "plan\t00\n",   "plan\t10000\n", "plan\t+8\n",
                                        "plan\t-1\n",  "plan\t8\t\n", "plan\t8\t8\n", "plan\t\t8\n",   "Plan\n",
                                        "PLAN\t8\n",   "\tplan\n",    " plan\n",      "plans\n",       "pla\n",
                                        "\n",          "plan\t8 \n",  "plan\ta\n",    "plan8\n",       "",
                                        "\n\n",        "grid\t7\n",   "end\n",        "\r\n",          "plan\tplan\n"};
    const char *line = lines[below(dice, sizeof lines / sizeof *lines)];
    add_line(text, "%s", line);
}

void draw_plan_line(struct dice *dice, struct text *text, size_t *budget)
{
    *budget = 0;
    text->length = 0;
    if (percent(dice, 15)) {
        add_bad_plan_line(dice, text);
    } else if (percent(dice, 25)) {
        *budget = DEFAULT_BUDGET;
        add_line(text, "plan\n");
    } else {
        static const size_t above[] = {9, 10, 64, 256, 264, 999, 9999};
        *budget = percent(dice, 85) ? below(dice, MOST_BUDGET + 1) : above[below(dice, sizeof above / sizeof *above)];
        add_line(text, "plan\t%zu\n", *budget);
    }
}
