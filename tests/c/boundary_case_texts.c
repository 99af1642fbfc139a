/* Refusals of the case text, their places and their order. */
#include "boundary.h"
#include "checking.h"
#include "expecting.h"

#include <stdio.h>
#include <string.h>

struct refused_text {
    const char *name;
    const char *text;
    uint32_t result;
};

static const struct refused_text refused_texts[] = {
    {"in one line 2 comes before 3", "grid\t7\nbus\t9\tQ\tY\n", 202},
    {"in one line 3 comes before 4", SEVEN_BUSES "line\t9\t1\n", 903},
    {"a above b", SEVEN_BUSES "line\t5\t3\n", 904},
    {"the first bad line comes first", SEVEN_BUSES "line\t5\t3\nnonsense\n", 904},

    {"grid 65 not ended", "grid\t65", 102},
    {"bus 9 not ended", "grid\t7\nbus\t9\tI\tY", 202},
    {"line 2 1 not ended", TWO "line\t2\t1", 402},
    {"end not ended", TWO "end", 402},

    {"the empty text", "", 102},
    {"bus in the place of grid", "bus\t1\tI\tY\n", 102},
    {"the text stops after grid", "grid\t2\n", 202},
    {"the text stops after a bus", "grid\t2\nbus\t1\tI\tY\n", 302},
    {"the text stops after the buses", TWO, 402},
    {"the text stops after a line", TWO "line\t1\t2\n", 502},
    {"the text stops after a unit", TWO "pmu\t1\n", 502},
    {"end in the place of a bus", "grid\t2\nbus\t1\tI\tY\nend\n", 302},
    {"line in the place of a bus", "grid\t2\nbus\t1\tI\tY\nline\t1\t2\n", 302},
    {"a bus after the last", TWO "bus\t3\tI\tY\nend\n", 402},
    {"a second grid", TWO "grid\t2\nend\n", 402},
    {"a line after a unit", TWO "pmu\t1\nline\t1\t2\nend\n", 502},
    {"a step in a case text", TWO "step\t1\tO\nend\n", 402},

    {"a second end", TWO "end\nend\n", 502},
    {"a line feed after end", TWO "end\n\n", 502},
    {"one byte after end", TWO "end\nx", 502},
    {"a record after end", TWO "end\npmu\t1\n", 502},

    {"grid 0", "grid\t0\n", 103},
    {"grid 65", "grid\t65\n", 103},
    {"grid 9999", "grid\t9999\n", 103},
    {"grid 00", "grid\t00\n", 102},
    {"grid 07", "grid\t07\n", 102},
    {"grid 10000", "grid\t10000\n", 102},
    {"grid and an empty number", "grid\t\n", 102},
    {"grid +1", "grid\t+1\n", 102},
    {"grid -1", "grid\t-1\n", 102},
    {"grid 1 and a blank", "grid\t1 \n", 102},
    {"grid 1a", "grid\t1a\n", 102},
    {"pmu 0", TWO "pmu\t0\nend\n", 403},
    {"pmu n + 1", TWO "pmu\t3\nend\n", 403},
    {"pmu 9999", TWO "pmu\t9999\nend\n", 403},
    {"pmu 01", TWO "pmu\t01\nend\n", 402},
    {"pmu 10000", TWO "pmu\t10000\nend\n", 402},
    {"line 0 1", TWO "line\t0\t1\nend\n", 403},
    {"line 1 0", TWO "line\t1\t0\nend\n", 403},
    {"line 1 n + 1", TWO "line\t1\t3\nend\n", 403},
    {"line 65 1", TWO "line\t65\t1\nend\n", 403},

    {"a leading tab", "\tgrid\t2\n", 102},
    {"a doubled tab", "grid\t\t2\n", 102},
    {"a trailing tab", "grid\t2\t\n", 102},
    {"a tab after end", TWO "end\t\n", 402},
    {"a blank for a tab", "grid 2\n", 102},
    {"a carriage return", "grid\t2\r\n", 102},
    {"an empty line first", "\ngrid\t2\n", 102},
    {"an empty line later", TWO "\nend\n", 402},
    {"a word in capitals", "GRID\t2\n", 102},
    {"half a word", "gri\t2\n", 102},
    {"class i", "grid\t1\nbus\t1\ti\tY\nend\n", 202},
    {"class ZZ", "grid\t1\nbus\t1\tZZ\tY\nend\n", 202},
    {"no class", "grid\t1\nbus\t1\t\tY\nend\n", 202},
    {"site y", "grid\t1\nbus\t1\tI\ty\nend\n", 202},
    {"class and site turned", "grid\t1\nbus\t1\tY\tI\nend\n", 202},
    {"a bus of three fields", "grid\t1\nbus\t1\tI\nend\n", 202},
    {"a bus of five fields", "grid\t1\nbus\t1\tI\tY\tY\nend\n", 202},
    {"a line of two fields", TWO "line\t1\nend\n", 402},
    {"a line of five fields", TWO "line\t1\t2\t2\t2\nend\n", 402},
    {"a pmu of three fields", TWO "pmu\t1\t2\nend\n", 402},
    {"a grid of three fields", "grid\t2\t2\n", 102},
    {"a grid alone", "grid\n", 102},

    {"line a a", TWO "line\t1\t1\nend\n", 404},
    {"the same line twice", TWO "line\t1\t2\nline\t1\t2\nend\n", 504},
    {"the same unit twice", TWO "pmu\t1\npmu\t1\nend\n", 504},
    {"units falling", TWO "pmu\t2\npmu\t1\nend\n", 504},
    {"lines falling by the first bus", SEVEN_BUSES "line\t2\t3\nline\t1\t7\nend\n", 1004},
    {"lines falling by the second bus", SEVEN_BUSES "line\t1\t3\nline\t1\t2\nend\n", 1004},

    {"no circuit", TWO "line\t1\t2\t0\nend\n", 403},
    {"one circuit said", TWO "line\t1\t2\t1\nend\n", 403},
    {"nine circuits", TWO "line\t1\t2\t9\nend\n", 403},
    {"ten circuits", TWO "line\t1\t2\t10\nend\n", 403},
    {"9999 circuits", TWO "line\t1\t2\t9999\nend\n", 403},
    {"10000 circuits", TWO "line\t1\t2\t10000\nend\n", 402},
    {"circuits 02", TWO "line\t1\t2\t02\nend\n", 402},
    {"circuits +2", TWO "line\t1\t2\t+2\nend\n", 402},
    {"a tab and no circuits", TWO "line\t1\t2\t\nend\n", 402},
    {"a tab after circuits", TWO "line\t1\t2\t2\t\nend\n", 402},
    {"two tabs before circuits", TWO "line\t1\t2\t\t2\nend\n", 402},
    {"nine circuits and a field too many", TWO "line\t1\t2\t9\t2\nend\n", 402},
    {"circuits not ended", TWO "line\t1\t2\t2", 402},
    {"a above b with nine circuits", TWO "line\t2\t1\t9\nend\n", 403},
    {"a above b with one circuit said", TWO "line\t2\t1\t1\nend\n", 403},
    {"a above b with two circuits", TWO "line\t2\t1\t2\nend\n", 404},
    {"a above b with circuits 02", TWO "line\t2\t1\t02\nend\n", 402},
    {"line a a with two circuits", TWO "line\t1\t1\t2\nend\n", 404},
    {"line 1 n + 1 with two circuits", TWO "line\t1\t3\t2\nend\n", 403},
    {"a line, and the same with circuits", TWO "line\t1\t2\nline\t1\t2\t2\nend\n", 504},
    {"a line with circuits, and the same without", TWO "line\t1\t2\t2\nline\t1\t2\nend\n", 504},
    {"a line with circuits twice", TWO "line\t1\t2\t2\nline\t1\t2\t3\nend\n", 504},
    {"a line with circuits after a unit", TWO "pmu\t1\nline\t1\t2\t2\nend\n", 502},

    {"bus 0", "grid\t2\nbus\t0\tI\tY\n", 203},
    {"bus n + 1", "grid\t2\nbus\t3\tI\tY\n", 203},
    {"bus 2 in the place of 1", "grid\t2\nbus\t2\tI\tY\n", 204},
    {"bus 1 twice", "grid\t2\nbus\t1\tI\tY\nbus\t1\tI\tY\n", 304},
};

/* Every cut of a valid text is refused 2, at the line after the line feeds that are left. */
static void check_cuts(void)
{
    static const char text[] = SEVEN_UNIT_3;
    uint32_t line = 1;
    for (size_t cut = 0; cut < strlen(text); cut++) {
        char name[60];
        snprintf(name, sizeof name, "the seven buses cut after %zu bytes", cut);
        expect_case_refusal(name, (const uint8_t *)text, cut, 100 * line + 2);
        line += text[cut] == '\n';
    }
}

static void check_odd_bytes(void)
{
    static const uint8_t nul_after_end[] = TWO "end\n";
    static const uint8_t nul_in_word[] = "gr\0id\t2\n";
    static const uint8_t high_byte[] = "grid\t\xb2\n";
    expect_case_refusal("a NUL after end", nul_after_end, sizeof nul_after_end, 502);
    expect_case_refusal("a NUL in a word", nul_in_word, sizeof nul_in_word - 1, 102);
    expect_case_refusal("a byte above 127", high_byte, sizeof high_byte - 1, 102);
}

static void check_byte_limit(void)
{
    static uint8_t text[30000];
    memset(text, 'x', sizeof text);
    expect_case_refusal("8,192 bytes of nonsense", text, 8192, 102);
    expect_case_refusal("8,193 bytes of nonsense", text, 8193, 1);
    expect_case_refusal("30,000 bytes of nonsense", text, sizeof text, 1);
    memcpy(text, SEVEN_UNIT_3, strlen(SEVEN_UNIT_3));
    expect_case_refusal("a valid text padded to 8,192 bytes", text, 8192, 1702);
    expect_case_refusal("a valid text padded to 8,193 bytes", text, 8193, 1);
    memset(text, '1', sizeof text);
    memcpy(text, "grid\t", 5);
    expect_case_refusal("a line of 8,192 bytes", text, 8192, 102);
}

/* A grid of 64 buses with 256 lines that end so: `grid` on line 1, the buses on 2 to 65, the lines on 66 to 321. */
static size_t write_256_lines(char *text, const char *ending)
{
    size_t length = (size_t)sprintf(text, "grid\t64\n");
    for (int bus = 1; bus <= 64; bus++)
        length += (size_t)sprintf(text + length, "bus\t%d\tI\tY\n", bus);
    for (int a = 1; a <= 4; a++)
        for (int b = a + 1; b <= 64; b++)
            length += (size_t)sprintf(text + length, "line\t%d\t%d%s\n", a, b, ending);
    for (int b = 6; b <= 15; b++)
        length += (size_t)sprintf(text + length, "line\t5\t%d%s\n", b, ending);
    return length;
}

static void check_line_limit(void)
{
    static char text[10000];
    size_t length = write_256_lines(text, "");
    strcpy(text + length, "pmu\t5\nend\n");
    expect_set("256 lines", ask_observed(text), "1 2 3 4 5 6 7 8 9 10 11 12 13 14 15");
    strcpy(text + length, "line\t5\t16\nend\n");
    expect_case_text_refusal("the 257th line", text, 32203);
    strcpy(text + length, "line\t16\t5\nend\n");
    expect_case_text_refusal("the 257th line with a above b", text, 32203);
    strcpy(text + length, "line\t5\t016\nend\n");
    expect_case_text_refusal("the 257th line in a bad form", text, 32202);
    strcpy(text + length, "line\t5\t16");
    expect_case_text_refusal("the 257th line not ended", text, 32202);
}

/* The limit counts lines, whatever their circuits. */
static void check_line_limit_with_circuits(void)
{
    static char text[10000];
    size_t length = write_256_lines(text, "\t8");
    strcpy(text + length, "pmu\t5\nend\n");
    expect_set("256 lines of eight circuits", ask_observed(text), "1 2 3 4 5 6 7 8 9 10 11 12 13 14 15");
    strcpy(text + length, "line\t5\t16\nend\n");
    expect_case_text_refusal("the 257th line after lines of eight circuits", text, 32203);
    strcpy(text + length, "line\t5\t16\t2\nend\n");
    expect_case_text_refusal("the 257th line, of two circuits", text, 32203);
    strcpy(text + length, "line\t5\t16\t9\nend\n");
    expect_case_text_refusal("the 257th line, of nine circuits", text, 32203);
    strcpy(text + length, "line\t5\t16\t02\nend\n");
    expect_case_text_refusal("the 257th line, of circuits 02", text, 32202);
}

void check_case_readings(void)
{
    for (size_t i = 0; i < sizeof refused_texts / sizeof *refused_texts; i++)
        expect_case_text_refusal(refused_texts[i].name, refused_texts[i].text, refused_texts[i].result);
    check_cuts();
    check_odd_bytes();
    check_byte_limit();
    check_line_limit();
    check_line_limit_with_circuits();
}
