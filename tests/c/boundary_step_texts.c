/* Refusals of the step text and of its steps, their places and their order, on the seven buses with a unit at 3. */
#include "boundary.h"
#include "expecting.h"

#include <stdio.h>
#include <string.h>

struct refused_steps {
    const char *name;
    const char *text;
    uint32_t result;
};

static const struct refused_steps refused_steps[] = {
    {"the empty text", "", 152},
    {"end not ended", "end", 152},
    {"a step not ended", "step\t3\tO", 152},
    {"step 65 not ended", "step\t65\tO", 152},
    {"the text stops after a step", "step\t3\tO\n", 252},
    {"a second end", "end\nend\n", 252},
    {"a line feed after end", "step\t3\tO\nend\n\n", 352},
    {"one byte after end", "end\nx", 252},
    {"a case text for a step text", SEVEN_UNIT_3, 152},

    {"O with a bus", "step\t1\tO\t2\nend\n", 152},
    {"N with no bus", "step\t1\tN\nend\n", 152},
    {"Z with no bus", "step\t1\tZ\nend\n", 152},
    {"N with two buses", "step\t1\tN\t2\t3\nend\n", 152},
    {"field count before range", "step\t65\tN\nend\n", 152},
    {"O with a bus above 64", "step\t1\tO\t65\nend\n", 152},
    {"reason K", "step\t1\tK\t2\nend\n", 152},
    {"reason L", "step\t1\tL\t2\nend\n", 152},
    {"reason o", "step\t3\to\nend\n", 152},
    {"reason NN", "step\t2\tNN\t3\nend\n", 152},
    {"no reason", "step\t3\t\nend\n", 152},
    {"no reason field", "step\t3\nend\n", 152},
    {"a trailing tab", "step\t3\tO\t\nend\n", 152},
    {"a doubled tab", "step\t\t3\tO\nend\n", 152},
    {"a carriage return", "step\t3\tO\r\nend\n", 152},
    {"an empty line", "\nend\n", 152},
    {"the word steps", "steps\t3\tO\nend\n", 152},
    {"a leading zero", "step\t03\tO\nend\n", 152},
    {"five digits", "step\t10000\tO\nend\n", 152},
    {"a bad number in the reason", "step\t2\tN\t+3\nend\n", 152},

    {"bus 0", "step\t0\tO\nend\n", 153},
    {"bus 65", "step\t65\tO\nend\n", 153},
    {"bus 9999", "step\t9999\tO\nend\n", 153},
    {"N 0", "step\t2\tN\t0\nend\n", 153},
    {"N 65", "step\t2\tN\t65\nend\n", 153},
    {"Z 65 on line 2", "step\t3\tO\nstep\t2\tZ\t65\nend\n", 253},
    {"the first bad line comes first", "step\t65\tO\nnonsense\n", 153},

    {"bus 8 of seven", "step\t8\tO\nend\n", 107},
    {"bus 64 of seven", "step\t64\tO\nend\n", 107},
    {"N 8 of seven", "step\t2\tN\t8\nend\n", 107},
    {"Z 8 of seven", "step\t2\tZ\t8\nend\n", 107},
    {"a bus already observed", "step\t3\tO\nstep\t3\tO\nend\n", 208},
    {"7 before 8", "step\t3\tO\nstep\t3\tN\t8\nend\n", 207},
    {"8 before 9", "step\t3\tO\nstep\t3\tZ\t1\nend\n", 208},
    {"7 before 9", "step\t1\tZ\t8\nend\n", 107},
    {"the first bad step comes first", "step\t1\tZ\t2\nstep\t9\tO\nend\n", 109},
    {"a bad third step", "step\t3\tO\nstep\t2\tN\t3\nstep\t6\tZ\t5\nend\n", 309},
    {"the whole text is read before step 1", "step\t1\tZ\t2\nstep\t3\tO\nstep\t3\tO\nstep\t3\tO\nbad\nend\n", 552},
    {"a bad step 1 and bytes after end", "step\t1\tZ\t2\nend\nx", 352},
    {"a bad step 1 and bus 65 later", "step\t9\tO\nstep\t65\tO\nend\n", 253},
};

/* Every cut of a valid step text is refused 2, at the line after the line feeds that are left. */
static void check_step_cuts(void)
{
    static const char text[] = "step\t2\tN\t3\nstep\t3\tO\nstep\t1\tZ\t2\nend\n";
    uint32_t line = 1;
    for (size_t cut = 0; cut < strlen(text); cut++) {
        struct question question = ask_replay(SEVEN_UNIT_3, text);
        char name[60];
        question.step_len = cut;
        snprintf(name, sizeof name, "a step text cut after %zu bytes", cut);
        expect_refusal(name, question, 100 * line + 52);
        line += text[cut] == '\n';
    }
}

static void check_step_byte_limit(void)
{
    static char text[40000];
    struct question question = ask_replay(SEVEN_UNIT_3, "");
    memset(text, 'x', sizeof text);
    memcpy(text, "step\t3\tO\nend\n", 13);
    question.step_text = (const uint8_t *)text;
    question.step_len = 16384;
    expect_refusal("a step text padded to 16,384 bytes", question, 352);
    question.step_len = 16385;
    expect_refusal("a step text padded to 16,385 bytes", question, 51);
    question.step_len = 39999;
    expect_refusal("a step text of 39,999 bytes", question, 51);
    text[0] = 'x';
    expect_refusal("over the limit, and line 1 bad", question, 51);
}

/* `count` steps of which the first is allowed and the others say the same bus; then `rest`. */
static struct question ask_many_steps(int count, const char *rest)
{
    static char text[20000];
    size_t length = 0;
    for (int i = 0; i < count; i++)
        length += (size_t)sprintf(text + length, "step\t3\tO\n");
    strcpy(text + length, rest);
    return ask_replay(SEVEN_UNIT_3, text);
}

static void check_step_limit(void)
{
    expect_refusal("1,024 steps are read", ask_many_steps(1024, "end\n"), 208);
    expect_refusal("the text stops after 1,024 steps", ask_many_steps(1024, ""), 102552);
    expect_refusal("the 1,025th step", ask_many_steps(1025, "end\n"), 102562);
    expect_refusal("the 1,025th step, and no end", ask_many_steps(1025, ""), 102562);
    expect_refusal("the 1,025th step, and line 1,026 bad", ask_many_steps(1025, "bad\n"), 102562);
    expect_refusal("the 1,025th step in a bad form", ask_many_steps(1024, "step\t3\tO\t3\nend\n"), 102552);
    expect_refusal("the 1,025th step for bus 65", ask_many_steps(1024, "step\t65\tO\nend\n"), 102553);
    expect_refusal("the 1,025th step for bus 8 of seven", ask_many_steps(1024, "step\t8\tO\nend\n"), 102562);
    expect_refusal("bytes after end on line 1,025", ask_many_steps(1024, "end\nx"), 102652);
    expect_refusal("line 1,024 bad before the 1,025th step", ask_many_steps(1023, "bad\nstep\t3\tO\nend\n"), 102452);
}

/* 6 comes after every other refusal. */
static void check_short_room(void)
{
    for (size_t i = 0; i < sizeof refused_steps / sizeof *refused_steps; i++)
        expect_reply(refused_steps[i].name, ask_replay(SEVEN_UNIT_3, refused_steps[i].text), 7, refused_steps[i].result,
                     "");
}

void check_step_readings(void)
{
    for (size_t i = 0; i < sizeof refused_steps / sizeof *refused_steps; i++)
        expect_refusal(refused_steps[i].name, ask_replay(SEVEN_UNIT_3, refused_steps[i].text), refused_steps[i].result);
    expect_refusal("both texts bad", ask_replay("grid\t0\n", "nonsense"), 103);
    check_step_cuts();
    check_step_byte_limit();
    check_step_limit();
    check_short_room();
}
