/* Damage of every kind to a text of records. */
#include "texts.h"

#include <stdio.h>
#include <string.h>

/* Bytes `from` up to `to` give way to others. */
static void replace(struct text *text, size_t from, size_t to, const void *bytes, size_t length)
{
    if (text->length - (to - from) + length > TEXT_ROOM)
        return;
    memmove(text->bytes + from + length, text->bytes + to, text->length - to);
    memcpy(text->bytes + from, bytes, length);
    text->length = text->length - (to - from) + length;
}

/* A drawn line, from its first byte up to its line feed, which is counted in. */
static void draw_line(struct dice *dice, const struct text *text, size_t *from, size_t *to)
{
    size_t at = below(dice, text->length);
    *from = at;
    *to = at;
    while (*from > 0 && text->bytes[*from - 1] != '\n')
        (*from)--;
    while (*to < text->length && text->bytes[*to] != '\n')
        (*to)++;
    if (*to < text->length)
        (*to)++;
}

/* A drawn field, from its first byte up to its tab or line feed. */
static void draw_field(struct dice *dice, const struct text *text, size_t *from, size_t *to)
{
    size_t at = below(dice, text->length);
    *from = at;
    *to = at;
    while (*from > 0 && text->bytes[*from - 1] != '\n' && text->bytes[*from - 1] != '\t')
        (*from)--;
    while (*to < text->length && text->bytes[*to] != '\n' && text->bytes[*to] != '\t')
        (*to)++;
}

static uint8_t draw_odd_byte(struct dice *dice)
{
    static const uint8_t odd[] = "\t\n\r\0 0123456789ZIYNOKLgbplse+-\x7f\x80\xff";
    return percent(dice, 80) ? odd[below(dice, sizeof odd - 1)] : (uint8_t)below(dice, 256);
}

static void remove_byte(struct dice *dice, struct text *text)
{
    size_t at = below(dice, text->length);
    replace(text, at, at + 1, "", 0);
}

static void double_byte(struct dice *dice, struct text *text)
{
    size_t at = below(dice, text->length);
    uint8_t byte = text->bytes[at];
    replace(text, at, at, &byte, 1);
}

static void change_byte(struct dice *dice, struct text *text)
{
    size_t at = below(dice, text->length);
    text->bytes[at] = draw_odd_byte(dice);
}

static void insert_byte(struct dice *dice, struct text *text)
{
    uint8_t byte = draw_odd_byte(dice);
    size_t at = below(dice, text->length + 1);
    replace(text, at, at, &byte, 1);
}

static void cut_text(struct dice *dice, struct text *text)
{
    text->length = below(dice, text->length);
}

static void double_record(struct dice *dice, struct text *text)
{
    uint8_t record[TEXT_ROOM];
    size_t from, to;
    draw_line(dice, text, &from, &to);
    memcpy(record, text->bytes + from, to - from);
    replace(text, to, to, record, to - from);
}

static void drop_record(struct dice *dice, struct text *text)
{
    size_t from, to;
    draw_line(dice, text, &from, &to);
    replace(text, from, to, "", 0);
}

/* Moves a drawn record before another. */
static void move_record(struct dice *dice, struct text *text)
{
    uint8_t record[TEXT_ROOM];
    size_t from, to, length;
    draw_line(dice, text, &from, &to);
    length = to - from;
    memcpy(record, text->bytes + from, length);
    replace(text, from, to, "", 0);
    if (text->length == 0)
        return;
    draw_line(dice, text, &from, &to);
    replace(text, from, from, record, length);
}

/* Puts another word, number or letter, good or bad, in the place of a field. */
static void change_field(struct dice *dice, struct text *text)
{
    static const char *const others[] = {"0",  "00",  "07", "1",   "2",    "3",    "12",    "13",  "64",   "02",
                                         "8",  "9",   "10", "65",  "99",   "9999", "10000", "",    "+1",   "-1",
                                         "1 ", "0x1", "I",  "Z",   "Y",    "N",    "O",     "K",   "L",    "i",
                                         "ZZ", "y",   "x",  "bus", "grid", "line", "pmu",   "end", "step", "ends"};
    const char *other = others[below(dice, sizeof others / sizeof *others)];
    size_t from, to;
    draw_field(dice, text, &from, &to);
    replace(text, from, to, other, strlen(other));
}

/* Puts another number in the place of one. */
static void change_number(struct dice *dice, struct text *text)
{
    struct text number = {.length = 0};
    size_t from = 0, to = 0;
    for (int tries = 0; tries < 20; tries++) {
        draw_field(dice, text, &from, &to);
        if (from < to && text->bytes[from] >= '0' && text->bytes[from] <= '9')
            break;
    }
    add_line(&number, "%zu", below(dice, percent(dice, 80) ? 14 : 70));
    replace(text, from, to, number.bytes, number.length);
}

/* A field more or fewer. */
static void add_or_drop_field(struct dice *dice, struct text *text)
{
    size_t from, to;
    draw_field(dice, text, &from, &to);
    if (percent(dice, 50))
        replace(text, to, to, "\t3", 2);
    else if (to < text->length)
        replace(text, from, to + 1, "", 0);
}

/* A drawn `line` record, from its first byte up to its line feed, which is counted in; false if 20 tries find none. */
static bool draw_line_record(struct dice *dice, const struct text *text, size_t *from, size_t *to)
{
    for (int tries = 0; tries < 20; tries++) {
        draw_line(dice, text, from, to);
        if (*to - *from > 5 && memcmp(text->bytes + *from, "line\t", 5) == 0)
            return true;
    }
    return false;
}

/* The two buses of a `line` record, the other way round if `turned`, with another ending; nothing if it has not two. */
static void write_ends(struct text *record, const uint8_t *line, size_t length, bool turned, const char *ending)
{
    char a[5], b[5], bytes[32];
    size_t copied = length < sizeof bytes ? length : sizeof bytes - 1;
    memcpy(bytes, line, copied);
    bytes[copied] = '\0';
    if (sscanf(bytes, "line\t%4[0-9]\t%4[0-9]", a, b) == 2)
        add_line(record, "line\t%s\t%s%s\n", turned ? b : a, turned ? a : b, ending);
}

/* Puts other circuits, good or bad, at a `line` record: in the place of its own, or in a record of the same pair before
 * it or after it. The pair may be the other way round. */
static void change_circuits(struct dice *dice, struct text *text)
{
    static const char *const endings[] = {"",     "\t",     "\t0",     "\t1",   "\t2",   "\t2",    "\t3",
                                          "\t8",  "\t8",    "\t9",     "\t10",  "\t02",  "\t00",   "\t18",
                                          "\t82", "\t9999", "\t10000", "\t+2",  "\t2\t", "\t2\t2", "\t9\t2",
                                          "\t2 ", "\t\t2",  "\tZ",     "\t2\r", "\t1\t"};
    struct text record = {.length = 0};
    size_t from, to, place = below(dice, 4);
    if (!draw_line_record(dice, text, &from, &to))
        return;
    write_ends(&record, text->bytes + from, to - from, percent(dice, 20),
               endings[below(dice, sizeof endings / sizeof *endings)]);
    if (place == 0)
        replace(text, from, from, record.bytes, record.length);
    else if (place == 1)
        replace(text, to, to, record.bytes, record.length);
    else
        replace(text, from, to, record.bytes, record.length);
}

/* How many `line` records there are, and where the last one ends: the text's end if there is none. */
static size_t count_line_records(const struct text *text, size_t *after)
{
    size_t count = 0;
    *after = text->length;
    for (size_t i = 0; i + 5 <= text->length; i++)
        if ((i == 0 || text->bytes[i - 1] == '\n') && memcmp(text->bytes + i, "line\t", 5) == 0) {
            *after = i;
            count++;
        }
    while (*after < text->length && text->bytes[*after] != '\n')
        (*after)++;
    if (*after < text->length)
        (*after)++;
    return count;
}

/* One more `line` record after the last, rising or not, in a good form or a bad one. After 256 it is one too many,
 * whatever its circuits. */
static void add_line_record(struct dice *dice, struct text *text)
{
    static const char *const forms[] = {"line\t%zu\t%zu\n",     "line\t%zu\t%zu\n",       "line\t%zu\t%zu\t2\n",
                                        "line\t%zu\t%zu\t8\n",  "line\t%zu\t%zu\t9\n",    "line\t%zu\t%zu\t1\n",
                                        "line\t%zu\t%zu\t02\n", "line\t%zu\t%zu\t2\t2\n", "line\t%zu\t0%zu\n"};
    struct text record = {.length = 0};
    size_t after, a = between(dice, 1, 64), b = between(dice, 1, 64);
    count_line_records(text, &after);
    add_line(&record, forms[below(dice, sizeof forms / sizeof *forms)], a, b);
    replace(text, after, after, record.bytes, record.length);
}

/* A record of any kind before a drawn line. */
static void insert_record(struct dice *dice, struct text *text)
{
    static const char *const forms[] = {
        "line\t%zu\t%zu\n", "pmu\t%zu\n", "bus\t%zu\tI\tY\n",    "grid\t%zu\n",        "end\n",
        "step\t%zu\tO\n",   "\n",         "step\t%zu\tN\t%zu\n", "line\t%zu\t%zu\t2\n"};
    struct text record = {.length = 0};
    size_t from, to, kind = below(dice, sizeof forms / sizeof *forms), a = between(dice, 0, 65),
                     b = between(dice, 0, 65);
    draw_line(dice, text, &from, &to);
    add_line(&record, forms[kind], a, b);
    replace(text, from, from, record.bytes, record.length);
}

static void add_after_end(struct dice *dice, struct text *text)
{
    for (size_t more = between(dice, 1, 3); more > 0; more--) {
        uint8_t byte = draw_odd_byte(dice);
        replace(text, text->length, text->length, &byte, 1);
    }
}

/* Up to the limit in bytes, or just over it. */
static void pad(struct dice *dice, struct text *text, size_t byte_limit)
{
    size_t length = byte_limit - 1 + below(dice, 4);
    uint8_t byte = draw_odd_byte(dice);
    if (percent(dice, 20))
        length = TEXT_ROOM;
    while (text->length < length)
        text->bytes[text->length++] = byte;
}

void damage_text(struct dice *dice, struct text *text, size_t byte_limit)
{
    /* What is here several times is drawn that much more often. */
    static void (*const damages[])(struct dice *, struct text *) = {
        remove_byte,     double_byte,     change_byte,     insert_byte,   cut_text,      double_record,
        drop_record,     move_record,     change_field,    change_field,  change_number, change_number,
        change_number,   insert_record,   add_line_record, add_after_end, change_number, add_or_drop_field,
        change_circuits, change_circuits, change_circuits};
    size_t times = percent(dice, 70) ? 1 : between(dice, 2, 3), after;
    if (count_line_records(text, &after) == MOST_LINES && percent(dice, 40)) {
        add_line_record(dice, text);
        return;
    }
    for (; times > 0 && text->length > 0; times--) {
        if (percent(dice, 5))
            pad(dice, text, byte_limit);
        else
            damages[below(dice, sizeof damages / sizeof *damages)](dice, text);
    }
}
