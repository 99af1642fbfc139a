/* Document 01's two texts: the case text and the step text, read record by record. */
#include "document01.h"

#include <string.h>

enum { MOST_FIELDS = 4 };

struct field {
    const uint8_t *bytes;
    size_t length;
};

/* `field_count` counts every field of the line, `fields` has the first ones. */
struct record {
    bool ended;
    size_t field_count;
    struct field fields[MOST_FIELDS];
};

/* `line` is the number of the line taken last. */
struct reading {
    const uint8_t *text;
    size_t length;
    size_t at;
    size_t line;
};

struct refusal refuse(unsigned number, size_t place)
{
    struct refusal refusal = {number, place};
    return refusal;
}

struct refusal accept(void)
{
    return refuse(0, 0);
}

static struct field take_field(struct reading *reading)
{
    struct field field = {NULL, 0};
    if (reading->at < reading->length)
        field.bytes = reading->text + reading->at;
    while (reading->at < reading->length && reading->text[reading->at] != '\t' && reading->text[reading->at] != '\n') {
        reading->at++;
        field.length++;
    }
    return field;
}

static struct record take_record(struct reading *reading)
{
    struct record record = {false, 0, {{NULL, 0}}};
    reading->line++;
    for (;;) {
        struct field field = take_field(reading);
        if (record.field_count < MOST_FIELDS)
            record.fields[record.field_count] = field;
        record.field_count++;
        if (reading->at == reading->length)
            return record;
        record.ended = reading->text[reading->at] == '\n';
        reading->at++;
        if (record.ended)
            return record;
    }
}

static bool field_is(const struct record *record, size_t index, const char *word)
{
    const struct field *field = &record->fields[index];
    return field->length == strlen(word) && memcmp(field->bytes, word, field->length) == 0;
}

static bool record_is(const struct record *record, const char *word, size_t field_count)
{
    return record->ended && record->field_count == field_count && field_is(record, 0, word);
}

bool read_number(const uint8_t *digits, size_t length, unsigned *number)
{
    if (length < 1 || length > 4)
        return false;
    if (digits[0] == '0' && length > 1)
        return false;
    *number = 0;
    for (size_t i = 0; i < length; i++) {
        if (digits[i] < '0' || digits[i] > '9')
            return false;
        *number = *number * 10 + (digits[i] - '0');
    }
    return true;
}

static bool field_number(const struct record *record, size_t index, unsigned *number)
{
    return read_number(record->fields[index].bytes, record->fields[index].length, number);
}

void join_buses(struct grid_case *grid, unsigned a, unsigned b, unsigned circuits)
{
    grid->joined[a][b] = true;
    grid->joined[b][a] = true;
    grid->circuits[a][b] = (uint8_t)circuits;
    grid->circuits[b][a] = (uint8_t)circuits;
    grid->neighbours[a][grid->neighbour_count[a]++] = b;
    grid->neighbours[b][grid->neighbour_count[b]++] = a;
}

/* Each of the functions take_.. takes one record and returns the number of its refusal, or 0. */

static unsigned take_grid(struct reading *reading, struct grid_case *grid)
{
    struct record record = take_record(reading);
    unsigned buses;
    if (!record_is(&record, "grid", 2) || !field_number(&record, 1, &buses))
        return 2;
    if (buses < 1 || buses > MOST_BUSES)
        return 3;
    grid->buses = buses;
    return 0;
}

static unsigned take_bus(struct reading *reading, struct grid_case *grid, unsigned next_bus)
{
    struct record record = take_record(reading);
    unsigned bus;
    if (!record_is(&record, "bus", 4) || !field_number(&record, 1, &bus))
        return 2;
    if (!field_is(&record, 2, "Z") && !field_is(&record, 2, "I"))
        return 2;
    if (!field_is(&record, 3, "Y") && !field_is(&record, 3, "N"))
        return 2;
    if (bus < 1 || bus > grid->buses)
        return 3;
    if (bus != next_bus)
        return 4;
    grid->zero_injection[bus] = field_is(&record, 2, "Z");
    grid->open_site[bus] = field_is(&record, 3, "Y");
    return 0;
}

/* What comes before a `line`, `pmu` or `end` record: the lines so far, the last line and the last unit; 0 for none. */
struct taken {
    size_t lines;
    unsigned last_a, last_b;
    unsigned last_unit;
    bool end;
};

/* A third number says the circuits, if there are several. */
static unsigned take_line(const struct record *record, struct grid_case *grid, struct taken *taken)
{
    bool several = record_is(record, "line", 4);
    unsigned a, b, circuits = 1;
    if ((!several && !record_is(record, "line", 3)) || taken->last_unit != 0)
        return 2;
    if (!field_number(record, 1, &a) || !field_number(record, 2, &b))
        return 2;
    if (several && !field_number(record, 3, &circuits))
        return 2;
    if (a < 1 || a > grid->buses || b < 1 || b > grid->buses || taken->lines == MOST_LINES)
        return 3;
    if (several && (circuits < LEAST_SAID_CIRCUITS || circuits > MOST_CIRCUITS))
        return 3;
    if (a >= b)
        return 4;
    if (a < taken->last_a || (a == taken->last_a && b <= taken->last_b))
        return 4;
    join_buses(grid, a, b, circuits);
    taken->lines++;
    taken->last_a = a;
    taken->last_b = b;
    return 0;
}

static unsigned take_unit(const struct record *record, struct grid_case *grid, struct taken *taken)
{
    unsigned bus;
    if (!record_is(record, "pmu", 2) || !field_number(record, 1, &bus))
        return 2;
    if (bus < 1 || bus > grid->buses)
        return 3;
    if (bus <= taken->last_unit)
        return 4;
    grid->unit[bus] = true;
    taken->last_unit = bus;
    return 0;
}

static unsigned take_line_unit_or_end(struct reading *reading, struct grid_case *grid, struct taken *taken)
{
    struct record record = take_record(reading);
    if (field_is(&record, 0, "line"))
        return take_line(&record, grid, taken);
    if (field_is(&record, 0, "pmu"))
        return take_unit(&record, grid, taken);
    taken->end = record_is(&record, "end", 1);
    return taken->end ? 0 : 2;
}

/* After `end`: whether anything follows, refused at the line after it. */
static unsigned take_nothing(struct reading *reading)
{
    if (reading->at == reading->length)
        return 0;
    reading->line++;
    return 2;
}

static struct refusal refuse_here(unsigned number, const struct reading *reading)
{
    return number == 0 ? accept() : refuse(number, reading->line);
}

struct refusal read_case_text(const uint8_t *text, size_t length, struct grid_case *grid)
{
    struct reading reading = {text, length, 0, 0};
    struct taken taken = {0, 0, 0, 0, false};
    if (length > CASE_TEXT_LIMIT)
        return refuse(1, 0);
    memset(grid, 0, sizeof *grid);
    unsigned number = take_grid(&reading, grid);
    for (unsigned bus = 1; number == 0 && bus <= grid->buses; bus++)
        number = take_bus(&reading, grid, bus);
    while (number == 0 && !taken.end)
        number = take_line_unit_or_end(&reading, grid, &taken);
    if (number == 0)
        number = take_nothing(&reading);
    return refuse_here(number, &reading);
}

static bool step_form(const struct record *record, struct step *step)
{
    if (!record->ended || record->field_count < 3 || !field_is(record, 0, "step") ||
        !field_number(record, 1, &step->bus))
        return false;
    if (field_is(record, 2, "O")) {
        step->reason = 'O';
        step->by = 0;
        return record->field_count == 3;
    }
    if (!field_is(record, 2, "N") && !field_is(record, 2, "Z"))
        return false;
    step->reason = (char)record->fields[2].bytes[0];
    return record->field_count == 4 && field_number(record, 3, &step->by);
}

static unsigned take_step_or_end(struct reading *reading, struct step *steps, size_t *step_count, bool *end)
{
    struct record record = take_record(reading);
    struct step step;
    *end = record_is(&record, "end", 1);
    if (*end)
        return 0;
    if (!step_form(&record, &step))
        return 2;
    if (step.bus < 1 || step.bus > MOST_BUSES)
        return 3;
    if (step.reason != 'O' && (step.by < 1 || step.by > MOST_BUSES))
        return 3;
    if (*step_count == MOST_STEPS)
        return 12;
    steps[(*step_count)++] = step;
    return 0;
}

struct refusal read_step_text(const uint8_t *text, size_t length, struct step steps[MOST_STEPS], size_t *step_count)
{
    struct reading reading = {text, length, 0, 0};
    unsigned number = 0;
    bool end = false;
    *step_count = 0;
    if (length > STEP_TEXT_LIMIT)
        return refuse(1, 0);
    while (number == 0 && !end)
        number = take_step_or_end(&reading, steps, step_count, &end);
    if (number == 0)
        number = take_nothing(&reading);
    return refuse_here(number, &reading);
}
