"""The refusals in one table: when each is given, what its place is, and who gives it. docs/CALLS.md has the same."""
import textwrap

from command.speaking import Misused, named, show_text

ALL_C = "wz_observed wz_unconfirmed wz_fewest wz_replay"
CASES = "observed_set firing_figure test_step derivation replay weave cross_validate place_greedy place_fewest"
PROGRAMS = "programs"
C_CALLS = "C functions"
CALLS = "library calls"


class Refusal:
    """A row of the table: when the refusal is given, its place, and who gives it."""

    def __init__(self, when, place, programs="", c_calls="", calls=""):
        self.when = when
        self.place = place
        self.givers = {PROGRAMS: programs, C_CALLS: c_calls, CALLS: calls}


REFUSALS = {
    1: Refusal(
        "a text is over its byte limit", "0",
        "day plan rounds", ALL_C, "read_case check_steps read_steps replay_text"),
    2: Refusal(
        "a record's word, field count, class, site, reason or number form is wrong; a record or a line feed is "
        "missing; something follows `end`", "line",
        "day plan rounds", ALL_C, "read_case check_steps read_steps replay_text"),
    3: Refusal(
        "the `grid` number is not 1 to 64; a `line`'s circuits are written and not 2 to 8; another number of a case "
        "text is 0 or above n; a number of a step text is 0 or above 64; this is the 257th `line`", "line",
        "day plan rounds", ALL_C, "read_case check_steps read_steps replay_text"),
    4: Refusal(
        "a bus is not the next; a is not below b; `line` or `pmu` does not rise", "line",
        "day plan rounds", ALL_C, "read_case"),
    5: Refusal(
        "a case value is not a grid: n is not 1 to 64, lines are not the same seen from both ends, a bus is joined to "
        "itself, a line, unit, class Z or site Y is at a bus above n, there are over 256 lines, a joined pair has 0 "
        "circuits or above 8, another pair has any, or circuits are not the same seen from both ends", "0",
        calls=CASES + " write_case replay_text observed_rounds"),
    6: Refusal(
        "the answer is longer than the room lent", "0",
        "", ALL_C, "weave place_greedy write_case read_steps observed_rounds day_report plan_report rounds_report"),
    7: Refusal(
        "a step, in its bus or its reason, or a question names a bus that is not 1 to n", "step, or 0",
        "", "wz_replay", "firing_figure test_step replay weave replay_text"),
    8: Refusal(
        "replay: the step's bus is already observed", "step",
        "", "wz_replay", "test_step replay replay_text"),
    9: Refusal(
        "the step's reason does not hold", "step",
        "", "wz_replay", "test_step replay weave replay_text"),
    10: Refusal(
        "the budget is above its limit", "0, or line 1 in the planning program",
        "plan", "wz_fewest", "place_greedy place_fewest"),
    11: Refusal(
        "no addition within the budget covers", "0",
        "plan", "wz_fewest", "place_fewest"),
    12: Refusal(
        "there are over 1,024 steps", "0, or line in a text",
        calls="replay weave check_steps read_steps replay_text"),
    13: Refusal(
        "a firing figure is asked for two buses that are not joined", "0",
        calls="firing_figure"),
    51: Refusal(
        "the step text has more than 16,384 bytes", "0", "", "wz_replay"),
    52: Refusal(
        "step text: a word, field count, reason or number form is wrong, a record or a line feed is missing, or "
        "something follows `end`", "line of the step text", "", "wz_replay"),
    53: Refusal(
        "step text: a number is 0 or above 64", "line of the step text", "", "wz_replay"),
    62: Refusal(
        "step text: this is the 1,025th step", "line of the step text, 1,025", "", "wz_replay"),
}
NOTES = {
    1: "a case text has at most 8,192 bytes, with the plan line in the planning program, and a step text 16,384",
    3: "n is the number in the first line of the case text; for one circuit a `line` has two numbers",
    10: "the limit is 8 for the fewest units, and 64 for greedy",
    11: "new units go only to sites Y that have none, and installed units stay",
}
WIDTH = 96


def described(number):
    """What a refusal says, as lines."""
    row = REFUSALS[number]
    parts = {"given when": row.when, "place": row.place}
    parts.update((kind, ", ".join(names.split())) for kind, names in row.givers.items() if names)
    if number in NOTES:
        parts["note"] = NOTES[number]
    lines = ["refusal %d" % number]
    for kind, words in parts.items():
        first, *others = textwrap.wrap(words, WIDTH)
        lines += ["  %-15s%s" % (kind, first)] + ["  %15s%s" % ("", other) for other in others]
    return "\n".join(lines) + "\n"


def main(arguments):
    """Prints what a refusal says, or each of them if none is named."""
    if len(arguments) > 1:
        raise Misused("'refusal' takes one number")
    known = {str(number): number for number in REFUSALS}
    if arguments and arguments[0] not in known:
        raise Misused("there is no refusal '%s': they are 1 to 13, and 51, 52, 53 and 62 of a C function" %
                      named(arguments[0]))
    return show_text("\n".join(described(known[name]) for name in arguments or known))
