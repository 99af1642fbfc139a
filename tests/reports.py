#!/usr/bin/env python3
"""What the three programs print, worked out by the references beside this file.

    tests/reports.py day              the day report for the case text on standard input
    tests/reports.py rounds           the rounds report for that text
    tests/reports.py plan [BUDGET]    the planning program's reply to `plan BUDGET`, or to `plan` alone, and that text

The fewest are found by trying every placement in order. A case of few buses, or with few units missing, takes seconds;
others take hours.
"""
import sys

import reference_rounds
from reference import Refused, derivation, observed_set
from reference_sites import MOST_BUDGET, fewest, unconfirmed
from reference_texts import CASE_LIMIT, lines, number, read_case

# document 02, 3/13: what `plan` alone means
DEFAULT_BUDGET = 3


def refused(no):
    return lines([("refused",) + no.args])


def day(text):
    """The day report, or its refusal's line."""
    try:
        case = read_case(text)
    except Refused as no:
        return refused(no)
    alone = unconfirmed(case)
    rows = [("observed", len(observed_set(case)), case.n)]
    rows += [("step", bus) + reason for bus, reason in derivation(case)]
    rows += [("xv", "no", len(alone)) if alone else ("xv", "yes"), ("end",)]
    return lines(rows)


def rounds(text):
    """The rounds report, or its refusal's line."""
    try:
        listed = reference_rounds.rounds(read_case(text))
    except Refused as no:
        return refused(no)
    return lines([("round", place, *buses) for place, buses in enumerate(listed, 1)] + [("end",)])


def read_plan(text):
    """The budget and the case. The plan line is line 1."""
    if len(text) > CASE_LIMIT:
        raise Refused(1, 0)
    line, feed, rest = text.partition(b"\n")
    word, *fields = line.split(b"\t")
    budget = number(fields[0]) if fields else DEFAULT_BUDGET
    if not feed or word != b"plan" or len(fields) > 1 or budget is None:
        raise Refused(2, 1)
    return budget, read_case(rest, 2)


def plan(text):
    """The planning program's reply."""
    try:
        budget, case = read_plan(text)
        if budget > MOST_BUDGET:
            raise Refused(10, 1)
        sites = fewest(case, budget)
    except Refused as no:
        return refused(no)
    return lines([("fewest", len(sites))] + [("pmu", x) for x in sites] + [("end",)])


def main():
    text = sys.stdin.buffer.read()
    if sys.argv[1] == "plan":
        printed = plan("\t".join(sys.argv[1:]).encode() + b"\n" + text)
    else:
        printed = {"day": day, "rounds": rounds}[sys.argv[1]](text)
    sys.stdout.buffer.write(printed)


if __name__ == "__main__":
    main()
