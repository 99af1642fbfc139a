"""Refusals in words: a table of damaged texts, every kind of damage to a text, and the table of refusals."""
import random
import re

import damaged_texts
import texts
from cases_support import stored
from command import helping, limits, programs
from command.explaining import explain
from command.refusals import C_CALLS, CALLS, PROGRAMS, REFUSALS
from reference import Refused
from reference_texts import read_case

STEP_TEXT_REFUSALS = {51, 52, 53, 62}


def check_table(checks):
    """Each damaged text has its refusal and its words. The rounds report refuses it as the day report does."""
    words_of_day, words_of_rounds = programs.words_of("day"), programs.words_of("rounds")
    for name, text, number, place, words in damaged_texts.DAMAGED:
        reply = programs.ask("day", words_of_day, text[:8193])
        said = explain(number, place, text[:8193])
        checks.that("%s: %r, %s" % (name, reply, said), (reply, said) == (refused(number, place), words))
        reply = programs.ask("rounds", words_of_rounds, text[:8193])
        checks.that("%s, in rounds: %r" % (name, reply), reply == refused(number, place))
    checks.that("there are 100 damaged texts", len(damaged_texts.DAMAGED) >= 100)


def refused(number, place):
    """The line of a refusal."""
    return b"refused\t%d\t%d\n" % (number, place)


def check_table_called(checks):
    """The command prints and says the same; the planning program counts a line more, and the words do not."""
    for name, text, number, place, words in damaged_texts.DAMAGED[::5]:
        called = checks.call("day", text=text)
        wanted = 1, refused(number, place), ("wozgrzyt: standard input: %s\n" % words).encode()
        checks.that("%s: %s" % (name, words), called == wanted, called)
    for name, text, number, place, words in damaged_texts.DAMAGED[2::9]:
        called = checks.call("plan", "3", text=text)
        checks.refuses("%s, planned" % name, called, refused(number, place and place + 1), words)


def check_plan_line(checks):
    """The planning program counts its plan line among the bytes."""
    text = damaged_texts.SEVEN + b"x" * (8190 - len(damaged_texts.SEVEN))
    words = "the text has 8,190 bytes and the plan line 7: together they are over 8,192 bytes"
    checks.refuses("8,190 bytes and a plan line", checks.call("plan", "3", text=text), b"refused\t1\t0\n", words)


def check_every_damage(checks):
    """Every kind of damage has words of its own, and not only the table's for its number."""
    known, rng, plain, count = texts.texts(), random.Random(2026), [], 0
    damaged = list(texts.damaged(known["seven"], 8192, rng, 60)) + list(texts.damaged(known["full"], 8192, rng, 40))
    damaged += texts.damaged(stored("cases", "double-circuit.case"), 8192, rng, 40)
    for text in damaged:
        try:
            read_case(text)
            continue
        except Refused as no:
            number, place = no.args
        words = explain(number, place, text)
        planned = explain(number, place and place + 1, text, b"plan\n")
        count += 1
        if REFUSALS[number].when in words or planned != words or "\n" in words or not words.isascii():
            plain.append((text, words))
    checks.that("words of drawn damage: %r" % plain[:3], not plain and count > 1000)


def check_documents(checks):
    """The table of refusals is that of docs/CALLS.md, and of include/wozgrzyt.h for the C functions."""
    calls = stored("docs", "CALLS.md").decode()
    rows = dict((int(number), (when, place)) for number, when, place in
                re.findall(r"^\| (\d+) \| (.*) \| (.*) \|$", calls, re.M))
    checks.that("docs/CALLS.md has 13 refusals", sorted(rows) == list(range(1, 14)))
    for number, (when, place) in rows.items():
        row = REFUSALS[number]
        checks.that("refusal %d is as in docs/CALLS.md" % number, (row.when, row.place) == (when, place))
    given = {number: set() for number in REFUSALS}
    for name, numbers in re.findall(r"^\| `([a-z_]+)\(.*\| ([^|]*) \|$", calls, re.M):
        for number in re.findall(r"\d+", numbers):
            given[int(number)].add(name)
    in_c = {number: set() for number in REFUSALS}
    header = stored("include", "wozgrzyt.h").decode()
    for numbers, name in re.findall(r"Refuses ([0-9,\s*]+)\. \*/\s*uint32_t (wz_[a-z]+)\(", header):
        for number in re.findall(r"\d+", numbers):
            in_c[int(number)].add(name)
    checks.that("docs/CALLS.md and the header name calls", any(given.values()) and any(in_c.values()))
    for number, row in REFUSALS.items():
        calls, functions = set(row.givers[CALLS].split()), set(row.givers[C_CALLS].split())
        checks.that("who gives refusal %d: %s" % (number, given[number]), calls == given[number])
        checks.that("who gives refusal %d in C: %s" % (number, in_c[number]), functions == in_c[number])


def check_limits(checks):
    """The limits are those of docs/CALLS.md."""
    calls = stored("docs", "CALLS.md").decode()
    rows = re.findall(r"\| ([0-9,]+) \| `(most_[a-z_]*)` \|$", calls, re.M)
    known = {name: int(most.replace(",", "")) for most, name in rows}
    for ours, theirs in [("MOST_BUSES", "most_buses"), ("MOST_LINES", "most_lines"), ("MOST_CIRCUITS", "most_circuits"),
                         ("MOST_BYTES", "most_bytes"), ("MOST_BUDGET", "most_budget")]:
        checks.that("%s is %s" % (ours, theirs), getattr(limits, ours) == known.get(theirs))
    defined = stored("crates", "grid", "specs", "Limits.antt").decode()
    checks.that("LEAST_SEVERAL is least_several", "\nleast_several = %d\n" % limits.LEAST_SEVERAL in defined)
    defined = stored("crates", "plan_input", "specs", "Asking.antt").decode()
    checks.that("DEFAULT_BUDGET is default_budget", "\ndefault_budget = %d\n" % limits.DEFAULT_BUDGET in defined)
    given = "0 to %d, and %d if none is given" % (limits.MOST_BUDGET, limits.DEFAULT_BUDGET)
    checks.that("the help on 'plan' says both", given in helping.PLAN)
    checks.that("the manual page says both", given in stored("docs", "wozgrzyt.1").decode())
    checks.that("README says the default", "the budget is %d" % limits.DEFAULT_BUDGET in stored("README.md").decode())


def check_refusal(checks):
    """`refusal N` prints the row of the table, and `refusal` prints all."""
    everything = checks.call("refusal")
    checks.that("refusal", everything.status == 0 and not everything.err, everything)
    for number, row in REFUSALS.items():
        called = checks.call("refusal", str(number)) if number % 5 == 2 else everything
        found = re.search(r"^refusal %d\n((?:  .*\n)+)" % number, called.out.decode(), re.M)
        said = " ".join(found[1].split()) if found else ""
        named = [word for kind in (PROGRAMS, C_CALLS, CALLS) for word in row.givers[kind].split()]
        wanted = [" ".join(row.when.split()), "place " + row.place] + named
        checks.that("refusal %d" % number, called.status == 0 and all(words in said for words in wanted), called)
    checks.that("the C function's own refusals", STEP_TEXT_REFUSALS < set(REFUSALS))


CHECKS = [
    check_table, check_table_called, check_plan_line, check_every_damage, check_documents, check_limits, check_refusal,
]
