"""Observation in rounds: the program's replies, the lines for people, and replies that are no list of rounds."""
import glob
import os
import random
import re

from cases_builds import ONE_BUS
from cases_map import drawn_case
from cases_support import PROGRAM, TOP, Checkout, stored, write
from command import programs
from reference import Case
from reference_texts import write_case

NO_ROUNDS = b"no rounds: no unit observes a bus\n"


def asked(text, name="rounds"):
    """A program's reply to a text."""
    return programs.ask(name, programs.words_of(name), text)


def for_people(reply):
    """What the command prints for a reply: its lines without `end`, a colon after the number, blanks for tabs."""
    lines = re.sub(rb"(?m)^(round)\t(\d+)", rb"\1 \2:", reply[:-len(b"end\n")])
    return lines.replace(b"\t", b" ") or NO_ROUNDS


def check_stored(checks):
    """Every case has its stored reply, and the command prints it for people."""
    for case in sorted(glob.glob(os.path.join(TOP, "cases", "*.case"))):
        wanted, reply = stored(case[:-len("case")] + "rounds"), asked(stored(case))
        checks.that("the rounds of %s: %r" % (case, reply), reply == wanted)
        called = checks.call("rounds", case)
        checks.that("rounds %s" % case, called == (0, for_people(wanted), b""), called)


def check_lines(checks):
    """The lines for people, from a file and from standard input, and the line for no rounds."""
    for name, lines in [
        ("seven", b"round 1: 2 3 4 7\nround 2: 1\n"), ("seven-bare", NO_ROUNDS),
        ("rounds-path", b"round 1: 1 2\nround 2: 3\nround 3: 4\n"),
    ]:
        text = stored("cases", name + ".case")
        for arguments in (["rounds", os.path.join(TOP, "cases", name + ".case")], ["rounds", "-"], ["rounds"]):
            called = checks.call(*arguments, text=text, cwd="/")
            checks.that("%s of %s" % (" ".join(arguments), name), called == (0, lines, b""), called)


def check_longest(checks):
    """A row of 64 Z buses with a unit at one end has 63 rounds: the first adds two buses, each later one adds one."""
    row = Case(64).drawn(lines=[(bus, bus + 1) for bus in range(1, 64)], zero=range(1, 65), units=[1])
    text = write_case(row, 8192)
    wanted = b"round 1: 1 2\n" + b"".join(b"round %d: %d\n" % (place, place + 1) for place in range(2, 64))
    called = checks.call("rounds", text=text)
    checks.that("a row of 64 buses", called == (0, wanted, b""), called)
    every = Case(64).drawn(lines=[(bus, bus + 1) for bus in range(1, 64)], units=range(1, 65))
    called = checks.call("rounds", text=write_case(every, 8192))
    wanted = b"round 1: %s\n" % " ".join(map(str, range(1, 65))).encode()
    checks.that("a unit at each of 64 buses", called == (0, wanted, b""), called)


def check_drawn(checks):
    """On drawn grids the first round is the units and their neighbours. Each observed bus is in one round."""
    rng, later = random.Random(2), 0
    for _ in range(60):
        case = drawn_case(rng)
        text = write_case(case, 8192)
        reply = asked(text)
        rounds = [list(map(int, line.split(b"\t")[2:])) for line in reply.splitlines()[:-1]]
        later += len(rounds) > 1
        near = sorted(set(case.units).union(*(case.rows[unit] for unit in case.units)))
        seen = sorted(int(bus) for bus in re.findall(rb"^step\t(\d+)", asked(text, "day"), re.M))
        checks.that("the first round: %r" % reply, rounds[:1] == ([near] if near else []))
        checks.that("all rounds: %r" % reply, sorted(sum(rounds, [])) == seen)
        checks.that("buses rise: %r" % reply, all(sorted(set(buses)) == buses != [] for buses in rounds))
    checks.that("%d grids have over one round" % later, later >= 10)


def check_refused(checks):
    """A refused text is refused as by the day report, in the same words."""
    for text, reply in [
        (stored("cases", "seven.case")[:-1], b"refused\t2\t16\n"), (b"x" * 8193, b"refused\t1\t0\n"),
        (b"grid\t65\n", b"refused\t3\t1\n"), (b"grid\t2\nbus\t2\tI\tY\n", b"refused\t4\t2\n"),
    ]:
        called = checks.call("rounds", text=text)
        checks.that("refused as by the day report", called == checks.call("day", text=text), called)
        checks.refuses("a refusal of rounds", called, reply, "wozgrzyt: standard input: ")


def check_no_list(checks):
    """What is no whole reply, or no list of rounds, is none: nothing is printed, and the status is 2."""
    checkout = Checkout(checks, "no rounds", PROGRAM % "end\n")
    called = checkout.call("rounds", text=ONE_BUS)
    checks.that("a build of the program", called[:2] == (0, NO_ROUNDS) and b"rt: rounds proved" in called.err, called)
    binary = checkout.at("target", "bin", "rounds")
    for words, replies in [
        ("gave no whole reply", [
            "", "end", "round\t1\t1\n", "round\t1\t1\nend", "round\t1\t1\nen\n", "round\t1\t1end\n",
            "refused\t2\n", "refused\t2\t1", "refused\t2\t1\nrefused\t2\t1\n"]),
        ("gave a reply that is not a list of rounds", [
            "round\t1\nend\n", "round\t1\t\nend\n", "round\t1\t1\t\nend\n", "round\t1\t1\t\t2\nend\n",
            "round\t1\tx\nend\n", "round\t1\t01\nend\n", "round\t01\t1\nend\n", "round\t0\t1\nend\n",
            "round\t2\t1\nend\n", "round\t1\t1\nround\t1\t2\nend\n", "round\t1\t1\nround\t3\t2\nend\n",
            "round 1 1\nend\n", "rounds\t1\t1\nend\n", "\nend\n", "end\nend\n", "round\t1\t1\nend\nend\n",
            "round\t1\t1\n\nend\n", "round\t1\t1\r\nend\n", "round\t1\t\\377\nend\n",
            "refused\t2\t1\nend\n", "observed\t0\t1\nxv\tyes\nend\n"]),
    ]:
        for printed in replies:
            write(binary, PROGRAM % printed, 0o755)
            checks.stops("a reply %r" % printed, checkout.call("rounds", text=ONE_BUS), "the program 'rounds' " + words)
    write(binary, PROGRAM % "end\n" + "exit 3\n", 0o755)
    called = checkout.call("rounds", text=ONE_BUS)
    checks.stops("a bad end", called, "the program 'rounds' did not end well: its status is 3")
    write(binary, PROGRAM % "round\t1\t1\t2\nround\t2\t3\nend\n", 0o755)
    called = checkout.call("rounds", text=ONE_BUS)
    checks.that("a list of rounds", called == (0, b"round 1: 1 2\nround 2: 3\n", b""), called)


CHECKS = [check_stored, check_lines, check_longest, check_drawn, check_refused, check_no_list]
