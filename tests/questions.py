#!/usr/bin/env python3
"""The questions for crates/ask, and what it must print for them, by the references beside this file.

    tests/questions.py stdin     prints crates/ask/stdin: the named questions, as the program reads them
    tests/questions.py stdout    prints crates/ask/stdout: the replies to them
    tests/questions.py drawn SEED COUNT PROGRAM
        asks the program COUNT questions drawn from the seed, and texts that are damaged in every way, and compares.
        Compares on each drawn grid the rounds of the references with their observed set too.
        Prints each difference, and then one line of counts. The exit status is 1 after a difference.

The program reads blocks of 32,768 bytes. No question goes over the end of one, and each block starts from nothing.
"""
import collections
import functools
import subprocess
import sys

import questions_drawn
import questions_named
import reference_rounds
import replies
from reference import is_grid, observed_set

BLOCK = 32768
# the letter by which each call is asked
LETTERS = dict(
    observed_set="o", firing_figure="f", test_step="t", derivation="d", replay="r", weave="w", cross_validate="v",
    place_greedy="g", place_fewest="p", read_case="R", write_case="W", check_steps="C", read_steps="S",
    replay_text="P", day_report="D", plan_report="L", observed_rounds="i", rounds_report="I",
)


class Question:
    """A question: its name, its call with what it is asked of, and the lines that ask it."""

    def __init__(self, name, call, arguments, asked, reply=None):
        self.name, self.call, self.arguments, self.asked, self.given = name, call, arguments, asked, reply

    @functools.cached_property
    def reply(self):
        """What is printed after the name and a colon, and the refusal's number, or 0."""
        return self.given or replies.reply(self.call, *self.arguments)

    def printed(self):
        return "%s:%s\n" % (self.name, self.reply[0])


def line(letter, a=0, b=0, name=""):
    fields = [letter, str(a)] + ([str(b)] if b or name else []) + ([name] if name else [])
    return ("\t".join(fields) + "\n").encode()


def case_lines(case, stated=()):
    """The lines that draw a case, and state a set."""
    said = [line("n", case.n)]
    blank = set(range(1, case.n + 1)) if case.n <= 64 else set()
    marks = dict(x=blank - case.site, y=case.site - blank, z=case.zero, u=case.units, s=stated)
    said += [line(letter, b) for letter, buses in marks.items() for b in sorted(buses)]
    for a, row in case.rows.items():
        for b in sorted(row):
            if not is_line(case, a, b):
                said.append(line("h" if case.count(a, b) else "j", a, b))
            elif a <= b:
                said.append(line("l", a, b))
    # l and h count one circuit, and each c one more
    for (a, b), count in sorted(case.circuits.items()):
        said += [line("c", a, b)] * (count - 1 if b in case.rows[a] else count)
    return b"".join(said)


def is_line(case, a, b):
    """Whether a and b see each other, and each counts a circuit to the other."""
    return b in case.rows[a] and a in case.rows[b] and case.count(a, b) > 0 and case.count(b, a) > 0


def step_lines(steps):
    return line("e") + b"".join(line(reason[0], bus, *reason[1:]) for bus, reason in steps)


def text_lines(text):
    return line("T", len(text)) + text


def filled(block):
    """The block to its end: a text that nothing asks about, and at most a few empty lines."""
    rest = BLOCK - len(block)
    count = rest - len(line("T", rest))
    if count > 0:
        block += line("T", count) + b"." * count
    return block.ljust(BLOCK, b"\n")


class Asker:
    """Gathers questions, and the blocks that ask them."""

    def __init__(self):
        self.questions, self.blocks, self.block, self.drawn = [], [], b"", None

    def ask(self, name, call, setup, arguments, numbers, reply=None):
        """Asks of what the setup draws; the references find the reply if none is given."""
        asked = line(LETTERS[call], *numbers, name=name)
        lines = asked if setup == self.drawn else setup + asked
        if len(self.block) + len(lines) > BLOCK:
            self.blocks.append(filled(self.block))
            self.block, lines = b"", setup + asked
        self.block, self.drawn = self.block + lines, setup
        assert len(self.block) <= BLOCK
        self.questions.append(Question(name, call, arguments + numbers, setup + asked, reply))

    def of_case(self, name, call, case, *numbers, stated=(), reply=None):
        arguments = (case, stated) if call == "firing_figure" else (case,)
        self.ask(name, call, case_lines(case, stated), arguments, numbers, reply)

    def of_list(self, name, call, case, steps, *numbers, stated=()):
        arguments = (case, stated, steps) if call == "test_step" else (case, steps)
        self.ask(name, call, case_lines(case, stated) + step_lines(steps), arguments, numbers)

    def of_text(self, name, call, text, *numbers, case=None):
        if case is None:
            self.ask(name, call, text_lines(text), (text,), numbers)
        else:
            self.ask(name, call, case_lines(case) + text_lines(text), (case, text), numbers)

    def stdin(self):
        return b"".join(self.blocks) + self.block

    def stdout(self):
        return "".join(question.printed() for question in self.questions).encode()


def compared(asker, program, seed):
    """Prints each difference between what the program prints and the replies; the number of differences."""
    run = subprocess.run(program.split(), input=asker.stdin(), stdout=subprocess.PIPE)
    said, at, different = run.stdout.decode(errors="replace"), 0, run.returncode != 0
    if run.returncode:
        print("the program ended with %d" % run.returncode)
    for question, following in zip(asker.questions, asker.questions[1:] + [None]):
        wanted = question.printed()
        if said.startswith(wanted, at):
            at += len(wanted)
            continue
        ends = said.find("\n%s:" % following.name, at) + 1 if following else len(said)
        got = said[at:ends] if ends > at else said[at:at + 1000]
        at = ends or at
        different += 1
        if different <= 5:
            print("seed %s, %s, asked by %r" % (seed, question.call, question.asked))
            print("wanted: %s\nprinted: %s" % (wanted, got))
    return different + (at != len(said))


def reach_observed(case):
    """Whether the rounds of a grid add each bus of its observed set once, and no other."""
    added = [bus for buses in reference_rounds.rounds(case) for bus in buses]
    return sorted(added) == sorted(observed_set(case))


class Counts:
    """How many questions there were of each call, how many were accepted, and how often each refusal was given.

    Of the grids whose rounds are asked for, `unlike` has those whose rounds do not reach the observed set.
    """

    def __init__(self):
        self.calls, self.accepted, self.refused = (collections.Counter() for _ in range(3))
        self.grids, self.unlike = 0, 0

    def add(self, questions):
        cases = [q.arguments[0] for q in questions if q.call == "observed_rounds"]
        alike = [reach_observed(case) for case in cases if is_grid(case)]
        self.grids += len(alike)
        self.unlike += alike.count(False)
        self.calls.update(q.call for q in questions)
        self.accepted.update(q.call for q in questions if q.reply[1] == 0)
        self.refused.update(q.reply[1] for q in questions if q.reply[1])

    def missing(self, count):
        """The calls with fewer than a 20th of so many, or a 100th accepted, and the refusals that were not given."""
        calls = [call for call in LETTERS if self.calls[call] < count // 20 or self.accepted[call] < count // 100]
        return calls + [k for k in range(1, 14) if not self.refused[k]]

    def line(self):
        calls = ", ".join("%s %d (%d accepted)" % (call, self.calls[call], self.accepted[call]) for call in LETTERS)
        refused = ", ".join("%d: %d" % item for item in sorted(self.refused.items()))
        said = "%d questions: %s; refused %s" % (sum(self.calls.values()), calls, refused)
        return said + "; of %d grids the rounds reach the observed set" % (self.grids - self.unlike)


def ask_drawn(seed, count, program):
    """Asks part after part, so that few questions are held at once; whether all replies are right."""
    counts, different = Counts(), 0
    for ask in questions_drawn.parts(seed, count):
        asker = Asker()
        ask(asker)
        different += compared(asker, program, seed)
        counts.add(asker.questions)
    missing = counts.missing(count)
    if missing:
        print("too few: %s" % missing)
    if counts.unlike:
        print("of %d grids the rounds do not reach the observed set" % counts.unlike)
    print("seed %s, %s" % (seed, counts.line()))
    return not different and not missing and not counts.unlike


def main():
    if sys.argv[1] == "drawn":
        sys.exit(0 if ask_drawn(sys.argv[2], int(sys.argv[3]), sys.argv[4]) else 1)
    asker = Asker()
    questions_named.ask_all(asker)
    sys.stdout.buffer.write(asker.stdin() if sys.argv[1] == "stdin" else asker.stdout())


if __name__ == "__main__":
    main()
