"""Questions drawn from a seed: grids, sets, lists, texts, budgets and rooms, valid and damaged."""
import functools
import random

import reports
from reference import Case, holds, is_grid, observed, reasons
from reference_rounds import numbers, rounds
from reference_texts import CASE_LIMIT, STEP_LIMIT, write_case, write_steps
from texts import damaged, over, places_of, texts

# the highest number but one that a line can say
HUGE = 18446744073709551608
# the numbers that crates/ask can lend: eight more than the rounds of any grid have
MOST_LENT = 136
# the questions of a turn: one of each public call, and the observed set of the grid whose rounds are asked for
QUESTIONS = 19


def ask_damaged(asker, seed):
    """Each kind of damage: at every place of the small texts, and at drawn places of the large ones."""
    rng, text = random.Random("damaged %s" % seed), texts()
    for name in ("seven", "parallel"):
        for k, case in enumerate(damaged(text[name], CASE_LIMIT)):
            asker.of_text("%s %d" % (name, k), "read_case", case)
    for name, count in (("full", 20), ("more", 5), ("circuits", 30), ("circuits_more", 5)):
        for k, case in enumerate(damaged(text[name], CASE_LIMIT, rng, count)):
            asker.of_text("%s %d" % (name, k), "read_case", case)
    for k, steps in enumerate(damaged(text["steps"], STEP_LIMIT)):
        asker.of_text("steps %d" % k, "check_steps", steps)
        for room in (4, 5, 6):
            asker.of_text("steps %d into %d" % (k, room), "read_steps", steps, room)
    for k, steps in enumerate(damaged(text["many"], STEP_LIMIT, rng, 10)):
        asker.of_text("many %d" % k, "check_steps", steps)


class Dice(random.Random):
    """What questions are drawn from."""

    def chance(self, percent):
        return self.random() * 100 < percent

    def some(self, buses, percent):
        return {b for b in buses if self.chance(percent)}

    def bus(self, n):
        """Mostly a bus of the grid; else one that may not be."""
        return self.randint(1, max(1, min(n, 64))) if self.chance(90) else self.choice((0, n + 1, 64, 65, HUGE))

    def room(self, wanted, most):
        """Room for as much as is wanted, for one less or more, for the most, or any."""
        near = min(most, max(0, wanted + self.randint(-1, 1)))
        return self.choice((near, near, most, self.randint(0, most), self.randint(0, wanted)))

    def pairs(self, n):
        """The lines of a grid, by the places of its buses in a row."""
        width = self.randint(1, 8)
        shapes = (
            lambda: [(b, b + 1) for b in range(1, n)],
            lambda: [(b, b % n + 1) for b in range(1, n + 1)] if n > 2 else [],
            lambda: [(1, b) for b in range(2, n + 1)],
            lambda: [(self.randint(1, b - 1), b) for b in range(2, n + 1)],
            lambda: [(b, b + d) for b in range(1, n + 1) for d in (1, width) if b + d <= n],
            lambda: [],
        )
        return self.choice(shapes)()

    def grid(self, most=64):
        """A valid case of up to so many buses."""
        n = self.randint(1, most if self.chance(50) else min(most, 12))
        order = self.sample(range(1, n + 1), n)
        lines = [(order[a - 1], order[b - 1]) for a, b in self.pairs(n)]
        for _ in range(self.choice((0, 0, 1, n // 2, 3 * n)) if n > 1 else 0):
            lines.append(tuple(self.sample(range(1, n + 1), 2)))
        case = Case(n).drawn(lines=lines[:256], zero=self.some(order, self.choice((0, 30, 60, 100))))
        case.site = self.some(order, self.choice((0, 50, 90, 100, 100)))
        case.units = self.some(order, self.choice((5, 15, 40)))
        # a block has no room for circuits at every line
        pairs = sorted(case.circuits)
        for a, b in self.sample(pairs, min(len(pairs), self.choice((0, 1, 5, 40)))):
            case.join(a, b, self.randint(1, 8))
        return case

    def far(self):
        """A valid case that has many rounds: rows side by side, almost all Z, with units only at their beginning."""
        n, width = self.randint(2, 64), self.randint(1, 5)
        order, across = self.sample(range(1, n + 1), n), self.choice(((1,), (width,), (1, width), (1, width + 1)))
        lines = [(order[b], order[b + d]) for b in range(n) for d in across if b + d < n]
        zero, units = self.some(order, self.choice((90, 97, 100))), self.some(order[:width], 70)
        return Case(n).drawn(lines=lines, zero=zero, units=units | {order[0]})

    def noise(self, n):
        """A case value with any bits in it."""
        case, buses = Case(n), range(1, 65)
        for a in buses:
            for b in self.sample(buses, self.randint(0, 8)):
                case.see(a, b)
        for a, b in self.sample(sorted(case.circuits), min(len(case.circuits), 20)):
            case.circuits[a, b] = self.randint(0, 15)
        for _ in range(20):
            case.circuits[self.choice(buses), self.choice(buses)] = self.randint(0, 15)
        case.zero, case.site, case.units = (self.some(buses, 50) for _ in range(3))
        return case

    def miscounted(self, case):
        """A case value with other circuits at one pair, from one end or from both. Mostly it is not valid any more."""
        n, high, count = case.n, self.randint(min(case.n + 1, 64), 64), self.randint(1, 15)
        a, b, joined = self.randint(1, n), self.randint(1, n), sorted(case.circuits)
        if joined and self.chance(60):
            a, b = self.choice(joined)
            count = self.choice((0, self.randint(1, 8), self.randint(9, 15)))
        else:
            a, b = self.choice(((a, b), (a, b), (a, a), (a, high), (high, a), (high, high), (high, 64)))
        ends = [(a, b, count), (b, a, count)]
        return case.drawn(counted=ends if self.chance(60) else ends[:1])

    def wrong(self, case):
        """A case value of which one thing or two is damaged; seldom all."""
        if self.chance(5):
            return self.noise(case.n)
        if self.chance(40):
            return self.miscounted(case)
        n, high = case.n, self.randint(min(case.n + 1, 64), 64)
        a, b = self.randint(1, n), self.randint(1, 64)
        crowd = [tuple(self.sample(range(1, n + 1), 2)) for _ in range(400)] if n > 30 else [(a, a)]
        damage = (
            dict(half=[(a, b)]), dict(half=[(high, a)]), dict(lines=[(a, a)]), dict(lines=[(a, high)]),
            dict(zero=[high]), dict(site=[high]), dict(units=[high]), dict(lines=crowd), dict(lines=[(high, high)]),
        )
        if self.chance(70):
            return case.drawn(**self.choice(damage))
        case = case.drawn(**self.choice(damage) if self.chance(30) else {})
        case.n = self.choice((0, n - 1, n + 1, 65, 66, 1000, HUGE))
        return case

    def value(self):
        case = self.grid()
        return self.wrong(case) if self.chance(45) else case

    def step(self, n):
        by = self.bus(n)
        return self.bus(n), self.choice((("O",), ("N", by), ("Z", by)))

    def desk(self, case):
        """An allowed list, which need not be finished, in a drawn order."""
        if not is_grid(case):
            return [self.step(case.n) for _ in range(self.randint(0, 5))]
        steps, seen, left = [], set(), True
        while left and not self.chance(2):
            left = [b for b in range(1, case.n + 1) if b not in seen]
            self.shuffle(left)
            ready = ((b, r) for b in left for r in self.sample(reasons(case, b), 2 * len(case.rows[b]) + 1))
            step = next((step for step in ready if holds(case, seen, step)), None)
            if step is None:
                break
            steps.append(step)
            seen.add(step[0])
        return steps

    def long(self, steps):
        """The list again and again, up to 1,024 or 1,025 steps. A block has no room for so many large numbers."""
        short = [(bus, reason) for bus, reason in steps if max((bus,) + reason[1:]) < 100]
        return ((short or [(1, ("O",))]) * 1025)[: self.choice((1024, 1025))]

    def mistaken(self, case, steps):
        """The list with a step more, less or again; or far too long."""
        at = self.randint(0, len(steps))
        if self.chance(10):
            return self.long(steps)
        if self.chance(40):
            return steps[:at] + [self.step(case.n)] + steps[at:]
        if self.chance(50):
            return steps[:at] + steps[at + 1:]
        return steps + self.sample(steps, min(len(steps), 2))

    def plan(self, case):
        steps = self.desk(case)
        return self.mistaken(case, steps) if self.chance(40) else steps

    def merged(self, lists):
        """The lists as one, each in its own order."""
        turns = [d for d, steps in enumerate(lists) for _ in steps]
        self.shuffle(turns)
        lists = [iter(steps) for steps in lists]
        return [next(lists[d]) for d in turns]

    def text(self, text, limit):
        """The text; or damaged once or twice, or too long."""
        if self.chance(50):
            return text
        if self.chance(4):
            return self.choice(list(over(text, limit)))
        for _ in range(self.randint(1, 2)):
            kind, places = self.choice(places_of(text))
            text = self.choice(list(kind(text, self.choice(places))))
        return text

    def to_cover(self, most):
        """A grid with at most so many sites, and a budget within which all placements are quickly tried."""
        budget = self.randint(0, 9)
        case = self.grid(64 if self.chance(60) else 8)
        order, units = self.sample(range(1, case.n + 1), case.n), []
        while len(observed(case, units)) < case.n:
            units.append(order.pop())
        taken = self.randint(0, min(len(units), 8))
        most = min(most, {0: 64, 1: 64, 2: 18, 3: 9}.get(budget, 7))
        case.site = set((units[:taken] + order + units[taken:])[:most])
        case.units = set(units[taken:])
        return case, budget


def of_cases(dice, asker, name, case):
    """One question of each call on a case value alone."""
    asker.of_case(name + "o", "observed_set", case)
    asker.of_case(name + "d", "derivation", case)
    asker.of_case(name + "v", "cross_validate", case)
    budget = dice.choice((dice.randint(0, 12), 64, 65, HUGE)) if dice.chance(50) else dice.randint(0, 64)
    asker.of_case(name + "g", "place_greedy", case, budget, dice.room(dice.randint(0, 8), MOST_LENT))
    length = len(write_case(case, 8192)) if is_grid(case) else 100
    asker.of_case(name + "W", "write_case", case, dice.room(length, 16400))
    i = dice.bus(case.n)
    near = sorted(case.rows.get(i, ()))
    j = dice.choice(near) if near and dice.chance(80) else dice.bus(case.n)
    stated = dice.some(range(1, 65), dice.choice((10, 50, 90)))
    asker.of_case(name + "f", "firing_figure", case, i, j, stated=stated)


def of_lists(dice, asker, name, case):
    """One question of each call on steps."""
    steps = dice.plan(case)
    one = dice.choice(steps) if steps and dice.chance(80) else dice.step(case.n)
    stated = dice.some((bus for bus, _ in steps if 1 <= bus <= 64), 80) - {one[0] if dice.chance(80) else 0}
    asker.of_list(name + "t", "test_step", case, [one], stated=stated)
    asker.of_list(name + "r", "replay", case, steps)
    woven = dice.merged([dice.plan(case) if dice.chance(10) else dice.desk(case) for _ in range(dice.randint(1, 3))])
    asker.of_list(name + "w", "weave", case, woven[:1032], dice.room(len({bus for bus, _ in woven}), 72))
    asker.of_text(name + "P", "replay_text", dice.text(write_steps(steps), STEP_LIMIT), case=case)


def of_texts(dice, asker, name):
    """One question of each call on a text alone."""
    case = dice.grid()
    text = dice.text(write_case(case, 8192), CASE_LIMIT)
    asker.of_text(name + "R", "read_case", text)
    asker.of_text(name + "D", "day_report", text, dice.room(len(reports.day(text)), 16400))
    steps = dice.plan(case)
    text = dice.text(write_steps(steps), STEP_LIMIT)
    asker.of_text(name + "C", "check_steps", text)
    asker.of_text(name + "S", "read_steps", text, dice.room(len(steps), 1032))


def of_rounds(dice, asker, name):
    """The rounds of a case value and its observed set, which they must reach, and the rounds report of a text."""
    case = dice.value() if dice.chance(60) else dice.far()
    length = len(numbers(rounds(case))) if is_grid(case) else dice.randint(0, MOST_LENT)
    asker.of_case(name + "i", "observed_rounds", case, 0 if dice.chance(10) else dice.room(length, MOST_LENT))
    asker.of_case(name + "io", "observed_set", case)
    text = dice.text(write_case(dice.grid() if dice.chance(60) else dice.far(), 8192), CASE_LIMIT)
    asker.of_text(name + "I", "rounds_report", text, dice.room(len(reports.rounds(text)), 16400))


def of_plans(dice, asker, name):
    """The fewest, and the planning program's reply, also to `plan` alone."""
    # damage to the text may change the budget
    case, budget = dice.to_cover(12)
    line = b"plan\n" if budget >= reports.DEFAULT_BUDGET and dice.chance(30) else b"plan\t%d\n" % budget
    text = dice.text(line + write_case(case, 8192), CASE_LIMIT)
    asker.of_text(name + "L", "plan_report", text, dice.room(len(reports.plan(text)), 16400))
    case, budget = dice.to_cover(64)
    case = dice.wrong(case) if dice.chance(25) else case
    asker.of_case(name + "p", "place_fewest", case, budget if dice.chance(95) else HUGE)


def ask_turns(asker, seed, turns):
    """In each turn one question of each call."""
    for turn in turns:
        dice, name = Dice("%s %d" % (seed, turn)), "%d" % turn
        case = dice.value()
        of_cases(dice, asker, name, case)
        of_lists(dice, asker, name, case)
        of_texts(dice, asker, name)
        of_rounds(dice, asker, name)
        of_plans(dice, asker, name)


def parts(seed, count):
    """Functions that ask: the damaged texts, and then so many drawn questions."""
    yield functools.partial(ask_damaged, seed=seed)
    turns = -(-count // QUESTIONS)
    for first in range(0, turns, 500):
        yield functools.partial(ask_turns, seed=seed, turns=range(first, min(first + 500, turns)))
