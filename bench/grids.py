#!/usr/bin/env python3
"""Draws grids by chance from families on which a search for the fewest units is slow.

    bench/grids.py                       the names of the families
    bench/grids.py FAMILY NUMBER > CASE  the case text of one grid

A grid is determined by its family and its number. The dice are splitmix64, written out below. So it is the same grid
with every version of Python. The buses of each grid are renumbered by chance.
"""
import sys

WORD = (1 << 64) - 1


class Dice:
    """splitmix64, started by the name of a family and the number of a grid."""

    def __init__(self, name, number):
        self.state = number & WORD
        for byte in name.encode():
            self.state = (self.state * 1099511628211 + byte) & WORD

    def word(self):
        self.state = (self.state + 0x9E3779B97F4A7C15) & WORD
        z = self.state
        z = ((z ^ (z >> 30)) * 0xBF58476D1CE4E5B9) & WORD
        z = ((z ^ (z >> 27)) * 0x94D049BB133111EB) & WORD
        return z ^ (z >> 31)

    def below(self, m):
        return self.word() % m

    def shuffled(self, many):
        """The numbers below many, in an order drawn by chance."""
        p = list(range(many))
        for i in range(many - 1, 0, -1):
            j = self.below(i + 1)
            p[i], p[j] = p[j], p[i]
        return p

    def some(self, many, percent):
        return set(self.shuffled(many)[:many * percent // 100])


# ---- lines between the buses 0 to n - 1

def board(rows, columns, torus=False):
    at = lambda r, c: r % rows * columns + c % columns
    across = [(at(r, c), at(r, c + 1)) for r in range(rows) for c in range(columns - (not torus))]
    return across + [(at(r, c), at(r + 1, c)) for r in range(rows - (not torus)) for c in range(columns)]


def triangles():
    return board(8, 8) + [(8 * r + c, 8 * r + c + 9) for r in range(7) for c in range(7)]


def rooks(rows, columns):
    joined = lambda i, j: i // columns == j // columns or i % columns == j % columns
    return [(i, j) for i in range(rows * columns) for j in range(i) if joined(i, j)]


def shrikhande():
    steps = (0, 1), (1, 0), (1, 1)
    return [(4 * a + b, (a + x) % 4 * 4 + (b + y) % 4) for a in range(4) for b in range(4) for x, y in steps]


def paley(q):
    squares = {x * x % q for x in range(1, q)}
    return [(a, b) for a in range(q) for b in range(a) if a - b in squares]


def cube():
    return [(a, a ^ 1 << b) for a in range(64) for b in range(6) if not a >> b & 1]


def copies(size, many, lines):
    return [(size * o + a, size * o + b) for o in range(many) for a, b in lines]


def path(first, last):
    return [(b, b + 1) for b in range(first, last)]


def corona(size, lines, leaves):
    return lines + [(b, size + leaves * b + i) for b in range(size) for i in range(leaves)]


def cycle(first, size):
    return [(first + b, first + (b + 1) % size) for b in range(size)]


def doubled(pairs):
    """The places of the pairs that join a bus to itself, or two buses that an earlier pair joins."""
    seen, bad = set(), []
    for i, (a, b) in enumerate(pairs):
        pair = (min(a, b), max(a, b))
        if a == b or pair in seen:
            bad.append(i)
        seen.add(pair)
    return bad


def regular(dice, degree):
    """Every bus has so many lines: ends joined by chance, and pairs exchanged until none is bad."""
    ends = [e // degree for e in dice.shuffled(64 * degree)]
    pairs = [[ends[i], ends[i + 1]] for i in range(0, len(ends), 2)]
    bad = doubled(pairs)
    while bad:
        i, j = bad[dice.below(len(bad))], dice.below(len(pairs))
        pairs[i][1], pairs[j][1] = pairs[j][1], pairs[i][1]
        bad = doubled(pairs)
    return pairs


def any_corona(dice):
    kinds = ((32, cycle(0, 32), 1), (21, cycle(0, 21), 2), (16, cycle(0, 16), 3),
             (32, board(4, 8), 1), (21, board(3, 7), 2), (16, board(4, 4), 3))
    return corona(*kinds[dice.below(len(kinds))])


# Of each family: its lines, and the least and the most percent of Z buses.
FAMILIES = {
    "random 3-regular": (lambda dice: regular(dice, 3), 30, 80),
    "random 4-regular": (lambda dice: regular(dice, 4), 30, 80),
    "random 5-regular": (lambda dice: regular(dice, 5), 30, 80),
    "random 6-regular": (lambda dice: regular(dice, 6), 30, 80),
    "random 7-regular": (lambda dice: regular(dice, 7), 30, 80),
    "random 8-regular": (lambda dice: regular(dice, 8), 30, 80),
    "8 by 8 torus": (lambda dice: board(8, 8, True), 30, 100),
    "8 by 8 mesh": (lambda dice: board(8, 8), 30, 100),
    "triangular mesh": (lambda dice: triangles(), 30, 100),
    "four 4 by 4 rooks": (lambda dice: copies(16, 4, rooks(4, 4)), 30, 100),
    "two 5 by 5 rooks": (lambda dice: copies(25, 2, rooks(5, 5)) + path(49, 63), 30, 100),
    "four Shrikhande": (lambda dice: copies(16, 4, shrikhande()), 30, 100),
    "four Paley 13": (lambda dice: copies(13, 4, paley(13)), 30, 100),
    "three Paley 17": (lambda dice: copies(17, 3, paley(17)), 30, 100),
    "hypercube": (lambda dice: cube(), 30, 100),
    "coronas": (any_corona, 30, 100),
}

# Families of which bench/run has single grids.
MORE = {
    "7-regular, much Z": (lambda dice: regular(dice, 7), 80, 100),
    "8-regular, much Z": (lambda dice: regular(dice, 8), 80, 100),
    "three 4 by 5 rooks": (lambda dice: copies(20, 3, rooks(4, 5)), 50, 100),
    "two 5 by 5 rooks and a cycle": (lambda dice: copies(25, 2, rooks(5, 5)) + cycle(50, 14), 50, 100),
}


def drawn(family, number):
    """The case text of one grid. One grid in four has sites N, and one in eight has installed units too."""
    lines_of, least, most = {**FAMILIES, **MORE}[family]
    dice = Dice(family, number)
    lines = lines_of(dice)
    n = 1 + max(max(line) for line in lines)
    names = dice.shuffled(n)
    zeros = dice.some(n, least + dice.below(most - least + 1))
    kind = dice.below(8)
    closed = dice.some(n, 10 + dice.below(21)) if kind < 2 else ()
    units = dice.some(n, 1 + dice.below(5)) if kind < 1 else ()
    text = ["grid\t%d" % n]
    text += ["bus\t%d\t%s\t%s" % (b + 1, "IZ"[b in zeros], "YN"[b in closed]) for b in range(n)]
    ends = sorted({tuple(sorted((names[a] + 1, names[b] + 1))) for a, b in lines})
    text += ["line\t%d\t%d" % pair for pair in ends]
    text += ["pmu\t%d" % (b + 1) for b in sorted(units)]
    return "\n".join(text + ["end", ""]).encode()


def main():
    if len(sys.argv) == 3 and sys.argv[1] in {**FAMILIES, **MORE} and sys.argv[2].isdigit():
        sys.stdout.buffer.write(drawn(sys.argv[1], int(sys.argv[2])))
    elif len(sys.argv) == 1:
        print("\n".join({**FAMILIES, **MORE}))
    else:
        sys.exit("usage: bench/grids.py [FAMILY NUMBER]")


if __name__ == "__main__":
    main()
