#!/usr/bin/env python3
"""The fewest units of a case text as an integer program, in the LP format that glpsol reads. It has O1 and O2 of
document 01, and a budget of 8.

    bench/fewest_lp.py CASE > PROGRAM

x_b is 1 if bus b has a new unit. f_w_b is 1 if the zero-injection bus w gives b its voltage. A bus w does so at most
once, and after w and all its other neighbours: t_b is the turn of bus b. A bus that an installed unit observes by O1
needs nothing more.
"""
import sys


def read(path):
    n, zeros, sites, units, near = 0, [], [], set(), {}
    for line in open(path):
        word = line.split()
        if word[0] == "grid":
            n = int(word[1])
            near = {b: set() for b in range(1, n + 1)}
        if word[0] == "bus":
            zeros += [int(word[1])] * (word[2] == "Z")
            sites += [int(word[1])] * (word[3] == "Y")
        if word[0] == "line":
            a, b = int(word[1]), int(word[2])
            near[a].add(b)
            near[b].add(a)
        if word[0] == "pmu":
            units.add(int(word[1]))
    return n, zeros, [b for b in sites if b not in units], units, near


def main():
    n, zeros, sites, units, near = read(sys.argv[1])
    gives = [(w, b) for w in zeros for b in sorted(near[w])]
    print("minimize\n units: " + " + ".join("x_%d" % b for b in sites) + "\nsubject to")
    print(" " + " + ".join("x_%d" % b for b in sites) + " <= 8")
    for b in near:
        if units & (near[b] | {b}):
            continue
        terms = ["x_%d" % a for a in sorted(near[b] | {b}) if a in sites]
        terms += ["f_%d_%d" % (w, c) for w, c in gives if c == b]
        print(" " + " + ".join(terms) + " >= 1")
    for w in zeros:
        if near[w]:
            print(" " + " + ".join("f_%d_%d" % (w, b) for b in sorted(near[w])) + " <= 1")
    for w, b in gives:
        for c in sorted((near[w] | {w}) - {b}):
            print(" t_%d - t_%d - %d f_%d_%d >= -%d" % (b, c, n + 1, w, b, n))
    print("bounds")
    for b in near:
        print(" 0 <= t_%d <= %d" % (b, n))
    print("binary")
    print(" " + " ".join(["x_%d" % b for b in sites] + ["f_%d_%d" % g for g in gives]))
    print("end")


main()
