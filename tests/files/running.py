"""Weeks that are run: which instance is due, what a firing does, how a run ends.

Each printout was worked out by hand from the meaning of rules; where the course is
not plain, it stands in a comment.
"""

from records import *

X, Y, Z, W = variables(4)
LEAST, MOST = -2147483648, 2147483647


def asks(comparator, left, right, yes):
    """A rule with one guard between constants, and one fact: it fires exactly when yes."""
    week = kind(1, 0) + rule() + head(TAKEN, 1) + guard(comparator, left, right) + end(0, 0) + goal(1)
    if yes:
        return week, "T 1 1 0 0 0\nF 1 1 0 0 0\nfinal\n"
    return week, "T 1 1 0 0 0\nS 1 1 0 0 0\nfinal\n"


def works(way, result):
    """A rule that takes a fact and writes what the way makes; a result of None is too large or too small."""
    week = kind(1, 0) + kind(2, 1) + rule() + head(TAKEN, 1) + body(2, way) + end(0, 0) + goal(1)
    if result is None:
        return week, "T 1 1 0 0 0\nS 1 1 0 0 0\nrefused 13 1 1 1 2\n"
    return week, f"T 1 1 0 0 0\nF 1 1 0 0 0\nS 2 2 {result} 0 0\nfinal\n"


def handed(*facts):
    return "".join(f"T {i} {k} {a} {b} {c}\n" for i, (k, a, b, c) in enumerate(facts, 1))


GUARDS = [
    (EQUAL, 1, 1, True), (EQUAL, 1, 2, False), (EQUAL, LEAST, MOST, False), (EQUAL, -1, -1, True),
    (UNEQUAL, 1, 1, False), (UNEQUAL, 1, 2, True), (UNEQUAL, -1, 1, True),
    (LESS, 1, 2, True), (LESS, 1, 1, False), (LESS, 2, 1, False), (LESS, -1, 0, True), (LESS, 0, -1, False),
    (LESS, LEAST, MOST, True), (LESS, MOST, LEAST, False), (LESS, -2, -1, True),
    (AT_MOST, 1, 2, True), (AT_MOST, 1, 1, True), (AT_MOST, 2, 1, False), (AT_MOST, LEAST, LEAST, True),
    (AT_MOST, MOST, LEAST, False),
]

WORKINGS = [
    ("copy of the largest", copy(MOST), MOST),
    ("copy of the smallest", copy(LEAST), LEAST),
    ("a sum", plus(-3, 5), 2),
    ("a difference", minus(3, 5), -2),
    ("a sum just within", plus(2147483646, 1), MOST),
    ("a sum just above", plus(MOST, 1), None),
    ("a sum just within, below", plus(-2147483647, -1), LEAST),
    ("a sum just below", plus(LEAST, -1), None),
    ("a difference just within", minus(-2147483647, 1), LEAST),
    ("a difference just below", minus(LEAST, 1), None),
    ("a difference just above", minus(0, LEAST), None),
    ("the largest twice", plus(MOST, MOST), None),
    ("the smallest twice", plus(LEAST, LEAST), None),
    ("largest and smallest", plus(MOST, LEAST), -1),
]

CASES = [(f"guard {c}: {a}, {b}", *asks(c, a, b, yes)) for c, a, b, yes in GUARDS]
CASES += [(name, *works(way, result)) for name, way, result in WORKINGS]

CASES += [
    # -- ranks
    ("the smaller value first, below zero too",
     kind(1, 1) + rule() + head(TAKEN, 1, X) + end(0, X) + goal(1, 3) + goal(1, -5) + goal(1, 0),
     handed((1, 3, 0, 0), (1, -5, 0, 0), (1, 0, 0, 0)) + "F 1 2 0 0 0\nF 1 3 0 0 0\nF 1 1 0 0 0\nfinal\n"),
    ("the smallest and the largest rank",
     kind(1, 1) + rule() + head(TAKEN, 1, X) + end(0, X) + goal(1, MOST) + goal(1, LEAST),
     handed((1, MOST, 0, 0), (1, LEAST, 0, 0)) + "F 1 2 0 0 0\nF 1 1 0 0 0\nfinal\n"),
    ("the better rank before the smaller rule number",
     kind(1, 0) + rule() + head(TAKEN, 1) + end(0, 2) + rule() + head(TAKEN, 1) + end(0, 1) + goal(1),
     handed((1, 0, 0, 0)) + "F 2 1 0 0 0\nfinal\n"),
    ("bands are ignored",
     kind(1, 0) + rule() + head(TAKEN, 1) + end(9, 1) + rule() + head(TAKEN, 1) + end(0, 2) + goal(1),
     handed((1, 0, 0, 0)) + "F 1 1 0 0 0\nfinal\n"),
    ("a rank from the second head",
     kind(1, 0) + kind(2, 1) + rule() + head(KEPT, 1) + head(TAKEN, 2, X) + end(0, X)
     + goal(1) + goal(2, 8) + goal(2, 4),
     handed((1, 0, 0, 0), (2, 8, 0, 0), (2, 4, 0, 0)) + "F 1 1 3 0 0\nF 1 1 2 0 0\nS 1 1 0 0 0\nfinal\n"),
    # rule 1 has rank 5; after it fired, rule 2 finds a fact of kind 2, rank 0, and goes before the
    # second instance of rule 1
    ("what a firing writes may be better than what waits",
     kind(1, 0) + kind(2, 0)
     + rule() + head(TAKEN, 1) + body(2) + end(0, 5)
     + rule() + head(TAKEN, 2) + end(0, 0)
     + goal(1) + goal(1),
     handed((1, 0, 0, 0), (1, 0, 0, 0)) + "F 1 1 0 0 0\nF 2 3 0 0 0\nF 1 2 0 0 0\nF 2 4 0 0 0\nfinal\n"),

    # -- ties
    ("level: the smaller rule number",
     kind(1, 0) + (rule() + head(TAKEN, 1) + end(0, 1)) * 2 + goal(1),
     handed((1, 0, 0, 0)) + "F 1 1 0 0 0\nfinal\n"),
    ("level: the smaller first id",
     kind(1, 0) + rule() + head(TAKEN, 1) + end(0, 1) + goal(1) * 3,
     handed((1, 0, 0, 0), (1, 0, 0, 0), (1, 0, 0, 0)) + "F 1 1 0 0 0\nF 1 2 0 0 0\nF 1 3 0 0 0\nfinal\n"),
    # the first head is of kind 2: the pairs go by its ids first
    ("level: the first id before the second",
     kind(1, 0) + kind(2, 0) + rule() + head(KEPT, 2) + head(KEPT, 1) + end(0, 1)
     + goal(1) + goal(1) + goal(2) + goal(2),
     handed((1, 0, 0, 0), (1, 0, 0, 0), (2, 0, 0, 0), (2, 0, 0, 0))
     + "F 1 3 1 0 0\nF 1 3 2 0 0\nF 1 4 1 0 0\nF 1 4 2 0 0\n"
     + "S 1 1 0 0 0\nS 2 1 0 0 0\nS 3 2 0 0 0\nS 4 2 0 0 0\nfinal\n"),
    ("the rank before the ids",
     kind(1, 1) + kind(2, 1) + rule() + head(KEPT, 1, X) + head(TAKEN, 2, Y) + end(0, Y)
     + goal(1, 1) + goal(1, 2) + goal(2, 9) + goal(2, 3),
     handed((1, 1, 0, 0), (1, 2, 0, 0), (2, 9, 0, 0), (2, 3, 0, 0))
     + "F 1 1 4 0 0\nF 1 1 3 0 0\nS 1 1 1 0 0\nS 2 1 2 0 0\nfinal\n"),

    # -- instances
    ("one fact is not enough for two heads",
     kind(1, 0) + rule() + head(KEPT, 1) * 2 + end(0, 0) + goal(1),
     "T 1 1 0 0 0\nS 1 1 0 0 0\nfinal\n"),
    ("(1,2) and (2,1) are two instances",
     kind(1, 0) + rule() + head(KEPT, 1) * 2 + end(0, 0) + goal(1) * 2,
     handed((1, 0, 0, 0), (1, 0, 0, 0)) + "F 1 1 2 0 0\nF 1 2 1 0 0\nS 1 1 0 0 0\nS 2 1 0 0 0\nfinal\n"),
    ("four heads, four facts: each order once",
     kind(1, 0) + rule() + head(KEPT, 1) * 4 + end(0, 0) + goal(1) * 4,
     handed(*[(1, 0, 0, 0)] * 4)
     + "F 1 1 2 3 4\nF 1 1 2 4 3\nF 1 1 3 2 4\nF 1 1 3 4 2\nF 1 1 4 2 3\nF 1 1 4 3 2\n"
     + "F 1 2 1 3 4\nF 1 2 1 4 3\nF 1 2 3 1 4\nF 1 2 3 4 1\nF 1 2 4 1 3\nF 1 2 4 3 1\n"
     + "F 1 3 1 2 4\nF 1 3 1 4 2\nF 1 3 2 1 4\nF 1 3 2 4 1\nF 1 3 4 1 2\nF 1 3 4 2 1\n"
     + "F 1 4 1 2 3\nF 1 4 1 3 2\nF 1 4 2 1 3\nF 1 4 2 3 1\nF 1 4 3 1 2\nF 1 4 3 2 1\n"
     + "S 1 1 0 0 0\nS 2 1 0 0 0\nS 3 1 0 0 0\nS 4 1 0 0 0\nfinal\n"),
    ("constants agree",
     kind(1, 2) + rule() + head(TAKEN, 1, 7, X) + end(0, X) + goal(1, 8, 1) + goal(1, 7, 2) + goal(1, 7, 1),
     handed((1, 8, 1, 0), (1, 7, 2, 0), (1, 7, 1, 0)) + "F 1 3 0 0 0\nF 1 2 0 0 0\nS 1 1 8 1 0\nfinal\n"),
    ("one variable twice in a head",
     kind(1, 3) + rule() + head(TAKEN, 1, X, Y, X) + end(0, 0)
     + goal(1, 1, 2, 3) + goal(1, 4, 5, 4) + goal(1, -1, 0, -1),
     handed((1, 1, 2, 3), (1, 4, 5, 4), (1, -1, 0, -1)) + "F 1 2 0 0 0\nF 1 3 0 0 0\nS 1 1 1 2 3\nfinal\n"),
    ("one variable in two heads",
     kind(1, 1) + kind(2, 2) + rule() + head(TAKEN, 1, X) + head(TAKEN, 2, Y, X) + end(0, 0)
     + goal(1, 5) + goal(2, 5, 6) + goal(2, 6, 5),
     handed((1, 5, 0, 0), (2, 5, 6, 0), (2, 6, 5, 0)) + "F 1 1 3 0 0\nS 2 2 5 6 0\nfinal\n"),
    ("heads are of their kinds",
     kind(1, 1) + kind(2, 1) + rule() + head(TAKEN, 2, X) + end(0, 0) + goal(1, 1) + goal(2, 1),
     handed((1, 1, 0, 0), (2, 1, 0, 0)) + "F 1 2 0 0 0\nS 1 1 1 0 0\nfinal\n"),
    ("a third and a fourth head",
     kind(1, 1) + rule() + head(TAKEN, 1, 1) + head(KEPT, 1, 2) + head(TAKEN, 1, 3) + head(KEPT, 1, 4)
     + body(1, 10) + end(0, 0) + goal(1, 4) + goal(1, 3) + goal(1, 2) + goal(1, 1),
     handed((1, 4, 0, 0), (1, 3, 0, 0), (1, 2, 0, 0), (1, 1, 0, 0))
     + "F 1 4 3 2 1\nS 1 1 4 0 0\nS 3 1 2 0 0\nS 5 1 10 0 0\nfinal\n"),
    ("kinds 0 and 31, arity 0 and 3",
     kind(0, 0) + kind(31, 3) + rule() + head(TAKEN, 0) + body(31, 1, -2, 3) + end(0, 0) + goal(0),
     "T 1 0 0 0 0\nF 1 1 0 0 0\nS 2 31 1 -2 3\nfinal\n"),
    ("twelve variables",
     kind(1, 3) + kind(2, 3)
     + rule() + head(TAKEN, 1, var(0), var(1), var(2)) + head(TAKEN, 1, var(3), var(4), var(5))
     + head(TAKEN, 1, var(6), var(7), var(8)) + head(TAKEN, 1, var(9), var(10), var(11))
     + body(2, plus(var(0), var(11)), minus(var(1), var(10)), var(5)) + end(0, var(9))
     + goal(1, 1, 2, 3) + goal(1, 4, 5, 6) + goal(1, 7, 8, 9) + goal(1, 0, 11, 12),
     # rank is the first value of the fourth head: 0 with fact 4 there; the rest by ids 1, 2, 3
     handed((1, 1, 2, 3), (1, 4, 5, 6), (1, 7, 8, 9), (1, 0, 11, 12))
     + "F 1 1 2 3 4\nS 5 2 13 -9 6\nfinal\n"),

    # -- guards
    ("all guards must say yes",
     kind(1, 1) + rule() + head(TAKEN, 1, X) + guard(LESS, 0, X) + guard(UNEQUAL, X, 5) + guard(AT_MOST, X, 7)
     + end(0, X) + goal(1, 8) + goal(1, 7) + goal(1, 5) + goal(1, 1) + goal(1, 0),
     handed((1, 8, 0, 0), (1, 7, 0, 0), (1, 5, 0, 0), (1, 1, 0, 0), (1, 0, 0, 0))
     + "F 1 4 0 0 0\nF 1 2 0 0 0\nS 1 1 8 0 0\nS 3 1 5 0 0\nS 5 1 0 0 0\nfinal\n"),
    ("the last of eight guards says no",
     kind(1, 1) + rule() + head(TAKEN, 1, X) + guard(EQUAL, X, X) * 7 + guard(UNEQUAL, X, X) + end(0, 0) + goal(1, 1),
     "T 1 1 1 0 0\nS 1 1 1 0 0\nfinal\n"),

    # -- waiting: each instance fires once
    ("a rule that keeps its head fires once for each fact",
     kind(1, 1) + rule() + head(KEPT, 1, X) + end(0, 0) + goal(1, 1) + goal(1, 1),
     handed((1, 1, 0, 0), (1, 1, 0, 0)) + "F 1 1 0 0 0\nF 1 2 0 0 0\nS 1 1 1 0 0\nS 2 1 1 0 0\nfinal\n"),
    ("the same ids in another rule wait still",
     kind(1, 0) + (rule() + head(KEPT, 1) + end(0, 0)) * 2 + goal(1),
     "T 1 1 0 0 0\nF 1 1 0 0 0\nF 2 1 0 0 0\nS 1 1 0 0 0\nfinal\n"),
    ("two equal facts: the first keeps, the second goes",
     kind(3, 2) + rule() + head(KEPT, 3, X, Y) + head(TAKEN, 3, X, Z) + guard(AT_MOST, Y, Z) + end(1, 1)
     + goal(3, 1, 0) * 2,
     handed((3, 1, 0, 0), (3, 1, 0, 0)) + "F 1 1 2 0 0\nS 1 3 1 0 0\nfinal\n"),

    # -- firing
    ("a rule without a body takes and writes nothing",
     kind(1, 0) + kind(2, 0) + rule() + head(TAKEN, 1) + head(KEPT, 2) + end(0, 0) + goal(1) + goal(2),
     handed((1, 0, 0, 0), (2, 0, 0, 0)) + "F 1 1 2 0 0\nS 2 2 0 0 0\nfinal\n"),
    ("body facts in file order under the next ids",
     kind(1, 1) + kind(2, 2) + rule() + head(TAKEN, 1, X) + body(2, X, 1) + body(2, X, 2) + body(2, X, 3)
     + body(2, X, 4) + end(0, 0) + goal(1, 9) + goal(1, 8),
     handed((1, 9, 0, 0), (1, 8, 0, 0)) + "F 1 1 0 0 0\nF 1 2 0 0 0\n"
     + "".join(f"S {i} 2 9 {i - 2} 0\n" for i in range(3, 7)) + "".join(f"S {i} 2 8 {i - 6} 0\n" for i in range(7, 11))
     + "final\n"),
    ("ids are not used again",
     kind(1, 0) + kind(2, 0) + rule() + head(TAKEN, 1) + body(2) + end(0, 0)
     + rule() + head(TAKEN, 2) + head(TAKEN, 2) + body(2) + end(0, 1)
     + goal(1) + goal(1),
     # 1 -> 3, 2 -> 4, then (3,4) -> 5
     handed((1, 0, 0, 0), (1, 0, 0, 0)) + "F 1 1 0 0 0\nF 1 2 0 0 0\nF 2 3 4 0 0\nS 5 2 0 0 0\nfinal\n"),
    # greatest common divisor of 12 and 18 by taking the smaller from the larger:
    # (1,2): 12 at most 18, 3 = n(6); live 12, 6; (3,1): 4 = n(6); live 6, 6; (3,4) and (4,3) level,
    # (3,4): 5 = n(0); rule 1 takes n(0) first, rank 0
    ("greatest common divisor",
     kind(1, 1) + rule() + head(TAKEN, 1, 0) + end(0, 0)
     + rule() + head(KEPT, 1, X) + head(TAKEN, 1, Y) + guard(AT_MOST, X, Y) + body(1, minus(Y, X)) + end(0, 1)
     + goal(1, 12) + goal(1, 18),
     handed((1, 12, 0, 0), (1, 18, 0, 0)) + "F 2 1 2 0 0\nF 2 3 1 0 0\nF 2 3 4 0 0\nF 1 5 0 0 0\nS 3 1 6 0 0\nfinal\n"),

    # -- 13: rule, body fact, working, cause
    ("the second rule, third body fact, second working",
     kind(1, 1) + kind(2, 3) + kind(3, 0)
     + rule() + head(TAKEN, 3) + end(0, 0)
     + rule() + head(TAKEN, 1, X) + body(2, X, X, X) + body(1, X) + body(2, X, plus(X, 1), plus(X, 2)) + body(1, plus(X, 1))
     + end(0, 0) + goal(1, MOST),
     f"T 1 1 {MOST} 0 0\nS 1 1 {MOST} 0 0\nrefused 13 2 3 2 2\n"),
    ("the third working",
     kind(1, 1) + kind(2, 3) + rule() + head(KEPT, 1, X) + body(2, X, X, minus(0, X)) + end(0, 0) + goal(1, LEAST),
     f"T 1 1 {LEAST} 0 0\nS 1 1 {LEAST} 0 0\nrefused 13 1 1 3 2\n"),
    ("a due instance that is refused stays due: no other is fired",
     kind(1, 1) + kind(2, 0)
     + rule() + head(TAKEN, 1, X) + body(1, plus(X, 1)) + end(0, 0)
     + rule() + head(TAKEN, 2) + end(0, 1)
     + goal(2) + goal(1, MOST),
     f"T 1 2 0 0 0\nT 2 1 {MOST} 0 0\nS 1 2 0 0 0\nS 2 1 {MOST} 0 0\nrefused 13 1 1 1 2\n"),
    ("firings before a refusal stand",
     kind(1, 1) + kind(2, 0)
     + rule() + head(TAKEN, 1, X) + body(1, plus(X, 1)) + end(0, 1)
     + rule() + head(TAKEN, 2) + end(0, 0)
     + goal(2) + goal(1, 2147483646),
     # 2(1), then 1(2) writes 3 with the largest value, then 1(3) is refused
     f"T 1 2 0 0 0\nT 2 1 2147483646 0 0\nF 2 1 0 0 0\nF 1 2 0 0 0\nS 3 1 {MOST} 0 0\nrefused 13 1 1 1 2\n"),

    # -- fail
    ("fail takes the taken heads and ends the run",
     kind(1, 0) + kind(2, 0) + rule() + head(TAKEN, 1) + head(KEPT, 2) + fail() + end(0, 0)
     + rule() + head(TAKEN, 2) + end(0, 1) + goal(1) + goal(2) + goal(1),
     handed((1, 0, 0, 0), (2, 0, 0, 0), (1, 0, 0, 0)) + "F 1 1 2 0 0\nS 2 2 0 0 0\nS 3 1 0 0 0\nfailed\n"),
    ("a better rule goes before one with fail",
     kind(1, 0) + rule() + head(KEPT, 1) + fail() + end(0, 1) + rule() + head(TAKEN, 1) + end(0, 0) + goal(1),
     "T 1 1 0 0 0\nF 2 1 0 0 0\nfinal\n"),
    ("a rule with fail whose guard says no",
     kind(1, 1) + rule() + head(KEPT, 1, X) + guard(LESS, X, 0) + fail() + end(0, 0) + goal(1, 0),
     "T 1 1 0 0 0\nS 1 1 0 0 0\nfinal\n"),
    ("negative values through and through",
     kind(1, 2) + rule() + head(TAKEN, 1, X, Y) + guard(LESS, X, Y) + body(1, minus(Y, X), minus(X, Y)) + end(0, X)
     + goal(1, -7, -3) + goal(1, -3, -7),
     # (1) writes 3 with -3 - -7 = 4 and -7 - -3 = -4; 4 is not less than -4
     handed((1, -7, -3, 0), (1, -3, -7, 0)) + "F 1 1 0 0 0\nS 2 1 -3 -7 0\nS 3 1 4 -4 0\nfinal\n"),
]
