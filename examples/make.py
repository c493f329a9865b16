#!/usr/bin/env python3
"""Writes the example weeks: `make.py` writes them, `make.py --check` compares.

The printouts (NAME.out) are not made here. They were worked out by hand; the
working stands in the comment of each week.
"""

import pathlib
import sys

sys.dont_write_bytecode = True

from records import *


def depot():
    """Two machines ask for blocks of tickets; the block with the smallest first serial goes first.

    Handed in: 1 free(700), 2 free(500), 3 asks(7), 4 asks(9).
    Waiting: (3,1) and (4,1) of rank 700, (3,2) and (4,2) of rank 500.
      Best rank 500, smaller first id:  (3,2) fires, takes 3 and 2, writes 5 holds(7,500).
    Waiting: (4,1) of rank 700.
      (4,1) fires, takes 4 and 1, writes 6 holds(9,700).
    Nothing waits: final. Live: 5, 6.
    """
    free, asks, holds = 1, 2, 3
    M, B = variables(2)
    return (
        kind(free, 1) + kind(asks, 1) + kind(holds, 2)
        + rule() + head(TAKEN, asks, M) + head(TAKEN, free, B) + body(holds, M, B) + end(1, B)
        + goal(free, 700) + goal(free, 500) + goal(asks, 7) + goal(asks, 9)
    )


def paths():
    """The shortest ways from stop 1, by Dijkstra's order: a nearer stop is left before a farther one.

    dist(V,D) says that V can be reached in D. Rule 1 starts it, rule 2 forgets the longer of two
    ways, rule 3 goes on along an edge with D as its rank. The program orders ranks by value alone,
    so rules 1 and 2 have rank -1, which is better than every distance.

    Handed in: 1 source(1), 2 edge(1,4,2), 3 edge(1,1,3), 4 edge(3,1,2); an edge is from, length, to.
    Waiting: rule 1 (1) rank -1.                   It fires, keeps 1, writes 5 dist(1,0).
    Waiting: rule 3 (5,2) and (5,3) rank 0.        (5,2) fires, writes 6 dist(2,4).
    Waiting: rule 3 (5,3) rank 0.                  It fires, writes 7 dist(3,1).
      No edge leaves 2, and no two dist are of one stop.
    Waiting: rule 3 (7,4) rank 1.                  It fires, writes 8 dist(2,2).
    Waiting: rule 2 (8,6) rank -1, as 2 is at most 4; not (6,8), as 4 is not at most 2.
                                                   (8,6) fires, keeps 8, takes 6.
    Nothing waits (rules 1 and 3 keep all, and have fired with these ids): final.
    Live: 1, 2, 3, 4, 5, 7, 8.
    """
    source, edge, dist = 1, 2, 3
    V, D, E, C, U = variables(5)
    return (
        kind(source, 1) + kind(edge, 3) + kind(dist, 2)
        + rule() + head(KEPT, source, V) + body(dist, V, 0) + end(1, -1)
        + rule() + head(KEPT, dist, V, D) + head(TAKEN, dist, V, E) + guard(AT_MOST, D, E) + end(1, -1)
        + rule() + head(KEPT, dist, V, D) + head(KEPT, edge, V, C, U) + body(dist, U, plus(D, C)) + end(2, D)
        + goal(source, 1) + goal(edge, 1, 4, 2) + goal(edge, 1, 1, 3) + goal(edge, 3, 1, 2)
    )


def paying_in():
    """Drivers pay in; what a machine took is summed up and held against what its tickets come to.

    on(M) a machine is signed on, due(M,E) its tickets come to E, paid(D,M,A) driver D pays in A,
    takings(M,T) paid in so far, short(M,S) S is missing, square(M,T) all is there.
    Rule 1 opens the takings of a machine, rule 2 adds a payment if it is above 0, and when no
    payment is left (ranks 0, 1, 2) rule 3 writes down what is missing, or rule 4 that all is there.

    Handed in: 1 on(7), 2 on(9), 3 due(7,1850), 4 due(9,1200), 5 paid(3,7,1000), 6 paid(4,9,1200),
               7 paid(3,7,600), 8 paid(4,9,-50).
    Rank 0: rule 1 (1), (2).                       (1) fires, takes 1, writes 9 takings(7,0).
    Rank 0: rule 1 (2).                            (2) fires, takes 2, writes 10 takings(9,0).
    Rank 1: rule 2 (5,9), (6,10), (7,9); not (8,10), as 0 is not less than -50.
                                                   (5,9) fires, writes 11 takings(7,1000).
    Rank 1: rule 2 (6,10), (7,11).                 (6,10) fires, writes 12 takings(9,1200).
    Rank 1: rule 2 (7,11).                         (7,11) fires, writes 13 takings(7,1600).
    Rank 2: rule 3 (13,3), as 1600 is less than 1850; rule 4 (12,4), as 1200 is at most 1200.
      Level, so the smaller rule number:           3 (13,3) fires, writes 14 short(7,250).
    Rank 2: rule 4 (12,4).                         It fires, writes 15 square(9,1200).
    Nothing waits: final. Live: 8, 14, 15.
    """
    on, due, paid, takings, short, square = 1, 2, 3, 4, 5, 6
    M, D, A, T, E = variables(5)
    return (
        kind(on, 1) + kind(due, 2) + kind(paid, 3) + kind(takings, 2) + kind(short, 2) + kind(square, 2)
        + rule() + head(TAKEN, on, M) + body(takings, M, 0) + end(1, 0)
        + rule() + head(TAKEN, paid, D, M, A) + head(TAKEN, takings, M, T) + guard(LESS, 0, A)
        + body(takings, M, plus(T, A)) + end(1, 1)
        + rule() + head(TAKEN, takings, M, T) + head(TAKEN, due, M, E) + guard(LESS, T, E)
        + body(short, M, minus(E, T)) + end(1, 2)
        + rule() + head(TAKEN, takings, M, T) + head(TAKEN, due, M, E) + guard(AT_MOST, E, T)
        + body(square, M, T) + end(1, 2)
        + goal(on, 7) + goal(on, 9) + goal(due, 7, 1850) + goal(due, 9, 1200)
        + goal(paid, 3, 7, 1000) + goal(paid, 4, 9, 1200) + goal(paid, 3, 7, 600) + goal(paid, 4, 9, -50)
    )


def twice():
    """A block stands twice among the free ones; when two machines hold it, the run fails.

    Handed in: 1 free(500), 2 free(500), 3 asks(7), 4 asks(9).
    Waiting: rule 1 (3,1), (3,2), (4,1), (4,2), all of rank 500.
      Level, so the smaller ids:  (3,1) fires, takes 3 and 1, writes 5 holds(7,500).
    Waiting: rule 1 (4,2).        It fires, takes 4 and 2, writes 6 holds(9,500).
    Waiting: rule 2 (5,6) and (6,5) of rank 0, as 7 is unequal 9.
      (5,6) fires and fails the run; it keeps both. Live: 5, 6.
    """
    free, asks, holds = 1, 2, 3
    M, B, N = variables(3)
    return (
        kind(free, 1) + kind(asks, 1) + kind(holds, 2)
        + rule() + head(TAKEN, asks, M) + head(TAKEN, free, B) + body(holds, M, B) + end(1, B)
        + rule() + head(KEPT, holds, M, B) + head(KEPT, holds, N, B) + guard(UNEQUAL, M, N) + fail() + end(1, 0)
        + goal(free, 500) + goal(free, 500) + goal(asks, 7) + goal(asks, 9)
    )


def unbound():
    """The depot's rule with a slip: the body names a variable that no head binds. Refused, number 9.

    Kinds fill bytes 0-8, the rule begins at 9, its heads at 10 and 28, the body fact at 46.
    """
    free, asks, holds = 1, 2, 3
    M, B, C = variables(3)
    return (
        kind(free, 1) + kind(asks, 1) + kind(holds, 2)
        + rule() + head(TAKEN, asks, M) + head(TAKEN, free, B) + body(holds, M, C) + end(1, B)
        + goal(free, 700) + goal(asks, 7)
    )


def too_much():
    """A sum runs past the largest value: the firing is refused, number 13, and what came before stands.

    Handed in: 1 total(2147483000), 2 paid(600), 3 paid(100). The smaller payment goes first (rank A).
    Waiting: (1,2) rank 600, (1,3) rank 100.   (1,3) fires, takes 1 and 3, writes 4 total(2147483100).
    Waiting: (4,2) rank 600.                   2147483700 is no value: rule 1, body fact 1,
                                               working 1, cause 2. Live: 2, 4.
    """
    total, paid = 1, 2
    T, A = variables(2)
    return (
        kind(total, 1) + kind(paid, 1)
        + rule() + head(TAKEN, total, T) + head(TAKEN, paid, A) + body(total, plus(T, A)) + end(1, A)
        + goal(total, 2147483000) + goal(paid, 600) + goal(paid, 100)
    )


WEEKS = {
    "depot": depot,
    "paths": paths,
    "paying-in": paying_in,
    "twice": twice,
    "unbound": unbound,
    "too-much": too_much,
}


def main(words):
    here = pathlib.Path(__file__).parent
    stale = []
    for name, week in WEEKS.items():
        path = here / f"{name}.week"
        if words == ["--check"]:
            if not path.exists() or path.read_bytes() != week():
                stale.append(name)
        else:
            path.write_bytes(week())
    for name in stale:
        print(f"examples/{name}.week is not what make.py writes")
    return 1 if stale else 0


if __name__ == "__main__":
    sys.exit(main(sys.argv[1:]))
