"""Files at the limits of rows, roll and length, and inputs that do not end.

The program has 1,024 rows and 1,024 places on the roll.
"""

from records import *
from reading import refused

X, N = var(0), var(1)


def handed(count, k=1, value=0):
    return "".join(f"T {i} {k} {value} 0 0\n" for i in range(1, count + 1))


def stored(first, last, k=1, value=0):
    return "".join(f"S {i} {k} {value} 0 0\n" for i in range(first, last + 1))


def many(count):
    """So many goal facts of kind 1, arity 0."""
    return goal(1) * count


KIND = kind(1, 0)
TAKES_ONE = rule() + head(TAKEN, 1) + end(0, 0)                     # 26 bytes
WRITES_ONE = rule() + head(KEPT, 1) + body(1) + end(0, 0)           # 61 bytes
FAILS = rule() + head(TAKEN, 1) + fail() + end(0, 0)                # 27 bytes

# A seed writes three facts and the next seed: three rows more for one place on the roll. After
# 341 firings 1 + 3 * 341 = 1,024 facts are live. The j-th seed (from 0) has id 1 + 4 j, value j.
SEED, GRAIN = 1, 2
SOWING = head(TAKEN, SEED, X), body(GRAIN) * 3 + body(SEED, plus(X, 1)) + end(0, 0)
SOWN = "".join(f"F 1 {1 + 4 * j} 0 0 0\n" for j in range(341))
GRAINS = [i for i in range(2, 1365) if i % 4 != 1]


def grains():
    return "".join(f"S {i} {GRAIN} 0 0 0\n" for i in GRAINS)


# 32 kinds, 64 whole rules that match nothing (no goal fact is of kind 0), and 1,024 goal facts: the
# longest file that is accepted, 96 + 64 * 316 + 1,024 * 14 = 34,656 bytes.
LONGEST = (
    b"".join(kind(k, 0 if k == 1 else 3) for k in range(32))
    + (rule() + head(KEPT, 0, X, N, 0) * 4 + guard(EQUAL, X, N) * 8 + body(0, X, N, 0) * 4 + end(9, X)) * 64
    + many(1024)
)

# The depot with 341 free blocks and as many requests. Blocks go by rising first serial, which is
# here their order, and level requests by id: the j-th firing gives block j to request 341 + j.
BUSY = (
    kind(1, 1) + kind(2, 1) + kind(3, 2)
    + rule() + head(TAKEN, 2, X) + head(TAKEN, 1, N) + body(3, X, N) + end(1, N)
    + b"".join(goal(1, 1000 + j) for j in range(1, 342)) + b"".join(goal(2, j) for j in range(1, 342))
)
BUSY_OUT = (
    "".join(f"T {j} 1 {1000 + j} 0 0\n" for j in range(1, 342))
    + "".join(f"T {341 + j} 2 {j} 0 0\n" for j in range(1, 342))
    + "".join(f"F 1 {341 + j} {j} 0 0\n" for j in range(1, 342))
    + "".join(f"S {682 + j} 3 {j} {1000 + j} 0\n" for j in range(1, 342))
    + "final\n"
)

CASES = [
    # -- hand-ins
    ("1,024 goal facts", KIND + many(1024), handed(1024) + stored(1, 1024) + "final\n"),
    ("1,025 goal facts", KIND + many(1025), refused(14, 3 + 1024 * 14)),
    ("1,026 goal facts, the last unknown", KIND + many(1025) + b"\x00", refused(14, 14339)),
    ("the 1,025th is cut", KIND + many(1024) + goal(1)[:13], refused(3, 14339)),
    ("the 1,025th is a rule", KIND + many(1024) + rule(), refused(4, 14339)),
    ("the 1,025th is of kind 32", KIND + many(1024) + goal(32), refused(5, 14339)),
    ("the 1,025th is of no kind declared", KIND + many(1024) + goal(2), refused(7, 14339)),
    ("the 1,025th has an unused position filled", KIND + many(1024) + goal(1, 1), refused(8, 14339)),

    # -- the roll
    ("1,023 hand-ins and one firing; the next finds the roll full",
     KIND + TAKES_ONE + many(1023),
     handed(1023) + "F 1 1 0 0 0\n" + stored(2, 1023) + "refused 15 1 0 0 0\n"),
    ("1,024 hand-ins: the first firing finds the roll full",
     KIND + TAKES_ONE + many(1024), handed(1024) + stored(1, 1024) + "refused 15 1 0 0 0\n"),
    ("1,023 firings of one fact that comes again",
     kind(1, 1) + rule() + head(TAKEN, 1, X) + body(1, plus(X, 1)) + end(0, 0) + goal(1, 0),
     "T 1 1 0 0 0\n" + "".join(f"F 1 {i} 0 0 0\n" for i in range(1, 1024))
     + "S 1024 1 1023 0 0\nrefused 15 1 0 0 0\n"),
    ("fail on a full roll",
     KIND + FAILS + many(1024), handed(1024) + stored(1, 1024) + "refused 15 1 0 0 0\n"),
    ("fail on the last place of the roll",
     KIND + FAILS + many(1023), handed(1023) + "F 1 1 0 0 0\n" + stored(2, 1023) + "failed\n"),
    ("a full roll and nothing waiting",
     KIND + kind(2, 0) + rule() + head(TAKEN, 2) + end(0, 0) + many(1024),
     handed(1024) + stored(1, 1024) + "final\n"),

    # -- the rows
    ("no row for a body: the store full, the roll not",
     kind(SEED, 1) + kind(GRAIN, 0) + rule() + SOWING[0] + SOWING[1] + goal(SEED, 0),
     "T 1 1 0 0 0\n" + SOWN + grains() + "S 1365 1 341 0 0\nrefused 14 1 0 0 0\n"),
    ("a full store: one taken and one written fires, one more written is refused",
     kind(SEED, 1) + kind(GRAIN, 0) + kind(3, 1)
     + rule() + SOWING[0] + guard(LESS, X, 341) + SOWING[1]
     + rule() + head(TAKEN, SEED, X) + body(3, X) + end(0, 1)
     + rule() + head(KEPT, 3, X) + body(GRAIN) + end(0, 2)
     + goal(SEED, 0),
     "T 1 1 0 0 0\n" + SOWN + "F 2 1365 0 0 0\n" + grains() + "S 1366 3 341 0 0\nrefused 14 3 0 0 0\n"),
    ("a full store: two taken make room for two",
     kind(SEED, 1) + kind(GRAIN, 0) + kind(3, 1)
     + rule() + SOWING[0] + guard(LESS, X, 341) + SOWING[1]
     + rule() + head(TAKEN, SEED, X) + head(TAKEN, GRAIN) + body(3, X) + body(3, 7) + end(0, 1)
     + goal(SEED, 0),
     "T 1 1 0 0 0\n" + SOWN + "F 2 1365 2 0 0\n"
     + "".join(f"S {i} {GRAIN} 0 0 0\n" for i in GRAINS if i != 2)
     + "S 1366 3 341 0 0\nS 1367 3 7 0 0\nfinal\n"),
    ("rows before roll: both are full",
     KIND + WRITES_ONE + many(1024), handed(1024) + stored(1, 1024) + "refused 14 1 0 0 0\n"),
    ("the body before rows and roll: both are full",
     kind(1, 1) + rule() + head(KEPT, 1, X) + body(1, plus(X, 2147483647)) + end(0, 0) + goal(1, 1) * 1024,
     handed(1024, 1, 1) + stored(1, 1024, 1, 1) + "refused 13 1 1 1 2\n"),

    # -- the length
    ("the longest file", LONGEST, handed(1024) + stored(1, 1024) + "final\n"),
    ("the longest file and a byte", LONGEST + b"\x08", refused(3, 34656)),
    ("the longest file and a goal fact", LONGEST + goal(1), refused(14, 34656)),
    ("the longest file and a goal fact of kind 32", LONGEST + goal(32), refused(5, 34656)),
    ("the longest file and a whole body fact", LONGEST + body(0), refused(4, 34656)),
    ("the longest file and zeros", LONGEST + bytes(100000), refused(2, 34656)),

    ("341 requests and 341 free blocks", BUSY, BUSY_OUT),
]

# Inputs without end: a beginning, what comes again and again, and the printout.
ENDLESS = [
    ("zeros without end", b"", bytes(1000), refused(2, 0)),
    ("goal facts without end", KIND, many(100), refused(14, 14339)),
    ("kinds without end", b"", KIND * 100, refused(6, 3)),
    ("rule begins without end", b"", rule() * 1000, refused(4, 1)),
    ("heads without end", KIND + rule(), head(KEPT, 1) * 100, refused(10, 4 + 72)),
    ("rules without end", KIND, TAKES_ONE * 100, refused(10, 3 + 64 * 26)),
    ("a whole week, then zeros without end", LONGEST, bytes(1000), refused(2, 34656)),
]
