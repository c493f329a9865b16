"""Files that are refused while they are read, and their neighbours that are not.

Each case is a name, a file and the printout that docs/WEEK-FILE.md
asks for, worked out by hand. Sizes: kind 3, rule begins 1, head 18, guard 12, body
fact 35, fail 1, rule ends 7, goal fact 14.
"""

from records import *

X, Y = var(0), var(1)


def refused(number, place):
    return f"refused {number} {place} 0 0 0\n"


def opened(length):
    """A rule open at the end of a file of this length."""
    return refused(11, length)


FINAL = "final\n"

# kind 1 has arity 1; the head matches no fact that a case hands in
KIND = kind(1, 1)
HEAD = head(KEPT, 1, X)
NEVER = head(KEPT, 1, 9)
GUARD = guard(EQUAL, 0, 0)
BODY = body(1, 5)
END = end(0, 0)
GOAL = goal(1, 5)
ONE = "T 1 1 5 0 0\nS 1 1 5 0 0\nfinal\n"
TWO = "T 1 1 5 0 0\nT 2 1 5 0 0\nS 1 1 5 0 0\nS 2 1 5 0 0\nfinal\n"

IN_RULE = KIND + rule()              # 4 bytes
IN_HEADS = IN_RULE + HEAD            # 22 bytes
IN_GUARDS = IN_HEADS + GUARD         # 34 bytes

# -- what may follow what

# the last record taken -> the bytes so far, and what each arriving record brings
RECORDS = {
    1: kind(2, 0), 2: rule(), 3: NEVER, 4: GUARD, 5: BODY, 6: fail(), 7: END, 8: GOAL,
}
FOLLOWS = [
    ("start", b"", 0, {1: FINAL, 2: opened(1), 8: refused(7, 0)}),
    ("kind", KIND, 3, {1: FINAL, 2: opened(4), 8: ONE}),
    ("rule begins", KIND + rule(), 4, {3: opened(22)}),
    ("head", KIND + rule() + NEVER, 22, {3: opened(40), 4: opened(34), 5: opened(57), 6: opened(23), 7: FINAL}),
    ("guard", KIND + rule() + NEVER + GUARD, 34, {4: opened(46), 5: opened(69), 6: opened(35), 7: FINAL}),
    ("body fact", KIND + rule() + NEVER + BODY, 57, {5: opened(92), 7: FINAL}),
    ("fail", KIND + rule() + NEVER + fail(), 23, {7: FINAL}),
    ("rule ends", KIND + rule() + NEVER + END, 29, {1: FINAL, 2: opened(30), 8: ONE}),
    ("goal fact", KIND + GOAL, 17, {8: TWO}),
]
CASES = [
    (f"{number:#04x} after {last}", so_far + record, outcomes.get(number, refused(4, length)))
    for last, so_far, length, outcomes in FOLLOWS
    for number, record in RECORDS.items()
]

CASES += [
    ("empty file", b"", FINAL),
    ("kinds and rules, no goal fact", KIND + rule() + HEAD + END, FINAL),

    # -- 2: unknown kind byte
    ("byte 0 at the start", b"\x00", refused(2, 0)),
    ("byte 9 at the start", b"\x09", refused(2, 0)),
    ("byte 255 after a kind", KIND + b"\xff", refused(2, 3)),
    ("byte 10 in a rule", IN_RULE + b"\x0a", refused(2, 4)),
    ("byte 0 after a goal fact", KIND + GOAL + b"\x00", refused(2, 17)),
    ("unknown byte, where none may follow but 7", KIND + rule() + NEVER + fail() + b"\x20", refused(2, 23)),

    # -- 3: cut short; before 4, 5 and all below
    ("kind byte alone", b"\x01", refused(3, 0)),
    ("kind cut", kind(1, 1)[:2], refused(3, 0)),
    ("head cut", IN_RULE + HEAD[:17], refused(3, 4)),
    ("head byte alone", IN_RULE + b"\x03", refused(3, 4)),
    ("guard cut", IN_HEADS + GUARD[:11], refused(3, 22)),
    ("body fact cut", IN_HEADS + BODY[:34], refused(3, 22)),
    ("rule end cut", IN_HEADS + END[:6], refused(3, 22)),
    ("goal fact cut", KIND + GOAL[:13], refused(3, 3)),
    ("second goal fact cut", KIND + GOAL + GOAL[:13], refused(3, 17)),
    ("cut before may not follow: guard at the start", b"\x04", refused(3, 0)),
    ("cut before may not follow: goal fact in a rule", IN_RULE + GOAL[:5], refused(3, 4)),
    ("cut before may not follow: head after a goal fact", KIND + GOAL + HEAD[:17], refused(3, 17)),
    ("cut before out of range", b"\x01\xff", refused(3, 0)),
    ("cut before declared twice", KIND + b"\x01\x01", refused(3, 3)),

    # -- 4: may not follow; before 5 and all below
    ("may not follow before out of range", guard(9, 0, 0), refused(4, 0)),
    ("may not follow before declared twice", IN_RULE + KIND, refused(4, 4)),
    ("may not follow before not declared", KIND + head(KEPT, 7, X), refused(4, 3)),
    ("may not follow before unused filled", KIND + head(KEPT, 1, X, 4), refused(4, 3)),
    ("may not follow before unbound", KIND + end(0, X), refused(4, 3)),
    ("may not follow before a fifth head", IN_RULE + HEAD * 4 + GUARD + HEAD, refused(4, 4 + 72 + 12)),
    ("a rule of body facts and fail", IN_HEADS + BODY + fail(), refused(4, 57)),
    ("fail and a body fact", IN_HEADS + fail() + BODY, refused(4, 23)),
    ("a rule without heads", KIND + rule() + END, refused(4, 4)),

    # -- 5: out of range; before 6 and all below
    ("kind number 31", kind(31, 0), FINAL),
    ("kind number 32", kind(32, 0), refused(5, 0)),
    ("kind number 255", kind(255, 0), refused(5, 0)),
    ("arity 3", kind(0, 3), FINAL),
    ("arity 4", kind(0, 4), refused(5, 0)),
    ("arity 255", kind(0, 255), refused(5, 0)),
    ("head neither kept nor taken", IN_RULE + head(2, 1, X), refused(5, 4)),
    ("head of kind 32", IN_RULE + head(KEPT, 32, X), refused(5, 4)),
    ("head with variable 11", IN_RULE + head(KEPT, 1, var(11)) + END, FINAL),
    ("head with variable 12", IN_RULE + head(KEPT, 1, var(12)) + END, refused(5, 4)),
    ("head with variable 256: all four bytes count", IN_RULE + head(KEPT, 1, var(256)), refused(5, 4)),
    ("head with variable 2^24", IN_RULE + head(KEPT, 1, var(2**24)), refused(5, 4)),
    ("head with variable -1", IN_RULE + head(KEPT, 1, var(-1)), refused(5, 4)),
    ("head with a first operand of no kind", IN_RULE + head(KEPT, 1, operand(2, 0)), refused(5, 4)),
    ("head with a third operand of no kind", IN_RULE + head(KEPT, 1, X, 0, operand(255, 0)), refused(5, 4)),
    ("guard comparator 3", IN_HEADS + guard(3, 0, 0) + END, FINAL),
    ("guard comparator 4", IN_HEADS + guard(4, 0, 0), refused(5, 22)),
    ("guard with a left operand of no kind", IN_HEADS + guard(EQUAL, operand(2, 0), 0), refused(5, 22)),
    ("guard with right variable 12", IN_HEADS + guard(EQUAL, 0, var(12)), refused(5, 22)),
    ("body fact of kind 32", IN_HEADS + body(32, 0), refused(5, 22)),
    ("working 2", IN_HEADS + body(1, working(2, 0, 0)) + END, FINAL),
    ("working 3", IN_HEADS + body(1, working(3, 0, 0)), refused(5, 22)),
    ("working with variable 12", IN_HEADS + body(1, copy(var(12))), refused(5, 22)),
    ("working with a second operand of no kind", IN_HEADS + body(1, plus(0, operand(7, 0))), refused(5, 22)),
    ("rule end of band 255", IN_HEADS + end(255, 0), FINAL),
    ("rank operand of no kind", IN_HEADS + end(0, operand(2, 0)), refused(5, 22)),
    ("rank variable 12", IN_HEADS + end(0, var(12)), refused(5, 22)),
    ("goal fact of kind 32", KIND + goal(32, 0), refused(5, 3)),
    ("second goal fact of kind 255", KIND + GOAL + goal(255, 0), refused(5, 17)),
    ("out of range before declared twice", KIND + kind(1, 4), refused(5, 3)),
    ("out of range before not declared", IN_RULE + head(KEPT, 7, operand(2, 0)), refused(5, 4)),
    ("out of range before not declared: goal fact", goal(32, 1, 1, 1), refused(5, 0)),
    ("out of range before unused filled: variable 12", IN_RULE + head(KEPT, 1, X, var(12)), refused(5, 4)),
    ("out of range in an unused working", IN_HEADS + body(1, 0, working(3, 0, 0)), refused(5, 22)),
    ("out of range in a copy's second operand", IN_HEADS + body(1, working(COPY, X, var(12))), refused(5, 22)),
    ("out of range before unbound", IN_HEADS + guard(EQUAL, var(3), var(12)), refused(5, 22)),
    ("out of range before a fifth head", IN_RULE + HEAD * 4 + head(2, 1, X), refused(5, 76)),
    ("out of range before a ninth guard", IN_HEADS + GUARD * 8 + guard(4, 0, 0), refused(5, 22 + 96)),
    ("out of range before a fifth body fact", IN_HEADS + BODY * 4 + body(32, 0), refused(5, 22 + 140)),

    # -- 6: declared twice
    ("declared twice alike", KIND + KIND, refused(6, 3)),
    ("declared twice with another arity", KIND + kind(1, 2), refused(6, 3)),
    ("kind 0 declared twice", kind(0, 0) + KIND + kind(0, 0), refused(6, 6)),
    ("declared twice, a rule between", IN_HEADS + END + KIND, refused(6, 29)),
    ("32 kinds", b"".join(kind(k, k % 4) for k in range(32)), FINAL),
    ("32 kinds and one again", b"".join(kind(k, k % 4) for k in range(32)) + kind(31, 0), refused(6, 96)),

    # -- 7: not declared; before 8 and all below
    ("head of a kind not declared", IN_RULE + head(KEPT, 2, X), refused(7, 4)),
    ("body fact of a kind not declared", IN_HEADS + body(2, 0), refused(7, 22)),
    ("goal fact of a kind not declared", KIND + goal(2, 0), refused(7, 3)),
    ("kind 0 is not declared by itself", goal(0), refused(7, 0)),
    ("declared only after the rule", IN_RULE + head(KEPT, 2) + END + kind(2, 0), refused(7, 4)),
    ("declared between two rules", IN_HEADS + END + kind(2, 0) + rule() + head(KEPT, 2) + END, FINAL),
    ("not declared before unused filled", IN_RULE + head(KEPT, 2, 1, 1, 1), refused(7, 4)),
    ("not declared before unused filled: goal fact", goal(2, 1, 1, 1), refused(7, 0)),
    ("not declared before unbound", IN_HEADS + body(2, Y), refused(7, 22)),
    ("not declared before a fifth head", IN_RULE + HEAD * 4 + head(KEPT, 2), refused(7, 76)),
    ("not declared before a fifth body fact", IN_HEADS + BODY * 4 + body(2, 0), refused(7, 162)),

    # -- 8: unused filled; before 9 and all below
    ("head with a constant at an unused position", IN_RULE + head(KEPT, 1, X, 1), refused(8, 4)),
    ("head with a constant at the last unused position", IN_RULE + head(KEPT, 1, X, 0, -1), refused(8, 4)),
    ("head with a variable at an unused position", IN_RULE + head(KEPT, 1, X, X), refused(8, 4)),
    ("head of arity 0 with a first value", kind(2, 0) + rule() + head(KEPT, 2, 1), refused(8, 4)),
    ("head of arity 2 with a third value", kind(2, 2) + rule() + head(KEPT, 2, 1, 1, 1), refused(8, 4)),
    ("head of arity 3, all filled", kind(2, 3) + rule() + head(KEPT, 2, 1, 1, 1) + END, FINAL),
    ("body fact with a value at an unused position", IN_HEADS + body(1, 0, 1), refused(8, 22)),
    ("body fact with a variable at an unused position", IN_HEADS + body(1, 0, X), refused(8, 22)),
    ("a sum of zeros at an unused position", IN_HEADS + body(1, 0, plus(0, 0)), refused(8, 22)),
    ("a difference of zeros at an unused position", IN_HEADS + body(1, 0, 0, minus(0, 0)), refused(8, 22)),
    ("a copy with a second operand 1", IN_HEADS + body(1, working(COPY, X, 1)), refused(8, 22)),
    ("a copy with a second operand that is bound", IN_HEADS + body(1, working(COPY, X, X)), refused(8, 22)),
    ("an unused copy of 0 with a second operand 1", IN_HEADS + body(1, X, working(COPY, 0, 1)), refused(8, 22)),
    ("goal fact with a value at an unused position", KIND + goal(1, 5, 6), refused(8, 3)),
    ("goal fact with -1 at the last position", KIND + goal(1, 5, 0, -1), refused(8, 3)),
    ("goal fact of arity 0 with a value", kind(2, 0) + goal(2, 1), refused(8, 3)),
    ("second goal fact with a value at an unused position", KIND + GOAL + goal(1, 5, 6), refused(8, 17)),
    ("unused filled before unbound: the same operand", IN_HEADS + body(1, 0, Y), refused(8, 22)),
    ("unused filled before unbound: a copy's second operand", IN_HEADS + body(1, working(COPY, X, Y)), refused(8, 22)),
    ("unused filled before unbound: another working", IN_HEADS + body(1, Y, 1), refused(8, 22)),
    ("unused filled before a fifth head", IN_RULE + HEAD * 4 + head(KEPT, 1, X, 1), refused(8, 76)),
    ("unused filled before a fifth body fact", IN_HEADS + BODY * 4 + body(1, 0, 1), refused(8, 162)),

    # -- 9: bound by no head; before 10
    ("guard with an unbound left operand", IN_HEADS + guard(EQUAL, Y, 0), refused(9, 22)),
    ("guard with an unbound right operand", IN_HEADS + guard(EQUAL, X, Y), refused(9, 22)),
    ("copy of an unbound variable", IN_HEADS + body(1, Y), refused(9, 22)),
    ("sum with an unbound first operand", IN_HEADS + body(1, plus(Y, 0)), refused(9, 22)),
    ("sum with an unbound second operand", IN_HEADS + body(1, plus(X, Y)), refused(9, 22)),
    ("difference with an unbound second operand", IN_HEADS + body(1, minus(X, Y)), refused(9, 22)),
    ("rank unbound", IN_HEADS + end(0, Y), refused(9, 22)),
    ("rank unbound, after a body fact", IN_HEADS + BODY + end(0, Y), refused(9, 57)),
    ("bound in another rule only", IN_HEADS + END + rule() + head(KEPT, 1, 1) + end(0, X), refused(9, 48)),
    ("bound by the second head", IN_RULE + head(KEPT, 1, X) + head(KEPT, 1, Y) + guard(LESS, X, Y) + end(0, Y), FINAL),
    ("variable 11 bound", IN_RULE + head(KEPT, 1, var(11)) + guard(EQUAL, var(11), 0) + end(0, var(11)), FINAL),
    ("unbound before a ninth guard", IN_HEADS + GUARD * 8 + guard(EQUAL, Y, 0), refused(9, 118)),
    ("unbound before a fifth body fact", IN_HEADS + BODY * 4 + body(1, Y), refused(9, 162)),

    # -- 10: one too many
    ("four heads", IN_RULE + HEAD * 4 + END, FINAL),
    ("five heads", IN_RULE + HEAD * 5, refused(10, 76)),
    ("eight guards", IN_HEADS + GUARD * 8 + END, FINAL),
    ("nine guards", IN_HEADS + GUARD * 9, refused(10, 118)),
    ("four body facts", IN_HEADS + BODY * 4 + END, FINAL),
    ("five body facts", IN_HEADS + BODY * 5, refused(10, 162)),
    ("four heads again in the next rule", KIND + (rule() + HEAD * 4 + END) * 2, FINAL),
    ("64 rules", KIND + (rule() + HEAD + END) * 64, FINAL),
    ("65 rules: refused where the last begins", KIND + (rule() + HEAD + END) * 65, refused(10, 3 + 64 * 26)),
    ("a 65th rule that only begins", KIND + (rule() + HEAD + END) * 64 + rule(), refused(10, 1667)),
    ("64 rules, then a kind and a goal fact",
     KIND + (rule() + NEVER + END) * 64 + kind(2, 0) + GOAL, ONE),

    # -- 11: a rule open at the end; the record before it decides first
    ("open, and a cut record is nearer the top", IN_HEADS + b"\x07", refused(3, 22)),
    ("open in the 64th rule", KIND + (rule() + HEAD + END) * 63 + rule() + HEAD, opened(3 + 63 * 26 + 19)),

    # -- the first refused record ends the reading
    ("two faults: the first record decides", KIND + kind(1, 4) + b"\x00", refused(5, 3)),
    ("a fault after goal facts: nothing is run", KIND + GOAL * 3 + goal(9), refused(7, 45)),
]
