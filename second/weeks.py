"""Weeks by chance, to put two Blockbooks side by side.

`weeks(seed, count)` gives so many, each with a name, and the same ones for the same seed. There are

    weeks that fire     house rules drawn by lot, and small trades with a plan: depots, shortest ways,
                        divisors, counters, comparisons, rows and rolls that fill up, books at their limits
    spoiled weeks       weeks that fire, with bits turned, bytes cut out or records moved; records with
                        one fault or several at once
    refused weeks       one for each number by which a file can be refused
    noise               bytes and records in no order

Nothing here knows what the answer should be, save for the number that a refused week is made for. Most weeks
are small, so that thousands can be compared in a minute; `LARGE` are the few that are not.
"""

import pathlib
import random
import sys

sys.path.insert(0, str(pathlib.Path(__file__).resolve().parent.parent / "examples"))

from records import (
    AT_MOST, COPY, DIFFERENCE, EQUAL, KEPT, LESS, SUM, TAKEN, UNEQUAL,
    body, end, fail, goal, guard, head, kind, minus, operand, plus, rule, var, variables, working,
)

LEAST, MOST = -2**31, 2**31 - 1
COMPARATORS = [EQUAL, UNEQUAL, LESS, AT_MOST]
WAYS = [COPY, SUM, DIFFERENCE]

# Values that lie where something changes: at zero, where serials come round, half way round, at the ends.
FEW = [0, 1, 2, 3]
SIGNED = [-2, -1, 0, 1, 2]
SERIALS = [0, 1, 2, 499_999, 500_000, 500_001, 999_998, 999_999]
NO_SERIALS = [-1, 1_000_000, 1_000_001, MOST, LEAST]
ENDS = [LEAST, LEAST + 1, -1, 0, 1, MOST - 1, MOST]
POOLS = [FEW, FEW, FEW, SIGNED, SIGNED, SERIALS, SERIALS, SERIALS, ENDS, SERIALS + NO_SERIALS]


def joined(records):
    return b"".join(records)


def shuffled(chance, items):
    return chance.sample(items, len(items))


# -- weeks that fire: house rules drawn by lot

class House:
    """What the rules of one week are drawn from.

    Facts must not grow without end, or a week takes minutes. So a rule writes no more facts of the ordinary
    kinds than it takes, unless it takes a token too. Where it writes as many as it takes, a week may go round
    until the roll is full; most houses write fewer. Notes may be written freely; only rules of one head read them.
    """

    def __init__(self, chance):
        self.chance = chance
        self.token, self.note, *self.ordinary = chance.sample(range(32), chance.randint(3, 6))
        self.arity = {k: chance.choice([0, 1, 1, 1, 2, 2, 2, 3]) for k in self.ordinary}
        self.arity[self.token] = 0
        self.arity[self.note] = chance.randint(1, 3)
        self.pool = chance.sample(chance.choice(POOLS), chance.randint(2, 4))     # few, so that facts meet
        self.loses = chance.choice([0, 1, 1])
        self.most_heads, self.facts = chance.choice(        # the more heads, the fewer facts
            [(1, (8, 25)), (2, (6, 14)), (2, (6, 14)), (3, (5, 9)), (4, (5, 7))])

    def constant(self):
        return self.chance.choice(self.pool)

    def known(self, bound):
        """A variable that is bound, or a constant."""
        return self.chance.choice(bound) if bound and self.chance.random() < 0.7 else self.constant()

    def working(self, bound):
        way = self.chance.choice([COPY, COPY, SUM, DIFFERENCE])
        return working(way, self.known(bound), 0 if way == COPY else self.known(bound))

    def body_fact(self, k, bound):
        return body(k, *[self.working(bound) for _ in range(self.arity[k])])

    def guards(self, bound):
        count = self.chance.choice([0, 0, 0, 0, 0, 1, 1, 1, 2, 8])
        asked = self.chance.choice([COMPARATORS, [UNEQUAL, AT_MOST]])
        return joined(guard(self.chance.choice(asked), self.known(bound), self.known(bound)) for _ in range(count))

    def end(self, bound):
        rank = self.chance.choice([0, 1, 2, -1]) if self.chance.random() < 0.5 else self.known(bound)
        return end(self.chance.choice([0, 1, 1, 2, 255]), rank)

    def head(self, k, taken, names, bound):
        """A head; the variables that it binds are added to bound."""
        operands = [self.chance.choice(names) if self.chance.random() < 0.9 else self.constant()
                    for _ in range(self.arity[k])]
        bound += [o for o in operands if isinstance(o, bytes)]
        return head(taken, k, *operands)

    def body(self, spare, bound):
        """A body of at most so many ordinary facts, and perhaps notes, or fail."""
        if self.chance.random() < 0.04:
            return fail()
        written = [self.chance.choice(self.ordinary) for _ in range(self.chance.randint(0, spare))]
        if self.chance.random() < 0.2 and len(written) < 4:
            written.append(self.note)
        return joined(self.body_fact(k, bound) for k in shuffled(self.chance, written))

    def rule(self):
        names = [var(n) for n in self.chance.sample(range(12), self.chance.choice([3, 8]))]
        bound, heads, taken = [], [], 0
        for _ in range(self.chance.randint(1, self.most_heads)):
            takes = self.chance.random() < 0.6
            heads.append(self.head(self.chance.choice(self.ordinary), takes, names, bound))
            taken += takes
        spare = max(0, taken - self.loses)
        if len(heads) < 4 and self.chance.random() < 0.4:
            heads.append(head(TAKEN, self.token))
            spare = 4
        return (rule() + joined(shuffled(self.chance, heads)) + self.guards(bound)
                + self.body(spare, bound) + self.end(bound))

    def note_rule(self):
        bound = []
        the_head = self.head(self.note, self.chance.random() < 0.7, variables(3), bound)
        return rule() + the_head + self.guards(bound) + self.body(0, bound) + self.end(bound)

    def goal(self):
        k = self.chance.choice(self.ordinary)
        return goal(k, *[self.constant() for _ in range(self.arity[k])])

    def week(self):
        rules = [self.rule() for _ in range(self.chance.randint(1, 5))]
        if self.chance.random() < 0.3:
            rules.append(self.note_rule())
        goals = [self.goal() for _ in range(self.chance.randint(*self.facts))]
        goals += [goal(self.token)] * self.chance.randint(1, 8 if self.most_heads < 3 else 3)
        return (joined(kind(k, a) for k, a in self.arity.items())
                + joined(shuffled(self.chance, rules)) + joined(shuffled(self.chance, goals)))


def house_rules(chance):
    return House(chance).week()


# -- weeks that fire: small trades with a plan

A, B, C, D, E = variables(5)


def depot(chance):
    """Requests and free blocks in any order, some blocks twice; sometimes two holders of a block fail."""
    goals = [goal(1, chance.randrange(12) * 100) for _ in range(chance.randint(3, 12))]
    goals += [goal(2, n) for n in range(chance.randint(3, 12))]
    twice = rule() + head(KEPT, 3, A, B) + head(KEPT, 3, C, B) + guard(UNEQUAL, A, C) + fail() + end(0, 350)
    return (kind(1, 1) + kind(2, 1) + kind(3, 2)
            + rule() + head(TAKEN, 2, A) + head(TAKEN, 1, B) + body(3, A, B) + end(1, chance.choice([A, B, 5]))
            + chance.choice([b"", twice]) + joined(shuffled(chance, goals)))


PATH_KINDS = kind(1, 1) + kind(2, 3) + kind(3, 2)        # source(stop), edge(from, length, to), dist(stop, length)


def path_rules(first):
    """Shortest ways. Rules 1 and 2 have rank first; rule 3 has the distance, in a later band."""
    return (rule() + head(KEPT, 1, A) + body(3, A, 0) + end(1, first)
            + rule() + head(KEPT, 3, A, B) + head(TAKEN, 3, A, C) + guard(AT_MOST, B, C) + end(1, first)
            + rule() + head(KEPT, 3, A, B) + head(KEPT, 2, A, C, D) + body(3, D, plus(B, C)) + end(2, B))


def paths(chance):
    """Ranks suit either order, or the banded one alone.

    In that case the plain order would go round a ring of length 0 for ever, so edges lead upward only.
    """
    first = chance.choice([-1, 1])
    stops = range(chance.randint(3, 5))
    edges = []
    for _ in range(chance.randint(4, 10)):
        here, there = chance.sample(stops, 2)
        if first == 1:
            here, there = min(here, there), max(here, there)
        edges.append(goal(2, here, chance.randrange(6), there))
    return PATH_KINDS + path_rules(first) + joined(shuffled(chance, edges + [goal(1, 0), goal(1, 0)]))


def divisor(chance):
    """The greatest common divisor, by taking the smaller from the larger."""
    return (kind(7, 1) + rule() + head(TAKEN, 7, 0) + end(0, 0)
            + rule() + head(KEPT, 7, A) + head(TAKEN, 7, B) + guard(AT_MOST, A, B) + body(7, minus(B, A))
            + end(0, chance.choice([1, A, B]))
            + joined(goal(7, chance.randint(1, 40)) for _ in range(chance.randint(2, 5))))


def counting(chance):
    """Counters go up or down past a point where values end or come round, and stop at a mark."""
    start = chance.choice([0, 5, 999_990, MOST - 5, LEAST + 5, 499_995])
    step, way = chance.choice([1, 2, 7, -1]), chance.choice([plus, minus])
    mark = chance.choice([3, 999_999, 499_999, start])
    seen = rule() + head(KEPT, 4, A, B) + guard(chance.choice([LESS, AT_MOST]), B, mark) + body(5, B) + end(0, -1)
    return (kind(4, 2) + kind(5, 1) + kind(6, 1)
            + rule() + head(TAKEN, 4, A, B) + head(TAKEN, 6, C) + guard(UNEQUAL, B, mark)
            + body(4, A, way(B, step)) + end(chance.randrange(3), chance.choice([0, B, C, A]))
            + chance.choice([b"", seen])
            + joined(goal(4, n, start) for n in range(chance.randint(1, 3)))
            + joined(goal(6, n) for n in range(chance.randint(3, 15))))


def comparing(chance):
    """Every pair that a comparator says yes to is written down."""
    pool = chance.choice([SERIALS, SERIALS, SERIALS, ENDS, SIGNED])
    extra = [guard(chance.choice(COMPARATORS), *chance.choices([A, B, chance.choice(NO_SERIALS)], k=2))
             for _ in range(chance.choice([0, 0, 1]))]
    return (kind(0, 1) + kind(31, 2)
            + rule() + head(KEPT, 0, A) + head(KEPT, 0, B) + guard(chance.choice(COMPARATORS), A, B) + joined(extra)
            + body(31, A, B) + end(0, chance.choice([0, A, B]))
            + joined(goal(0, value) for value in chance.sample(pool, min(len(pool), chance.randint(3, 6)))))


def asking(chance):
    """A rule for each of some questions to the host, and one fact: the roll shows which have a yes."""
    rules = []
    for _ in range(chance.randint(6, 16)):
        left, right = chance.choices(SERIALS + NO_SERIALS, k=2)
        question = guard(chance.choice(COMPARATORS), left, chance.choice([left, right, right, right]))
        rules.append(rule() + head(KEPT, 1) + question + end(0, 0))
    return kind(1, 0) + joined(rules) + goal(1)


def working_out(chance):
    """Workings of values and constants at the ends, some of which have no value."""
    pool = chance.choice([SERIALS, SERIALS, ENDS])
    constants = pool + chance.choice([[], [], NO_SERIALS])

    def some_working():
        way = chance.choice(WAYS)
        first, second = (chance.choice([A, B, chance.choice(constants)]) for _ in range(2))
        return working(way, first, 0 if way == COPY else second)

    bodies = [body(2, *[some_working() for _ in range(3)]) for _ in range(chance.randint(1, 4))]
    return (kind(1, 2) + kind(2, 3) + rule() + head(chance.choice([KEPT, TAKEN]), 1, A, B) + joined(bodies)
            + end(0, chance.choice([0, A, B]))
            + joined(goal(1, chance.choice(pool), chance.choice(pool)) for _ in range(chance.randint(3, 10))))


def ties(chance):
    """Few values, many equal facts: most instances are level, and ids decide."""
    count = chance.randint(2, 4)
    names = variables(count + 1)
    heads = [head(KEPT, chance.choice([1, 1, 2]), chance.choice(names)) for _ in range(count - 1)]
    heads.insert(chance.randrange(count), head(chance.choice([KEPT, TAKEN]), 1, E))
    one = rule() + joined(heads) + end(chance.randrange(2), chance.choice([0, 1, E]))
    two = rule() + joined(reversed(heads)) + end(chance.randrange(2), chance.choice([0, 1, E]))
    goals = [goal(chance.choice([1, 1, 2]), chance.choice([0, 0, 1])) for _ in range(chance.randint(count + 1, 7))]
    return kind(1, 1) + kind(2, 1) + chance.choice([one, one + two]) + joined(goals)


def failing(chance):
    """A week of house rules, and a rule with fail that comes late."""
    house = House(chance)
    week = house.week()
    k = chance.choice(house.ordinary)
    late = (rule() + head(chance.choice([KEPT, TAKEN]), k, *variables(3)[:house.arity[k]])
            + fail() + end(255, MOST))
    kinds = 3 * len(house.arity)
    return week[:kinds] + late + week[kinds:]


def at_the_limits(chance):
    """64 rules of 4 heads, 8 guards and 4 body facts over 32 kinds. They fire one after another."""
    numbers = shuffled(chance, range(32))
    stage, stock, *others = numbers
    arity = {k: chance.randrange(4) for k in numbers} | {stage: 1, stock: 1}
    left_out = chance.choice([None] * 9 + [chance.randrange(64)])      # that rule fires for ever

    def stage_rule(n):
        bound = [var(v) for v in chance.sample(range(12), 3)]
        heads = [head(TAKEN, stage, n)] + [head(KEPT, stock, name) for name in bound]
        guards = [guard(chance.choice([EQUAL, AT_MOST]), v, v) for v in chance.choices(bound, k=8)]
        written = [body(k, *[chance.choice(bound) for _ in range(arity[k])]) for k in chance.sample(others, 3)]
        following = n if n == left_out else n + 1
        return (rule() + joined(shuffled(chance, heads)) + joined(guards)
                + joined(shuffled(chance, written + [body(stage, following)])) + end(n, chance.choice(bound + [n])))

    goals = [goal(stage, chance.choice([0, 0, 40]))] + [goal(stock, chance.choice(SERIALS)) for _ in range(3)]
    return (joined(kind(k, arity[k]) for k in numbers)
            + joined(stage_rule(n) for n in range(64)) + joined(shuffled(chance, goals)))


def crowded(chance):
    """A store and a roll that are nearly full, and a rule that takes some and writes some."""
    takes, writes = chance.randint(0, 2), chance.randint(0, 4)
    helpers = chance.randint(1, 3)
    heads = [head(TAKEN if takes else KEPT, 1)] + [head(TAKEN, 2)] * min(takes - 1, helpers)
    goals = [goal(1)] * (chance.randint(1008, 1024) - helpers) + [goal(2)] * helpers
    ending = fail() if chance.random() < 0.1 else body(chance.choice([1, 3])) * writes
    return (kind(1, 0) + kind(2, 0) + kind(3, 0)
            + rule() + joined(shuffled(chance, heads)) + ending + end(0, 0) + joined(shuffled(chance, goals)))


# -- large weeks, a few of which are enough

def sowing(chance):
    """A fact that comes again and leaves others behind, until rows or roll are full."""
    grains = chance.randint(0, 3)
    return (kind(1, 1) + kind(2, 1) + rule() + head(TAKEN, 1, A)
            + joined(shuffled(chance, [body(1, plus(A, 1))] + [body(2, A)] * grains)) + end(0, A)
            + rule() + head(TAKEN, 2, A) + guard(AT_MOST, A, chance.randrange(100)) + end(0, 50)
            + joined(goal(1, 0) for _ in range(chance.randint(1, 3))))


def busy_depot(chance):
    """Some hundred requests and as many free blocks."""
    count = chance.randint(40, 110)
    goals = [goal(1, chance.randrange(100_000)) for _ in range(count)] + [goal(2, n) for n in range(count)]
    return (kind(1, 1) + kind(2, 1) + kind(3, 2)
            + rule() + head(TAKEN, 2, A) + head(TAKEN, 1, B) + body(3, A, B) + end(1, B)
            + joined(shuffled(chance, goals)))


def busy_paths(chance):
    stops = range(chance.randint(20, 40))
    edges = [goal(2, here, chance.randrange(1, 50), chance.choice(stops)) for here in stops for _ in range(3)]
    return PATH_KINDS + path_rules(-1) + goal(1, 0) + joined(shuffled(chance, edges))


def longest(chance):
    """As long as an accepted file can be, or a little longer. No fact is of the kind that the rules want."""
    one = (rule() + head(KEPT, 0, A, B, 0) * 4 + guard(EQUAL, A, B) * 8 + body(0, A, B, 0) * 4 + end(9, A))
    surplus = chance.choice([b"", goal(1), rule(), bytes(100), chance.randbytes(100), body(0), goal(1)[:5]])
    return joined(kind(k, 0 if k == 1 else 3) for k in range(32)) + one * 64 + goal(1) * 1024 + surplus


FIRING = [house_rules] * 10 + [depot, paths, divisor, counting, comparing, comparing, asking, working_out, ties, ties,
                               failing]
LIMITS = [at_the_limits, crowded]
LARGE = [sowing, busy_depot, busy_paths, longest]


# -- spoiled weeks: bytes and records moved about

LENGTH = {1: 3, 2: 1, 3: 18, 4: 12, 5: 35, 6: 1, 7: 7, 8: 14}


def records_of(week):
    """The records of a week as a list, as far as it has any."""
    found = []
    while week and week[0] in LENGTH:
        found.append(week[:LENGTH[week[0]]])
        week = week[LENGTH[week[0]]:]
    return found


def stretch(chance, length, most=40):
    """The beginning and end of a short stretch of so long a row."""
    begin = chance.randrange(length + 1)
    return begin, min(length, begin + chance.randint(1, most))


def turn_a_bit(chance, week):
    at = chance.randrange(len(week))
    return week[:at] + bytes([week[at] ^ 1 << chance.randrange(8)]) + week[at + 1:]


def set_a_byte(chance, week):
    at = chance.randrange(len(week))
    return week[:at] + bytes([chance.choice([0, 1, 2, 3, 4, 12, 32, 255])]) + week[at + 1:]


def cut_the_end(chance, week):
    return week[:chance.randrange(len(week))]


def cut_out(chance, week):
    begin, finish = stretch(chance, len(week))
    return week[:begin] + week[finish:]


def splice_in(chance, week):
    other = chance.choice(FIRING)(chance)
    begin, finish = stretch(chance, len(other))
    at = chance.randrange(len(week))
    return week[:at] + other[begin:finish] + week[at:]


def drop_a_record(chance, week):
    records = records_of(week)
    del records[chance.randrange(len(records))]
    return joined(records)


def repeat_a_record(chance, week):
    records = records_of(week)
    at = chance.randrange(len(records))
    return joined(records[:at] + [records[at]] * chance.choice([2, 2, 3, 5, 9]) + records[at + 1:])


def move_a_record(chance, week):
    records = records_of(week)
    moved = records.pop(chance.randrange(len(records)))
    records.insert(chance.randrange(len(records) + 1), moved)
    return joined(records)


def borrow_a_record(chance, week):
    records = records_of(week)
    other = chance.choice(records_of(chance.choice(FIRING)(chance)))
    records.insert(chance.randrange(len(records) + 1), other)
    return joined(records)


BYTEWISE = [turn_a_bit, turn_a_bit, set_a_byte, cut_the_end, cut_out, splice_in]
RECORDWISE = [drop_a_record, repeat_a_record, move_a_record, borrow_a_record]


def rules_of(week):
    """Of each rule the kinds of its heads, those it takes, and those it writes."""
    rules = []
    for record in records_of(week):
        if record[0] == 2:
            rules.append(([], [], []))
        elif record[0] == 3 and rules and len(record) == 18:
            rules[-1][0].append(record[2])
            rules[-1][1].extend([record[2]] if record[1] else [])
        elif record[0] == 5 and rules:
            rules[-1][2].extend(record[1:2])
    return rules


def is_tame(week):
    """Whether facts that rules of several heads look for cannot multiply, which would take minutes.

    They cannot when a rule writes no more of them than it takes facts, or uses up facts that no rule writes.
    """
    rules = rules_of(week)
    written = {k for _, _, writes in rules for k in writes}
    sought = {k for heads, _, _ in rules if len(heads) > 1 for k in heads}
    return all(set(takes) - written or sum(k in sought for k in writes) <= len(takes) for _, takes, writes in rules)


def spoiled_once(chance):
    week = chance.choice(FIRING)(chance)
    for spoil in chance.choices(BYTEWISE + RECORDWISE, k=chance.randint(1, 2)):
        week = spoil(chance, week) if records_of(week) else week
    return week


def spoiled(chance):
    week = spoiled_once(chance)
    while not is_tame(week):
        week = spoiled_once(chance)
    return week


# -- spoiled weeks: records with several faults at once, so that the right one has to win

MAY_FOLLOW = {1: [1, 2, 8], 2: [3], 3: [3, 4, 5, 6, 7], 4: [4, 5, 6, 7], 5: [5, 7], 6: [7], 7: [1, 2, 8], 8: [8]}

# What each record can be refused by when it is whole and may follow.
FAULTS = {1: [5, 6], 2: [10], 3: [5, 7, 8, 10], 4: [5, 9, 10], 5: [5, 7, 8, 9, 10], 6: [], 7: [5, 9],
          8: [5, 7, 8, 12, 14]}


class Spoiler:
    """Writes records. Faults, named by their numbers, are put in wherever there is a place for them, or not."""

    ARITY = {1: 1, 2: 2, 3: 3, 4: 0}        # of the kinds declared

    def __init__(self, chance, faults):
        self.chance = chance
        self.faults = faults

    def has(self, fault):
        return fault in self.faults and self.chance.random() < 0.6

    def field(self, good, fault, bad):
        return self.chance.choice(bad if self.has(fault) else good)

    def kind(self):
        return self.field([self.field([1, 2, 3, 4], 7, [0, 5, 31])], 5, [32, 33, 255])

    def operand(self):
        """Heads bind variables 0 and 1."""
        bad = [operand(2, 0), operand(255, 0), var(12), var(12), var(12), var(256), var(2**24), var(-1), var(LEAST)]
        return self.field([self.field([A, B, 0, 1, -1], 9, [var(2), var(11)])], 5, bad)

    def working(self):
        way = self.field(WAYS, 5, [3, 4, 255])
        return working(way, self.operand(), 0 if way == COPY and not self.has(8) else self.operand())

    def three(self, k, used, unused):
        return [used() if n < self.ARITY.get(k, 1) or self.has(8) else unused for n in range(3)]

    def record(self, number):
        k = self.kind()
        if number == 1:
            return kind(self.field([self.field([6, 7, 8], 6, [1, 2, 3, 4])], 5, [32, 255]),
                        self.field([0, 1, 2, 3], 5, [4, 255]))
        if number == 3:
            return head(self.field([KEPT, TAKEN], 5, [2, 255]), k, *self.three(k, self.operand, 0))
        if number == 4:
            return guard(self.field(COMPARATORS, 5, [4, 255]), self.operand(), self.operand())
        if number == 5:
            return body(k, *self.three(k, self.working, 0))
        if number == 7:
            return end(self.chance.randrange(256), self.operand())
        if number == 8:
            return goal(k, *self.three(k, lambda: self.field(SERIALS, 12, NO_SERIALS), 0))
        return {2: rule(), 6: fail()}[number]


def beginning(last, full):
    """A week without fault that ends in a record of the kind last. What can be full is so, or has just begun."""
    rules, heads, guards, bodies, goals = (64, 4, 8, 4, 1024) if full else (1, 1, 1, 1, 1)
    kinds = joined(kind(k, a) for k, a in Spoiler.ARITY.items())
    with_heads = rule() + head(TAKEN, 2, A, B) + head(KEPT, 4) * (heads - 1)
    with_guards = with_heads + guard(EQUAL, 0, 0) * guards
    return kinds + {
        1: b"", 2: rule(), 3: with_heads, 4: with_guards, 5: with_guards + body(1, A) * bodies, 6: with_guards + fail(),
        7: (rule() + head(TAKEN, 1, 77) + end(0, 0)) * rules, 8: goal(4) * goals,
    }[last]


def several_faults(chance):
    """A record with one fault or some at once, where it may stand or not, and a few records without fault."""
    number = chance.choice([1, 2, 3, 3, 4, 4, 5, 5, 5, 5, 6, 7, 8, 8])
    possible = [fault for fault in FAULTS[number] if fault != 5 or chance.random() < 0.4]     # 5 would hide the rest
    faults = chance.sample(possible, min(len(possible), chance.choice([1, 2, 2, 2, 3])))
    full = 10 in faults or 14 in faults
    if chance.random() < 0.15:
        last = chance.choice([n for n in MAY_FOLLOW if number not in MAY_FOLLOW[n]])
    elif full:
        last = 7 if number == 2 else number     # only what is full already can be one too many
    else:
        last = chance.choice([n for n in MAY_FOLLOW if number in MAY_FOLLOW[n]])
    record = Spoiler(chance, faults).record(number)
    if chance.random() < 0.1:
        return beginning(last, full) + record[:chance.randint(1, len(record))]
    rest = [Spoiler(chance, []).record(n) for n in chance.choices(MAY_FOLLOW[number], k=chance.randrange(3))]
    return beginning(last, full) + record + joined(rest)


# -- refused weeks: one for each number that a file can be refused by

def refused_2(chance):
    return house_rules(chance) + bytes([chance.choice([0, 9, 10, 0x20, 255])])


def refused_3(chance):
    return house_rules(chance) + goal(1)[:chance.randint(1, 13)]


def refused_4(chance):
    return house_rules(chance) + chance.choice([kind(1, 1), rule(), head(KEPT, 1), guard(9, 0, 0), fail(), end(0, 0)])


def refused_5(chance):
    return house_rules(chance) + goal(chance.randint(32, 255), 1, 2, 3)


def refused_6(chance):
    k = chance.randrange(32)
    return kind(k, chance.randrange(4)) + kind(k, chance.randrange(4)) + goal(k)


def refused_7(chance):
    k, other = chance.sample(range(32), 2)
    return kind(k, 1) + chance.choice([goal(other, 1), rule() + head(KEPT, other, A, B)])


def refused_8(chance):
    filled = [goal(1, 5, 0, chance.choice(SIGNED) or 3), rule() + head(TAKEN, 1, A, A),
              rule() + head(TAKEN, 1, A) + body(1, working(COPY, A, A)),
              rule() + head(TAKEN, 1, A) + body(1, A, working(SUM, 0, 0))]
    return kind(1, 1) + chance.choice(filled)


def refused_9(chance):
    unbound = [guard(LESS, A, B), body(1, plus(A, B)), end(0, B)]
    return kind(1, 1) + rule() + head(TAKEN, 1, A) + chance.choice(unbound)


def refused_10(chance):
    start = kind(1, 1) + rule() + head(KEPT, 1, A)
    too_many = [start + head(KEPT, 1, B) * 4, start + guard(EQUAL, A, A) * 9, start + body(1, A) * 5,
                kind(1, 1) + (rule() + head(KEPT, 1, A) + end(0, A)) * 65]
    return chance.choice(too_many)


def refused_11(chance):
    parts = [head(KEPT, 1, A), guard(LESS, A, 5), body(1, A)]
    return kind(1, 1) + rule() + joined(parts[:chance.randrange(4)])


def refused_12(chance):
    """Only where numbers are serials: to counts every number is a value."""
    return kind(1, 2) + goal(1, 5, 999_999) + goal(1, 0, chance.choice(NO_SERIALS))


def refused_13(chance):
    """Under counts the sum is too large; under serials the constant is none."""
    return (kind(1, 1) + kind(2, 2) + rule() + head(TAKEN, 1, A) + body(1, 5) + body(2, A, plus(A, MOST)) + end(0, 0)
            + goal(1, chance.randint(1, 999_999)))


def refused_14(chance):
    """In the reading, or in the firing."""
    writes = rule() + head(TAKEN, 1) + body(1) * 2 + end(0, 0)
    return kind(1, 0) + chance.choice([goal(1) * 1025, writes + goal(1) * 1024])


def refused_15(chance):
    takes = rule() + head(TAKEN, 1) + body(1) * chance.randrange(2) + end(0, 0)
    return kind(1, 0) + takes + goal(1) * chance.randint(1020, 1024)


REFUSED = [refused_2, refused_3, refused_4, refused_5, refused_6, refused_7, refused_8, refused_9, refused_10,
           refused_11, refused_12, refused_13, refused_14, refused_15]


# -- noise

def noise(chance):
    """Bytes, most of them small, since those mean something."""
    small = chance.random()
    return bytes(chance.randrange(10) if chance.random() < small else chance.randrange(256)
                 for _ in range(chance.randrange(200)))


def records_in_no_order(chance):
    spoiler = Spoiler(chance, chance.sample(range(5, 13), 2))
    return joined(spoiler.record(chance.randint(1, 8)) for _ in range(chance.randint(1, 12)))


# -- all together

MAKERS = [(FIRING, 60), (LIMITS, 3), (LARGE, 1), ([spoiled], 17), ([several_faults], 13), (REFUSED, 2),
          ([noise], 2), ([records_in_no_order], 2)]


def weeks(seed, count):
    """Names and bytes of so many weeks. Each has a chance of its own, so that one can be made again alone."""
    for n in range(count):
        chance = random.Random(f"{seed}/{n}")
        if n < len(REFUSED):
            maker = REFUSED[n]      # each number at least once
        else:
            group, = chance.choices([group for group, _ in MAKERS], [weight for _, weight in MAKERS])
            maker = chance.choice(group)
        yield f"{maker.__name__} {seed}/{n}", maker(chance)
