#!/usr/bin/env python3
"""Blockbook a second time, in plain Python, to hold the program against.

It was written from what week files and rules mean (docs/), by someone who had not seen the program, and
is as naive as can be: all instances are listed, those that do not wait are left out, the least one fires.

    second/blockbook.py < week                         what the program `blockbook` prints
    second/blockbook.py --office HOST ORDER < week     the bytes of the answer to an office
"""

import heapq
import struct
import sys
from collections import defaultdict
from dataclasses import dataclass, field
from typing import NamedTuple

ROWS = 1024                # of the program and of the office call
MOST_ROWS = 4096           # of any store
PLACES = 1024              # on the roll
DECIDING = 34_691          # so many bytes of a file decide what is answered


# -- endings

class Ending(NamedTuple):
    """How a week ends: an outcome, and what is returned with it where it is a refusal."""
    outcome: int           # 0 final, 32 failed, else the number of a refusal
    place: int = 0         # or the rule
    body_fact: int = 0
    working: int = 0
    cause: int = 0


FINAL, FAILED = Ending(0), Ending(32)


class Refused(Exception):
    def __init__(self, number, *returned):
        self.ending = Ending(number, *returned)


def refuse_if(wrong, number):
    if wrong:
        raise Refused(number)


# -- hosts: what numbers mean

class Counts:
    @staticmethod
    def is_value(n):
        return -2**31 <= n < 2**31

    @staticmethod
    def less(a, b):
        return a < b

    @staticmethod
    def at_most(a, b):
        return a <= b

    @staticmethod
    def settle(n):
        return n


class Serials:
    @staticmethod
    def is_value(n):
        return 0 <= n < 1_000_000

    @staticmethod
    def less(a, b):
        return Serials.is_value(a) and Serials.is_value(b) and 1 <= (b - a) % 1_000_000 <= 499_999

    @staticmethod
    def at_most(a, b):
        return Serials.less(a, b) or (a == b and Serials.is_value(a))

    @staticmethod
    def settle(n):
        return n % 1_000_000


HOSTS = {0: Counts, 1: Serials}

EQUAL, UNEQUAL, LESS, AT_MOST = range(4)
COPY, SUM, DIFFERENCE = range(3)


def says_yes(host, comparator, a, b):
    if comparator == EQUAL:
        return a == b
    if comparator == UNEQUAL:
        return a != b
    return host.less(a, b) if comparator == LESS else host.at_most(a, b)


def work(host, way, a, b):
    """A value and cause 0, or no value and the cause."""
    used = [a] if way == COPY else [a, b]
    if not all(host.is_value(n) for n in used):
        return None, 1
    result = host.settle({COPY: a, SUM: a + b, DIFFERENCE: a - b}[way])
    return (result, 0) if host.is_value(result) else (None, 2)


# -- orders: a rank from a band and a value; the smaller rank is the better one

def plain(band, value):
    return value


def banded(band, value):
    return band, value


ORDERS = {0: plain, 1: banded}


# -- rules

class Operand(NamedTuple):
    tag: int               # constant or variable
    number: int


class Working(NamedTuple):
    way: int               # copy, sum or difference
    first: Operand
    second: Operand


class Head(NamedTuple):
    taken: int
    kind: int
    operands: list


class BodyFact(NamedTuple):
    kind: int
    workings: list         # of the used positions


@dataclass
class Rule:
    heads: list = field(default_factory=list)
    guards: list = field(default_factory=list)      # comparator, left, right
    body: list = field(default_factory=list)
    fails: bool = False
    band: int = 0
    rank: Operand = None


CONSTANT, VARIABLE = 0, 1
ZERO = Operand(CONSTANT, 0)
COPY_OF_ZERO = Working(COPY, ZERO, ZERO)


def variables(operands):
    return {operand.number for operand in operands if operand.tag == VARIABLE}


def binds(rule, operands):
    """Whether the heads of the rule bind every variable among the operands."""
    return variables(operands) <= set().union(*(variables(head.operands) for head in rule.heads))


# -- reading: the bytes of a record

(KIND, BEGIN, HEAD, GUARD, BODY_FACT, FAIL, END, GOAL) = range(1, 9)
LENGTH = {KIND: 3, BEGIN: 1, HEAD: 18, GUARD: 12, BODY_FACT: 35, FAIL: 1, END: 7, GOAL: 14}
MAY_FOLLOW = {
    None: {KIND, BEGIN, GOAL},
    KIND: {KIND, BEGIN, GOAL},
    BEGIN: {HEAD},
    HEAD: {HEAD, GUARD, BODY_FACT, FAIL, END},
    GUARD: {GUARD, BODY_FACT, FAIL, END},
    BODY_FACT: {BODY_FACT, END},
    FAIL: {END},
    END: {KIND, BEGIN, GOAL},
    GOAL: {GOAL},
}


def pieces(data, size):
    return [data[at:at + size] for at in range(0, len(data), size)]


def read_operands(data):
    return [Operand(*struct.unpack("<Bi", piece)) for piece in pieces(data, 5)]


def read_workings(data):
    return [Working(piece[0], *read_operands(piece[1:])) for piece in pieces(data, 11)]


def in_range(operand):
    return operand.tag == CONSTANT or operand.tag == VARIABLE and 0 <= operand.number <= 11


def first_record(data, last):
    """The record at the head of the data, which follows one of the kind last."""
    refuse_if(data[0] not in LENGTH, 2)
    record = data[:LENGTH[data[0]]]
    refuse_if(len(record) < LENGTH[data[0]], 3)
    refuse_if(record[0] not in MAY_FOLLOW[last], 4)
    return record


# -- reading: records into a draft. Each function tests in the order of the numbers, so the smallest wins.

@dataclass
class Draft:
    arity: dict = field(default_factory=dict)       # of the kinds declared
    rules: list = field(default_factory=list)       # finished
    open: Rule = None


def take_kind(draft, record):
    _, kind, arity = record
    refuse_if(kind > 31 or arity > 3, 5)
    refuse_if(kind in draft.arity, 6)
    draft.arity[kind] = arity


def take_begin(draft, record):
    refuse_if(len(draft.rules) == 64, 10)
    draft.open = Rule()


def take_head(draft, record):
    _, taken, kind = record[:3]
    operands = read_operands(record[3:])
    refuse_if(taken > 1 or kind > 31 or not all(map(in_range, operands)), 5)
    refuse_if(kind not in draft.arity, 7)
    refuse_if(any(operand != ZERO for operand in operands[draft.arity[kind]:]), 8)
    refuse_if(len(draft.open.heads) == 4, 10)
    draft.open.heads.append(Head(taken, kind, operands))


def take_guard(draft, record):
    comparator, (left, right) = record[1], read_operands(record[2:])
    refuse_if(comparator > 3 or not in_range(left) or not in_range(right), 5)
    refuse_if(not binds(draft.open, [left, right]), 9)
    refuse_if(len(draft.open.guards) == 8, 10)
    draft.open.guards.append((comparator, left, right))


def take_body_fact(draft, record):
    kind, workings = record[1], read_workings(record[2:])
    refuse_if(kind > 31 or any(way > 2 or not in_range(a) or not in_range(b) for way, a, b in workings), 5)
    refuse_if(kind not in draft.arity, 7)
    used, unused = workings[:draft.arity[kind]], workings[draft.arity[kind]:]
    refuse_if(any(working != COPY_OF_ZERO for working in unused), 8)
    refuse_if(any(way == COPY and second != ZERO for way, _, second in used), 8)
    refuse_if(not all(binds(draft.open, [a, b]) for _, a, b in used), 9)
    refuse_if(len(draft.open.body) == 4, 10)
    draft.open.body.append(BodyFact(kind, used))


def take_fail(draft, record):
    draft.open.fails = True


def take_end(draft, record):
    band, [rank] = record[1], read_operands(record[2:])
    refuse_if(not in_range(rank), 5)
    refuse_if(not binds(draft.open, [rank]), 9)
    draft.open.band, draft.open.rank = band, rank
    draft.rules.append(draft.open)
    draft.open = None


TAKE = {KIND: take_kind, BEGIN: take_begin, HEAD: take_head, GUARD: take_guard, BODY_FACT: take_body_fact,
        FAIL: take_fail, END: take_end}


# -- the run

class Fact(NamedTuple):
    id: int
    kind: int
    values: tuple          # three, 0 at unused positions


class Instance(NamedTuple):
    """The fields stand in the order that decides which is due: the least instance is."""
    rank: object
    rule: int              # from 1
    ids: tuple             # in head order
    numbers: dict          # what the variables stand for


@dataclass
class Run:
    arity: dict
    rules: list
    host: type
    order: object
    rows: int
    live: dict = field(default_factory=dict)        # facts by id, in rising id
    roll: list = field(default_factory=list)        # T and F lines
    next_id: int = 1
    failed: bool = False
    fired: set = field(default_factory=set)         # rule and ids of the firings on the roll
    applicable: list = field(default_factory=list)  # instances of facts with ids below `searched`: a heap
    searched: int = 1


def open_run(draft, host, order, rows):
    return Run(draft.arity, draft.rules, host, order, min(rows, MOST_ROWS))


def add(run, kind, values):
    run.live[run.next_id] = Fact(run.next_id, kind, tuple(values))
    run.next_id += 1


def hand_in(run, kind, values):
    refuse_if(run.failed, 1)
    refuse_if(kind > 31, 5)
    refuse_if(kind not in run.arity, 7)
    used, unused = values[:run.arity[kind]], values[run.arity[kind]:]
    refuse_if(any(value != 0 for value in unused), 8)
    refuse_if(not all(run.host.is_value(value) for value in used), 12)
    refuse_if(len(run.live) == run.rows, 14)
    refuse_if(len(run.roll) == PLACES, 15)
    run.roll.append(("T", run.next_id, kind, *values))
    add(run, kind, values)


def meant(operand, numbers):
    return numbers[operand.number] if operand.tag == VARIABLE else operand.number


def match(head, fact, numbers):
    """What the variables stand for when a fact of its kind serves this head too, or None where it cannot."""
    numbers = dict(numbers)
    for (tag, number), value in zip(head.operands, fact.values):
        agreed = numbers.setdefault(number, value) if tag == VARIABLE else number
        if agreed != value:
            return None
    return numbers


def by_kind(live):
    facts = defaultdict(list)
    for fact in live.values():
        facts[fact.kind].append(fact)
    return facts


def choices(heads, facts, recent):
    """All choices of different facts for the heads, with one at least whose id is a recent one."""
    found = [((), {})]
    for n, head in enumerate(heads, 1):
        fitting = facts[head.kind]
        fresh = [fact for fact in fitting if fact.id in recent]
        last = n == len(heads)
        found = [
            (ids + (fact.id,), more)
            for ids, numbers in found
            for fact in (fresh if last and recent.isdisjoint(ids) else fitting)
            if fact.id not in ids
            for more in [match(head, fact, numbers)] if more is not None
        ]
    return found


def search(run):
    """Brings the applicable instances up to date.

    Whether an instance of live facts is applicable lies in its rule and its facts, and these never change.
    So the list need not be made anew: only the choices with a fact added since the last search are missing.
    """
    facts, recent = by_kind(run.live), {id for id in run.live if id >= run.searched}
    if not recent:
        return
    for number, rule in enumerate(run.rules, 1):
        for ids, numbers in choices(rule.heads, facts, recent):
            if all(says_yes(run.host, how, meant(a, numbers), meant(b, numbers)) for how, a, b in rule.guards):
                rank = run.order(rule.band, meant(rule.rank, numbers))
                heapq.heappush(run.applicable, Instance(rank, number, ids, numbers))
    run.searched = run.next_id


def waits(run, instance):
    return all(id in run.live for id in instance.ids) and (instance.rule, instance.ids) not in run.fired


def due(run):
    """The due instance, or None where nothing waits. One that does not wait now never will again."""
    search(run)
    while run.applicable and not waits(run, run.applicable[0]):
        heapq.heappop(run.applicable)
    return run.applicable[0] if run.applicable else None


def work_out(run, instance):
    """The body facts of an instance as kinds and values."""
    facts = []
    for n, (kind, workings) in enumerate(run.rules[instance.rule - 1].body, 1):
        values = []
        for m, (way, a, b) in enumerate(workings, 1):
            value, cause = work(run.host, way, meant(a, instance.numbers), meant(b, instance.numbers))
            if cause:
                raise Refused(13, instance.rule, n, m, cause)
            values.append(value)
        facts.append((kind, (values + [0] * 3)[:3]))
    return facts


def fire(run, instance):
    rule = run.rules[instance.rule - 1]
    taken = {id for id, head in zip(instance.ids, rule.heads) if head.taken}
    facts = work_out(run, instance)
    if len(facts) > run.rows - len(run.live) + len(taken):
        raise Refused(14, instance.rule)
    if len(run.roll) == PLACES:
        raise Refused(15, instance.rule)
    for id in taken:
        del run.live[id]
    for kind, values in facts:
        add(run, kind, values)
    run.roll.append(("F", instance.rule, *(instance.ids + (0, 0, 0))[:4]))
    run.fired.add((instance.rule, instance.ids))
    run.failed = rule.fails


# -- a whole week

def read(week, host, order, rows):
    """A run with all goal facts handed in; a refusal has the place of its record."""
    draft, run, place, last = Draft(), None, 0, None
    while place < len(week):
        try:
            record = first_record(week[place:place + 35], last)
            last = record[0]
            if last == GOAL:
                run = run or open_run(draft, host, order, rows)
                hand_in(run, record[1], struct.unpack("<iii", record[2:]))
            else:
                TAKE[last](draft, record)
        except Refused as refused:
            raise Refused(refused.ending.outcome, place) from None
        place += len(record)
    if draft.open:
        raise Refused(11, len(week))
    return run or open_run(draft, host, order, rows)


def finish(run):
    """Fires until the run is final, has failed or is refused."""
    try:
        while not run.failed:
            instance = due(run)
            if instance is None:
                return FINAL
            fire(run, instance)
        return FAILED
    except Refused as refused:
        return refused.ending


def conduct(week, host, order, rows):
    """The lines of roll and store, and the ending. A refused reading has no lines."""
    try:
        run = read(week, HOSTS[host], ORDERS[order], rows)
    except Refused as refused:
        return [], refused.ending
    ending = finish(run)
    return run.roll + [("S", id, kind, *values) for id, kind, values in run.live.values()], ending


def last_line(ending):
    return {FINAL: ("final",), FAILED: ("failed",)}.get(ending, ("refused", *ending))


def printout(data, host=0, order=0, rows=ROWS):
    lines, ending = conduct(data, host, order, rows)
    return "".join(" ".join(map(str, line)) + "\n" for line in lines + [last_line(ending)]).encode()


def pack(line):
    letter, *numbers = line
    if letter == "F":
        return struct.pack("<BB4I", 0x22, *numbers)
    return struct.pack("<BIB3i", {"T": 0x21, "S": 0x23}[letter], *numbers)


def office(data, room, host, order):
    """The length and bytes of the answer; −16 and nothing where there is not room for so many."""
    if host in HOSTS and order in ORDERS:
        lines, ending = conduct(data, host, order, ROWS)
    else:
        lines, ending = [], Ending(5)
    answer = struct.pack("<BBI3B", 0x20, *ending) + b"".join(map(pack, lines))
    return (len(answer), answer) if len(answer) <= room else (-16, b"")


def main(words):
    if words and (len(words) != 3 or words[0] != "--office" or not all(word.isdigit() for word in words[1:])):
        print("usage: blockbook.py [--office HOST ORDER] < week", file=sys.stderr)
        return 2
    week = sys.stdin.buffer.read(DECIDING)
    if words:
        _, answer = office(week, sys.maxsize, int(words[1]), int(words[2]))
    else:
        answer = printout(week)
    sys.stdout.buffer.write(answer)
    return 0


if __name__ == "__main__":
    sys.exit(main(sys.argv[1:]))
