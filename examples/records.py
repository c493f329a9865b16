"""The records of a week file as bytes, one function a record.

A week is written as a sum of records:

    kind(1, 1) + rule() + head(TAKEN, 1, var(0)) + end(1, var(0)) + goal(1, 700)

Nothing is checked here: a field may be out of range, so that weeks to be refused
can be written too. Positions that are not given hold what an unused one must.
"""

KEPT, TAKEN = 0, 1
EQUAL, UNEQUAL, LESS, AT_MOST = 0, 1, 2, 3
COPY, SUM, DIFFERENCE = 0, 1, 2


def number(n):
    """Four bytes, the lowest first; negative numbers in two's complement."""
    return (n % 2**32).to_bytes(4, "little")


# Operands and workings

def operand(tag, n):
    return bytes([tag]) + number(n)


def var(n):
    """The variable of this number."""
    return operand(1, n)


def variables(n):
    """The first n variables, to be named."""
    return [var(i) for i in range(n)]


def constant(n):
    return operand(0, n)


def as_operand(x):
    """An int stands for a constant; bytes are an operand already."""
    return constant(x) if isinstance(x, int) else x


def working(operation, first, second=0):
    return bytes([operation]) + as_operand(first) + as_operand(second)


def copy(x):
    return working(COPY, x)


def plus(a, b):
    return working(SUM, a, b)


def minus(a, b):
    return working(DIFFERENCE, a, b)


def as_working(x):
    """An int or an operand stands for a copy of it."""
    return copy(x) if isinstance(x, int) or len(x) == 5 else x


def three(parts, blank):
    return b"".join((list(parts) + [blank] * 3)[:3])


# Records

def kind(k, arity):
    return bytes([0x01, k, arity])


def rule():
    return bytes([0x02])


def head(taken, k, *operands):
    return bytes([0x03, taken, k]) + three(map(as_operand, operands), constant(0))


def guard(comparator, left, right):
    return bytes([0x04, comparator]) + as_operand(left) + as_operand(right)


def body(k, *workings):
    return bytes([0x05, k]) + three(map(as_working, workings), copy(0))


def fail():
    return bytes([0x06])


def end(band, rank):
    return bytes([0x07, band]) + as_operand(rank)


def goal(k, *values):
    return bytes([0x08, k]) + three(map(number, values), number(0))
