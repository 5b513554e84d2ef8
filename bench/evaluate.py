#!/usr/bin/env python3
"""Runs routines by the rules alone, apart from the programs of this repository, and prints what they give.

    bench/evaluate.py check             the worked examples of docs/RULES.md, and that all tables are what the texts say
    bench/evaluate.py all [ENTRIES]     each routine of bench/routines on its input of so many entries (500):
                                        name, steps, greatest height, most words, checksum of the entries, checksum of the bytes
    bench/evaluate.py trials            what crates/machine_trials should print
    bench/evaluate.py once              what crates/machine_bench should print when it is given no count
    bench/evaluate.py bytes ROUTINE [ENTRIES]      the bytes of its arguments, a line each

The inputs are pseudo-random from a fixed seed; every program that is compared makes them by the same rule, which `inputs` below spells out.
"""
import os
import re
import sys

from assemble import assemble, code, number

HERE = os.path.dirname(os.path.abspath(__file__))
ROUTINES = ["reverse", "insertion_sort", "quicksort", "breadth_first", "merge"]
HEIGHTS = 4096
WORDS = 8192

# parts and arms of each kind, with how many variables an arm binds
PARTS = {0: 0, 2: 0, 3: 2, 4: 1, 5: 2, 6: 1, 7: 1, 8: 1, 9: 1, 10: 0, 11: 3, 12: 1, 13: 1, 14: 5, 15: 1}
ARMS = {4: [0, 0], 6: [2], 9: [1, 1], 12: [0, 3], 15: [1, 5]}
NUMBERED = {0, 1, 2, 3, 5, 7, 8, 10, 13}


class Halt(Exception):
    pass


class Reader:
    def __init__(self, data):
        self.data = data
        self.at = 0

    def number(self):
        n, scale = 0, 1
        while True:
            b = self.data[self.at]
            self.at += 1
            n += b % 128 * scale
            scale *= 128
            if b < 128:
                return n

    def integer(self):
        c = self.number()
        return c // 2 if c % 2 == 0 else -(c + 1) // 2


def wrapped(n):
    return (n + 2**31) % 2**32 - 2**31


class Table:
    """A table as its bytes spell it. Widths of arms' variables follow from the types, which are worked out beside the reading."""

    def __init__(self, data):
        reader = Reader(data)
        self.types = []
        for _ in range(reader.number()):
            form = reader.number()
            self.types.append((form,) + tuple(reader.number() for _ in range([0, 0, 1, 1, 2, 2][form])))
        self.signatures = []
        for _ in range(reader.number()):
            parameters = [self.types[reader.number()] for _ in range(reader.number())]
            self.signatures.append((parameters, self.types[reader.number()]))
        self.bodies = [self.expression(reader, parameters) for parameters, _ in self.signatures]
        assert reader.at == len(data), "bytes are left over"

    def of(self, t, k):
        return self.types[t[1 + k]]

    def width(self, t):
        form = t[0]
        if form < 3:
            return 1
        if form == 3:
            return 3 + self.width(self.of(t, 0))
        a, b = self.width(self.of(t, 0)), self.width(self.of(t, 1))
        return a + b if form == 4 else 1 + max(a, b)

    def expression(self, reader, scope):
        """An expression as (kind, number, parts, arms, type, widths of the parts, widths of what each arm binds)."""
        N, D = (0,), (1,)
        kind = reader.number()
        n = reader.integer() if kind == 2 else reader.number() if kind in NUMBERED else None
        count = len(self.signatures[n][0]) if kind == 1 else PARTS[kind]
        parts = [self.expression(reader, scope) for _ in range(count)]
        binds = []
        if kind in ARMS:
            t = parts[0][4]
            if kind == 4:
                binds = [[], []]
            elif kind == 6:
                binds = [[self.of(t, 0), self.of(t, 1)]]
            elif kind == 9:
                binds = [[self.of(t, 0)], [self.of(t, 1)]]
            elif kind == 12:
                binds = [[], [D, self.of(t, 0), t]]
            else:
                binds = [[self.of(t, 0)], [D, D, self.of(t, 0), t, t]]
        arms = [self.expression(reader, scope + b) for b in binds]
        if kind == 0:
            t = scope[n]
        elif kind == 1:
            t = self.signatures[n][1]
        elif kind in (2, 3):
            t = N
        elif kind in (5, 7, 8, 10, 13):
            t = self.types[n]
        elif kind == 11:
            t = parts[2][4]
        elif kind == 14:
            t = parts[3][4]
        else:
            t = arms[0][4]
        widths = [self.width(p[4]) for p in parts]
        return (kind, n, parts, arms, t, widths, [sum(map(self.width, b)) for b in binds])

    # Values: an integer; None for a diamond; () or (element, tail) for a list; (label,) or (label, left, right) for a tree; a pair (first, second);
    # a sum (0 or 1, part).

    def read(self, reader, t):
        form = t[0]
        if form == 0:
            return reader.integer()
        if form == 1:
            return None
        if form == 2:
            elements = []
            while reader.number() == 1:
                elements.append(self.read(reader, self.of(t, 0)))
            value = ()
            for x in reversed(elements):
                value = (x, value)
            return value
        if form == 3:
            mark = reader.number()
            label = self.read(reader, self.of(t, 0))
            return (label, self.read(reader, t), self.read(reader, t)) if mark else (label,)
        if form == 4:
            return (self.read(reader, self.of(t, 0)), self.read(reader, self.of(t, 1)))
        mark = reader.number()
        return (mark, self.read(reader, self.of(t, mark)))

    def write(self, value, t):
        form = t[0]
        if form == 0:
            return number(code(value))
        if form == 1:
            return []
        if form == 2:
            out = []
            while value:
                out += [1] + self.write(value[0], self.of(t, 0))
                value = value[1]
            return out + [0]
        if form == 3:
            if len(value) == 1:
                return [0] + self.write(value[0], self.of(t, 0))
            return [1] + self.write(value[0], self.of(t, 0)) + self.write(value[1], t) + self.write(value[2], t)
        if form == 4:
            return self.write(value[0], self.of(t, 0)) + self.write(value[1], self.of(t, 1))
        return [value[0]] + self.write(value[1], self.of(t, value[0]))

    def run(self, function, arguments):
        """The result of a function, or the limit at which it halts, after `self.steps` steps."""
        self.steps = self.highest = self.widest = 0
        try:
            return self.begin(self.bodies[function], arguments, 0, sum(map(self.width, self.signatures[function][0])))
        except Halt as halt:
            return str(halt)

    def begin(self, e, scope, height, words):
        self.steps += 1
        if height >= HEIGHTS:
            raise Halt("height")
        if words > WORDS:
            raise Halt("words")
        if height > self.highest:
            self.highest = height
        if words > self.widest:
            self.widest = words
        kind, n, parts, arms, _, widths, bound = e
        if kind == 0:
            return scope[n]
        if kind == 2:
            return n
        done, over = [], words
        for p, w in zip(parts, widths):
            done.append(self.begin(p, scope, height + 1, over))
            over += w
        if kind == 1:
            return self.begin(self.bodies[n], done, height + 1, words + sum(widths))
        if kind == 3:
            a, b = done
            return wrapped([a + b, a - b, a * b, int(a == b), int(a <= b)][n])
        if kind in ARMS:
            of = done[0]
            if kind == 4:
                arm, new = (0, []) if of != 0 else (1, [])
            elif kind == 6:
                arm, new = 0, list(of)
            elif kind == 9:
                arm, new = of[0], [of[1]]
            elif kind == 12:
                arm, new = (1, [None, of[0], of[1]]) if of else (0, [])
            else:
                arm, new = (0, [of[0]]) if len(of) == 1 else (1, [None, None, of[0], of[1], of[2]])
            return self.begin(arms[arm], scope + new, height + 1, words + bound[arm])
        if kind == 5:
            return tuple(done)
        if kind in (7, 8):
            return (kind - 7, done[0])
        if kind == 10:
            return ()
        if kind == 11:
            return (done[1], done[2])
        if kind == 13:
            return (done[0],)
        return tuple(done[2:])


class Random:
    """The generator of the inputs: a linear congruence of 32 bits, of which the upper bits are used."""

    def __init__(self):
        self.seed = 1

    def bits(self, count):
        self.seed = (self.seed * 1664525 + 1013904223) % 2**32
        return self.seed >> (32 - count)


def entry(random):
    """An entry: the integer that the number of 14 bits stands for, so -8,192 to 8,191."""
    c = random.bits(14)
    return c // 2 if c % 2 == 0 else -(c + 1) // 2


def spelt(n):
    """An entry's bytes, always two: a longer form than the shortest is read like any other."""
    c = code(n)
    return [c % 128 + 128, c // 128]


def inputs(routine, entries):
    """The bytes of each argument."""
    random = Random()
    if routine == "merge":
        # two sorted lists of half the entries each, 0 at least, each entry at most 31 more than the one before
        lists = []
        for _ in range(2):
            out, x = [], 0
            for _ in range(entries // 2):
                x += random.bits(5)
                out += [1] + spelt(x)
            lists.append(out + [0])
        return lists
    if routine == "breadth_first":
        # four trees of a quarter of the entries each, rounded down to an odd number of labels; each tree in the order in which it is written: a node as
        # long as only it keeps the tree open, and a leaf when all nodes are placed; else as the next bit says
        out = []
        for _ in range(4):
            nodes = (entries // 4 - 1) // 2
            awaited = 1
            out += [1]
            while awaited > 0:
                bit = random.bits(1)
                node = nodes > 0 and (awaited == 1 or bit == 1)
                out += [int(node)] + spelt(entry(random))
                nodes -= int(node)
                awaited += 1 if node else -1
        return [out + [0]]
    return [[b for _ in range(entries) for b in [1] + spelt(entry(random))] + [0]]


def checksum(numbers):
    h = 0
    for n in numbers:
        h = (h * 31 + n) % 2**32
    return h


def elements(value):
    out = []
    while value:
        out.append(value[0])
        value = value[1]
    return out


def table_of(routine):
    with open(os.path.join(HERE, "routines", routine + ".lfpl"), encoding="utf-8") as source:
        return Table(assemble(source.read()))


def play(routine, entries):
    table = table_of(routine)
    function = len(table.bodies) - 1
    parameters, result = table.signatures[function]
    arguments = [table.read(Reader(data), t) for data, t in zip(inputs(routine, entries), parameters)]
    value = table.run(function, arguments)
    if isinstance(value, str):
        return table, arguments, value, None
    return table, arguments, value, table.write(value, result)


def wanted(routine, arguments):
    """What the routine should give, by Python's own means."""
    lists = [elements(a) for a in arguments]
    if routine == "reverse":
        return lists[0][::-1]
    if routine == "breadth_first":
        level, out = lists[0], []
        while level:
            out += [t[0] for t in level]
            level = [s for t in level for s in t[1:]]
        return out
    return sorted(sum(lists, []))


def check():
    """The worked examples."""

    def given(data, function, arguments):
        table = Table(data)
        value = table.run(function, arguments)
        return table.steps, value

    reverse = [2, 0, 2, 0, 2, 2, 1, 1, 1, 1, 1, 1, 12, 0, 0, 0, 1, 1, 0, 0, 4, 11, 0, 2, 0, 3, 0, 1, 1, 0, 0, 0, 10, 1]
    with open(os.path.join(HERE, "routines", "reverse.lfpl"), encoding="utf-8") as source:
        assert assemble(source.read()) == reverse
    assert given(reverse, 1, [(7, (-1, ()))]) == (22, (-1, (7, ())))
    assert given(reverse, 1, [()]) == (6, ())
    # a function that calls itself, and one that does so with sixteen words
    assert given([1, 0, 1, 0, 0, 1, 0], 0, []) == (4097, "height")
    wide = [5, 0, 4, 0, 0, 4, 1, 1, 4, 2, 2, 4, 3, 3, 1, 1, 4, 4, 1, 0, 0, 0]
    assert given(wide, 0, [None]) == (1025, "words")
    assert given([1, 0, 1, 0, 0, 3, 0] + [2] + number(code(2**31 - 1)) + [2, 2], 0, []) == (3, -(2**31))
    table = Table([2, 0, 2, 0, 1, 1, 1, 1, 0, 0])
    assert table.read(Reader([1, 14, 1, 1, 0]), table.types[1]) == (7, (-1, ()))
    assert table.write((7, (-1, ())), table.types[1]) == [1, 14, 1, 1, 0]
    # the tables that stand beside the texts, and those of the program, are what the texts say
    with open(os.path.join(HERE, "..", "crates", "routines", "src", "routine.rt"), encoding="utf-8") as source:
        statics = dict(re.findall(r'static ([A-Z_]+): &\[u8; \d+\] =\s+b"([^"]*)"', source.read()))
    for routine in ROUTINES:
        with open(os.path.join(HERE, "routines", routine + ".lfpl"), encoding="utf-8") as source:
            table = assemble(source.read())
        with open(os.path.join(HERE, "routines", routine + ".bytes"), encoding="utf-8") as source:
            assert [int(b) for b in source.read().split()] == table, routine
        assert [int(b, 16) for b in re.findall(r"\\x(..)", statics[routine.upper()])] == table, routine
    print("the worked examples hold, and the tables are those of the texts")


def main(arguments):
    sys.setrecursionlimit(100000)
    what = arguments[0] if arguments else "all"
    if what == "check":
        check()
    elif what == "trials":
        # the own pool has 64 cells, the block 512, the pair both; of the reserve's 500 none is spare while a run goes
        pools = [("own", 64, 64), ("abandoned", 64, 64), ("block", 512, 500), ("pair", 576, 500), ("reserve", 500, 500)]
        for pool, cells, entries in pools:
            for routine in ROUTINES:
                table, _, _, data = play(routine, entries)
                end, steps, sum_ = "done", table.steps, checksum(data)
                if pool == "abandoned":
                    # none of them is done after ten slices of fifty steps
                    assert steps > 500
                    end, steps, sum_ = "not done", 500, 0
                print(f"{pool}, {routine}: {end} after {steps} steps, checksum {sum_}, {cells} cells free")
    elif what == "once":
        for routine in ROUTINES:
            table, _, _, data = play(routine, 500)
            print(routine, table.steps, checksum(data))
    elif what == "bytes":
        for data in inputs(arguments[1], int(arguments[2]) if len(arguments) > 2 else 500):
            print(*data)
    else:
        entries = int(arguments[1]) if len(arguments) > 1 else 500
        for routine in ROUTINES:
            table, given, value, data = play(routine, entries)
            if data is None:
                print(routine, table.steps, "halts for", value)
                continue
            assert elements(value) == wanted(routine, given), routine
            marks = [n % 2**32 for n in elements(value)]
            print(routine, table.steps, table.highest, table.widest, checksum(marks), checksum(data))


if __name__ == "__main__":
    main(sys.argv[1:])
