#!/usr/bin/env python3
"""Assembles the text of routines into a table's bytes, printed in decimal.

    bench/assemble.py bench/routines/reverse.lfpl

A text is a list of declarations; what follows a semicolon on a line is left out.

    (type NAME FORM)                    FORM: number, diamond, (list T), (tree T), (pair T U) or (sum T U)
    (fn NAME ((X T) ...) T BODY)        a function of parameters X, with its result type

Types become entries and functions become functions in the order in which they stand. An expression is

    X                                   a variable
    5                                   a constant
    (+ A B) (- A B) (* A B) (= A B) (<= A B)
    (if A THEN ELSE)                    the guard
    (pair T A B)    (by-pair A (X Y) ARM)
    (left T A)      (right T A)         (by-sum A (X) ARM (Y) ARM)
    (empty T)       (cons D A TAIL)     (by-list A ARM (D X TAIL) ARM)
    (leaf T A)      (node D E A L R)    (by-tree A (X) ARM (D E X L R) ARM)
    (F A ...)                           a call

Nothing is judged here: whether a table is admitted is for the judge to say.
"""
import re
import sys

OPERATIONS = ["+", "-", "*", "=", "<="]
FORMS = {"number": 0, "diamond": 1, "list": 2, "tree": 3, "pair": 4, "sum": 5}


def parse(text):
    """The expressions of a text, as nested lists of words."""
    words = re.findall(r"[()]|[^\s()]+", re.sub(r";.*", "", text))
    stack = [[]]
    for word in words:
        if word == "(":
            stack.append([])
        elif word == ")":
            done = stack.pop()
            stack[-1].append(done)
        else:
            stack[-1].append(word)
    if len(stack) != 1:
        raise SyntaxError("a bracket is not closed")
    return stack[0]


def number(n):
    """A number in groups of seven bits, lowest first."""
    out = []
    while n >= 128:
        out.append(n % 128 + 128)
        n //= 128
    return out + [n]


def code(n):
    """The number that an integer is written as."""
    return 2 * n if n >= 0 else -2 * n - 1


class Assembler:
    def __init__(self, text):
        declarations = parse(text)
        self.types = [d[1] for d in declarations if d[0] == "type"]
        self.functions = [d[1] for d in declarations if d[0] == "fn"]
        entries, signatures, bodies = [], [], []
        for d in declarations:
            if d[0] == "type":
                form = [d[2]] if isinstance(d[2], str) else d[2]
                entries += number(FORMS[form[0]])
                for t in form[1:]:
                    entries += self.type(t)
            else:
                _, _, parameters, result, body = d
                signatures += number(len(parameters))
                for _, t in parameters:
                    signatures += self.type(t)
                signatures += self.type(result)
                bodies += self.expression(body, [x for x, _ in parameters])
        self.bytes = number(len(self.types)) + entries + number(len(self.functions)) + signatures + bodies

    def type(self, name):
        return number(self.types.index(name))

    def expression(self, e, scope):
        """The bytes of an expression; the last variable of a name is meant where a name is bound again."""

        def parts(es):
            return [b for x in es for b in self.expression(x, scope)]

        if isinstance(e, str):
            if re.fullmatch(r"-?[0-9]+", e):
                return [2] + number(code(int(e)))
            return [0] + number(len(scope) - 1 - scope[::-1].index(e))
        head, rest = e[0], e[1:]
        if head in OPERATIONS:
            return [3, OPERATIONS.index(head)] + parts(rest)
        if head == "if":
            return [4] + parts(rest)
        if head in ("pair", "left", "right", "empty", "leaf"):
            kind = {"pair": 5, "left": 7, "right": 8, "empty": 10, "leaf": 13}[head]
            return [kind] + self.type(rest[0]) + parts(rest[1:])
        if head == "cons":
            return [11] + parts(rest)
        if head == "node":
            return [14] + parts(rest)
        if head == "by-list":
            of, empty, bound, full = rest
            return [12] + parts([of, empty]) + self.expression(full, scope + bound)
        if head == "by-pair":
            of, bound, arm = rest
            return [6] + parts([of]) + self.expression(arm, scope + bound)
        if head in ("by-sum", "by-tree"):
            of, b, arm, c, other = rest
            kind = 9 if head == "by-sum" else 15
            return [kind] + parts([of]) + self.expression(arm, scope + b) + self.expression(other, scope + c)
        return [1] + number(self.functions.index(head)) + parts(rest)


def assemble(text):
    return Assembler(text).bytes


if __name__ == "__main__":
    for path in sys.argv[1:]:
        with open(path, encoding="utf-8") as source:
            print(*assemble(source.read()))
