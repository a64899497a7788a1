#!/usr/bin/env python3
"""Writes the coders' functions of words.acsl in Coq, with a goal for each that it is the one in Buffers.v; or in C.

usage: check/frama-c/acsl.py [--c] >FILE

The functions are those in ONES; in C, those that have only numbers as arguments. Their arguments are numbers, and bytes by their index; all are natural numbers in Coq. No
function subtracts more than there is: 1 from a number that isn't 0. A function of the first i bytes is `i <= 0 ? FIRST : NEXT`,
and becomes a recursion over i. In Coq the sentinel is 0: the parameter s is left out, and plain(bytes, s, k) is bytes[k].
"""
import re
import sys
from pathlib import Path

TABLE = Path(__file__).resolve().parent / "words.acsl"
ONES = [
    "missing_then", "due_then", "adds", "added", "missing_at", "due_at", "adds_at", "count_at",
    "taken_then", "used_then", "full_then", "length_of", "taken_at", "used_at", "full_at", "length_at",
]  # fmt: skip
DEFINITION = re.compile(r"^logic integer (\w+)(?:\{L\})?\(([^)]*)\) =(.*?);", re.M | re.S)
LEVELS = [{"||": "||"}, {"&&": "&&"}, {"==": "=?", "!=": "!", "<=": "<=?", "<": "<?"}, {"+": "+", "-": "-"}, {"*": "*"}]


class Expression:
    """A term of ACSL, read from the left."""

    def __init__(self, text):
        self.tokens = re.findall(r"\w+|[|&=!<>]=?[|&]?|\S", text)

    def next(self, *expected):
        token = self.tokens.pop(0)
        if expected and token not in expected:
            raise ValueError(f"{token} instead of {expected}")
        return token

    def sees(self, token):
        return bool(self.tokens) and self.tokens[0] == token

    def term(self):
        condition = self.operation(0)
        if not self.sees("?"):
            return condition
        self.next("?")
        yes = self.term()
        self.next(":")
        return f"(if {condition} then {yes} else {self.term()})"

    def operation(self, level):
        if level == len(LEVELS):
            return self.primary()
        left = self.operation(level + 1)
        while self.tokens and self.tokens[0] in LEVELS[level]:
            sign = LEVELS[level][self.next()]
            right = self.operation(level + 1)
            left = f"(negb ({left} =? {right}))" if sign == "!" else f"({left} {sign} {right})"
        return left

    def primary(self):
        token = self.next()
        if token == "(":
            inner = self.term()
            self.next(")")
            return inner
        if self.sees("["):
            self.next("[")
            index = self.term()
            self.next("]")
            return f"({token} {index})"
        if self.sees("("):
            arguments = []
            while self.next("(", ",", ")") != ")":
                arguments.append(self.term())
            return f"({token} {' '.join(arguments)})"
        return token


def written(name, parameters, body):
    """A function in Coq."""
    typed = []
    for parameter in parameters.split(","):
        kind, argument = parameter.strip().rsplit(" ", 1)
        typed.append(f"({argument.lstrip('*')} : {'nat' if kind == 'integer' else 'nat -> nat'})")
    recursive = re.fullmatch(r"\s*i <= 0 \?(.*)", body, re.S)
    if not recursive:
        return f"Definition {name} {' '.join(typed)} : nat := {Expression(body).term()}."
    expression = Expression(recursive[1])
    first = expression.term()
    expression.next(":")
    following = expression.term().replace("(i - 1)", "i")
    kind = "Fixpoint" if f"({name} " in following else "Definition"
    return f"{kind} {name} {' '.join(typed)} : nat := match i with 0 => {first} | S i => {following} end."


def in_c(found):
    """The functions in C: a term of ACSL is one of C."""
    print("/* The functions of words.acsl that have only numbers as arguments. */")
    for name in ONES:
        parameters = found[name][2].replace("integer ", "long ")
        if "*" not in parameters:
            print(f"static long {name}({parameters})\n{{\n    return{found[name][3]};\n}}")


def main():
    text = re.sub(r"\bplain\(bytes, s, ([^)]*)\)", r"bytes[\1]", TABLE.read_text())
    text = text.replace("integer s, ", "").replace("(bytes, s, ", "(bytes, ")
    found = {match[1]: match for match in DEFINITION.finditer(text)}
    if sys.argv[1:] == ["--c"]:
        in_c(found)
        return
    print("From Check Require Buffers.\nRequire Import Arith Bool.\n")
    for name in ONES:
        if name not in found:
            sys.exit(f"{TABLE.name} has no function {name}")
        print(written(name, found[name][2], found[name][3]))
        print(f"Goal {name} = Buffers.{name}. Proof. reflexivity. Qed.\n")


if __name__ == "__main__":
    main()
