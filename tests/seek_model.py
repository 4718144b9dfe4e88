#!/usr/bin/env python3
"""An independent model of `seek`: reads its input on standard input and prints what it must print.

It shares nothing with the program. Lines and numbers are told by regular expressions, trees are built as nodes with
children, equal subtrees have the same identity, and a pattern is compared node by node along the trees.

    python3 tests/seek_model.py <tests/seek/NAME.in >tests/seek/NAME.out
"""
import re
import sys

LINE = re.compile(rb"(?:(?:0|[1-9][0-9]*)(?: (?:0|[1-9][0-9]*))*)?\n")
S, X0, X15 = 65535, 65280, 65295


class Refused(Exception):
    """A refusal: its number and its place."""


def lists(text):
    """The three lists of an input."""
    if len(text) > 65536:
        raise Refused(61, 65536)
    found, at = [], 0
    for number in (1, 2, 3):
        line = LINE.match(text, at)
        if not line or any(len(word) > 5 or int(word) > 65535 for word in line.group().split()):
            raise Refused(60, number)
        found.append([int(word) for word in line.group().split()])
        at = line.end()
    if at < len(text):
        raise Refused(60, 4)
    return found


def check_alphabet(arities):
    if not 1 <= len(arities) <= 1024:
        raise Refused(1, len(arities))
    for symbol, arity in enumerate(arities):
        if arity > 15:
            raise Refused(2, symbol)
    if 0 not in arities:
        raise Refused(3, 0)


def check_row(arities, row, leaves, most, empty, long, stray, early, extra):
    """A list of 1 to `most` numbers that is one tree's prefix notation; the last arguments are the refusals' numbers."""
    if not row:
        raise Refused(empty, 0)
    if len(row) > most:
        raise Refused(long, len(row))
    wanted = 1
    for place, number in enumerate(row):
        if wanted == 0:
            raise Refused(extra, place)
        if number >= len(arities) and number not in leaves:
            raise Refused(stray, place)
        wanted += (arities[number] if number < len(arities) else 0) - 1
    if wanted:
        raise Refused(early, len(row))


class Node:
    def __init__(self, symbol, begin, children, same):
        self.symbol, self.begin, self.children = symbol, begin, children
        self.end = children[-1].end if children else begin + 1
        self.same = same.setdefault((symbol, tuple(child.same for child in children)), len(same))


def tree(arities, row):
    """The nodes of a row, by their positions."""
    nodes, waiting, same = {}, [], {}
    for begin in reversed(range(len(row))):
        symbol = row[begin]
        arity = arities[symbol] if symbol < len(arities) else 0
        children = [waiting.pop() for _ in range(arity)]
        nodes[begin] = Node(symbol, begin, children, same)
        waiting.append(nodes[begin])
    return nodes


def match(pattern, node, chosen):
    """Does the pattern match the node? `chosen` has the first subtree of each variable."""
    if pattern.symbol == S:
        return True
    if X0 <= pattern.symbol <= X15:
        return chosen.setdefault(pattern.symbol - X0, node).same == node.same
    return pattern.symbol == node.symbol and all(
        match(p, n, chosen) for p, n in zip(pattern.children, node.children)
    )


def answer(text):
    arities, row, pattern = lists(text)
    check_alphabet(arities)
    check_row(arities, row, (), 16384, 4, 5, 7, 8, 9)
    check_row(arities, pattern, (S, *range(X0, X15 + 1)), 256, 11, 12, 13, 14, 15)
    nodes, root = tree(arities, row), tree(arities, pattern)[0]
    lines = []
    for begin in range(len(row)):
        chosen = {}
        if match(root, nodes[begin], chosen):
            spans = "".join(f" {v}:{chosen[v].begin}-{chosen[v].end}" for v in sorted(chosen))
            lines.append(f"at {begin} {nodes[begin].end}{spans}\n")
    return f"matches {len(lines)}\n" + "".join(lines)


if __name__ == "__main__":
    try:
        sys.stdout.write(answer(sys.stdin.buffer.read(65537)))
    except Refused as refused:
        print("refused", *refused.args)
