#!/usr/bin/env python3
"""Compares a program's answers to lines of typed reading with the model's.

    python3 typed_compare.py LINES ANSWERS

prints the first ten differences, the counts of each kind of answer, and how often both sources agree where they must:
where the bytes begin with a definite item that has no bignum to fold, and that nests within the limit. Status 1 if
anything differs, and where the sources disagree there.
"""

import sys

sys.dont_write_bytecode = True

import typed_model

SHOWN = 10


def kind_of(answer):
    """The word of an answer, with the kind where it has one."""
    words = answer.split(" ")
    if words[0] == "semantic":
        return "semantic " + words[2] if len(words) == 3 else "semantic ?"
    if words[0] == "custom":
        return " ".join(words[:2])
    return words[0]


class Tally:
    """What was counted over all lines."""

    def __init__(self):
        self.lines = 0
        self.differences = 0
        self.from_bytes = {}
        self.from_tree = {}
        self.bound = 0
        self.agreed = 0
        self.free = 0
        self.free_agreed = 0

    def show_difference(self, line, answer, expected):
        self.differences += 1
        if self.differences <= SHOWN:
            print("line %d: %s\n  program: %s\n  model:   %s" % (self.lines, line, answer, expected))

    def add(self, line, answered):
        self.lines += 1
        front = line + " = "
        answer = answered[len(front):] if answered.startswith(front) else answered
        type_name, limit, data = typed_model.split_line(line)
        tree, plain = typed_model.read_tree(data)
        expected_bytes = typed_model.answer_bytes(type_name, limit, data)
        expected_tree = typed_model.answer_tree(type_name, tree)
        expected = expected_bytes + " | " + expected_tree
        if answer != expected:
            self.show_difference(line, answer, expected)
        for counts, word in ((self.from_bytes, kind_of(expected_bytes)), (self.from_tree, kind_of(expected_tree))):
            counts[word] = counts.get(word, 0) + 1
        if tree is not None and expected_bytes != "nesting":
            self.compare_sources(line, answer, plain)

    def compare_sources(self, line, answer, plain):
        """The program's two answers, where the bytes begin with an item that is a `Value`."""
        from_bytes, _, from_tree = answer.partition(" | ")
        same = typed_model.same_outcome(from_bytes, from_tree)
        if plain:
            self.bound += 1
            self.agreed += same
            if not same and self.bound - self.agreed <= SHOWN:
                print("line %d: %s\n  the sources disagree: %s" % (self.lines, line, answer))
        else:
            self.free += 1
            self.free_agreed += same

    def show(self):
        print("%d lines, %d differences" % (self.lines, self.differences))
        for title, counts in (("from bytes", self.from_bytes), ("from the tree", self.from_tree)):
            print("%s:" % title)
            for word in sorted(counts):
                print("  %-18s %8d" % (word, counts[word]))
        print("definite items with nothing folded: %d, in %d both sources agree" % (self.bound, self.agreed))
        print("other items that are values: %d, in %d both sources agree" % (self.free, self.free_agreed))

    def fine(self):
        return self.lines > 0 and self.differences == 0 and self.bound == self.agreed


def compare(lines, answers):
    tally = Tally()
    for line in lines:
        answer = answers.readline()
        tally.add(line.rstrip("\n"), answer.rstrip("\n") if answer else "(no answer)")
    surplus = sum(1 for _ in answers)
    tally.show()
    if surplus:
        print("%d answers more than lines" % surplus)
    return 0 if tally.fine() and not surplus else 1


def main(words):
    if len(words) != 2:
        print("usage: typed_compare.py LINES ANSWERS", file=sys.stderr)
        return 2
    with open(words[0], encoding="ascii") as lines, open(words[1], encoding="utf-8", errors="replace") as answers:
        return compare(lines, answers)


if __name__ == "__main__":
    sys.exit(main(sys.argv[1:]))
