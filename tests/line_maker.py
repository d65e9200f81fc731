#!/usr/bin/env python3
"""Makes hostile lines of the forms that `typed_lines` does not make: all types, and `item`, `det`, `next`, `write`,
`sort`, `faults` and `loaded`.

    python3 line_maker.py SEED COUNT
    python3 line_maker.py SEED COUNT forms

prints COUNT lines, the same ones for the same SEED; with `forms`, lines of deterministic forms and of both orders of
keys alone.
"""

import sys

sys.dont_write_bytecode = True

import line_model
import typed_lines
import typed_model

TYPE_NAMES = tuple(typed_model.TYPES)
# The most bytes of a line in which each read fails in turn.
LONGEST_FAILING = 600
WRITTEN_NAMES = TYPE_NAMES + tuple(line_model.WRITTEN)


def rank_of_key(pair):
    return typed_model.canonical_rank(typed_model.encode(pair[0]))


class LineMaker(typed_lines.Maker):
    """Makes lines from one stream of chances."""

    def number(self):
        bits = self.pick((0, 4, 5, 7, 8, 15, 16, 31, 32, 63, 64, 127, 128, 136))
        number = max(0, (1 << bits) + self.pick((-1, 0, 1)))
        return self.tagged_integer(-1 - number if self.chance(0.4) else number)

    def short_tags(self):
        return b"".join(self.head(6, self.pick((1, 2, 6, 6, 7, 255))) for _ in range(self.pick((0, 1, 1, 2, 3))))

    def part(self):
        """What is likely to fit some part of some type."""
        return self.pick((
            self.small, self.small, self.number, self.word, self.bool_item, self.bytes_item, self.numbers_item,
            lambda: self.tags() + self.pick(typed_lines.SIMPLE),
            lambda: self.text(self.pick(("A", "B", "a", "\u00fc"))),
        ))()

    def foo(self):
        return self.tags() + self.map(self.parts(self.foo_field, (0, 1, 2, 3, 4)))

    def foo_field(self):
        return self.name(self.pick(("bar", "bar", "title", "title", "number", "text", "x"))), self.part()

    def likely(self):
        """An item in the form of some type, its parts of any."""
        form = self.below(8)
        if form < 2:
            return self.part()
        if form == 2:
            return self.array(self.parts(self.part, (0, 1, 2, 3, 4)))
        if form == 3:
            return self.map(self.parts(lambda: (self.part(), self.part()), (0, 1, 2)))
        if form == 4:
            return self.short_tags() + self.part()
        if form == 5:
            return self.foo()
        if form == 6:
            return self.map([(self.name(self.pick("AB")), self.part())])
        return self.array(self.parts(lambda: self.short_tags() + self.part(), (0, 1, 2, 3)))

    def spelling(self):
        form = self.random.random()
        if form < 0.1:
            return self.noise()
        if form < 0.6:
            return self.likely()
        if form < 0.8:
            return self.damaged(self.likely())
        return self.tags() + self.item(self.below(4))

    def strict(self):
        """The shortest spelling of a value, at times damaged, or any one."""
        self.oddness = self.pick((0, 0, 0.1))
        spelling = self.item(self.below(5))
        tree, _ = typed_model.read_tree(spelling)
        if tree is not None and self.chance(0.6):
            if tree[0] == "map" and self.chance(0.8):
                tree = ("map", sorted(tree[1], key=rank_of_key))
            spelling = typed_model.encode(tree)
        return self.damaged(spelling) if self.chance(0.2) else spelling

    def loaded(self):
        """What a type is saved as, or that with a byte changed, one less or one more, or any item."""
        name = self.pick(TYPE_NAMES)
        word, rank = self.pick((("loaded", typed_model.canonical_rank), ("loaded-core", line_model.bytewise_rank)))
        a_type = typed_model.TYPES[name]
        saved = None
        for _ in range(30):
            spelling = self.spelling()
            try:
                value = a_type.read(typed_model.ByteSource(spelling, typed_model.NO_LIMIT))
                saved = line_model.encode_due(a_type, value, rank)
                break
            except (typed_model.Refusal, line_model.NoForm):
                pass
        if saved is not None and self.chance(0.9):
            spelling = saved
            form = self.random.random()
            if form < 0.4 and spelling:
                at = self.below(len(spelling))
                spelling = spelling[:at] + bytes([self.below(256)]) + spelling[at + 1:]
            elif form < 0.5:
                spelling = spelling[:-1] if self.chance(0.5) else spelling + bytes([self.below(256)])
        return "%s %s %d %s" % (word, name, self.limit(), spelling.hex())

    def sorted_items(self):
        items = []
        while len(items) < self.pick((1, 2, 3, 5)):
            spelling = self.item(self.below(3))
            if typed_model.read_tree(spelling)[0] is not None:
                items.append(spelling.hex())
        return " ".join(items)

    def mapping(self, depth):
        """A map of many keys, some of which are equal, or equal once the maps in them are in order."""
        keys = [self.item(self.below(3)) for _ in range(self.pick((1, 2, 3, 4, 6, 9)))]
        if depth > 0:
            keys += [self.mapping(depth - 1) for _ in range(self.below(3))]
        if self.chance(0.15):
            keys.append(self.pick(keys))
        return self.map([(key, self.mapping(depth - 1) if depth > 0 and self.chance(0.4) else self.small()) for key in keys])

    def shown(self):
        """Any item, texts of every kind of character among its parts."""
        if self.chance(0.1):
            return self.spelling()
        return self.array([self.characters(), self.item(self.below(4)), self.map([(self.characters(), self.item(self.below(3)))])])

    def characters(self):
        return self.text("".join(chr(self.character()) for _ in range(self.below(12))))

    def character(self):
        """One of any size in UTF-8, often one that is escaped."""
        return self.pick((
            self.below(0x20), 0x22, 0x5c, 0x20 + self.below(0x60), 0x7f, 0x80 + self.below(0x780), 0x800 + self.below(0xd000),
            0x10000 + self.below(0x100000),
        ))

    def walked(self):
        """An item, at times with one of no meaning inside it, cut, damaged, or with a byte behind it."""
        item = self.spelling()
        if self.chance(0.3):
            odd = self.pick((b"\xf9\x3c\x00", b"\xf7", b"\xf8\x63", b"\xfb" + bytes(8)))
            item = self.array([odd, item, self.map([(odd, odd)])])
        form = self.random.random()
        if form < 0.4:
            return item[: self.below(len(item) + 1)]
        if form < 0.6:
            return self.damaged(item)
        return item + bytes([self.below(256)]) if form < 0.7 else item

    def form_line(self):
        self.oddness = self.pick((0, 0.1, 0.3))
        self.length = self.pick((0, 0, 0, 0.1))
        form = self.random.random()
        if form < 0.2:
            return "sort-core %s" % self.sorted_items()
        item = self.mapping(self.below(3)) if form < 0.8 else self.item(self.below(5))
        return "%s %s" % (self.pick(("form", "form-core")), item.hex())

    def line(self):
        self.oddness = self.pick((0, 0.1, 0.3, 0.6))
        self.length = self.pick((0, 0, 0, 0, 0.1))
        form = self.random.random()
        if form < 0.06:
            return "item %s" % self.walked().hex()
        if form < 0.12:
            return "%s %s" % (self.pick(("notation", "indented")), self.shown().hex())
        if form < 0.2:
            return self.loaded()
        if form < 0.4:
            return "%s %d %s" % (self.pick(TYPE_NAMES), self.limit(), self.spelling().hex())
        if form < 0.5:
            return "faults %s %d %s" % (self.pick(TYPE_NAMES), self.limit(), self.spelling()[:LONGEST_FAILING].hex())
        if form < 0.7:
            if self.chance(0.8):
                return "det %d %s" % (self.limit(), self.strict().hex())
            return "det-faults %d %s" % (self.limit(), self.strict()[:LONGEST_FAILING].hex())
        if form < 0.8:
            items = b"".join(self.spelling() for _ in range(self.below(4)))
            if self.chance(0.5):
                return "next %s %s" % (self.pick(TYPE_NAMES), items.hex())
            return "next-faults %s %s" % (self.pick(TYPE_NAMES), items[:LONGEST_FAILING].hex())
        if form < 0.9:
            return "write %s %s" % (self.pick(WRITTEN_NAMES), self.spelling().hex())
        return "sort %s" % self.sorted_items()


def main(words):
    are_forms = words[2:] == ["forms"]
    numbers = words[:2] if are_forms else words
    if len(numbers) != 2 or not all(word.isascii() and word.isdigit() for word in numbers):
        print("usage: line_maker.py SEED COUNT [forms]", file=sys.stderr)
        return 2
    maker = LineMaker(int(numbers[0]))
    for _ in range(int(numbers[1])):
        sys.stdout.write((maker.form_line() if are_forms else maker.line()) + "\n")
    return 0


if __name__ == "__main__":
    sys.exit(main(sys.argv[1:]))
