#!/usr/bin/env python3
"""A model of the lines that `ciborium_rows typed` answers (RFC 8949, RFC 8742), written apart from the library. Types
are read by `typed_model`; here stand the other forms of lines.

    python3 line_model.py answer < LINES    prints `LINE = ANSWER` of each line, or the line where it is not answered
    python3 line_model.py stored FILE       compares the lines of FILE, each `LINE = ANSWER`, with the model's answers

Not answered are well-formed `at` lines, `growth`, `asked` but of a `Value` that is read, how many reads a type takes
other than `Value`, how many writes, how many nodes a comparison visits, and calls that fail in turn where they are
refused anyway.
"""

import re
import sys

sys.dont_write_bytecode = True

import asked_model as asked
import head_model as heads
import item_model as items
import notation_model as notation
import typed_model as model

sys.setrecursionlimit(400000)

USUAL_LIMIT = 256
MOST_REPETITIONS = 1000000
LONGEST_FOLDED = 8
PIECE = re.compile(r"(?:([0-9]+)\*)?((?:[0-9a-fA-F]{2})*)\Z")
NUMBER = re.compile(r"[0-9]+\Z")
SIGNED = re.compile(r"[+-]?[0-9]+\Z")
CALLS = "no-memory read-value clone from-text serialized deserialized read-map macro write-form".split()


class Unanswered(Exception):
    """A line that has an answer, but none that the model knows."""


class Unknown(Exception):
    """A line of no known form."""


# --- Parts of lines ------------------------------------------------------------------------------------------------


def parse_pieces(text):
    content = b""
    for piece in text.split(","):
        match = PIECE.match(piece)
        if match is None or match[1] is not None and int(match[1]) > MOST_REPETITIONS:
            raise Unknown
        content += (1 if match[1] is None else int(match[1])) * bytes.fromhex(match[2])
    return content


def parse_limit(text):
    if NUMBER.match(text) is None or int(text) > model.NO_LIMIT:
        raise Unknown
    return int(text)


def split(text, count):
    """Words, the last of which may hold spaces."""
    words = text.split(" ", count - 1)
    if len(words) != count:
        raise Unknown
    return words


def find_type(name):
    if name not in model.TYPES:
        raise Unknown
    return model.TYPES[name]


# --- Deterministic reading (section 4.2) ---------------------------------------------------------------------------


class StrictSource(model.ByteSource):
    """Reads the one deterministic encoding of a value. A head is judged before the limit and any payload."""

    rank = staticmethod(model.canonical_rank)

    def judge(self, head):
        what, number, offset = head
        if what == model.SIMPLE:
            if number == model.UNDEFINED:
                raise self.refuse("notshortest", offset)
        elif what <= model.TAG:
            if number is None:
                raise self.refuse("open", offset)
            if self.position - offset > len(model.shortest_head(what, number)):
                raise self.refuse("notshortest", offset)

    def value_of(self, head):
        self.judge(head)
        return super().value_of(head)

    def value_of_parts(self, head):
        if head[0] != model.MAP:
            return super().value_of_parts(head)
        sequence = self.enter(head)
        pairs = []
        last = None
        while self.next(sequence):
            offset = self.position
            key = self.value()
            rank = self.rank(model.encode(key))
            if last is not None and rank <= last:
                raise self.refuse("keyorder", offset)
            last = rank
            pairs.append((key, self.value()))
        return ("map", pairs)

    def tagged_value(self, tag, offset):
        head = self.pull()
        if tag not in model.BIGNUM_TAGS or head[0] != model.BYTES or head[1] is None:
            return self.tag_over(tag, head)
        if head[1] > model.LONGEST_FOLDING:
            return self.tag_over(tag, head)
        self.judge(head)
        content = self.payload(head[1])
        if len(content) <= LONGEST_FOLDED or content[0] == 0:
            raise self.refuse("notfolded", offset)
        folded = model.fold_bignum(tag, content)
        if folded is None:
            raise self.refuse("toolarge", offset)
        return folded

    def tag_over(self, tag, head):
        self.take_level()
        content = self.value_of(head)
        self.give_level()
        return ("tag", tag, content)


def read_front(source, a_type):
    """What a source over bytes gives, and how many bytes were taken; or why it is refused."""
    try:
        value = a_type.read(source)
    except model.Refusal as refusal:
        return str(refusal), None
    return "ok %s %d" % (a_type.write(value).hex(), len(source.data) - source.position), source.position


def answer_strict(rest):
    limit, digits = split(rest, 2)
    return read_front(StrictSource(parse_pieces(digits), parse_limit(limit)), model.VALUE)[0]


# --- Readers that fail ---------------------------------------------------------------------------------------------


def failing(front, taken):
    """Each byte is a read of its own."""
    if taken is None:
        raise Unanswered
    return "io at %d reads, then %s" % (taken, front)


def answer_faults(rest):
    name, limit, digits = split(rest, 3)
    return failing(*read_front(model.ByteSource(parse_pieces(digits), parse_limit(limit)), find_type(name)))


def answer_strict_faults(rest):
    limit, digits = split(rest, 2)
    return failing(*read_front(StrictSource(parse_pieces(digits), parse_limit(limit)), model.VALUE))


# --- Sequences (RFC 8742) ------------------------------------------------------------------------------------------


def read_sequence(a_type, data, goes_on):
    """The answers of a sequence, and where each item ends. Offsets count from each item."""
    answers = []
    ends = []
    start = 0
    while start < len(data):
        source = model.ByteSource(data[start:], USUAL_LIMIT)
        try:
            value = a_type.read(source)
        except model.Refusal as refusal:
            answers.append(str(refusal))
            if not goes_on:
                return answers, ends
        else:
            answers.append("ok " + a_type.write(value).hex())
            ends.append(start + source.position)
        start += source.position if not answers[-1].startswith("io") else len(data)
    return answers + ["end"], ends


def answer_next(rest, goes_on=False):
    name, digits = split(rest, 2)
    return "; ".join(read_sequence(find_type(name), parse_pieces(digits), goes_on)[0])


def answer_next_on(rest):
    return answer_next(rest, True)


def answer_next_rows(rest):
    """What one row gives, where so many of them in a row give that each time."""
    count, name, digits = split(rest, 3)
    a_type, data = find_type(name), parse_pieces(digits)
    row = read_sequence(a_type, data, False)[0]
    rows = read_sequence(a_type, data * parse_limit(count), False)[0]
    if row[-1] != "end" or rows != row[:-1] * parse_limit(count) + ["end"]:
        return "; ".join(rows)
    return "%s times %s" % (count, "; ".join(row))


def answer_next_faults(rest):
    """At each read the items are answered that ended before it; one read more finds the end."""
    name, digits = split(rest, 2)
    data = parse_pieces(digits)
    answers, ends = read_sequence(find_type(name), data, False)
    if answers[-1] != "end":
        raise Unanswered
    counts = [sum(end <= read for end in ends) for read in range(len(data) + 1)]
    return "io after %s items, then %s" % (" ".join(map(str, counts)), "; ".join(answers))


# --- Writing -------------------------------------------------------------------------------------------------------


class NoItem(Exception):
    """A value that has no item."""


def write_even(number):
    if number % 2:
        raise NoItem
    return model.encode_number(number)


def write_even_pair(pair):
    return model.encode_array([model.encode_number(pair[0]), write_even(pair[1])])


def open_array(parts):
    return b"\x9f" + b"".join(parts) + b"\xff"


def write_captured(content):
    """A tag over the content, or that alone."""
    return lambda pair: (b"" if pair[0] is None else model.shortest_head(model.TAG, pair[0])) + content(pair[1])


NUMBERS = model.TYPES["Vec<u8>"]
TEXT = model.STRING
POSITION = model.tuple_of(model.signed(16), TEXT)
WITH_TEXT = model.tuple_of(model.U8, model.BOOL, TEXT)

# Types that are not written as they are read: how they are read, their bytes, and their tree where it is another.
WRITTEN = {
    "Even": (model.U8, write_even, None),
    "(u8,Even)": (model.PAIR, write_even_pair, None),
    "Some(Option<u8>)": (model.TYPES["Option<u8>"], model.TYPES["Option<u8>"].write, None),
    "Copied": (TEXT, TEXT.write, None),
    "&str": (TEXT, TEXT.write, None),
    "&u8": (model.U8, model.U8.write, None),
    "Position": (POSITION, POSITION.write, None),
    "Open": (NUMBERS, lambda numbers: open_array(map(model.encode_number, numbers)), NUMBERS.write),
    "Vec<Open>": (
        model.list_of(NUMBERS),
        lambda lists: model.encode_array([open_array(map(model.encode_number, numbers)) for numbers in lists]),
        model.list_of(NUMBERS).write,
    ),
    "OpenMap": (
        model.TYPES["BTreeMap<u8,u8>"],
        lambda entries: b"\xbf" + b"".join(map(model.encode_number, sum(map(list, entries), []))) + b"\xff",
        model.TYPES["BTreeMap<u8,u8>"].write,
    ),
    "from_char": (model.CHAR, model.CHAR.write, None),
    "Tag": (model.captured_of(model.VALUE), write_captured(model.encode), None),
    "Captured<Value>": (model.captured_of(model.VALUE), write_captured(model.encode), None),
    "Captured<bool>": (model.captured_of(model.BOOL), write_captured(model.encode_bool), None),
    "Captured<ByteBuf>": (model.captured_of(model.BYTE_BUF), write_captured(model.encode_bytes), None),
    "(u8,bool,&str)": (WITH_TEXT, WITH_TEXT.write, None),
    "Captured<Accepted<Required<Even,1>,2>>": (
        model.captured_of(model.accepted(2, model.required(1, model.U8))),
        write_captured(lambda number: b"\xc2\xc1" + write_even(number)),
        None,
    ),
}


def answer_write(rest):
    name, digits = split(rest, 2)
    data = parse_pieces(digits)
    if name in WRITTEN:
        a_type, write, write_tree = WRITTEN[name]
    else:
        a_type = find_type(name)
        write, write_tree = a_type.write, None
    try:
        value = a_type.read(model.ByteSource(data, model.NO_LIMIT))
    except model.Refusal:
        return "no value"
    try:
        return "%s | %s" % (write(value).hex(), (write_tree or write)(value).hex())
    except NoItem:
        return "value other | custom other"


def not_answered(rest):
    raise Unanswered


def showing(show):
    """The notation of a value, whatever the options of a formatter but `#`, and at a writer that fails at each call in turn."""
    def answer_notation(rest):
        tree = model.read_tree(parse_pieces(rest))[0]
        return "no value" if tree is None else show(tree)

    return answer_notation


# --- Orders and deterministic forms (sections 4.2.1 and 4.2.3) ------------------------------------------------------


class NoForm(Exception):
    """A tree has no deterministic form, for this reason."""


def bytewise_rank(encoding):
    """What orders encodings bytewise: the bytes (section 4.2.1)."""
    return encoding


def parse_tree(text):
    tree = model.read_tree(parse_pieces(text))[0]
    if tree is None:
        raise Unknown
    return tree


def sorting(rank):
    def answer_sort(rest):
        encodings = [model.encode(parse_tree(word)) for word in rest.split(" ")]
        return " ".join(encoding.hex() for encoding in sorted(encodings, key=rank))

    return answer_sort


def is_folding(tree):
    return tree[1] in (model.POSITIVE_BIGNUM, model.NEGATIVE_BIGNUM) and tree[2][0] == "bytes" and len(tree[2][1]) <= model.MOST_SIGNIFICANT_BYTES


def encode_form(tree, rank):
    """The encoding of a tree with its bignums folded and the pairs of each map in this order of its keys."""
    if tree[0] == "tag":
        if is_folding(tree):
            folded = model.fold_bignum(tree[1], tree[2][1])
            if folded is None:
                raise NoForm("toolarge")
            return model.encode(folded)
        return model.shortest_head(model.TAG, tree[1]) + encode_form(tree[2], rank)
    if tree[0] == "array":
        return model.shortest_head(model.ARRAY, len(tree[1])) + b"".join(encode_form(item, rank) for item in tree[1])
    if tree[0] == "map":
        forms = [(encode_form(key, rank), encode_form(content, rank)) for key, content in tree[1]]
        pairs = dict(forms)
        if len(pairs) < len(forms):
            raise NoForm("duplicatekey")
        head = model.shortest_head(model.MAP, len(pairs))
        return head + b"".join(key + pairs[key] for key in sorted(pairs, key=rank))
    return model.encode(tree)


def forming(rank):
    def answer_form(rest):
        tree = parse_tree(rest)
        try:
            return encode_form(tree, rank).hex()
        except NoForm as reason:
            return "value %s" % reason

    return answer_form


# --- Loading: all of the bytes, in the one encoding of what they give -----------------------------------------------


def encode_due(a_type, value, rank):
    """The encoding of the form of what a value of a type writes."""
    tree = model.read_tree(a_type.write(value))[0]
    if tree is None:
        raise NoForm("toolarge")
    return encode_form(tree, rank)


def first_difference(left, right):
    return next((at for at, (a, b) in enumerate(zip(left, right)) if a != b), min(len(left), len(right)))


def loading(rank):
    def answer_loaded(rest):
        name, limit, digits = split(rest, 3)
        data = parse_pieces(digits)
        limit = parse_limit(limit)
        a_type = find_type(name)
        source = model.ByteSource(data, limit)
        try:
            value = a_type.read(source)
        except model.Refusal as refusal:
            return str(refusal)
        if source.position < len(data):
            return "semantic %d trailingdata" % source.position
        try:
            due = encode_due(a_type, value, rank)
        except NoForm as reason:
            return "semantic - %s" % reason
        if due == data:
            return "loaded"
        strict = StrictSource(data, limit)
        strict.rank = rank
        try:
            model.VALUE.read(strict)
        except model.Refusal as refusal:
            if str(refusal).startswith("semantic "):
                return str(refusal)
        return "semantic %d notdeterministic" % first_difference(data, due)

    return answer_loaded


def answer_falling(rest):
    if not NUMBER.match(rest):
        raise Unknown
    return "rises"


# --- Trees that are written out -------------------------------------------------------------------------------------

LITERAL_BYTES = b"\x01\x02"
LITERAL_WORDS = {
    "null": model.NULL_VALUE,
    "true": ("bool", True),
    "false": ("bool", False),
    "bytes": ("bytes", LITERAL_BYTES),
}
LITERAL_TOKEN = re.compile(r' *(=>|[][{}(),]|"[^"]*"|[a-z]+|[0-9]+|[+-])')


class Literal:
    """Reads the text of a tree as `cbor!` takes it: parts in brackets are a list, pairs in braces a map, parts in
    parentheses a tuple, which is a list too. A number may be a sum."""

    def __init__(self, text):
        self.tokens = []
        position = 0
        while position < len(text):
            match = LITERAL_TOKEN.match(text, position)
            if match is None:
                raise Unknown
            self.tokens.append(match[1])
            position = match.end()
        self.tokens.reverse()

    def take(self, token):
        """Whether this token is next; then it is taken."""
        if not self.tokens or self.tokens[-1] != token:
            return False
        self.tokens.pop()
        return True

    def expect(self, token):
        if not self.take(token):
            raise Unknown

    def parts(self, end, part):
        """What stands before the end, between commas, behind the last of which one may stand too."""
        found = []
        while not self.take(end):
            found.append(part())
            if not self.take(","):
                self.expect(end)
                break
        return found

    def pair(self):
        key = self.tree()
        self.expect("=>")
        return key, self.tree()

    def tree(self):
        if self.take("["):
            return ("array", self.parts("]", self.tree))
        if self.take("("):
            return ("array", self.parts(")", self.tree))
        if self.take("{"):
            return ("map", self.parts("}", self.pair))
        if not self.tokens:
            raise Unknown
        if self.tokens[-1][0] in "+-" or self.tokens[-1].isdigit():
            return ("integer", self.sum())
        token = self.tokens.pop()
        if token[0] == '"':
            return ("text", token[1:-1])
        if token not in LITERAL_WORDS:
            raise Unknown
        return LITERAL_WORDS[token]

    def sum(self):
        number = self.term(-1 if self.take("-") else 1)
        while self.tokens and self.tokens[-1] in "+-":
            number += self.term(-1 if self.tokens.pop() == "-" else 1)
        return number

    def term(self, sign):
        if not self.tokens or not self.tokens[-1].isdigit():
            raise Unknown
        return sign * int(self.tokens.pop())


def answer_literal(rest):
    """What a literal writes. The program has those of its table alone."""
    literal = Literal(rest)
    tree = literal.tree()
    if literal.tokens:
        raise Unknown
    return model.encode(tree).hex()


# --- Heads, payloads and integers (section 3) -----------------------------------------------------------------------


def at_offset(answer):
    def answer_at(rest):
        offset, digits = split(rest, 2)
        return answer(parse_limit(offset), parse_pieces(digits))

    return answer_at


def parse_integer(text):
    """A number of 128 bits, with its sign or without one."""
    if SIGNED.match(text) is None or not -(2**127) <= int(text) < 2**128:
        raise Unknown
    return int(text)


def answer_canonical(rest):
    numbers = [parse_integer(it) for it in rest.split(",")]
    if not all(-heads.GREATEST - 1 <= it <= heads.GREATEST for it in numbers):
        raise Unknown
    return heads.answer_canonical(numbers)


def answer_growth(rest):
    if rest not in CALLS:
        raise Unknown
    raise Unanswered


def answer_at(rest):
    """How many bytes a refusal leaves is not modelled for types."""
    offset, name, limit, digits = split(rest, 4)
    parse_limit(offset)
    find_type(name)
    parse_limit(limit)
    parse_pieces(digits)
    raise Unanswered


def answer_asked(rest):
    """How often a reader is asked is modelled for values that are read."""
    name, limit, digits = split(rest, 3)
    find_type(name)
    limit = parse_limit(limit)
    data = parse_pieces(digits)
    front = model.answer_bytes(name, limit, data)
    if name != "Value" or not front.startswith("ok "):
        raise Unanswered
    return "%s; %s" % (front.rsplit(" ", 1)[0], asked.count_reads(data))


def answer_head_faults(rest, is_first=False):
    answer = heads.answer_faults(parse_pieces(rest), is_first)
    if answer is None:
        raise Unanswered
    return answer


# --- Lines ---------------------------------------------------------------------------------------------------------


def answer_type(name, rest):
    limit, digits = split(rest, 2)
    data = parse_pieces(digits)
    limit = parse_limit(limit)
    find_type(name)
    return "%s | %s" % (model.answer_bytes(name, limit, data), model.answer_tree(name, model.read_tree(data)[0]))


def answer_again(rest):
    """What the line behind the word answers, but `again` where all that is read is written as the same bytes."""
    name, behind = split(rest, 2)
    answer = answer_type(name, behind)
    digits = parse_pieces(split(behind, 2)[1]).hex()
    return "again" if answer == "ok %s 0 | ok %s" % (digits, digits) else answer


FORMS = {
    "write": answer_write,
    "write-faults": not_answered,
    "faults": answer_faults,
    "det": answer_strict,
    "det-faults": answer_strict_faults,
    "next": answer_next,
    "next-on": answer_next_on,
    "next-faults": answer_next_faults,
    "next-rows": answer_next_rows,
    "sort": sorting(model.canonical_rank),
    "sort-core": sorting(bytewise_rank),
    "visits": not_answered,
    "visits-core": not_answered,
    "form": forming(model.canonical_rank),
    "form-core": forming(bytewise_rank),
    "loaded": loading(model.canonical_rank),
    "loaded-core": loading(bytewise_rank),
    "falling": answer_falling,
    "falling-core": answer_falling,
    "literal": answer_literal,
    "notation": showing(notation.show),
    "indented": showing(lambda tree: "\t".join(notation.indent(tree))),
    "head": at_offset(heads.answer_head),
    "heads": at_offset(heads.answer_heads),
    "item": lambda rest: items.answer(parse_pieces(rest)),
    "first": lambda rest: heads.answer_first(parse_pieces(rest)),
    "head-faults": answer_head_faults,
    "first-faults": lambda rest: answer_head_faults(rest, is_first=True),
    "payload": lambda rest: heads.answer_payload(parse_pieces(rest)),
    "integer": lambda rest: heads.answer_integer(parse_integer(rest)),
    "canonical": answer_canonical,
    "growth": answer_growth,
    "at": answer_at,
    "again": answer_again,
    "asked": answer_asked,
}


def answer_line(line):
    """The answer to a line; `Unanswered` where the model has none."""
    try:
        word, rest = split(line, 2)
        if word in FORMS:
            return FORMS[word](rest)
        return answer_type(word, rest)
    except Unknown:
        return "unknown line"


def has_answer(line):
    return line != "" and not line.startswith("#")


def compare_stored(path):
    counts = {"answered": 0, "not answered": 0, "wrong": 0}
    with open(path, encoding="utf-8") as stored:
        for row in stored:
            row = row.rstrip("\n")
            if not has_answer(row):
                continue
            line, _, expected = row.rpartition(" = ")
            try:
                answer = answer_line(line)
            except Unanswered:
                counts["not answered"] += 1
                continue
            counts["answered"] += 1
            if answer != expected:
                counts["wrong"] += 1
                print("%s\n  stored: %s\n  model:  %s" % (line[:200], expected[:200], answer[:200]))
    print("%d stored lines answered, %d not answered, %d wrong" % tuple(counts[word] for word in counts))
    return 1 if counts["wrong"] or not counts["answered"] else 0


def main(words):
    if words == ["answer"]:
        for line in sys.stdin:
            line = line.rstrip("\n")
            try:
                print("%s = %s" % (line, answer_line(line)) if has_answer(line) else line)
            except Unanswered:
                print(line)
        return 0
    if len(words) == 2 and words[0] == "stored":
        return compare_stored(words[1])
    print("usage: line_model.py answer | stored FILE", file=sys.stderr)
    return 2


if __name__ == "__main__":
    sys.exit(main(sys.argv[1:]))
