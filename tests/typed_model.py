#!/usr/bin/env python3
"""A model of typed reading (RFC 8949), written apart from the library.

A line is `TYPE LIMIT HEX`. Its answer is `BYTES | TREE`: what reading the bytes as TYPE within LIMIT levels answers,
and what reading the `Value` that the bytes begin with answers, `none` where there is no such `Value`. The other forms
of lines stand in `line_model`.

Two sources stand under the same typed readers: `ByteSource` with offsets and levels, `TreeSource` with neither. Each
reads in the natural order and refuses at the first fault it meets.

    python3 typed_model.py                  checks the model against answers that were worked out by hand
    python3 typed_model.py answer < LINES   prints the answer of each line
    python3 typed_model.py worked           prints the lines of those answers
"""

import sys

sys.dont_write_bytecode = True
sys.setrecursionlimit(20000)

LAST_OFFSET = 2**64 - 1
NO_LIMIT = 2**64 - 1
LONGEST_FOLDING = 16
MOST_SIGNIFICANT_BYTES = 16

# What a head is (RFC 8949, section 3.1). The first seven are the major types of that number.
POSITIVE, NEGATIVE, BYTES, TEXT, ARRAY, MAP, TAG, SIMPLE, FLOAT, BREAK = range(10)

FALSE, TRUE, NULL, UNDEFINED = 20, 21, 22, 23
POSITIVE_BIGNUM, NEGATIVE_BIGNUM = 2, 3
BIGNUM_TAGS = (POSITIVE_BIGNUM, NEGATIVE_BIGNUM)


class Refusal(Exception):
    """A refused reading, by the text of its answer."""


# --- Values --------------------------------------------------------------------------------------------------------
#
# A value is a tuple that begins with one of these words:
# ("integer", n) ("bytes", b) ("text", s) ("bool", b) ("null",) ("tag", n, value) ("array", [value, ..])
# ("map", [(value, value), ..])

NULL_VALUE = ("null",)


def shortest_head(major, number):
    """The head of fewest bytes (sections 3 and 4.2.1)."""
    if number < 24:
        return bytes([major << 5 | number])
    for information, width in ((24, 1), (25, 2), (26, 4), (27, 8)):
        if number < 1 << 8 * width:
            return bytes([major << 5 | information]) + number.to_bytes(width, "big")
    raise ValueError("no head holds this number")


def encode_integer(number):
    return shortest_head(POSITIVE, number) if number >= 0 else shortest_head(NEGATIVE, -1 - number)


def encode_bytes(content):
    return shortest_head(BYTES, len(content)) + content


def encode_text(text):
    content = text.encode()
    return shortest_head(TEXT, len(content)) + content


def encode_bool(truth):
    return b"\xf5" if truth else b"\xf4"


def encode(value):
    """The shortest definite encoding of a value."""
    word = value[0]
    if word == "integer":
        return encode_integer(value[1])
    if word == "bytes":
        return encode_bytes(value[1])
    if word == "text":
        return encode_text(value[1])
    if word == "bool":
        return encode_bool(value[1])
    if word == "null":
        return b"\xf6"
    if word == "tag":
        return shortest_head(TAG, value[1]) + encode(value[2])
    if word == "array":
        return shortest_head(ARRAY, len(value[1])) + b"".join(encode(item) for item in value[1])
    pairs = b"".join(encode(key) + encode(content) for key, content in value[1])
    return shortest_head(MAP, len(value[1])) + pairs


def fold_bignum(tag, content):
    """What tag 2 or 3 over a definite string of at most 16 bytes means (section 3.4.3), or None for nothing."""
    number = int.from_bytes(content, "big")
    if number < 2**64:
        return ("integer", number if tag == POSITIVE_BIGNUM else -1 - number)
    if tag == NEGATIVE_BIGNUM and number >= 2**127:
        return None
    return ("tag", tag, ("bytes", content.lstrip(b"\0")))


def bignum_number(tag, content):
    """The number of tag 2 or 3 over a string of any length, or None where more than 16 bytes of it count."""
    content = content.lstrip(b"\0")
    if len(content) > MOST_SIGNIFICANT_BYTES:
        return None
    number = int.from_bytes(content, "big")
    return number if tag == POSITIVE_BIGNUM else -1 - number


# --- The source over bytes -----------------------------------------------------------------------------------------


class ByteSequence:
    """An array or map that is being read: `remaining` items or pairs, None where it is open. Of a byte string that is
    read as a sequence `remaining` bytes of `content` are left, items with the offset of the string's head."""

    __slots__ = ("remaining", "content", "offset")

    def __init__(self, remaining, content=None, offset=None):
        self.remaining = remaining
        self.content = content
        self.offset = offset


class ByteSource:
    """Reads from bytes. A head is a tuple (what it is, its number, its offset); the number of an open string, array or
    map is None. One head may be pushed back. An item that no head spells, as a byte of a string that is read as a
    sequence, is a pushed head too."""

    def __init__(self, data, limit):
        self.data = data
        self.position = 0
        self.levels = limit
        self.pushed = None
        # Whether `value` met definite items alone and folded nothing: then the tree has the item that the bytes have.
        self.plain = True

    # Heads and payloads

    def pull(self):
        """The next head (section 3), the bytes of a float with it."""
        if self.pushed is not None:
            head = self.pushed
            self.pushed = None
            return head
        data = self.data
        offset = self.position
        if offset == len(data):
            raise Refusal("io")
        initial = data[offset]
        major = initial >> 5
        information = initial & 31
        position = offset + 1
        if information < 24:
            number = information
        elif information < 28:
            end = position + (1 << information - 24)
            if end > len(data):
                raise Refusal("io")
            number = int.from_bytes(data[position:end], "big")
            position = end
        elif information == 31 and major not in (POSITIVE, NEGATIVE, TAG):
            number = None
        else:
            raise self.syntax(offset)
        self.position = position
        if major == 7:
            return self.head_of_seven(information, number, offset)
        if number is not None and major in (BYTES, TEXT) and position + number > LAST_OFFSET:
            raise Refusal("toolong")
        return (major, number, offset)

    def head_of_seven(self, information, number, offset):
        """Floats, simple values and the break (section 3.3)."""
        if information == 31:
            return (BREAK, None, offset)
        if information >= 25:
            return (FLOAT, None, offset)
        if information == 24 and number < 32:
            raise self.syntax(offset)
        return (SIMPLE, number, offset)

    def push(self, head):
        self.pushed = head

    def payload(self, length):
        end = self.position + length
        if end > len(self.data):
            raise Refusal("io")
        content = self.data[self.position:end]
        self.position = end
        return content

    def string_parts(self, head):
        """The payload of a string, part by part, each with the offset of its head. A definite string is one part, an
        open one (section 3.2.3) any number of definite strings of its own kind."""
        major, length, offset = head
        if length is not None:
            yield self.payload(length), offset
            return
        while True:
            part, part_length, part_offset = self.pull()
            if part == BREAK:
                return
            if part != major or part_length is None:
                raise self.syntax(part_offset)
            yield self.payload(part_length), part_offset

    def byte_string(self, head):
        return b"".join(content for content, _ in self.string_parts(head))

    def text_string(self, head):
        """Each part of a text is UTF-8 by itself."""
        parts = []
        for content, offset in self.string_parts(head):
            try:
                parts.append(content.decode("utf-8"))
            except UnicodeDecodeError:
                raise self.syntax(offset) from None
        return "".join(parts)

    # Refusals and levels

    def syntax(self, offset):
        return Refusal("syntax %d" % offset)

    def offset(self):
        return self.position if self.pushed is None else self.pushed[2]

    def refuse(self, kind, offset=None):
        return Refusal("semantic %s %s" % ("-" if offset is None else offset, kind))

    def unfit(self, head, kind):
        """The refusal of an item that a call does not take. A break is none."""
        return self.refuse("break" if head[0] == BREAK else kind, head[2])

    def take_level(self):
        if self.levels == 0:
            raise Refusal("nesting")
        self.levels -= 1

    def give_level(self):
        self.levels += 1

    # Calls

    def bare_head(self):
        """The head behind any number of tags."""
        head = self.pull()
        while head[0] == TAG:
            head = self.pull()
        return head

    def number(self):
        """A number, and the offset of its head; of a bignum that of its tag 2 or 3. No other tag counts."""
        head = self.pull()
        while head[0] == TAG and head[1] not in BIGNUM_TAGS:
            head = self.pull()
        what, number, offset = head
        if what == POSITIVE:
            return number, offset
        if what == NEGATIVE:
            return -1 - number, offset
        if what != TAG:
            raise self.unfit(head, "integer")
        string = self.pull()
        if string[0] != BYTES:
            raise self.unfit(string, "bytes")
        bignum = bignum_number(number, self.byte_string(string))
        if bignum is None:
            raise self.refuse("toolarge", offset)
        return bignum, offset

    def integer(self):
        return self.number()[0]

    def boolean(self):
        head = self.bare_head()
        if head[0] == SIMPLE and head[1] in (FALSE, TRUE):
            return head[1] == TRUE
        raise self.unfit(head, "bool")

    def unit(self):
        head = self.bare_head()
        if head[0] == SIMPLE and head[1] in (NULL, UNDEFINED):
            return
        raise self.unfit(head, "unit")

    def text(self):
        head = self.bare_head()
        if head[0] != TEXT:
            raise self.unfit(head, "text")
        return self.text_string(head)

    def character(self):
        """A definite text of one character. One of more than four bytes holds more, and is not read."""
        head = self.bare_head()
        if head[0] != TEXT:
            raise self.unfit(head, "char")
        if head[1] is None or head[1] > 4:
            raise self.refuse("char", head[2])
        text = self.text_string(head)
        if len(text) != 1:
            raise self.refuse("char", head[2])
        return text

    def skip_null(self):
        """Whether null or undefined is ahead, with no tag before it; then it is taken."""
        head = self.pull()
        if head[0] == SIMPLE and head[1] in (NULL, UNDEFINED):
            return True
        self.push(head)
        return False

    def byte_buffer(self):
        """A byte string, or an array of numbers, which costs a level."""
        head = self.bare_head()
        if head[0] == BYTES:
            return self.byte_string(head)
        if head[0] != ARRAY:
            raise self.unfit(head, "bytes")
        sequence = self.enter(head)
        content = bytearray()
        while self.next(sequence):
            number, offset = self.number()
            if not 0 <= number <= 255:
                raise self.refuse("range", offset)
            content.append(number)
        return bytes(content)

    def name(self):
        """A text, or a byte string that is UTF-8 once its parts are joined."""
        head = self.bare_head()
        if head[0] == TEXT:
            return self.text_string(head)
        if head[0] != BYTES:
            raise self.unfit(head, "name")
        try:
            return self.byte_string(head).decode("utf-8")
        except UnicodeDecodeError:
            raise self.refuse("name", head[2]) from None

    def label(self):
        """A key of a struct: a number, a name, or None for what is neither, which is passed over."""
        head = self.pull()
        self.push(head)
        if head[0] in (POSITIVE, NEGATIVE) or head[0] == TAG and head[1] in BIGNUM_TAGS:
            return self.integer()
        if head[0] in (BYTES, TEXT, TAG):
            return self.name()
        self.skip()
        return None

    def begin_tag(self):
        """The number of the tag ahead, or None. Both cost a level, after the head was read."""
        head = self.pull()
        if head[0] == BREAK:
            raise self.unfit(head, "break")
        self.take_level()
        if head[0] == TAG:
            return head[1]
        self.push(head)
        return None

    def end_tag(self):
        self.give_level()

    def enter(self, head):
        """Into the array or map of a head: one level."""
        self.take_level()
        return ByteSequence(head[1])

    def begin_seq(self):
        """An array; or a byte string, which is read whole and costs no level."""
        head = self.bare_head()
        if head[0] == ARRAY:
            return self.enter(head)
        if head[0] != BYTES:
            raise self.unfit(head, "array")
        content = self.byte_string(head)
        return ByteSequence(len(content), content, head[2])

    def begin_map(self):
        head = self.bare_head()
        if head[0] != MAP:
            raise self.unfit(head, "map")
        return self.enter(head)

    def next(self, sequence):
        """Whether an item or key follows. At the end the container is left and its level given back."""
        if sequence.remaining is None:
            head = self.pull()
            if head[0] == BREAK:
                self.give_level()
                return False
            self.push(head)
            return True
        if sequence.remaining == 0:
            if sequence.content is None:
                self.give_level()
            return False
        if sequence.content is not None:
            byte = sequence.content[len(sequence.content) - sequence.remaining]
            self.push((POSITIVE, byte, sequence.offset))
        sequence.remaining -= 1
        return True

    def begin_variant(self):
        """The name of a variant: a text, whose data is then a null at its offset, or the key of a definite map of one
        pair. Both cost a level, after the head and before the name is read."""
        head = self.bare_head()
        if head[0] == TEXT:
            self.take_level()
            name = self.text_string(head)
            self.push((SIMPLE, NULL, head[2]))
            return name
        if head[0] == MAP and head[1] == 1:
            self.take_level()
            return self.name()
        raise self.unfit(head, "variant")

    def end_variant(self):
        self.give_level()

    def value(self):
        return self.value_of(self.pull())

    def value_of(self, head):
        """The value of the item that a head begins."""
        what, number, offset = head
        if what == POSITIVE:
            return ("integer", number)
        if what == NEGATIVE:
            return ("integer", -1 - number)
        if what == TAG:
            return self.tagged_value(number, offset)
        if what < TAG:
            if number is None:
                self.plain = False
            if what == BYTES:
                return ("bytes", self.byte_string(head))
            if what == TEXT:
                return ("text", self.text_string(head))
            return self.value_of_parts(head)
        if what == SIMPLE:
            if number in (FALSE, TRUE):
                return ("bool", number == TRUE)
            if number in (NULL, UNDEFINED):
                return NULL_VALUE
            raise self.refuse("simple", offset)
        raise self.unfit(head, "float")

    def value_of_parts(self, head):
        sequence = self.enter(head)
        parts = []
        if head[0] == ARRAY:
            while self.next(sequence):
                parts.append(self.value())
            return ("array", parts)
        while self.next(sequence):
            key = self.value()
            parts.append((key, self.value()))
        return ("map", parts)

    def tagged_value(self, tag, offset):
        """A tag's next head is read first; then it folds, at no cost, or takes a level."""
        head = self.pull()
        if tag in BIGNUM_TAGS and head[0] == BYTES and head[1] is not None and head[1] <= LONGEST_FOLDING:
            self.plain = False
            folded = fold_bignum(tag, self.payload(head[1]))
            if folded is None:
                raise self.refuse("toolarge", offset)
            return folded
        self.take_level()
        content = self.value_of(head)
        self.give_level()
        return ("tag", tag, content)


    def skip(self):
        self.skip_item(self.pull())

    def skip_item(self, head):
        """Passes over the item of any kind that a head begins, in the order in which its value would be read."""
        what, number, _ = head
        if what == BREAK:
            raise self.unfit(head, "break")
        if what == TAG:
            content = self.pull()
            if number in BIGNUM_TAGS and content[0] == BYTES and content[1] is not None and content[1] <= LONGEST_FOLDING:
                self.payload(content[1])
                return
            self.take_level()
            self.skip_item(content)
            self.give_level()
        elif what == BYTES:
            self.byte_string(head)
        elif what == TEXT:
            self.text_string(head)
        elif what in (ARRAY, MAP):
            sequence = self.enter(head)
            while self.next(sequence):
                self.skip()
                if what == MAP:
                    self.skip()


# --- The source over a tree ----------------------------------------------------------------------------------------


class TreeSource:
    """Reads from a value. What waits to be read is a stack: the next one on top, below it the value of a key or the
    data of a variant."""

    def __init__(self, value):
        self.waiting = [value]

    def offset(self):
        return None

    def refuse(self, kind, offset=None):
        return Refusal("custom " + kind)

    def bare_value(self):
        """The value behind any number of tags."""
        value = self.waiting.pop()
        while value[0] == "tag":
            value = value[2]
        return value

    def integer(self):
        value = self.waiting.pop()
        while value[0] == "tag" and value[1] not in BIGNUM_TAGS:
            value = value[2]
        if value[0] == "integer":
            return value[1]
        if value[0] != "tag":
            raise self.refuse("integer")
        _, tag, content = value
        if content[0] != "bytes":
            raise self.refuse("bytes")
        number = bignum_number(tag, content[1])
        if number is None:
            raise self.refuse("toolarge")
        return number

    def label(self):
        word = self.waiting[-1][0]
        if word == "integer" or word == "tag" and self.waiting[-1][1] in BIGNUM_TAGS:
            return self.integer()
        if word in ("bytes", "text", "tag"):
            return self.name()
        self.skip()
        return None

    def content_of(self, word):
        value = self.bare_value()
        if value[0] != word:
            raise self.refuse(word)
        return value[1]

    def boolean(self):
        return self.content_of("bool")

    def text(self):
        return self.content_of("text")

    def character(self):
        value = self.bare_value()
        if value[0] != "text" or len(value[1]) != 1:
            raise self.refuse("char")
        return value[1]

    def skip_null(self):
        if self.waiting[-1] != NULL_VALUE:
            return False
        self.waiting.pop()
        return True

    def unit(self):
        if self.bare_value() != NULL_VALUE:
            raise self.refuse("unit")

    def byte_buffer(self):
        value = self.bare_value()
        if value[0] == "bytes":
            return value[1]
        if value[0] != "array":
            raise self.refuse("bytes")
        content = bytearray()
        for item in value[1]:
            self.waiting.append(item)
            number = self.integer()
            if not 0 <= number <= 255:
                raise self.refuse("range")
            content.append(number)
        return bytes(content)

    def name(self):
        value = self.bare_value()
        if value[0] == "text":
            return value[1]
        if value[0] != "bytes":
            raise self.refuse("name")
        try:
            return value[1].decode("utf-8")
        except UnicodeDecodeError:
            raise self.refuse("name") from None

    def begin_tag(self):
        value = self.waiting[-1]
        if value[0] != "tag":
            return None
        self.waiting[-1] = value[2]
        return value[1]

    def end_tag(self):
        pass

    def begin_seq(self):
        """What a sequence has still to give, each entry in the order in which it is put on the stack."""
        value = self.bare_value()
        if value[0] == "array":
            return iter([(item,) for item in value[1]])
        if value[0] == "bytes":
            return iter([(("integer", byte),) for byte in value[1]])
        raise self.refuse("array")

    def begin_map(self):
        return iter([(content, key) for key, content in self.content_of("map")])

    def next(self, sequence):
        for entry in sequence:
            self.waiting.extend(entry)
            return True
        return False

    def begin_variant(self):
        value = self.bare_value()
        if value[0] == "text":
            self.waiting.append(NULL_VALUE)
            return value[1]
        if value[0] == "map" and len(value[1]) == 1:
            key, data = value[1][0]
            self.waiting.append(data)
            self.waiting.append(key)
            return self.name()
        raise self.refuse("variant")

    def end_variant(self):
        pass

    def value(self):
        return self.fold(self.waiting.pop())

    def skip(self):
        self.waiting.pop()

    def fold(self, value):
        """The value with its bignums folded, at every place."""
        word = value[0]
        if word == "array":
            return ("array", [self.fold(item) for item in value[1]])
        if word == "map":
            return ("map", [(self.fold(key), self.fold(content)) for key, content in value[1]])
        if word != "tag":
            return value
        _, tag, content = value
        if tag in BIGNUM_TAGS and content[0] == "bytes" and len(content[1]) <= LONGEST_FOLDING:
            folded = fold_bignum(tag, content[1])
            if folded is None:
                raise self.refuse("toolarge")
            return folded
        return ("tag", tag, self.fold(content))


# --- Typed reading, over either source -----------------------------------------------------------------------------
#
# A type is how one of its values is read and how it is written, and for a key of a map also what stands for it among
# others: keys with the same are one, and they are written in its order.


class Type:
    def __init__(self, read, write, rank=None):
        self.read = read
        self.write = write
        self.rank = rank if rank is not None else write


def encode_number(number):
    """A number of any type: beyond 64 bits a bignum without leading zeros (section 3.4.3)."""
    if -2**64 <= number < 2**64:
        return encode_integer(number)
    tag, magnitude = (POSITIVE_BIGNUM, number) if number >= 0 else (NEGATIVE_BIGNUM, -1 - number)
    return shortest_head(TAG, tag) + encode_bytes(magnitude.to_bytes((magnitude.bit_length() + 7) // 8, "big"))


def encode_array(parts):
    return shortest_head(ARRAY, len(parts)) + b"".join(parts)


def encode_map(pairs):
    return shortest_head(MAP, len(pairs)) + b"".join(key + content for key, content in pairs)


def number_type(least, bound):
    """The numbers from `least` on below `bound`."""

    def read(source):
        number = source.integer()
        if not least <= number < bound:
            raise source.refuse("range")
        return number

    return Type(read, encode_number, lambda number: number)


def unsigned(bits):
    return number_type(0, 1 << bits)


def signed(bits):
    return number_type(-1 << bits - 1, 1 << bits - 1)


def list_of(item):
    def read(source):
        sequence = source.begin_seq()
        items = []
        while source.next(sequence):
            items.append(item.read(source))
        return items

    return Type(read, lambda items: encode_array([item.write(each) for each in items]))


def tuple_of(*parts):
    """A tuple: too few items are refused, further ones read as values and dropped."""

    def read(source):
        sequence = source.begin_seq()
        values = []
        for part in parts:
            if not source.next(sequence):
                raise source.refuse("length")
            values.append(part.read(source))
        while source.next(sequence):
            source.value()
        return values

    return Type(read, lambda values: encode_array([part.write(each) for part, each in zip(parts, values)]))


def map_of(key_type, content_type, once=False):
    """A map, written in the order of its keys. Of two equal ones the later content is kept, or where each may occur but
    once, the later one is refused at its offset, before its content is read."""

    def read(source):
        sequence = source.begin_map()
        entries = {}
        while source.next(sequence):
            offset = source.offset()
            key = key_type.read(source)
            if once and key_type.write(key) in entries:
                raise source.refuse("duplicatekey", offset)
            entries[key_type.write(key)] = (key, content_type.read(source))
        return sorted(entries.values(), key=lambda entry: key_type.rank(entry[0]))

    def write(entries):
        return encode_map([(key_type.write(key), content_type.write(content)) for key, content in entries])

    return Type(read, write)


def option_of(content):
    """Null, which undefined is too, or the content."""

    def read(source):
        return None if source.skip_null() else (content.read(source),)

    return Type(read, lambda option: b"\xf6" if option is None else content.write(option[0]))


def encode_tag(tag):
    return b"\xf6" if tag is None else encode_integer(tag)


def captured_of(content):
    """The outermost tag and what is under it, shown as an array of the tag, or null, and that."""

    def read(source):
        tag = source.begin_tag()
        value = content.read(source)
        source.end_tag()
        return tag, value

    return Type(read, lambda captured: encode_array([encode_tag(captured[0]), content.write(captured[1])]))


def under_tag(wanted, content, accepts_none):
    """What stands under this tag; what the content refuses comes first."""
    captured = captured_of(content)

    def read(source):
        tag, value = captured.read(source)
        if tag != wanted and not (accepts_none and tag is None):
            raise source.refuse("tag")
        return value

    return Type(read, lambda value: shortest_head(TAG, wanted) + content.write(value))


def required(tag, content):
    return under_tag(tag, content, False)


def accepted(tag, content):
    return under_tag(tag, content, True)


def two_tags(content):
    """The outermost two tags and what is under them, each with a level, tag or none."""

    def read(source):
        outer = source.begin_tag()
        inner = source.begin_tag()
        value = content.read(source)
        source.end_tag()
        source.end_tag()
        return outer, inner, value

    return Type(read, lambda two: encode_array([encode_tag(two[0]), encode_tag(two[1]), content.write(two[2])]))


def enum_of(variants):
    """An enum by the names of its variants, each with the type of its data, or None where it has none."""

    def read(source):
        name = source.begin_variant()
        if name not in variants:
            raise source.refuse("variant")
        data = source.unit() if variants[name] is None else variants[name].read(source)
        source.end_variant()
        return name, data

    def write(variant):
        name, data = variant
        if variants[name] is None:
            return encode_text(name)
        return encode_map([(encode_text(name), variants[name].write(data))])

    return Type(read, write)


MISSING = object()
LEFT_OUT = object()


def struct_of(fields, once=False, closed=False):
    """A struct by the labels of its fields, each a name or a number, a type, and what counts where it is missing; one
    that is LEFT_OUT where it is missing is not written where there is nothing. Of a repeated label the last one counts;
    what stands under another key is passed over. Or a repeated label is refused, or another key, at its
    offset, before its content is read."""
    types = {name: field_type for name, field_type, _ in fields}

    def read(source):
        sequence = source.begin_map()
        found = {name: None if default is LEFT_OUT else default for name, _, default in fields}
        met = set()
        while source.next(sequence):
            offset = source.offset()
            name = source.label()
            if name in types:
                if once and name in met:
                    raise source.refuse("duplicatekey", offset)
                met.add(name)
                found[name] = types[name].read(source)
            elif closed:
                raise source.refuse("unknownfield", offset)
            else:
                source.skip()
        for name, _, _ in fields:
            if found[name] is MISSING:
                raise source.refuse("other")
        return found

    def write(found):
        return encode_map([
            (encode_text(name) if isinstance(name, str) else encode_integer(name), field_type.write(found[name]))
            for name, field_type, default in fields if default is not LEFT_OUT or found[name] is not None
        ])

    return Type(read, write)


def read_few(source):
    """At most five numbers; a sixth item is refused before it is read."""
    sequence = source.begin_seq()
    numbers = []
    while source.next(sequence):
        if len(numbers) == 5:
            raise source.refuse("length")
        numbers.append(U8.read(source))
    return numbers


def read_span(source):
    """Two numbers that do not fall."""
    span = PAIR.read(source)
    if span[0] > span[1]:
        raise source.refuse("range")
    return span


ORDER_OF_VALUES = ("integer", "bytes", "text", "bool", "null", "tag", "array", "map")


def value_rank(value):
    """What orders values: the variant, then the content."""
    word = value[0]
    if word == "array":
        content = [value_rank(item) for item in value[1]]
    elif word == "map":
        content = [(value_rank(key), value_rank(item)) for key, item in value[1]]
    elif word == "tag":
        content = (value[1], value_rank(value[2]))
    elif word == "text":
        content = value[1].encode()
    else:
        content = value[1:]
    return ORDER_OF_VALUES.index(word), content


def canonical_rank(encoding):
    """What orders encodings canonically: the length, then the bytes (section 4.2.3)."""
    return len(encoding), encoding


U8 = unsigned(8)
BOOL = Type(lambda source: source.boolean(), encode_bool)
UNIT = Type(lambda source: source.unit(), lambda unit: b"\xf6")
CHAR = Type(lambda source: source.character(), encode_text)
STRING = Type(lambda source: source.text(), encode_text, lambda text: text.encode())
BYTE_BUF = Type(lambda source: source.byte_buffer(), encode_bytes)
VALUE = Type(lambda source: source.value(), encode, value_rank)
CANONICAL_VALUE = Type(VALUE.read, encode, lambda value: canonical_rank(encode(value)))
PAIR = tuple_of(U8, U8)
FIGURE = enum_of({"Point": None, "Circle": U8})
LETTER = enum_of({"A": None, "B": U8})
MESSAGE = struct_of((("version", U8, MISSING), ("body", STRING, MISSING)))
ENDS = struct_of((("first", U8, MISSING), ("second", U8, MISSING)))
RECORD = struct_of((
    ("id", unsigned(32), MISSING), ("name", STRING, MISSING), ("seq", option_of(unsigned(64)), LEFT_OUT),
    ("tags", list_of(STRING), MISSING), ("on", BOOL, MISSING),
))
FORM = enum_of({"Unit": None, "Newtype": U8, "Tuple": PAIR, "Struct": ENDS})

# The types by their names.
TYPES = {
    "u8": U8,
    "u16": unsigned(16),
    "u32": unsigned(32),
    "u64": unsigned(64),
    "u128": unsigned(128),
    "usize": unsigned(64),
    "i8": signed(8),
    "i16": signed(16),
    "i32": signed(32),
    "i64": signed(64),
    "i128": signed(128),
    "isize": signed(64),
    "bool": BOOL,
    "()": UNIT,
    "char": CHAR,
    "String": STRING,
    "ByteBuf": BYTE_BUF,
    "Value": VALUE,
    "CanonicalValue": CANONICAL_VALUE,
    "Option<u8>": option_of(U8),
    "Option<()>": option_of(UNIT),
    "Option<Value>": option_of(VALUE),
    "Option<Option<u8>>": option_of(option_of(U8)),
    "Vec<u8>": list_of(U8),
    "Vec<u64>": list_of(unsigned(64)),
    "Vec<i128>": list_of(signed(128)),
    "Vec<String>": list_of(STRING),
    "Vec<(u8,u8)>": list_of(PAIR),
    "Vec<Value>": list_of(VALUE),
    "Vec<Option<bool>>": list_of(option_of(BOOL)),
    "Vec<Vec<u8>>": list_of(list_of(U8)),
    "Vec<ByteBuf>": list_of(BYTE_BUF),
    "BTreeMap<u8,Vec<Option<i16>>>": map_of(U8, list_of(option_of(signed(16)))),
    "BTreeMap<u8,u8>": map_of(U8, U8),
    "BTreeMap<i8,u8>": map_of(signed(8), U8),
    "BTreeMap<u64,String>": map_of(unsigned(64), STRING),
    "BTreeMap<String,String>": map_of(STRING, STRING),
    "BTreeMap<String,u8>": map_of(STRING, U8),
    "BTreeMap<Value,u8>": map_of(VALUE, U8),
    "UniqueKeys<u8,bool>": map_of(U8, BOOL, once=True),
    "UniqueKeys<String,u8>": map_of(STRING, U8, once=True),
    "BTreeMap<CanonicalValue,u8>": map_of(CANONICAL_VALUE, U8),
    "BTreeMap<CanonicalValue,Value>": map_of(CANONICAL_VALUE, VALUE),
    "(u8,)": tuple_of(U8),
    "(u8,u8)": PAIR,
    "(u8,u16)": tuple_of(U8, unsigned(16)),
    "(u8,String)": tuple_of(U8, STRING),
    "(u8,bool,char)": tuple_of(U8, BOOL, CHAR),
    "(u8,u8,u8,())": tuple_of(U8, U8, U8, UNIT),
    "(u8,bool,char,i64)": tuple_of(U8, BOOL, CHAR, signed(64)),
    "Captured<Value>": captured_of(VALUE),
    "Captured<bool>": captured_of(BOOL),
    "Captured<u8>": captured_of(U8),
    "Captured<ByteBuf>": captured_of(BYTE_BUF),
    "Captured<Vec<u8>>": captured_of(list_of(U8)),
    "Captured<Captured<bool>>": captured_of(captured_of(BOOL)),
    "Vec<Captured<bool>>": list_of(captured_of(BOOL)),
    "Required<bool,6>": required(6, BOOL),
    "Required<String,6>": required(6, STRING),
    "Accepted<bool,6>": accepted(6, BOOL),
    "Option<Required<u64,255>>": option_of(required(255, unsigned(64))),
    "Option<Accepted<u64,255>>": option_of(accepted(255, unsigned(64))),
    "Few": Type(read_few, list_of(U8).write),
    "Figure": FIGURE,
    "Letter": LETTER,
    "Vec<Letter>": list_of(LETTER),
    "Message": MESSAGE,
    "Vec<Message>": list_of(MESSAGE),
    "Foo": struct_of((("bar", U8, MISSING),)),
    "Reply": struct_of((("title", STRING, MISSING), ("number", U8, 200), ("text", option_of(STRING), None))),
    "Ends": ENDS,
    "Order": struct_of((("amount", U8, MISSING), ("note", option_of(STRING), None)), once=True, closed=True),
    "Header": struct_of((("version", U8, MISSING), ("kind", U8, MISSING)), once=True),
    "Record": RECORD,
    "Vec<Record>": list_of(RECORD),
    "KeyHeader": struct_of(
        ((1, signed(16), MISSING), (4, option_of(STRING), LEFT_OUT), (-1, option_of(RECORD), LEFT_OUT)),
        once=True, closed=True,
    ),
    "Form": FORM,
    "Span": Type(read_span, PAIR.write),
    "Sample": tuple_of(unsigned(64), signed(16), signed(16), signed(16), BOOL),
    "Moment": required(1, unsigned(64)),
    "Two<u8>": two_tags(U8),
    "Two<ByteBuf>": two_tags(BYTE_BUF),
    "Vec<Two<bool>>": list_of(two_tags(BOOL)),
}


# --- Answers -------------------------------------------------------------------------------------------------------


def answer_bytes(type_name, limit, data):
    a_type = TYPES[type_name]
    source = ByteSource(data, limit)
    try:
        value = a_type.read(source)
    except Refusal as refusal:
        return str(refusal)
    assert source.pushed is None and source.levels == limit
    return "ok %s %d" % (a_type.write(value).hex(), len(data) - source.position)


def read_tree(data):
    """The value at the front of the bytes, or None; and whether its item is the one that the bytes spell."""
    source = ByteSource(data, NO_LIMIT)
    try:
        return source.value(), source.plain
    except Refusal:
        return None, False


def answer_tree(type_name, tree):
    if tree is None:
        return "none"
    a_type = TYPES[type_name]
    source = TreeSource(tree)
    try:
        value = a_type.read(source)
    except Refusal as refusal:
        return str(refusal)
    assert not source.waiting
    return "ok " + a_type.write(value).hex()


def decode_pieces(text):
    """The bytes of pieces joined by commas, each hex digits or `COUNT*HEX` for so many times those bytes."""
    content = b""
    for piece in text.split(","):
        count, star, digits = piece.partition("*")
        content += int(count) * bytes.fromhex(digits) if star else bytes.fromhex(piece)
    return content


def split_line(line):
    type_name, limit, digits = line.split(" ")
    return type_name, int(limit), decode_pieces(digits)


def answer_line(line):
    type_name, limit, data = split_line(line)
    return "%s | %s" % (answer_bytes(type_name, limit, data), answer_tree(type_name, read_tree(data)[0]))


def same_outcome(from_bytes, from_tree):
    """Whether the answers of both sources are the same value, or refusals of the same kind."""
    words = from_bytes.split(" ")
    if words[0] == "ok":
        return from_tree == " ".join(words[:2])
    return words[0] == "semantic" and from_tree == "custom " + words[-1]


# --- The model checked ---------------------------------------------------------------------------------------------

# Lines and answers, worked out by hand; an answer that has no room behind its line stands below it. "Point" is
# 65506f696e74, "Circle" 66436972636c65, "version" 6776657273696f6e, "body" 64626f6479.
WORKED = """
# Byte strings as sequences, arrays as byte strings.
Vec<u8> 0 43010203 => ok 83010203 0 | ok 83010203
ByteBuf 1 83010203 => ok 43010203 0 | ok 43010203
ByteBuf 0 83010203 => nesting | ok 43010203
ByteBuf 256 8201190100 => semantic 2 range | custom range
ByteBuf 256 8201c1c2420100 => semantic 3 range | custom range
ByteBuf 256 8201c120 => semantic 3 range | custom range
ByteBuf 256 82016161 => semantic 2 integer | custom integer
ByteBuf 256 81c2c24101 => semantic 2 bytes | custom bytes
ByteBuf 256 81c2ff => semantic 2 break | none
ByteBuf 1 9f01c1ff => semantic 3 break | none
ByteBuf 1 9f01c24102ff05 => ok 420102 1 | ok 420102
ByteBuf 0 c24101 => ok 4101 0 | custom bytes
Vec<u8> 0 c35f4101420203ff => ok 83010203 0 | ok 83010203
Vec<u8> 0 5f4101420203ff => ok 83010203 0 | ok 83010203
Vec<u8> 1 9f0102ff => ok 820102 0 | ok 820102
Vec<u8> 0 9f0102ff => nesting | ok 820102
Vec<u8> 256 8101ff => ok 8101 1 | ok 8101
Vec<u8> 256 81190100 => semantic - range | custom range
Vec<u8> 256 4301 => io | none
Vec<u8> 256 6161 => semantic 0 array | custom array
Vec<u8> 256 c1ff => semantic 1 break | none
# Texts, and what is none.
String 0 7f657374726561646d696e67ff => ok 6973747265616d696e67 0 | ok 6973747265616d696e67
String 0 c161 => io | none
String 0 61c3 => syntax 0 | none
String 0 7f61c361bcff => syntax 1 | none
String 0 7f61614101ff => syntax 3 | none
String 0 7f62c328ff => syntax 1 | none
String 0 7f7f6161ffff => syntax 1 | none
String 0 4161 => semantic 0 text | custom text
String 0 f93c00 => semantic 0 text | none
String 0 7bffffffffffffffff => toolong | none
String 0 7bfffffffffffffff6 => io | none
String 0 c17bfffffffffffffff6 => toolong | none
String 0 ff => semantic 0 break | none
String 0  => io | none
# Booleans.
bool 0 f5 => ok f5 0 | ok f5
bool 0 c7c8f5 => ok f5 0 | ok f5
bool 0 c7c8f401 => ok f4 1 | ok f4
bool 0 c1 => io | none
bool 0 f814 => syntax 0 | none
bool 0 f820 => semantic 0 bool | none
bool 0 1e => syntax 0 | none
bool 0 01 => semantic 0 bool | custom bool
bool 0 f6 => semantic 0 bool | custom bool
bool 0 82 => semantic 0 bool | none
bool 0 5bffffffffffffffff => toolong | none
bool 0 df => syntax 0 | none
# Numbers.
u64 0 1b0000000000000001 => ok 01 0 | ok 01
u64 0 1bffffffffffffffff => ok 1bffffffffffffffff 0 | ok 1bffffffffffffffff
u64 0 20 => semantic - range | custom range
u64 0 c249010000000000000000 => semantic - range | custom range
u64 0 c2540000000000000000000000000000000000000001 => ok 01 0 | ok 01
u64 0 c2510100000000000000000000000000000000 => semantic 0 toolarge | custom toolarge
u64 0 c1c25101000000000000000000000000000000 => io | none
u64 0 c1c2510100000000000000000000000000000000 => semantic 1 toolarge | custom toolarge
u64 0 c25f5101000000000000000000000000000000004100ff => semantic 0 toolarge | custom toolarge
u64 0 c25f51010000000000000000000000000000000041 => io | none
u64 0 c25f500100000000000000000000000000000041004100ff => semantic 0 toolarge | custom toolarge
u64 0 c250ffffffffffffffffffffffffffffffff => semantic - range | custom range
u64 0 c350ffffffffffffffffffffffffffffffff => semantic - range | none
u64 0 c201 => semantic 1 bytes | custom bytes
u64 0 c2ff => semantic 1 break | none
u64 0 c2f93c00 => semantic 1 bytes | none
u64 0 c2c24101 => semantic 1 bytes | custom bytes
u64 0 c25f01ff => syntax 2 | none
u64 0 c1c24105 => ok 05 0 | ok 05
u64 0 c25f4101ff => ok 01 0 | ok 01
u64 0 c340 => semantic - range | custom range
u64 0 c240 => ok 00 0 | ok 00
u64 0 f6 => semantic 0 integer | custom integer
u64 0 c1f6 => semantic 1 integer | custom integer
u64 0 4101 => semantic 0 integer | custom integer
# Tuples.
(u8,String) 256 8101 => semantic - length | custom length
(u8,String) 256 80 => semantic - length | custom length
(u8,String) 256 81f6 => semantic 1 integer | custom integer
(u8,String) 256 84016161f93c0002 => semantic 4 float | none
(u8,String) 256 8301616120ff => ok 82016161 1 | ok 82016161
(u8,String) 256 9f016161ff => ok 82016161 0 | ok 82016161
(u8,String) 256 9f016161 => io | none
(u8,String) 256 9f01ff => semantic - length | custom length
(u8,String) 256 9f01 => io | none
(u8,String) 256 82016161820304 => ok 82016161 3 | ok 82016161
(u8,String) 2 830161618180 => nesting | ok 82016161
(u8,String) 3 830161618180 => ok 82016161 0 | ok 82016161
(u8,String) 0 43010203 => semantic 0 text | custom text
(u8,String) 0 c14101 => semantic - length | custom length
(u8,String) 0 40 => semantic - length | custom length
(u8,String) 256 82190100f6 => semantic - range | custom range
(u8,String) 256 8301616181c35f50ffffffffffffffffffffffffffffffffff => ok 82016161 0 | custom toolarge
# Maps.
BTreeMap<String,u8> 1 bf616201616102616203ff => ok a2616102616203 0 | ok a2616102616203
BTreeMap<String,u8> 256 a16161ff => semantic 3 break | none
BTreeMap<String,u8> 256 bf6161ff => semantic 3 break | none
BTreeMap<String,u8> 256 a1ff => semantic 1 break | none
BTreeMap<String,u8> 256 a1416101 => semantic 1 text | custom text
BTreeMap<String,u8> 256 a2616201 => io | none
BTreeMap<String,u8> 0 a0 => nesting | ok a0
BTreeMap<String,u8> 0 80 => semantic 0 map | custom map
BTreeMap<String,u8> 1 bb80000000000000006161016161 => io | none
# Variants.
Figure 256 65506f696e74 => ok 65506f696e74 0 | ok 65506f696e74
Figure 256 a165506f696e74f6 => ok 65506f696e74 0 | ok 65506f696e74
Figure 256 a145506f696e74f6 => ok 65506f696e74 0 | ok 65506f696e74
Figure 256 a166436972636c6507 => ok a166436972636c6507 0 | ok a166436972636c6507
Figure 256 66436972636c65 => semantic 0 integer | custom integer
Figure 256 c1c266436972636c65 => semantic 2 integer | custom integer
Figure 256 bf65506f696e74f6ff => semantic 0 variant | ok 65506f696e74
Figure 0 65506f696e74 => nesting | ok 65506f696e74
Figure 1 65506f696e74f6 => ok 65506f696e74 1 | ok 65506f696e74
Figure 0 61c3 => nesting | none
Figure 0 61 => nesting | none
Figure 0 a0 => semantic 0 variant | custom variant
Figure 1 a265506f696e74f60102 => semantic 0 variant | custom variant
Figure 256 615a => semantic - variant | custom variant
Figure 256 a1615af93c00 => semantic - variant | none
Figure 256 c565506f696e74 => ok 65506f696e74 0 | ok 65506f696e74
Figure 256 a166436972636c65c505 => ok a166436972636c6505 0 | ok a166436972636c6505
Figure 256 a166436972636c65190100 => semantic - range | custom range
Figure 256 a101f6 => semantic 1 name | custom name
Figure 256 a141fff6 => semantic 1 name | custom name
Figure 256 a161fff6 => syntax 1 | none
Figure 256 a1fff6 => semantic 1 break | none
Figure 256 a165506f696e74f5 => semantic 7 unit | custom unit
Figure 256 a165506f696e74c180 => semantic 8 unit | custom unit
Figure 256 7f62506f63696e74ff => ok 65506f696e74 0 | ok 65506f696e74
Figure 256 a15f42506f43696e74fff7 => ok 65506f696e74 0 | ok 65506f696e74
Figure 256 45506f696e74 => semantic 0 variant | custom variant
# A struct by names.
Message 1 a26776657273696f6e0164626f64796161
=> ok a26776657273696f6e0164626f64796161 0 | ok a26776657273696f6e0164626f64796161
Message 1 a244626f647961614776657273696f6e182a
=> ok a26776657273696f6e182a64626f64796161 0 | ok a26776657273696f6e182a64626f64796161
Message 256 a0 => semantic - other | custom other
Message 256 a16776657273696f6e01 => semantic - other | custom other
Message 256 a164626f64796161 => semantic - other | custom other
Message 256 a101f6 => semantic - other | custom other
Message 256 a16178f93c00 => semantic - other | none
Message 256 a36776657273696f6e0164626f647961616178f93c00 => ok a26776657273696f6e0164626f64796161 0 | none
Message 256 a36776657273696f6e0164626f647961616178f7
=> ok a26776657273696f6e0164626f64796161 0 | ok a26776657273696f6e0164626f64796161
Message 256 a36776657273696f6e0164626f647961616178f0 => ok a26776657273696f6e0164626f64796161 0 | none
Message 256 a36776657273696f6e0164626f64796161617882f94000fb400921fb54442d1800
=> ok a26776657273696f6e0164626f64796161 1 | none
Message 256 a36776657273696f6e0164626f64796161f93c0001 => ok a26776657273696f6e0164626f64796161 0 | none
Message 256 a36776657273696f6e0164626f64796161617862c328 => syntax 19 | none
Message 256 a36776657273696f6e0164626f6479616161787f61c361bcff => syntax 20 | none
Message 256 a36776657273696f6e0164626f647961616178ff => semantic 19 break | none
Message 256 a36776657273696f6e0164626f647961616178bf01ff => semantic 21 break | none
Message 256 a36776657273696f6e0164626f6479616161785f6101ff => syntax 20 | none
Message 256 a36776657273696f6e0164626f647961616178c350ffffffffffffffffffffffffffffffff
=> ok a26776657273696f6e0164626f64796161 0 | none
Message 2 a36776657273696f6e0164626f6479616161788180 => nesting | ok a26776657273696f6e0164626f64796161
Message 3 a36776657273696f6e0164626f6479616161788180
=> ok a26776657273696f6e0164626f64796161 0 | ok a26776657273696f6e0164626f64796161
Message 1 a36776657273696f6e0164626f647961616178c16161 => nesting | ok a26776657273696f6e0164626f64796161
Message 1 a36776657273696f6e0164626f647961616178c24101
=> ok a26776657273696f6e0164626f64796161 0 | ok a26776657273696f6e0164626f64796161
Message 1 a36776657273696f6e0164626f647961616178c2510100000000000000000000000000000000
=> nesting | ok a26776657273696f6e0164626f64796161
Message 1 a36776657273696f6e0164626f647961616178c2 => io | none
Message 1 a36776657273696f6e0164626f6479616161785f4101ff
=> ok a26776657273696f6e0164626f64796161 0 | ok a26776657273696f6e0164626f64796161
Message 256 a36776657273696f6e0164626f647961616178f9 => io | none
Message 256 a36776657273696f6e0164626f6479616161789f => io | none
Message 256 a36776657273696f6e0164626f6479616161781c => syntax 19 | none
Message 256 a36776657273696f6e0164626f6479616161787846,63*61,c3bc,5*61
=> ok a26776657273696f6e0164626f64796161 0 | ok a26776657273696f6e0164626f64796161
Message 256 a36776657273696f6e0164626f6479616161787846,62*61,e282ac,5*61
=> ok a26776657273696f6e0164626f64796161 0 | ok a26776657273696f6e0164626f64796161
Message 256 a36776657273696f6e0164626f6479616161787840,63*61,c3 => syntax 19 | none
Message 256 a36776657273696f6e0164626f6479616161787846,64*61,ff,5*61 => syntax 19 | none
Message 256 a36776657273696f6e0164626f6479616161787846,ff,3*61 => io | none
Message 256 a36776657273696f6e0164626f6479616161787846,63*61,c328,5*61 => syntax 19 | none
Message 256 a36776657273696f6e0164626f6479616161785846,70*ff
=> ok a26776657273696f6e0164626f64796161 0 | ok a26776657273696f6e0164626f64796161
Message 256 a36776657273696f6e0164626f64796161617858ff,250*00,ff => io | none
Message 1 a1617880 => nesting | custom other
Message 2 a1617880 => semantic - other | custom other
Message 256 a16776657273696f6e20 => semantic - range | custom range
Message 256 bf64626f6479ff => semantic 6 break | none
Message 256 a364626f647961616776657273696f6e0164626f64796162
=> ok a26776657273696f6e0164626f64796162 0 | ok a26776657273696f6e0164626f64796162
Message 0 80 => semantic 0 map | custom map
# A value below its tag.
Captured<Value> 0 f5 => nesting | ok 82f6f5
Captured<Value> 1 f5 => ok 82f6f5 0 | ok 82f6f5
Captured<Value> 2 c1c2f5 => ok 8201c2f5 0 | ok 8201c2f5
Captured<Value> 1 c1c2f5 => nesting | ok 8201c2f5
Captured<Value> 1 c24101 => ok 82024101 0 | ok 82f601
Captured<Value> 2 81c24101 => ok 82f68101 0 | ok 82f68101
Captured<Value> 1 c1c24101 => ok 820101 0 | ok 820101
Captured<Value> 1 c1c340 => ok 820120 0 | ok 820120
Captured<Value> 1 c1c1 => io | none
Captured<Value> 0 c1 => nesting | none
Captured<Value> 1 c1c11e => syntax 2 | none
Captured<Value> 1 c1c1ff => nesting | none
Captured<Value> 2 c1c1ff => semantic 2 break | none
Captured<Value> 1 c1c15bffffffffffffffff => toolong | none
Captured<Value> 256 9f018202039f0405ffff => ok 82f68301820203820405 0 | ok 82f68301820203820405
Captured<Value> 256 bf61610161629f0203ffff => ok 82f6a26161016162820203 0 | ok 82f6a26161016162820203
Captured<Value> 256 bf01020103ff => ok 82f6a201020103 0 | ok 82f6a201020103
Captured<Value> 256 bf01ff => semantic 2 break | none
Captured<Value> 256 83011f03 => syntax 2 | none
Captured<Value> 256 f820 => semantic 0 simple | none
Captured<Value> 256 f93c00 => semantic 0 float | none
Captured<Value> 256 f7 => ok 82f6f6 0 | ok 82f6f6
Captured<Value> 256 8201 => io | none
Captured<Value> 256 81ff => semantic 1 break | none
Captured<Value> 256 81c35080000000000000000000000000000000 => semantic 1 toolarge | none
Captured<Value> 1 c35080000000000000000000000000000000 => ok 82035080000000000000000000000000000000 0 | none
Captured<Value> 1 c1c24a00010000000000000000 => ok 8201c249010000000000000000 0 | ok 8201c249010000000000000000
Captured<Value> 1 81c25100 => nesting | none
Captured<Value> 256 81c25f4101ff => ok 82f681c24101 0 | ok 82f68101
Captured<Value> 256 81c35f50ffffffffffffffffffffffffffffffffff
=> ok 82f681c350ffffffffffffffffffffffffffffffff 0 | custom toolarge
Captured<Value> 256 5f5f4101ffff => syntax 1 | none
Captured<Value> 256 5ff7ff => syntax 1 | none
Captured<Value> 256 5f5bffffffffffffffff => toolong | none
Captured<Value> 256 9b800000000000000001 => io | none
"""


def worked_rows():
    """The worked lines, each with its answer."""
    rows = WORKED.replace("\n=>", " =>").splitlines()
    return [row.split(" => ") for row in rows if row and not row.startswith("#")]


def check_worked():
    """The count of worked lines, and what is wrong."""
    wrong = []
    rows = worked_rows()
    for line, expected in rows:
        answer = answer_line(line)
        if answer != expected:
            wrong.append("%s\n  model:  %s\n  worked: %s" % (line, answer, expected))
    return len(rows), wrong


def check_sources(lines):
    """Both sources agree on the item of a value: reading from a tree answers what reading from its encoding does."""
    wrong = []
    count = 0
    for line in lines:
        type_name, _, data = split_line(line)
        tree, plain = read_tree(data)
        if tree is None:
            continue
        count += 1
        encoding = encode(tree)
        from_bytes = answer_bytes(type_name, NO_LIMIT, encoding)
        if not same_outcome(from_bytes, answer_tree(type_name, tree)):
            wrong.append("%s: the tree and %s differ" % (line, encoding.hex()))
        folded = TreeSource(tree)
        try:
            expected = folded.value()
        except Refusal:
            expected = None
        if read_tree(encoding)[0] != expected:
            wrong.append("%s: the folding of the tree and %s differ" % (line, encoding.hex()))
        if plain and not same_outcome(answer_bytes(type_name, NO_LIMIT, data), answer_tree(type_name, tree)):
            wrong.append("%s: the bytes and their tree differ" % line)
    return count, wrong


def check():
    import typed_lines

    worked, wrong = check_worked()
    trees, more = check_sources(typed_lines.make_lines(1, 5000))
    wrong += more
    for text in wrong[:20]:
        print(text)
    print("%d worked lines, %d trees against their encodings: %d wrong" % (worked, trees, len(wrong)))
    return 1 if wrong else 0


def main(words):
    if not words:
        return check()
    if words == ["answer"]:
        for line in sys.stdin:
            print(answer_line(line.rstrip("\n")))
        return 0
    if words == ["worked"]:
        for line, _ in worked_rows():
            print(line)
        return 0
    print("usage: typed_model.py [answer | worked]", file=sys.stderr)
    return 2


if __name__ == "__main__":
    sys.exit(main(sys.argv[1:]))
