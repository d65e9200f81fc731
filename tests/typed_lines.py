#!/usr/bin/env python3
"""Makes hostile lines `TYPE LIMIT HEX` for typed reading (RFC 8949).

    python3 typed_lines.py SEED COUNT

prints COUNT lines, the same ones for the same SEED: random heads, items that fit their type in all spellings, such
items damaged, any item read as any type, corners that chance seldom meets, and deep nesting around the limit.
"""

import random
import sys

sys.dont_write_bytecode = True

BYTES, TEXT, ARRAY, MAP, TAG = 2, 3, 4, 5, 6
OPEN = 31
END = b"\xff"

TYPE_NAMES = (
    "bool",
    "u64",
    "String",
    "ByteBuf",
    "Vec<u8>",
    "(u8,String)",
    "BTreeMap<String,u8>",
    "Figure",
    "Message",
    "Order",
    "KeyHeader",
    "UniqueKeys<String,u8>",
    "Captured<Value>",
)

SMALL_NUMBERS = (0, 1, 2, 7, 22, 23, 24, 25, 100, 254, 255)
EDGES = (0, 1, 23, 24, 255, 256, 65535, 65536, 2**32 - 1, 2**32, 2**63, 2**64 - 1)
BEYOND_U64 = (2**64, 2**64 + 1, 2**127 - 1, 2**127, 2**128 - 1, 2**128, 2**136)
TAGS = (0, 1, 1, 1, 2, 2, 3, 3, 4, 5, 6, 7, 21, 24, 32, 255, 256, 55799, 2**32, 2**64 - 1)
WORDS = (
    "", "a", "b", "aa", "z", "Z", "version", "body", "Point", "Circle", "\u00fc", "\u6c34", "\U00010151", "streaming",
    "versions", "circle", "aaaaaaaaaaaaaaaaaaaaaaaa", "\0", "\u00e9\u00e8", "ab\u00fc\u6c34",
)
NOT_UTF8 = (b"\xff", b"\xc3", b"\xc3\x28", b"\xed\xa0\x80", b"\xc0\x80", b"a\xe6\xb0", b"\xf4\x90\x80\x80", b"\x80")
MANY = (8, 9, 23, 24, 25, 255, 256, 257, 300)
SIMPLE = (b"\xf4", b"\xf5", b"\xf6", b"\xf7")
NO_MEANING = (
    b"\xf9\x3c\x00", b"\xfa\x3f\x80\x00\x00", b"\xfb\x3f\xf0\x00\x00\x00\x00\x00\x00", b"\xe0", b"\xf3", b"\xf8\x20",
    b"\xf8\xff", b"\xc3\x50\x80" + bytes(15), b"\xc3\x50" + b"\xff" * 16,
)
FAULTY = (
    b"\xff", b"\x1c", b"\x1f", b"\x3f", b"\x5d", b"\xdf", b"\xfc", b"\xf8\x14", b"\xf8\x1f", b"\x5b" + b"\xff" * 8,
    b"\x7b" + b"\xff" * 8, b"\x5b" + b"\xff" * 7 + b"\xf6", b"\x7b" + b"\xff" * 7 + b"\xf5", b"\x9b\x80" + bytes(7),
    b"\xbb" + b"\xff" * 8, b"\x5f\x5f\xff\xff", b"\x7f\x41a\xff", b"\x5f\xf6\xff", b"\x7f\x62\xc3\x28\xff", b"\x61",
    b"\x18", b"\xc1", b"\xc2", b"\xf9\x00", b"\x82", b"\xa1\x01",
)


def spellings(words):
    """Byte lists, each written in hex; `-` is the empty one."""
    return tuple(b"" if word == "-" else bytes.fromhex(word) for word in words.split())


BEHIND_TAGS = spellings("- ff 1e 18 01 80 61 f814 f820 f93c00 4105 41 5f4105ff f5 5bffffffffffffffff") + (
    b"\x51" + bytes(17), b"\x50" + b"\xff" * 16,
)
# "Point" is 65506f696e74, "Circle" 66436972636c65.
VARIANT_NAMES = spellings("65506f696e74 45506f696e74 66436972636c65 7f65506f696e74ff 61c3 41ff 61 01 ff")
VARIANT_DATA = spellings("f6 f7 05 f665506f696e74f6 0566436972636c6505 - ff f6ff")


def head_of_width(major, number, width):
    """The head with `width` bytes behind the first (section 3); 0 is the number in the first byte itself."""
    if width == 0:
        return bytes([major << 5 | number])
    information = {1: 24, 2: 25, 4: 26, 8: 27}[width]
    return bytes([major << 5 | information]) + number.to_bytes(width, "big")


class Maker:
    """Makes spellings from one stream of chances."""

    def __init__(self, seed):
        self.random = random.Random(seed)
        # How often a spelling leaves the shortest definite one; drawn anew for each line.
        self.oddness = 0.3
        # How often a container has many parts; drawn anew for each line.
        self.length = 0

    def chance(self, part):
        return self.random.random() < part

    def odd(self):
        return self.random.random() < self.oddness

    def pick(self, choices):
        return choices[int(self.random.random() * len(choices))]

    def below(self, bound):
        return int(self.random.random() * bound)

    def many(self):
        """A number of parts of a long container."""
        return self.pick(MANY) if self.chance(0.6) else 8 + self.below(293)

    def parts(self, make, counts):
        """The parts of a container: one of these numbers of them, or seldom many. Those are drawn from a few, at times
        with one more among them, and no container inside them is long."""
        if not self.chance(self.length):
            return [make() for _ in range(self.pick(counts))]
        length, self.length = self.length, 0
        drawn = [make() for _ in range(self.pick((1, 2, 3, 5)))]
        parts = [self.pick(drawn) for _ in range(self.many())]
        if self.chance(0.4):
            parts[self.below(len(parts))] = make()
        self.length = length
        return parts

    # Heads and scalars

    def head(self, major, number):
        widths = [8]
        for width, bound in ((4, 2**32), (2, 2**16), (1, 2**8), (0, 24)):
            if number < bound:
                widths.append(width)
        return head_of_width(major, number, self.pick(widths) if self.odd() else widths[-1])

    def open_head(self, major):
        return bytes([major << 5 | OPEN])

    def tags(self):
        """Leading tags (section 3.4), mostly none."""
        spelling = b""
        if self.odd():
            for _ in range(self.pick((1, 1, 1, 2, 3))):
                spelling += self.head(TAG, self.pick(TAGS))
        return spelling

    def plain_tags(self):
        """Leading tags, but no bignum's."""
        spelling = b""
        if self.odd():
            for _ in range(self.pick((1, 1, 2))):
                spelling += self.head(TAG, self.pick((0, 1, 4, 5, 6, 32, 2**64 - 1)))
        return spelling

    def cut_bytes(self, content):
        """The parts of an open byte string."""
        parts = []
        while content and self.chance(0.6):
            place = self.below(len(content) + 1)
            parts.append(content[:place])
            content = content[place:]
        if content or self.chance(0.3):
            parts.append(content)
        return parts

    def string(self, major, parts):
        """A string of the parts, definite or open (section 3.2.3)."""
        if len(parts) == 1 and not self.odd():
            return self.head(major, len(parts[0])) + parts[0]
        body = b"".join(self.head(major, len(part)) + part for part in parts)
        return self.open_head(major) + body + END

    def byte_string(self, content):
        if self.odd():
            return self.string(BYTES, self.cut_bytes(content))
        return self.head(BYTES, len(content)) + content

    def text(self, word):
        if not self.odd():
            content = word.encode()
            return self.head(TEXT, len(content)) + content
        if self.chance(0.1):
            return self.string(TEXT, self.cut_bytes(word.encode()))
        place = self.below(len(word) + 1)
        parts = [part.encode() for part in (word[:place], word[place:]) if part or self.chance(0.3)]
        return self.string(TEXT, parts)

    def bignum(self, number):
        """Tag 2 or 3 over the bytes of a number (section 3.4.3), at times with leading zeros."""
        tag, number = (2, number) if number >= 0 else (3, -1 - number)
        content = number.to_bytes((number.bit_length() + 7) // 8, "big")
        if self.odd():
            content = bytes(self.pick((1, 2, 8, 15, 16, 17, max(0, 16 - len(content))))) + content
        return self.head(TAG, tag) + self.byte_string(content)

    def integer(self, number):
        if -2**64 <= number < 2**64 and not (self.odd() and self.chance(0.5)):
            return self.head(0, number) if number >= 0 else self.head(1, -1 - number)
        return self.bignum(number)

    def tagged_integer(self, number):
        return self.plain_tags() + self.integer(number)

    def small(self):
        """A number that fits u8, mostly."""
        if self.chance(0.93):
            return self.tagged_integer(self.pick(SMALL_NUMBERS))
        if self.chance(0.7):
            return self.tagged_integer(self.pick((256, -1, -24, 65536, 2**64, -2**64, 2**128)))
        return self.stray()

    def great(self):
        """A number around the bounds of u64."""
        number = self.pick(EDGES) if self.chance(0.7) else self.pick(BEYOND_U64)
        if self.chance(0.25):
            number = -1 - number
        return self.tagged_integer(number)

    def word(self):
        if self.chance(0.95):
            return self.tags() + self.text(self.pick(WORDS))
        if self.chance(0.7):
            content = self.pick(NOT_UTF8)
            return self.tags() + self.string(TEXT, [content])
        return self.stray()

    def name(self, word):
        """A name: a text, or a byte string that is UTF-8."""
        if self.chance(0.03):
            return self.stray()
        if self.chance(0.03):
            return self.byte_string(self.pick(NOT_UTF8))
        if self.odd():
            return self.tags() + self.byte_string(word.encode())
        return self.tags() + self.text(word)

    # Containers and any item

    def container(self, major, count, body):
        """An array or map of `count` items or pairs (section 3.2.2)."""
        if self.odd():
            return self.open_head(major) + body + END
        if self.chance(0.01):
            count = max(0, count + self.pick((-1, 1)))
        return self.head(major, count) + body

    def array(self, items):
        return self.container(ARRAY, len(items), b"".join(items))

    def map(self, pairs):
        return self.container(MAP, len(pairs), b"".join(key + content for key, content in pairs))

    def scalar(self):
        form = self.below(8)
        if form < 3:
            return self.integer(self.pick(SMALL_NUMBERS + EDGES + (-1, -24, -256)))
        if form == 3:
            return self.bignum(self.pick(SMALL_NUMBERS + BEYOND_U64 + (-1, -2**64, -2**64 - 1, -2**127, -2**127 - 1)))
        if form == 4:
            return self.byte_string(self.pick((b"", b"\0", b"\1\2\3", b"Point", b"\xff", bytes(16), b"\1" + bytes(16))))
        if form == 5:
            return self.text(self.pick(WORDS))
        return self.pick(SIMPLE)

    def item(self, depth):
        """Any well-formed item, at times one without a meaning."""
        if self.chance(0.02):
            return self.pick(NO_MEANING)
        if depth == 0 or self.chance(0.3):
            return self.scalar()
        form = self.below(4)
        if form == 0:
            return self.head(TAG, self.pick(TAGS)) + self.item(depth - 1)
        if form == 1:
            return self.map(self.parts(lambda: (self.item(depth - 1), self.item(depth - 1)), (0, 1, 2)))
        return self.array(self.parts(lambda: self.item(depth - 1), (0, 1, 2, 3)))

    def stray(self):
        """What does not fit: any small item, or something that no item begins with."""
        if self.chance(0.25):
            return self.pick(FAULTY)
        return self.item(self.below(3))

    # Items that fit a type

    def bool_item(self):
        return self.tags() + self.pick(SIMPLE[:2])

    def bytes_item(self):
        content = bytes(self.pick((0, 1, 23, 24, 255)) for _ in range(self.pick((0, 1, 2, 3, 3, 5, 25))))
        return self.tags() + self.byte_string(content)

    def numbers_item(self):
        return self.tags() + self.array(self.parts(self.small, (0, 1, 2, 3, 3, 4)))

    def byte_buffer_item(self):
        return self.bytes_item() if self.chance(0.5) else self.numbers_item()

    def list_item(self):
        return self.bytes_item() if self.chance(0.3) else self.numbers_item()

    def pair_item(self):
        if self.chance(0.04):
            return self.bytes_item()
        parts = [self.small(), self.word()]
        if self.chance(0.08):
            parts = parts[:self.below(2)]
        elif self.chance(0.35):
            parts += self.parts(lambda: self.item(self.below(3)), (1, 1, 2, 3))
        return self.tags() + self.array(parts)

    def dictionary_item(self):
        return self.tags() + self.map(self.parts(self.entry, (0, 1, 2, 2, 3, 4)))

    def entry(self):
        if self.chance(0.05):
            key = self.name(self.pick(WORDS))
        else:
            key = self.tags() + self.text(self.pick(WORDS[:8]))
        return key, self.small()

    def figure_item(self):
        variant = self.pick(("Point", "Point", "Circle", "Circle", "Circle", "Square", ""))
        if self.chance(0.3):
            return self.tags() + self.text(variant)
        if variant == "Point":
            data = self.tags() + self.pick(SIMPLE[2:]) if self.chance(0.6) else self.stray()
        elif variant == "Circle":
            data = self.small()
        else:
            data = self.stray()
        pairs = [(self.name(variant), data)]
        if self.chance(0.05):
            pairs = pairs * self.pick((0, 2))
        if self.chance(0.05):
            return self.tags() + self.map(pairs)
        return self.tags() + self.head(MAP, len(pairs)) + b"".join(key + content for key, content in pairs)

    def message_item(self):
        fields = ["version", "body"]
        if self.chance(0.15):
            fields.pop(self.below(2))
        pairs = [self.field(name) for name in fields]
        pairs += self.parts(self.other_field, (0, 0, 0, 1, 1, 2))
        self.random.shuffle(pairs)
        return self.tags() + self.map(pairs)

    def order_item(self):
        pairs = [self.order_field(name) for name in ("amount", "note")]
        pairs += [self.order_field(self.pick(("amount", "note", "x"))) for _ in range(self.pick((0, 0, 1)))]
        self.random.shuffle(pairs)
        return self.tags() + self.map(pairs)

    def header_item(self):
        """A map by the numbers 1, 4 and -1, or seldom by others, names, or what is neither."""
        pairs = [self.header_field(label) for label in (1, 4, -1) if label == 1 or self.chance(0.5)]
        pairs += [self.header_field(self.pick((1, 4, -1, 0, 2, -2, 257, "1", None))) for _ in range(self.pick((0, 0, 1)))]
        self.random.shuffle(pairs)
        return self.tags() + self.map(pairs)

    def header_field(self, label):
        if label is None:
            key = self.pick(SIMPLE + FAULTY + (b"\x80", b"\xa0"))
        elif isinstance(label, str):
            key = self.name(label)
        else:
            key = self.integer(label)
        if label == 4:
            content = self.pick(SIMPLE[2:]) if self.chance(0.3) else self.word()
        elif label == -1:
            content = self.pick(SIMPLE[2:]) if self.chance(0.3) else self.record_item()
        else:
            content = self.small()
        return self.plain_tags() + key, content

    def record_item(self):
        pairs = [self.record_field(name) for name in ("id", "name", "seq", "tags", "on") if self.chance(0.95)]
        pairs += [self.record_field(self.pick(("id", "seq", "x"))) for _ in range(self.pick((0, 0, 0, 1)))]
        self.random.shuffle(pairs)
        return self.tags() + self.map(pairs)

    def record_field(self, name):
        if name == "name":
            content = self.word()
        elif name == "tags":
            content = self.array([self.word() for _ in range(self.pick((0, 1, 2)))])
        elif name == "on":
            content = self.pick(SIMPLE[:2])
        else:
            content = self.small()
        return self.tags() + self.name(name), content

    def order_field(self, name):
        content = self.small() if name == "amount" else self.pick(SIMPLE[2:]) if self.chance(0.3) else self.word()
        return self.tags() + self.name(name), content

    def other_field(self):
        return self.field(self.pick(("version", "body", "x", "", "bodies", "\u00fc", "x", "x")))

    def field(self, name):
        if name == "version":
            content = self.small()
        elif name == "body":
            content = self.word()
        else:
            content = self.stray() if self.chance(0.2) else self.item(self.below(3))
        return self.name(name), content

    def captured_item(self):
        return self.tags() + self.item(self.pick((0, 1, 2, 3, 4)))

    def fitting(self, type_name):
        makers = {
            "bool": self.bool_item,
            "u64": self.great,
            "String": self.word,
            "ByteBuf": self.byte_buffer_item,
            "Vec<u8>": self.list_item,
            "(u8,String)": self.pair_item,
            "BTreeMap<String,u8>": self.dictionary_item,
            "Figure": self.figure_item,
            "Message": self.message_item,
            "Order": self.order_item,
            "KeyHeader": self.header_item,
            "UniqueKeys<String,u8>": self.dictionary_item,
            "Captured<Value>": self.captured_item,
        }
        return makers[type_name]()

    # Hostile bytes

    def noise(self):
        """Random bytes, mostly heads that matter."""
        wanted = self.below(13)
        spelling = b""
        while len(spelling) < wanted:
            form = self.below(10)
            if form == 0:
                spelling += bytes([self.below(256)])
            elif form == 1:
                spelling += self.pick(FAULTY)
            elif form == 2:
                spelling += self.pick(SIMPLE + NO_MEANING[:7])
            elif form == 3:
                spelling += self.pick((b"\xc1", b"\xc2", b"\xc3", b"\xff", b"\xc1\xc2", b"\x5f", b"\x7f"))
            elif form == 4:
                spelling += bytes([self.below(8) << 5 | self.pick((24, 25, 26, 27, 28, 29, 30, 31))])
            elif form == 5:
                spelling += self.open_head(self.pick((2, 3, 4, 5)))
            else:
                number = self.pick((0, 1, 1, 2, 3, 3, 5))
                spelling += self.head(self.below(7), number)
                if self.chance(0.5):
                    spelling += bytes(self.pick((0x41, 0x61, 1, 0)) for _ in range(number))
        return spelling[:wanted]

    def damaged(self, spelling):
        """A byte changed, removed or put in, the end cut off, or a part said twice."""
        for _ in range(self.pick((1, 1, 1, 2, 3))):
            place = self.below(len(spelling) + 1)
            before, behind = spelling[:place], spelling[place:]
            form = self.below(8)
            if form < 2:
                spelling = before + bytes([self.below(256)]) + behind[1:]
            elif form == 2 and behind:
                spelling = before + bytes([behind[0] ^ 1 << self.below(8)]) + behind[1:]
            elif form == 3:
                spelling = before + behind[1:]
            elif form == 4:
                spelling = before + self.pick((b"\xff", b"\xc1", b"\xc2", b"\xf6", b"\x1e")) + behind
            elif form == 5:
                spelling = before + self.pick(FAULTY + NO_MEANING)
            elif form == 6:
                spelling = before
            else:
                spelling = before + behind[:self.below(5)] + behind
        return spelling

    def deep(self):
        """Nested containers and tags: the type, the levels and the bytes. The limit is around the levels."""
        depth = self.pick((2, 3, 5, 10, 30, 60)) + self.below(5)
        if self.chance(0.03):
            depth = 253 + self.below(5)
        layers = (
            (b"\x81", b""), (b"\x81", b""), (b"\x9f", b"\xff"), (b"\xa1\x00", b""), (b"\xc1", b""), (b"\xc2", b""),
            (b"\xbf\x00", b"\xff"), (b"\x82\xf6", b""), (b"\xa1", b"\x00"),
        )
        front = b""
        back = b""
        for _ in range(depth):
            before, behind = self.pick(layers)
            front += before
            back = behind + back
        cores = (b"\x01", b"\x80", b"\xa0", b"\xc2\x41\x05", b"\xc1\x05", b"\x61a", b"\xf4", b"\xff", b"\x1e", b"")
        spelling = front + self.pick(cores) + back
        type_name = self.pick(("Captured<Value>", "Captured<Value>", "(u8,String)", "Message", "u64", "ByteBuf"))
        if type_name == "(u8,String)":
            spelling = b"\x83\x01\x61a" + spelling
        elif type_name == "Message":
            spelling = b"\xa3\x67version\x01\x64body\x61a\x61x" + spelling
        return type_name, max(0, depth + self.pick((-1, 0, 1, 1, 2, 3))), spelling

    # Corners: the type, the limit and the bytes of what chance alone seldom makes

    def tags_at_the_limit(self):
        """Tags on tags with no level to spare, over what may refuse before the level does."""
        count = self.pick((1, 1, 2, 3))
        front = b"".join(self.head(TAG, self.pick((1, 1, 2, 3, 6))) for _ in range(count))
        return self.pick(TYPE_NAMES), max(0, count + self.pick((-2, -1, -1, 0, 0, 1))), front + self.pick(BEHIND_TAGS)

    def bignum_around_the_bounds(self):
        """Bignums of around 8 and 16 bytes, with zeros before them or without, at times cut short."""
        content = self.pick((b"\0", b"\xff")) * self.pick((7, 8, 14, 15, 16))
        content = bytes(self.pick((0, 0, 1, 2, 9))) + self.pick(spellings("- 01 7f 80 ff")) + content
        spelling = self.head(TAG, self.pick((2, 3))) + self.byte_string(content)
        if self.chance(0.15):
            spelling = spelling[:-1 - self.below(2)]
        type_name = self.pick(("u64", "Captured<Value>", "Captured<Value>", "ByteBuf", "Vec<u8>", "Message"))
        if type_name == "Message":
            spelling = b"\xa3\x67version\x01\x64body\x61a\x61x" + spelling
        elif type_name != "u64":
            spelling = self.pick(spellings("- 81 c1 a101 a1")) + spelling + self.pick(spellings("- 05"))
        return type_name, self.below(4), spelling

    def siblings(self):
        """Containers and tags next to each other, with just the levels that one of them needs."""
        nested = spellings("80 9fff a0 bfff c105 c24105 8101 9f01ff a10102")
        items = [self.pick(nested) for _ in range(self.pick((2, 3, 4)))]
        if self.chance(0.3):
            items.append(self.array([self.pick(nested), self.pick(nested)]))
        form = self.below(5)
        if form == 0:
            return "(u8,String)", 2 + self.below(2), self.array([b"\x01", b"\x61a"] + items)
        if form == 1:
            pairs = [(b"\x67version", b"\x01"), (b"\x64body", b"\x61a")] + [(b"\x61x", item) for item in items]
            return "Message", 1 + self.below(3), self.map(pairs)
        if form == 2:
            return "Captured<Value>", 2 + self.below(3), self.map([(item, self.pick(nested)) for item in items])
        return "Captured<Value>", 2 + self.below(3), self.tags() + self.array(items)

    def variant_at_the_limit(self):
        """Variants with no level or one, their names sound, broken or cut short, and maps of other than one pair."""
        front = self.tags() + self.pick(spellings("- - a1 a1 bf a0 a2"))
        name = self.pick(VARIANT_NAMES)
        data = self.pick(VARIANT_DATA)
        return "Figure", self.below(3), front + name + data

    def length_at_the_last_offset(self):
        """Strings whose announced end lies around the last offset, 2^64 - 1."""
        front = self.tags() + self.pick(spellings("- - 81 9f a1 8201 c2 5f 7f"))
        length = 2**64 - 1 - max(0, len(front) + 9 + self.pick((-2, -1, 0, 0, 1, 2)))
        return self.pick(TYPE_NAMES), self.below(3), front + head_of_width(self.pick((BYTES, TEXT)), length, 8)

    def corner(self):
        makers = (
            self.tags_at_the_limit, self.bignum_around_the_bounds, self.siblings, self.variant_at_the_limit,
            self.length_at_the_last_offset,
        )
        return self.pick(makers)()

    def limit(self):
        if self.chance(0.45):
            return 256
        return self.below(7)

    def line(self):
        self.oddness = self.pick((0, 0.1, 0.3, 0.6))
        self.length = self.pick((0, 0, 0, 0.4))
        type_name = self.pick(TYPE_NAMES)
        form = self.random.random()
        limit = self.limit()
        if form < 0.16:
            spelling = self.noise()
        elif form < 0.46:
            spelling = self.fitting(type_name)
        elif form < 0.71:
            spelling = self.damaged(self.fitting(type_name))
        elif form < 0.77:
            spelling = self.fitting(self.pick(TYPE_NAMES))
        elif form < 0.87:
            spelling = self.tags() + self.item(self.below(4))
        elif form < 0.97:
            type_name, limit, spelling = self.corner()
        else:
            type_name, limit, spelling = self.deep()
        if self.chance(0.15):
            spelling += self.pick(FAULTY + SIMPLE + (b"\0", b"\1\2\3"))
        return "%s %d %s" % (type_name, limit, spelling.hex())


def make_lines(seed, count):
    maker = Maker(seed)
    return [maker.line() for _ in range(count)]


def main(words):
    if len(words) != 2 or not all(word.isascii() and word.isdigit() for word in words):
        print("usage: typed_lines.py SEED COUNT", file=sys.stderr)
        return 2
    maker = Maker(int(words[0]))
    for _ in range(int(words[1])):
        sys.stdout.write(maker.line() + "\n")
    return 0


if __name__ == "__main__":
    sys.exit(main(sys.argv[1:]))
