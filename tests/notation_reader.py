"""A model of reading diagnostic notation (RFC 8949, section 8; RFC 8610, appendix G), written apart from the library: `read`
answers the shortest definite encoding of the item that a text denotes, or what is wrong with it and at which byte. It reads
by recursion over characters, and knows CBOR's heads itself.
"""

import base64
import re

BLANK = re.compile(r"(?:[ \t\n\r]|/[^/]*/|#[^\n]*(?:\n|$))*", re.S)
NUMBER = re.compile(r"(-?)(?:0x([0-9a-fA-F]*)|0o([0-7]*)|0b([01]*)|(0|[1-9][0-9]*)|)", re.S)
LETTERS = {'"': '"', "\\": "\\", "/": "/", "b": "\b", "f": "\f", "n": "\n", "r": "\r", "t": "\t"}
WORDS = (("true", b"\xf5"), ("false", b"\xf4"), ("null", b"\xf6"), ("undefined", b"\xf6"))


class Wrong(Exception):
    """What is wrong, and at which character."""

    def __init__(self, at, fault):
        super().__init__(fault)
        self.at = at
        self.fault = fault


def head(major, number):
    for size, info in ((0, None), (1, 24), (2, 25), (4, 26), (8, 27)):
        if size == 0 and number < 24:
            return bytes([major << 5 | number])
        if size and number < 1 << 8 * size:
            return bytes([major << 5 | info]) + number.to_bytes(size, "big")
    raise ValueError(number)


def integer(number):
    big = -1 - number if number < 0 else number
    if big < 1 << 64:
        return head(1 if number < 0 else 0, big)
    octets = big.to_bytes((big.bit_length() + 7) // 8, "big")
    return head(6, 3 if number < 0 else 2) + head(2, len(octets)) + octets


class Reader:
    def __init__(self, text, limit):
        self.text = text
        self.limit = limit
        self.at = 0
        self.open = 0

    def here(self):
        return self.text[self.at:self.at + 1]

    def skip(self):
        self.at = BLANK.match(self.text, self.at).end()
        if self.here() == "/":
            raise Wrong(len(self.text), "a comment that does not end")

    def wanted(self, fault):
        """Nothing wanted stands here: a token that is no token is named first."""
        if self.here() and self.here() not in "[]{}),:":
            start, levels = self.at, self.open
            self.leaf()
            self.at, self.open = start, levels
        raise Wrong(self.at, fault)

    def level(self, start):
        if self.open >= self.limit:
            raise Wrong(start, "nested too deep")
        self.open += 1

    def item(self):
        self.skip()
        start = self.at
        if self.here() == "[":
            self.at += 1
            return self.parts(start, 4, "]", "expected `,` or `]`", self.item)
        if self.here() == "{":
            self.at += 1
            return self.parts(start, 5, "}", "expected `,` or `}`", self.pair)
        if not self.here() or self.here() in "]}),:":
            raise Wrong(start, "expected an item")
        kind, content = self.leaf()
        if kind == "leaf":
            return content
        self.level(start)
        inside = self.item()
        self.skip()
        if self.here() != ")":
            self.wanted("expected `)`")
        self.at += 1
        self.open -= 1
        return head(6, content) + inside

    def parts(self, start, major, end, fault, part):
        self.level(start)
        found = []
        self.skip()
        if self.here() == end:
            self.at += 1
            self.open -= 1
            return head(major, 0)
        while True:
            found.append(part())
            self.skip()
            if self.here() == end:
                self.at += 1
                self.open -= 1
                return head(major, len(found)) + b"".join(found)
            if self.here() != ",":
                self.wanted(fault)
            self.at += 1

    def pair(self):
        key = self.item()
        self.skip()
        if self.here() != ":":
            self.wanted("expected `:`")
        self.at += 1
        return key + self.item()

    def leaf(self):
        """A number, string or word, or the number of a tag and its parenthesis."""
        rest, start = self.text[self.at:], self.at
        if rest[0] == '"':
            self.at += 1
            return "leaf", self.string()
        if rest[0] == "-" or "0" <= rest[0] <= "9":
            return self.number(start)
        if rest.startswith("h'"):
            self.at += 2
            return "leaf", self.octets(self.hex())
        if rest.startswith("b64'"):
            self.at += 4
            return "leaf", self.octets(self.base64())
        for word, encoding in WORDS:
            if rest.startswith(word):
                self.at += len(word)
                return "leaf", encoding
        if rest.startswith("simple("):
            raise Wrong(start, "a simple value")
        if rest.startswith(("NaN", "Infinity", "float'")):
            raise Wrong(start, "a floating-point number")
        raise Wrong(start, "expected an item")

    def number(self, start):
        sign, hexed, octal, binary, decimal = NUMBER.match(self.text, self.at).groups()
        if sign and self.text.startswith("Infinity", self.at + 1):
            raise Wrong(start, "a floating-point number")
        digits, base, skip = next(
            ((d, b, s) for d, b, s in ((hexed, 16, 2), (octal, 8, 2), (binary, 2, 2), (decimal, 10, 0)) if d is not None),
            ("", 10, 0))
        if not digits:
            raise Wrong(self.at + len(sign), "expected a digit")
        number = int(digits, base)
        if number >= 1 << 128:
            raise Wrong(self.at + len(sign), "a number that is too large")
        self.at += len(sign) + skip + len(digits)
        if self.here() and self.here() in ".eE":
            raise Wrong(start + len(sign), "a floating-point number")
        if sign:
            if number > 1 << 127:
                raise Wrong(start, "a number that is too large")
            return "leaf", integer(-number)
        if self.here() == "(":
            if number >= 1 << 64:
                raise Wrong(start, "a number that is too large")
            self.at += 1
            return "tag", number
        return "leaf", integer(number)

    def octets(self, content):
        return head(2, len(content)) + content

    def hex(self):
        digits = ""
        while True:
            here = self.here()
            if here == "'" and len(digits) % 2 == 0:
                self.at += 1
                return bytes.fromhex(digits)
            if here and here in "0123456789abcdefABCDEF":
                digits += here
            elif not here or here not in " \t\n\r":
                raise Wrong(self.at, "expected a digit")
            self.at += 1

    def base64(self):
        digits = ""
        while True:
            here = self.here()
            if here and here in "ABCDEFGHIJKLMNOPQRSTUVWXYZabcdefghijklmnopqrstuvwxyz0123456789+/-_":
                digits += here.replace("-", "+").replace("_", "/")
            elif not here or here not in " \t\n\r":
                break
            self.at += 1
        left = -len(digits) % 4
        padded = digits + "=" * left
        if left == 3 or base64.b64encode(base64.b64decode(padded if left != 3 else "")) != (padded if left != 3 else "").encode():
            raise Wrong(self.at, "expected a digit")
        for end in ("'", "=" * left + "'"):
            if left < 3 and self.text.startswith(end, self.at):
                self.at += len(end)
                return base64.b64decode(padded)
        raise Wrong(self.at, "expected a digit")

    def string(self):
        found = ""
        while True:
            here, start = self.here(), self.at
            if here == '"':
                self.at += 1
                content = found.encode()
                return head(3, len(content)) + content
            if not here or here < " ":
                raise Wrong(start, "expected a character, an escape or `\"`")
            if here != "\\":
                found += here
                self.at += 1
                continue
            found += self.escape(start)

    def escape(self, start):
        letter = self.text[self.at + 1:self.at + 2]
        if letter in LETTERS and letter:
            self.at += 2
            return LETTERS[letter]
        unit = self.unit(self.at)
        if unit is not None and 0xD800 <= unit < 0xDC00:
            low = self.unit(self.at + 6)
            if low is not None and 0xDC00 <= low < 0xE000:
                self.at += 12
                return chr(0x10000 + (unit - 0xD800) * 0x400 + low - 0xDC00)
            unit = None
        if unit is None or 0xDC00 <= unit < 0xE000:
            raise Wrong(start, "expected a character, an escape or `\"`")
        self.at += 6
        return chr(unit)

    def unit(self, at):
        found = re.match(r"\\u([0-9a-fA-F]{4})", self.text[at:at + 6])
        return int(found.group(1), 16) if found else None


def read(text, limit=256):
    """The encoding in hex, or a message that ends in the byte at which it is wrong."""
    reader = Reader(text, limit)
    try:
        encoding = reader.item()
        reader.skip()
        if reader.here():
            reader.wanted("expected the end of the text")
        return encoding.hex()
    except Wrong as wrong:
        return "%s at byte %d" % (wrong.fault, len(text[:wrong.at].encode()))
