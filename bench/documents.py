#!/usr/bin/env python3
"""documents.py NAME PARTS FILE: writes a document of so many parts, the same at every run. Without arguments: the names.

Each is CBOR without floats, in shortest heads; all but the messages, which are a sequence, are one item.
"""
import random
import sys


def head(major, number):
    if number < 24:
        return bytes([major << 5 | number])
    for information, size in ((24, 1), (25, 2), (26, 4)):
        if number < 1 << 8 * size:
            return bytes([major << 5 | information]) + number.to_bytes(size, "big")
    return bytes([major << 5 | 27]) + number.to_bytes(8, "big")


def number(r, bits):
    return head(r.randrange(2), r.randrange(1 << r.choice(bits)))


def text(r, letters, least, most):
    return string("".join(r.choices(letters, k=r.randint(least, most))))


def string(letters):
    utf8 = letters.encode()
    return head(3, len(utf8)) + utf8


LETTERS = "abcdefghijklmnopqrstuvwxyz0123456789 -"
UMLAUTS = "äöüßéèñçøåÄÖÜ"


def person(r, place):
    return (head(5, 5) + string("id") + head(0, place) + string("ok") + r.choice((b"\xf4", b"\xf5"))
            + string("name") + text(r, LETTERS, 3, 16) + string("note") + r.choice((b"\xf6", text(r, LETTERS, 0, 30)))
            + string("count") + number(r, (4, 8, 16, 32)))


def record(r):
    return b"\x83" + head(0, r.randrange(1 << 32)) + text(r, LETTERS, 12, 12) + r.choice((b"\xf4", b"\xf5"))


def key(r):
    return r.choice((lambda: number(r, (4, 8, 16, 32, 63)), lambda: text(r, LETTERS, 0, 20),
                     lambda: head(2, 8) + r.randbytes(8), lambda: b"\x82" + number(r, (8, 16)) + text(r, LETTERS, 1, 8)))()


def array(parts):
    return lambda r, count: [head(4, count)] + [parts(r) for _ in range(count)]


def nested(r, count):
    return [head(4, count)] + [b"\x81" * 199 + b"\x80"] * count


def message(place):
    return head(5, 2) + string("version") + head(0, place % 256) + string("body") + string(f"message {place}")


def wide_message(r, place):
    """A message with 20 fields that nobody asks for: numbers, texts, truths, byte strings, arrays and a map."""
    others = [number(r, (4, 8, 16, 32)) for _ in range(8)] + [text(r, LETTERS, 4, 20) for _ in range(5)]
    others += [b"\xf4", b"\xf5", head(2, 8) + r.randbytes(8)] + [b"\x83" + head(0, place) + b"\x01\x02" for _ in range(3)]
    others += [b"\xa1" + string("at") + b"\x82\x01\x02"]
    pairs = [string(f"field {n}") + other for n, other in enumerate(others)]
    wanted = [string("version") + head(0, place % 256), string("body") + string(f"message {place}")]
    return head(5, 22) + b"".join(pairs[:10] + wanted[:1] + pairs[10:] + wanted[1:])


def words(r, count):
    keys = sorted({text(r, LETTERS[:36], 12, 12) for _ in range(count)})
    return [head(5, len(keys))] + [k + head(0, r.randrange(1 << 40)) for k in keys]


def falling(r, count):
    """A map whose keys fall."""
    return [head(5, count)] + [string(f"{place:012}") + b"\0" for place in reversed(range(count))]


def prefixed(r, count):
    """A map of keys that differ behind their first 100 letters."""
    return [head(5, count)] + [string("k" * 100 + f"{place:012}") + b"\0" for place in range(count)]


def long_key(r, count):
    """A map of a small key and of a text of so many letters as the other."""
    return [b"\xa2\0\0", head(3, count), b"k" * count, b"\0"]


def nested_keys(r, count):
    """250 maps, each of a small key and of the next map as the other; the innermost key is an array of numbers."""
    return [b"\xa2\0\0" * 250, head(4, count), *(head(0, r.randrange(24)) for _ in range(count)), b"\0" * 250]


# the name: the kind of the measuring program, the parts of the usual document, and what makes it
DOCUMENTS = {
    "integers": ("value", 1_000_000, array(lambda r: number(r, (4, 4, 8, 16, 32, 63)))),
    "small": ("value", 1_000_000, array(lambda r: number(r, (4,)))),
    "maps": ("value", 100_000, lambda r, count: [head(4, count)] + [person(r, i) for i in range(count)]),
    "nested": ("value", 5_000, nested),
    "ascii": ("value", 100_000, array(lambda r: text(r, LETTERS, 40, 40))),
    "umlauts": ("value", 100_000, array(lambda r: text(r, UMLAUTS, 20, 20))),
    "bytes": ("value", 64 << 20, lambda r, count: [head(2, count), r.randbytes(count)]),
    "keyed": ("value", 100_000, words),
    "ints": ("ints", 1_000_000, array(lambda r: number(r, (4, 8, 16, 32, 63)))),
    "options": ("options", 500_000, array(lambda r: r.choice((b"\xf6", head(0, r.randrange(1 << 32)))))),
    "records": ("records", 200_000, array(record)),
    "map": ("map", 100_000, words),
    "texts": ("texts", 200_000, array(lambda r: text(r, LETTERS, 20, 20))),
    "structs": ("structs", 100_000, lambda r, count: [head(4, count)] + [message(place) for place in range(count)]),
    "unknown": ("structs", 50_000, lambda r, count: [head(4, count)] + [wide_message(r, i) for i in range(count)]),
    "falling": ("value", 100_000, falling),
    "prefixed": ("value", 100_000, prefixed),
    "long_key": ("value", 1_000_000, long_key),
    "nested_keys": ("value", 1_000_000, nested_keys),
    "keys": ("sort", 200_000, array(key)),
    "messages": ("messages", 200_000, lambda r, count: [record(r) for _ in range(count)]),
}

if __name__ == "__main__":
    if len(sys.argv) != 4:
        print(*DOCUMENTS)
        sys.exit(0)
    name, count, path = sys.argv[1], int(sys.argv[2]), sys.argv[3]
    with open(path, "wb") as file:
        file.writelines(DOCUMENTS[name][2](random.Random(name), count))
