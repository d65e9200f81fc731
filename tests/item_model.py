"""A model of the lines `item HEX` that `ciborium_rows typed` answers, written from the pseudocode of RFC 8949, appendix C, apart
from the library: it knows besides whether texts are UTF-8, where bytes end inside an item, and the depth of each head."""

import codecs

MOST_LEVELS = 256
OPEN = 31
WIDTHS = {24: 1, 25: 2, 26: 4, 27: 8}
CHARACTER_SIZES = ((0xC2, 0xDF, 2), (0xE0, 0xEF, 3), (0xF0, 0xF4, 4))


class Stop(Exception):
    """Why no item stands at the front, by the text of the answer."""


def begins_text(payload, length):
    """Whether a text of a length can begin with these bytes, or be them."""
    decoder = codecs.getincrementaldecoder("utf-8")()
    try:
        decoder.decode(payload)
    except UnicodeDecodeError:
        return False
    cut = decoder.getstate()[0]
    if not cut:
        return True
    size = next(size for least, most, size in CHARACTER_SIZES if least <= cut[0] <= most)
    return size - len(cut) <= length - len(payload)


class Walk:
    def __init__(self, data):
        self.data, self.at, self.heads = data, 0, []

    def head(self, depth, chunks_of=None):
        """The major type, the additional information and the argument of the next head, and its offset."""
        start = self.at
        if start == len(self.data):
            raise Stop("incomplete")
        first = self.data[start]
        major, info = first >> 5, first & 31
        if 28 <= info <= 30 or info == OPEN and major in (0, 1, 6):
            raise Stop("malformed %d" % start)
        raw = self.data[start + 1 : start + 1 + WIDTHS.get(info, 0)]
        if len(raw) < WIDTHS.get(info, 0):
            raise Stop("incomplete" if chunks_of in (None, major) else "malformed %d" % start)
        argument = int.from_bytes(raw, "big") if info in WIDTHS else info
        if first == 0xF8 and argument < 32:
            raise Stop("malformed %d" % start)
        self.at += 1 + len(raw)
        return major, info, argument, start

    def note(self, start, depth):
        self.heads.append(" %d/%d" % (start, depth))

    def payload(self, major, length, start):
        payload = self.data[self.at : self.at + length]
        if major == 3 and not begins_text(payload, length):
            raise Stop("malformed %d" % start)
        if len(payload) < length:
            raise Stop("incomplete")
        self.at += length

    def item(self, depth, may_end=False):
        """Walks over an item; True where a break stood there that may end what is open."""
        major, info, argument, start = self.head(depth)
        is_break = major == 7 and info == OPEN
        if is_break and not may_end:
            raise Stop("malformed %d" % start)
        opens = major in (4, 5, 6) or major in (2, 3) and info == OPEN
        if opens and depth == MOST_LEVELS:
            raise Stop("deep %d" % start)
        if major in (2, 3) and info != OPEN:
            self.payload(major, argument, start)
        self.note(start, depth)
        if is_break:
            return True
        if major in (2, 3) and info == OPEN:
            self.chunks(major, depth + 1)
        elif major == 6:
            self.item(depth + 1)
        elif major in (4, 5) and info == OPEN:
            while not self.item(depth + 1, may_end=True):
                if major == 5:
                    self.item(depth + 1)
        elif major in (4, 5):
            for _ in range(argument * (major - 3)):
                self.item(depth + 1)
        return False

    def chunks(self, kind, depth):
        while True:
            major, info, argument, start = self.head(depth, chunks_of=kind)
            if major == 7 and info == OPEN:
                self.note(start, depth)
                return
            if major != kind or info == OPEN:
                raise Stop("malformed %d" % start)
            self.payload(major, argument, start)
            self.note(start, depth)


def answer(data):
    walk = Walk(data)
    try:
        walk.item(0)
        end = "complete %d" % walk.at
    except Stop as stop:
        end = str(stop)
    whole = "all" if end == "complete %d" % len(data) else "not all"
    return "%s, %s:%s" % (end, whole, "".join(walk.heads))
