"""A model of the lines on heads, payloads and integers that `ciborium_rows typed` answers (RFC 8949, section 3), written
apart from the library. `line_model` has the other forms of lines."""

GREATEST = 2**64 - 1
BYTES_A_WRITE = 3
NAMES = ("positive", "negative", "bytes", "text", "array", "map", "tag")
OPEN = 31
WIDTHS = {24: 1, 25: 2, 26: 4, 27: 8}
BITS = (8, 16, 32, 64)
TYPES = (
    [("u%d" % bits, 0, 2**bits - 1) for bits in BITS]
    + [("usize", 0, 2**64 - 1), ("u128", 0, 2**128 - 1)]
    + [("i%d" % bits, -(2 ** (bits - 1)), 2 ** (bits - 1) - 1) for bits in BITS]
    + [("isize", -(2**63), 2**63 - 1)]
)


class Refusal(Exception):
    """Why no head is pulled, by the text of the answer."""


def shortest(major, number):
    """The head of fewest bytes (section 4.1)."""
    if number < 24:
        return bytes([major << 5 | number])
    info, width = next(it for it in WIDTHS.items() if number < 256 ** it[1])
    return bytes([major << 5 | info]) + number.to_bytes(width, "big")


class Decoder:
    """Takes heads from bytes whose first is at an offset."""

    def __init__(self, data, offset):
        self.data, self.begin, self.taken = data, offset, 0

    def offset(self):
        return self.begin + self.taken

    def left(self):
        return len(self.data) - self.taken

    def take(self, count):
        if count > GREATEST - self.offset():
            raise Refusal("toolong")
        if count > self.left():
            self.taken = len(self.data)
            raise Refusal("io")
        self.taken += count
        return self.data[self.taken - count : self.taken]

    def pull(self):
        """The name of a head, and its argument; None is an open length."""
        start = self.offset()
        first = self.take(1)[0]
        major, info = first >> 5, first & 31
        if info in WIDTHS:
            raw = self.take(WIDTHS[info])
        elif info < 24:
            raw = bytes([info])
        elif info == OPEN and major in (2, 3, 4, 5):
            return NAMES[major], None
        elif info == OPEN and major == 7:
            return "break", None
        else:
            raise Refusal("syntax %d" % start)
        argument = int.from_bytes(raw, "big")
        if major == 7:
            if info > 24:
                return "float", len(raw)
            if info == 24 and argument < 32:
                raise Refusal("syntax %d" % start)
            return "simple", argument
        if major in (2, 3) and argument > GREATEST - self.offset():
            raise Refusal("toolong")
        return NAMES[major], argument

    def definite(self, name, length, start):
        payload = self.take(length)
        if name == "text":
            try:
                payload.decode("utf-8")
            except UnicodeDecodeError:
                raise Refusal("syntax %d" % start)
        return payload

    def payload(self, name, length, start):
        """What stands behind the head of a string, which began at an offset."""
        if length is not None:
            return self.definite(name, length, start)
        joined = b""
        while True:
            at = self.offset()
            part, size = self.pull()
            if part == "break":
                return joined
            if part != name or size is None:
                raise Refusal("syntax %d" % at)
            joined += self.definite(part, size, at)

    def front(self, row=False):
        """A head with its payload, as a text; in a row also with its offset and length."""
        start = self.offset()
        name, argument = self.pull()
        length = self.offset() - start
        payload = self.payload(name, argument, start) if name in ("bytes", "text") else b""
        text = show(name, argument, payload, self.offset())
        return text + " at %d len %d" % (start, length) if row else text


def show(name, argument, payload, end):
    text = name if name == "break" else "%s %s" % (name, "-" if argument is None else argument)
    text += " " + payload.hex() if payload else ""
    written = head_of(name, argument)
    return "%s end %d" % (text, end) + ("" if written is None else " | " + written.hex())


def head_of(name, argument):
    """The head that is written again; a float's is not."""
    if name == "float":
        return None
    if name == "break":
        return b"\xff"
    if name == "simple":
        return bytes([0xE0 | argument]) if argument < 24 else bytes([0xF8, argument])
    major = NAMES.index(name)
    return bytes([major << 5 | OPEN]) if argument is None else shortest(major, argument)


def answer_head(offset, data):
    decoder = Decoder(data, offset)
    try:
        return decoder.front()
    except Refusal as refusal:
        return "%s left %d" % (refusal, decoder.left())


def answer_heads(offset, data):
    decoder, fronts = Decoder(data, offset), []
    while True:
        try:
            fronts.append(decoder.front(row=True))
        except Refusal as refusal:
            return "; ".join([*fronts, "%s left %d" % (refusal, decoder.left())])


def answer_first(data):
    """The first head alone, without a payload."""
    decoder = Decoder(data, 0)
    if not data:
        return "none end 0"
    try:
        name, argument = decoder.pull()
    except Refusal as refusal:
        return "%s left %d" % (refusal, decoder.left())
    return "%s len %d" % (show(name, argument, b"", decoder.offset()), decoder.offset())


def answer_faults(data, is_first):
    """Each byte is a read of its own, and so is the end that a first head meets; None where the bytes are refused."""
    decoder = Decoder(data, 0)
    try:
        text = answer_first(data) if is_first else decoder.front()
        if is_first and data:
            decoder.pull()
    except Refusal:
        return None
    return "io at %d reads, then %s" % (max(decoder.taken, 1), text)


def answer_payload(data):
    return "io at %d writes, then %s" % (-(-len(data) // BYTES_A_WRITE), data.hex())


def head_of_integer(number):
    return ("negative", -1 - number) if number < 0 else ("positive", number)


def answer_integer(number):
    if not -GREATEST - 1 <= number <= GREATEST:
        return "OutOfRange"
    name, argument = head_of_integer(number)
    size = len(shortest(0, argument))
    fits = "".join(" " + it for it, least, most in TYPES if least <= number <= most)
    return "%d head %s %d size %d fits%s" % (number, name, argument, size, fits)


def canonical_rank(number):
    """The shorter encoding first, and of two of one size the lower bytes (section 4.2.3)."""
    name, argument = head_of_integer(number)
    encoding = shortest(NAMES.index(name), argument)
    return len(encoding), encoding


def answer_canonical(numbers):
    text = str(numbers[0])
    for before, number in zip(numbers, numbers[1:]):
        left, right = canonical_rank(before), canonical_rank(number)
        text += " %s %d" % ("<" if left < right else ">" if right < left else "==", number)
    return text
