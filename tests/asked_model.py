"""A model of how a plain reader is asked where a `Value` is read, written apart from the library.

A byte is asked for only where it is needed: one read asks for an initial byte, one for the argument behind it, and one
for each piece of a payload, which is taken into a room of 1,024 bytes. What a read does not give is asked for again.
"""

ROOM = 1024


class Reader:
    """Gives at most `cut` bytes a read."""

    def __init__(self, content, cut):
        self.content, self.cut = content, cut
        self.place = self.reads = self.asked = 0

    def take(self, size):
        end = self.place + size
        while self.place < end:
            if self.place == len(self.content):
                raise EOFError
            self.reads += 1
            self.asked += end - self.place
            self.place = min(self.place + self.cut, end, len(self.content))
        return self.content[end - size : end]

    def take_head(self):
        major, information = divmod(self.take(1)[0], 32)
        if information < 24:
            return major, information
        if information < 28:
            return major, int.from_bytes(self.take(2 ** (information - 24)), "big")
        return major, None


def read_value(reader):
    """Reads a well-formed value without open strings. What is open: the parts left of each container, None where it is
    open, and 1 of a tag."""
    left = []
    while True:
        major, argument = reader.take_head()
        if major in (2, 3):
            for start in range(0, argument, ROOM):
                reader.take(min(ROOM, argument - start))
        if major in (4, 5) and argument != 0:
            left.append(argument and argument * (major - 3))
            continue
        if major == 6:
            left.append(1)
            continue
        if major == 7 and argument is None:
            left.pop()
        while left and left[-1] is not None:
            left[-1] -= 1
            if left[-1] > 0:
                break
            left.pop()
        if not left:
            return


def count_reads(content):
    """`N reads of M gave G`, of a reader that gives all that it is asked for, and of one of one byte a read."""
    counts = []
    for cut in (len(content), 1):
        reader = Reader(content, cut)
        read_value(reader)
        counts.append("%d reads of %d gave %d" % (reader.reads, reader.asked, reader.place))
    return "; ".join(counts)
