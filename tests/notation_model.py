"""A model of diagnostic notation (RFC 8949, section 8), written apart from the library. Values are those of `typed_model`;
texts are as JSON has them (RFC 8259, section 7), with the shortest escapes and digits in lower case."""

ESCAPES = {'"': '\\"', "\\": "\\\\", "\b": "\\b", "\t": "\\t", "\n": "\\n", "\f": "\\f", "\r": "\\r"}
STEP = "  "


def quote(text):
    """Only what JSON requires is escaped: a delete character and all that is not ASCII stand as they are."""
    return '"%s"' % "".join(ESCAPES.get(it) or ("\\u%04x" % ord(it) if it < " " else it) for it in text)


def show_scalar(value):
    kind = value[0]
    if kind == "integer":
        return str(value[1])
    if kind == "bytes":
        return "h'%s'" % value[1].hex()
    if kind == "text":
        return quote(value[1])
    return {"null": lambda: "null", "bool": lambda: "true" if value[1] else "false"}[kind]()


def show(value):
    """On one line."""
    kind = value[0]
    if kind == "tag":
        return "%d(%s)" % (value[1], show(value[2]))
    if kind == "array":
        return "[%s]" % ", ".join(show(it) for it in value[1])
    if kind == "map":
        return "{%s}" % ", ".join("%s: %s" % (show(key), show(it)) for key, it in value[1])
    return show_scalar(value)


def indent(value):
    """The lines of a value, the first of which stands behind what is before it."""
    kind = value[0]
    if kind == "tag":
        lines = indent(value[2])
        lines[0] = "%d(" % value[1] + lines[0]
        lines[-1] += ")"
        return lines
    if kind == "array":
        return within("[", [indent(it) for it in value[1]], "]")
    if kind == "map":
        return within("{", [join_pair(indent(key), indent(it)) for key, it in value[1]], "}")
    return [show_scalar(value)]


def join_pair(key, value):
    return key[:-1] + [key[-1] + ": " + value[0]] + value[1:]


def within(opening, parts, closing):
    if not parts:
        return [opening + closing]
    for part in parts[:-1]:
        part[-1] += ","
    return [opening] + [STEP + line for part in parts for line in part] + [closing]
