"""JSON texts as they are read and written, told from the rules alone and not from the program: the first fault with its
place, and trees of null, booleans, `Dec`, str, list and dict."""

DEPTH = 128


class Dec:
    """A number as a count of 10^-18."""

    def __init__(self, units):
        self.units = units

    def __eq__(self, other):
        return isinstance(other, Dec) and self.units == other.units

    def __hash__(self):
        return hash(self.units)

    def __repr__(self):
        return f"Dec({self.units})"


class Bad(Exception):
    """The first fault of a text: `json` for its syntax, `utf8`, `depth` or `number`."""

    def __init__(self, kind, place):
        super().__init__(kind, place)
        self.kind, self.place = kind, place


def utf8_fault(data):
    """The first byte of the first sequence that isn't UTF-8, or None."""
    try:
        data.decode("utf-8")
        return None
    except UnicodeDecodeError as bad:
        return bad.start


def worth(sign, whole, fraction, exponent):
    """The units of a literal, or None where it isn't a multiple of 10^-18 below 10^20."""
    digits = (whole + fraction).lstrip("0")
    if not digits:
        return 0
    scale = int(exponent or "0") - len(fraction)
    stripped = digits.rstrip("0")
    scale += len(digits) - len(stripped)
    if scale < -18 or len(stripped) + scale > 20:
        return None
    units = int(stripped) * 10 ** (scale + 18)
    return -units if sign else units


class Reader:
    def __init__(self, data):
        self.limit = utf8_fault(data)
        self.text = data if self.limit is None else data[: self.limit]
        self.at = 0

    def fail(self, place=None):
        """The text goes on from no beginning of a JSON text here."""
        place = self.at if place is None else place
        if place >= len(self.text) and self.limit is not None:
            raise Bad("utf8", self.limit)
        raise Bad("json", place)

    def peek(self):
        return self.text[self.at] if self.at < len(self.text) else None

    def space(self):
        while self.peek() in (0x20, 0x09, 0x0A, 0x0D):
            self.at += 1

    def take(self, wanted):
        for byte in wanted:
            if self.peek() != byte:
                self.fail()
            self.at += 1

    def whole(self):
        node = self.value(0)
        self.space()
        if self.at < len(self.text) or self.limit is not None:
            self.fail()
        return node

    def value(self, depth):
        self.space()
        first = self.peek()
        if first == ord('"'):
            return self.string()
        if first in (ord("["), ord("{")):
            if depth == DEPTH:
                raise Bad("depth", self.at)
            return self.items(depth + 1) if first == ord("[") else self.members(depth + 1)
        if first is not None and (first == ord("-") or chr(first) in "0123456789"):
            return self.number()
        for word, node in ((b"null", None), (b"true", True), (b"false", False)):
            if first == word[0]:
                self.take(word)
                return node
        return self.fail()

    def items(self, depth):
        self.at += 1
        items = []
        self.space()
        if self.peek() == ord("]"):
            self.at += 1
            return items
        while True:
            items.append(self.value(depth))
            self.space()
            if self.peek() == ord("]"):
                self.at += 1
                return items
            self.take(b",")

    def members(self, depth):
        self.at += 1
        members = {}
        self.space()
        if self.peek() == ord("}"):
            self.at += 1
            return members
        while True:
            self.space()
            if self.peek() != ord('"'):
                self.fail()
            name = self.string()
            self.space()
            self.take(b":")
            members[name] = self.value(depth)
            self.space()
            if self.peek() == ord("}"):
                self.at += 1
                return members
            self.take(b",")

    def digits(self):
        start = self.at
        while self.peek() is not None and chr(self.peek()) in "0123456789":
            self.at += 1
        if self.at == start:
            self.fail()
        return self.text[start : self.at].decode()

    def number(self):
        """A whole literal; where it is none, the syntax breaks at its end."""
        start = self.at
        sign = self.peek() == ord("-")
        self.at += sign
        if self.peek() == ord("0"):
            self.at += 1
            whole = "0"
        else:
            whole = self.digits()
        fraction, exponent = "", ""
        if self.peek() == ord("."):
            self.at += 1
            fraction = self.digits()
        if self.peek() in (ord("e"), ord("E")):
            self.at += 1
            if self.peek() in (ord("+"), ord("-")):
                exponent = chr(self.peek())
                self.at += 1
            exponent += self.digits()
        units = worth(sign, whole, fraction, exponent)
        if units is None:
            raise Bad("number", start)
        return Dec(units)

    def unit(self):
        """The four digits of an escape."""
        for place in range(self.at, self.at + 4):
            if place >= len(self.text) or chr(self.text[place]) not in "0123456789abcdefABCDEF":
                self.fail(place)
        self.at += 4
        return int(self.text[self.at - 4 : self.at], 16)

    def low_behind(self):
        """The low surrogate that is escaped right here, or None."""
        part = self.text[self.at : self.at + 6]
        if len(part) == 6 and part[:2] == b"\\u" and all(chr(c) in "0123456789abcdefABCDEF" for c in part[2:]):
            unit = int(part[2:], 16)
            return unit if 0xDC00 <= unit < 0xE000 else None
        return None

    def escape(self):
        start = self.at
        self.at += 1
        sign = self.peek()
        if sign is None or chr(sign) not in '"\\/bfnrtu':
            self.fail()
        self.at += 1
        if sign != ord("u"):
            return dict(zip('"\\/bfnrt', '"\\/\b\f\n\r\t'))[chr(sign)]
        unit = self.unit()
        if 0xD800 <= unit < 0xDC00:
            low = self.low_behind()
            if low is None:
                raise Bad("utf8", start)
            self.at += 6
            return chr(0x10000 + ((unit - 0xD800) << 10) + low - 0xDC00)
        if 0xDC00 <= unit < 0xE000:
            raise Bad("utf8", start)
        return chr(unit)

    def string(self):
        self.at += 1
        out = []
        while True:
            byte = self.peek()
            if byte is None or byte < 0x20:
                self.fail()
            if byte == ord('"'):
                self.at += 1
                return "".join(out)
            if byte == ord("\\"):
                out.append(self.escape())
                continue
            end = self.at + 1
            while end < len(self.text) and self.text[end] & 0xC0 == 0x80:
                end += 1
            out.append(self.text[self.at : end].decode())
            self.at = end


def read(data):
    """The tree of a text, or `Bad`."""
    return Reader(data).whole()


def quoted(text):
    short = {'"': '\\"', "\\": "\\\\", "\b": "\\b", "\t": "\\t", "\n": "\\n", "\f": "\\f", "\r": "\\r"}
    return '"' + "".join(short.get(c) or (c if ord(c) >= 0x20 else f"\\u{ord(c):04x}") for c in text) + '"'


def decimal(units):
    whole, fraction = divmod(abs(units), 10**18)
    tail = f"{fraction:018}".rstrip("0")
    return ("-" if units < 0 else "") + str(whole) + ("." + tail if tail else "")


def write(node):
    """The canonical text of a tree."""
    if node is None:
        return "null"
    if isinstance(node, bool):
        return "true" if node else "false"
    if isinstance(node, Dec):
        return decimal(node.units)
    if isinstance(node, str):
        return quoted(node)
    if isinstance(node, list):
        return "[" + ",".join(write(item) for item in node) + "]"
    return "{" + ",".join(quoted(name) + ":" + write(value) for name, value in node.items()) + "}"
