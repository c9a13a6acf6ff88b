"""Lines and their replies, told from the rules alone: the first check that refuses a line, and what is answered else."""

import re

import plain_json
import plain_queries
import plain_shapes

LAST = 281_474_976_710_655
LONGEST = 4_194_304
# Each form as its words. T is a timestamp, URI a word, REST the rest of the line.
FORMS = [
    "put URI REST", "remove URI", "commit REST", "get URI", "get at T URI", "get pinned URI", "search REST",
    "search at T REST", "search pinned REST", "estimate REST", "estimate at T REST", "estimate pinned REST", "stamp",
    "forget T", "pin", "unpin", "save", "merge", "revive", "quit",
]
BUILT = {"put URI REST", "remove URI", "get URI", "search REST", "stamp", "quit"}


def stamp_end(line, at):
    """How far a timestamp goes from here: the longest beginning of one."""
    end = at
    while end < len(line) and line[end] in b"0123456789":
        digits = line[at : end + 1]
        if (len(digits) > 1 and digits[:1] == b"0") or int(digits) > LAST:
            break
        end += 1
    return end


def walk(form, line):
    """How much of the line begins a line of this form, and where its words begin, or None where it isn't whole."""
    at, places = 0, {}
    parts = form.split(" ")
    for number, part in enumerate(parts):
        if number > 0:
            if line[at : at + 1] != b" ":
                return at, None
            at += 1
        places[part] = at
        if part == "REST":
            return len(line), places
        if part == "T":
            end = stamp_end(line, at)
        elif part == "URI":
            end = line.find(b" ", at) if b" " in line[at:] else len(line)
        else:
            end = at
            while end < len(line) and end - at < len(part) and line[end] == ord(part[end - at]):
                end += 1
            if end - at < len(part):
                return end, None
        if end == at:
            return at, None
        at = end
    return at, places if at == len(line) else None


def form_of(line):
    """The form of a line and the places of its words, or the length of its longest beginning of some form."""
    furthest, best = 0, None
    for form in FORMS:
        reach, places = walk(form, line)
        furthest = max(furthest, reach)
        if places is not None and (best is None or form.count(" ") > best[0].count(" ")):
            best = (form, places)
    return best or furthest


def is_uri(word):
    return 1 <= len(word) <= 1024 and all(byte >= 0x21 and byte != 0x7F for byte in word)


class Session:
    """A database in a run, which is asked by lines."""

    def __init__(self, built=BUILT):
        self.live, self.front, self.built, self.ended = {}, 0, built, False

    def answer(self, line, length=None):
        """The lines of the reply to a line of so many bytes, a CR before the line feed counted."""
        if (len(line) if length is None else length) > LONGEST:
            self.ended = True
            return [b"bad long 4194304"]
        if line == b"":
            return []
        fault = plain_json.utf8_fault(line)
        if fault is not None:
            return [b"bad utf8 %d" % fault]
        found = form_of(line)
        if isinstance(found, int):
            return [b"bad syntax %d" % found]
        form, places = found
        if form not in self.built:
            return [b"later"]
        try:
            return self.served(form, places, line)
        except plain_json.Bad as bad:
            return [b"bad %s %d" % (bad.kind.encode(), bad.place)]
        except plain_shapes.Shape as bad:
            return [b"bad query %d" % bad.node]

    def served(self, form, places, line):
        word = form.split(" ")[0]
        if word == "quit":
            self.ended = True
            return [b"bye"]
        if word == "stamp":
            return [b"stamp %d merge 0" % self.front]
        if word == "search":
            return self.search(self.json(line, places["REST"]))
        uri = line[places["URI"] :].split(b" ")[0]
        if not is_uri(uri):
            return [b"bad uri %d" % places["URI"]]
        if word == "get":
            return self.get(uri)
        if word == "put":
            self.put(uri, self.json(line, places["REST"]))
        else:
            self.live.pop(uri, None)
            self.front += 1
        return [b"ok %d" % self.front]

    def json(self, line, place):
        try:
            return plain_json.read(line[place:])
        except plain_json.Bad as bad:
            raise plain_json.Bad(bad.kind, place + bad.place) from None

    def put(self, uri, root):
        self.front += 1
        self.live[uri] = (self.front, root)

    def get(self, uri):
        at = b"at %d of %d" % (self.front, self.front)
        if uri not in self.live:
            return [b"none " + at]
        created, root = self.live[uri]
        return [b"doc %d " % created + at, b"[]", plain_json.write(root).encode(), b"end"]

    def search(self, node):
        query = plain_shapes.judge(node)
        rule = plain_queries.broken(query)
        if rule is not None:
            return [self.refusal(rule)]
        found = sorted(u for u, (_, root) in self.live.items() if plain_queries.holds(query, u.decode(), [], root))
        return [b"found %d at %d of %d" % (len(found), self.front, self.front), *found, b"end"]

    @staticmethod
    def refusal(rule):
        if rule[0] == "norange":
            return f"norange {plain_json.quoted(rule[1])} {rule[2]}".encode()
        texts = {"deep": b"bad deep 32", "many": b"bad many 10000", "directory": b"bad directory", "near": b"bad near"}
        return texts[rule[0]]


def lines_of(data):
    """The lines of an input and their lengths: one CR before a line feed is no part of a line, but counts in its
    length, and a last line needs no line feed."""
    lines = data.split(b"\n")
    last = lines.pop()
    found = [(line[:-1] if line.endswith(b"\r") else line, len(line)) for line in lines]
    return found + [(last, len(last))] if last else found


def replies(data, built=BUILT):
    """The lines of input that are served, each with the lines of its reply."""
    session = Session(built)
    for line, length in lines_of(data):
        yield line, session.answer(line, length)
        if session.ended:
            return


def unescaped(cell):
    """The bytes of a row's cell, in which `\\xNN` is a byte."""
    return re.sub(rb"\\x([0-9a-fA-F]{2})", lambda m: bytes([int(m.group(1), 16)]), cell)
