"""Lines drawn at random: of every form, near one, and of JSON and queries near what is taken."""

import json
import random

LETTERS = list("abcXYZ .!-_09\"\\/") + ["é", "É", "ß", "ǅ", "ǆ", "Σ", "ς", "\u0301", "½", "Ⅷ", "日", "😀", "\u2028", "\x7f"]
WORDS = ["fox", "Fox", "FOX", "red", "Red", "weiß", "WEISS", "ǅ", "ǆ", "a", "b", "É", "é", "2nd", "e\u0301", "!", "", "--"]
NAMES = ["a", "b", "t", "u", "A", "", "é"]
URIS = ["/a", "/b", "/d/x", "/d/e/y", "/d/", "/é", "at", "pinned", "/Z", "/d/X", "a"]
NUMBERS = [
    "0", "-0", "1", "7", "7.0", "70e-1", "-1", "2.5", "1e-18", "1e-19", "1e20", "1e19", "99999999999999999999", "1.",
    "100000000000000000000", "0e999999999999", "1e99999999999999999999", "01", "-", "1e", "1E+2", "0.30000000000000004",
]
STAMPS = ["0", "1", "5", "01", "281474976710655", "281474976710656", "9999999999999999999", "x", "-1", "", "1 "]
OPTIONS = ["case-sensitive", "case-insensitive", "exact", "ordered", "unordered", "lang=en", "lang=", "x"]


FEW = ["fox", "Fox", "red", "a", "b", "ǅ"]


class Draw(random.Random):
    def __init__(self, seed):
        super().__init__(seed)
        self.said = ["red fox"]

    def seldom(self, one_in):
        return self.randrange(one_in) == 0

    def sentence(self):
        """A text of few words for a document, which queries may ask for."""
        text = self.choice([" ", " ", ", "]).join(self.choices(FEW, k=self.choice([1, 1, 2, 2, 3, 5])))
        if self.seldom(8):
            text = self.choice(["!", "", "?", " - "])
        self.said = (self.said + [text])[-12:]
        return text

    def asked(self):
        """A text that was said, or words of it, perhaps in another case or with other signs around."""
        words = self.choice(self.said).split(" ")
        start = self.randrange(len(words))
        text = " ".join(words if self.seldom(2) else words[start : start + self.choice([1, 1, 2])])
        return self.choice([text, text, text, text.upper(), text.lower(), text.title(), text + "!", text.strip(",")])

    def text(self):
        if not self.seldom(3):
            return self.asked()
        if self.seldom(3):
            return "".join(self.choices(LETTERS, k=self.randrange(6)))
        return " ".join(self.choices(WORDS, k=self.randrange(4)))

    def string(self, text):
        """A JSON string of a text, with some characters escaped."""
        out = []
        for char in text:
            if self.seldom(6):
                units = char.encode("utf-16-be")
                hexed = [units[i : i + 2].hex() for i in range(0, len(units), 2)]
                out += ["\\u" + (h.upper() if self.seldom(2) else h) for h in hexed]
            elif char == "/" and self.seldom(3):
                out.append("\\/")
            elif char in '"\\' or char < " ":
                out.append(json.dumps(char)[1:-1])
            else:
                out.append(char)
        return '"' + "".join(out) + '"'

    def space(self):
        return self.choice([" ", "\t", "\r", "  "]) if self.seldom(30) else ""

    def scalar(self):
        kind = self.randrange(6)
        if kind < 3:
            return self.string(self.text() if self.seldom(4) else self.sentence())
        return self.choice(NUMBERS[:9] + NUMBERS[11:13]) if kind < 5 else self.choice(["null", "true", "false"])

    def tree(self, depth=0):
        """The text of a tree, with some white space."""
        kind = self.randrange(10 if depth < 4 else 4)
        if kind < 4:
            return self.space() + self.scalar() + self.space()
        if kind < 7:
            items = [self.tree(depth + 1) for _ in range(self.randrange(4))]
            return self.space() + "[" + (",".join(items) or self.space()) + "]" + self.space()
        members = [
            self.space() + self.string(self.choice(NAMES)) + self.space() + ":" + self.tree(depth + 1)
            for _ in range(self.randrange(4))
        ]
        return self.space() + "{" + (",".join(members) or self.space()) + "}" + self.space()

    def deep(self):
        count = self.choice([127, 128, 129, 130])
        opening = self.choice(["[", '{"a":'])
        return opening * count + "1" + ("]" if opening == "[" else "}") * count

    def document(self):
        if self.seldom(60):
            return self.deep()
        if self.seldom(12):
            return self.choice(NUMBERS)
        if self.seldom(3):
            texts = [self.string(self.sentence()) for _ in range(3)]
            return self.choice(['{"a":%s,"b":[%s,{"t":%s}]}', '{"t":[[%s],{"a":[[[%s]]]},%s]}']) % tuple(texts)
        return self.tree()

    def one_or_more(self, draw):
        if self.seldom(3):
            return draw()
        return [draw() for _ in range(self.choice([0, 1, 1, 1, 2, 3]))]

    def value(self):
        return self.choice([None, True, False, 1, 7, -1, 2.5, 0]) if self.seldom(3) else self.text()

    def options(self):
        if self.seldom(40):
            return self.choice([None, "exact", 1, {}])
        return self.choices(OPTIONS[:2] + OPTIONS[5:6] if not self.seldom(6) else OPTIONS, k=self.choice([0, 1, 1, 2]))

    def argument(self, form, depth):
        below = lambda: [self.query(depth + 1) for _ in range(self.randrange(4))]
        strings = lambda: self.one_or_more(self.text)
        names = lambda: self.one_or_more(lambda: self.choice(NAMES[:4] if not self.seldom(4) else NAMES))
        if form in ("andQuery", "orQuery"):
            return {"queries": below()}
        if form == "notQuery":
            return {"query": self.query(depth + 1)}
        if form == "andNotQuery":
            return {"positiveQuery": self.query(depth + 1), "negativeQuery": self.query(depth + 1)}
        if form == "wordQuery":
            return {"text": strings()}
        if form == "jsonPropertyWordQuery":
            return {"property": names(), "text": strings()}
        if form == "jsonPropertyValueQuery":
            return {"property": names(), "value": self.one_or_more(self.value)} if self.seldom(3) else self.valued()
        if form == "jsonPropertyRangeQuery":
            operator = self.choice(["<", "<=", ">", ">=", "=", "!=", "=<"])
            return {"property": names(), "operator": operator, "value": self.one_or_more(self.value)}
        if form == "nearQuery":
            return self.near(depth)
        if form == "directoryQuery":
            directories = ["/", "/d/", "/d/e/", "/none/", "/d", ""]
            some = directories[: 4 + 2 * self.seldom(5)]
            argument = {"uris": self.one_or_more(lambda: self.choice(some))}
            if self.seldom(2):
                argument["depth"] = self.choice(["1", "infinity", "infinity", "2"])
            return argument
        return {"uris": self.one_or_more(lambda: self.choice(URIS))} if "Query" in form and form[0] in "cd" else {}

    def near(self, depth):
        argument = {"queries": [self.near_child(depth) for _ in range(self.choice([0, 1, 2, 2, 2, 3]))]}
        if not self.seldom(4):
            distances = [0, 1, 1, 2, 3, 4, 10, 4294967295, 4294967296, -1, 1.5, "1"]
            argument["distance"] = self.choice(distances[: 8 + 4 * self.seldom(6)])
        if self.seldom(2):
            argument["options"] = ["ordered"] if not self.seldom(4) else self.options()
        return argument

    def valued(self):
        """A value query for a text that was said, or one that equals it in some way."""
        text = self.choice(self.said)
        turned = [text, text, text + "!", text.upper(), text.title(), text.replace(" ", ", "), "?", "!", ""]
        argument = {"property": self.choice([["a", "b", "t"], "a", "t"]), "value": self.choice(turned)}
        options = self.choice([None, None, ["exact"], ["case-insensitive"], ["case-sensitive"], ["exact", "case-insensitive"]])
        if options:
            argument["options"] = options
        return argument

    def near_child(self, depth):
        if self.seldom(12):
            return self.query(depth + 1)
        words = lambda: {"wordQuery": {"text": self.choice(FEW)}}
        if self.seldom(4):
            return {"orQuery": {"queries": [words(), words()]}}
        if self.seldom(4):
            return {"jsonPropertyWordQuery": {"property": self.choice(NAMES), "text": self.choice(FEW)}}
        return words()

    FORMS = [
        "trueQuery", "falseQuery", "andQuery", "orQuery", "notQuery", "andNotQuery", "wordQuery", "wordQuery", "wordQuery",
        "jsonPropertyWordQuery", "jsonPropertyValueQuery", "jsonPropertyValueQuery", "jsonPropertyRangeQuery", "nearQuery",
        "nearQuery", "nearQuery", "collectionQuery", "documentQuery", "directoryQuery",
    ]

    def query(self, depth=0):
        form = self.choice(self.FORMS if depth < 4 else self.FORMS[6:8])
        argument = self.argument(form, depth)
        takes = form in ("wordQuery", "jsonPropertyWordQuery", "jsonPropertyValueQuery")
        if takes and "options" not in argument and self.seldom(3):
            argument["options"] = self.options()
        return self.bent({form: argument}) if self.seldom(15) else {form: argument}

    def bent(self, query):
        """A query with one thing changed, so that it mostly has another shape."""
        (form, argument), = query.items()
        kind = self.randrange(6)
        if kind == 0:
            return self.choice([None, 1, [], "x", {}, {"fooQuery": {}}])
        if kind == 1:
            return {form: argument, "trueQuery": {}}
        if kind == 2 and argument:
            argument.pop(self.choice(sorted(argument)))
        elif kind == 3:
            argument[self.choice(["x", "text", "options", "uris", "queries"])] = self.choice([1, [], "a", None])
        elif argument:
            argument[self.choice(sorted(argument))] = self.choice([None, 1, [1], {}, ["a", None], [[]], "a"])
        items = list(argument.items())
        self.shuffle(items)
        return {form: dict(items)}

    def query_text(self):
        if self.seldom(80):
            count = self.choice([30, 31, 32])
            return '{"notQuery":{"query":' * count + '{"trueQuery":{}}' + "}}" * count
        if self.seldom(200):
            return '{"documentQuery":{"uris":[%s]}}' % ",".join(['"/a"'] * self.choice([9_999, 10_000]))
        text = json.dumps(self.query(), ensure_ascii=self.seldom(2))
        return text.replace('"text":', '"text" : 1, "text":', 1) if self.seldom(60) else text

    def uri(self):
        if self.seldom(40):
            return self.choice(["a" * 1024, "a" * 1025, "\x01", "/a\x7f", "é" * 512, "é" * 513, "/\t"])
        return self.choice(URIS)

    def form(self):
        kind = self.randrange(22)
        if kind < 7:
            return "put %s %s" % (self.uri(), self.document())
        if kind < 15:
            return "search %s" % self.query_text()
        if kind < 17:
            return "get %s" % self.uri()
        if kind == 17:
            return "remove %s" % self.uri()
        if kind == 18:
            return "stamp"
        word = self.choice(["search", "get", "estimate"])
        rest = self.uri() if word == "get" else self.query_text()
        return self.choice([
            "%s at %s %s" % (word, self.choice(STAMPS), rest), "%s pinned %s" % (word, rest), "forget %s" % self.choice(STAMPS),
            "pin", "unpin", "save", "merge", "revive", "commit []", "estimate %s" % rest, "quit ", "",
        ])

    def broken(self, line):
        """A line with a byte changed, added or taken away, or cut short."""
        place = self.randrange(len(line) + 1)
        byte = bytes([self.choice(b' {}[]",:\\ux0e.-9a\xff\xc3\xe2\x80\x00\x1f\x7f')])
        kind = self.randrange(5)
        if kind == 0:
            return line[:place]
        if kind == 1:
            return line[:place] + byte + line[place:]
        if kind == 2:
            return line[:place] + line[place + 1 :]
        if kind == 3:
            return line[:place] + byte + line[place + 1 :]
        return line[:place] + line[self.randrange(len(line) + 1) :]

    def line(self):
        line = self.form().encode("utf-8")
        while self.seldom(4):
            line = self.broken(line)
        line = line.replace(b"\n", b" ")
        return b"stamp" if line.rstrip(b"\r") == b"quit" else line
