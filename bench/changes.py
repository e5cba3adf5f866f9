"""The small changes of a Rattle file's code that bench/mutate.py draws from, found by its text alone.

Only code is changed, that is the bodies of functions and the values of constants: no contract, comment, type or `use`
line. Types are known as far as the text has them, so a change need not compile.
"""
import re

KINDS = {
    "operator": "+ for -, * for /, % for /, << for >>, and back",
    "comparison": "< for <=, > for >=, == for !=, and back",
    "logic": "&& for ||, & for |, and back",
    "sign": "a ! or a - left out",
    "operand": "another variable in scope, or another constant",
    "field": "another field of the same type",
    "variant": "another variant of the enum",
    "constant": "a number by one, twice, 0 for 1, 0.0 for -0.0; true for false",
    "bound": "an index or the bound of a range by one",
    "exchange": "two arguments of a call or two elements of an array exchanged",
    "condition": "a condition negated, always true or never",
    "return": "an early return left out, or another one's value in its place",
    "arms": "the results of two arms of a match exchanged",
    "statement": "an assignment or a call left out",
}
SWAPS = {
    "operator": ["+ -", "* /", "/ %", "<< >>", "+= -="],
    "comparison": ["< <=", "> >=", "== !="],
    "logic": ["&& ||", "& |"],
}
SUFFIX = r"(?:[iu](?:8|16|32|64|size)|f64)"
TOKEN = re.compile(
    r"(?P<comment>//[^\n]*)|(?P<byte>b'(?:\\.|[^'\\])')|(?P<string>b?\"(?:\\.|[^\"\\])*\")"
    rf"|(?P<number>(?:0x[0-9A-Fa-f_]+|[0-9][0-9_]*(?:\.[0-9][0-9_]*)?(?:e[+-]?[0-9]+)?){SUFFIX}?)"
    r"|(?P<name>[A-Za-z_]\w*)|(?P<op>\.\.=|\.\.|::|=>|->|<<=?|>>=?|[-+*/%&|<>=!]=|&&|\|\||\S)"
)
OPEN, CLOSE = {"(", "[", "{"}, {")", "]", "}"}
KEYWORDS = set("let mut if else for in while match return continue break as true false self fn".split())


class Token:
    def __init__(self, kind, text, start):
        self.kind, self.text, self.start, self.end = kind, text, start, start + len(text)


def tokens_of(text):
    found = [Token(m.lastgroup, m.group(), m.start()) for m in TOKEN.finditer(text)]
    return [t for t in found if t.kind != "comment"]


def closing(toks, i):
    """The place of the bracket that closes the one at i."""
    depth = 0
    for k in range(i, len(toks)):
        depth += (toks[k].text in OPEN) - (toks[k].text in CLOSE)
        if depth == 0:
            return k
    raise ValueError("a bracket is not closed")


def after(toks, i, mark):
    """The place of the next mark that is in no bracket which opens on the way."""
    while toks[i].text != mark:
        i = closing(toks, i) + 1 if toks[i].text in OPEN else i + 1
    return i


def parts(toks, start, end, mark=","):
    """The ranges between marks that are in no bracket of their own."""
    found, begin, i = [], start, start
    while i < end:
        if toks[i].text in OPEN:
            i = closing(toks, i)
        elif toks[i].text == mark:
            found.append((begin, i))
            begin = i + 1
        i += 1
    return found + [(begin, end)] * (begin < end)


def type_text(toks, start, end):
    return "".join(t.text for t in toks[start:end] if t.text not in ("&", "mut"))


class Names:
    """What the crates declare: the fields of structs and the variants of enums with what they hold, and constants."""

    def __init__(self):
        self.structs, self.enums, self.consts = {}, {}, {}

    def declare(self, toks, i, end):
        struct = toks[i].text == "struct"
        held = (self.structs if struct else self.enums).setdefault(toks[i + 1].text, {})
        for begin, stop in parts(toks, i + 3, end):
            first = begin + (toks[begin].text == "pub")
            held[toks[first].text] = type_text(toks, first + 1 + struct, stop)


class Place:
    """A function's body or a constant's value, with the parameters as (name, type, place from which it is known)."""

    def __init__(self, name, start, end, scope=(), public_constant=False):
        self.name, self.start, self.end, self.scope = name, start, end, scope
        self.public_constant = public_constant


def places_of(toks, names):
    """The places of a file; what it declares goes into names."""
    places, i = [], 0
    while i < len(toks):
        word = toks[i].text
        if word in ("use", "mod"):
            i = next(k for k in range(i, len(toks)) if toks[k].text == ";")
        elif word in ("struct", "enum"):
            end = closing(toks, i + 2)
            names.declare(toks, i, end)
            i = end
        elif word == "const":
            start = after(toks, i, "=")
            end = after(toks, start, ";")
            names.consts[toks[i + 1].text] = type_text(toks, i + 3, start)
            places.append(Place(toks[i + 1].text, start + 1, end, public_constant=toks[i - 1].text == "pub"))
            i = end
        elif word == "fn":
            stop = closing(toks, i + 2)
            scope = [(toks[b].text, type_text(toks, b + 2, e), 0)
                     for b, e in parts(toks, i + 3, stop) if toks[b + 1].text == ":"]
            while toks[stop].text != "{":
                stop = closing(toks, stop + 1) + 1 if toks[stop].text in ("requires", "ensures") else stop + 1
            places.append(Place(toks[i + 1].text, stop + 1, closing(toks, stop), scope))
            i = places[-1].end
        i += 1
    return places


def other_numbers(text):
    """The numbers that a literal is changed to."""
    if text.startswith("b'"):
        return ["b'\\r'" if text != "b'\\r'" else "b'\\n'"]
    digits, suffix = re.fullmatch(f"(.*?)({SUFFIX})?", text).groups()
    plain = digits.replace("_", "")
    if "0x" not in plain and re.search("[.e]", plain):
        x = float(plain)
        found = ["1.0", "-0.0"] if x == 0.0 else ["0.0", "2.0"] if x == 1.0 else [repr(2 * x), repr(x + 1.0)]
    else:
        n = int(plain, 0)
        found = [(hex if "0x" in plain else str)(m) for m in {n + 1, n - 1, 2 * n} - {n} if m >= 0]
    return sorted(f + (suffix or "") for f in found)


class Reader:
    """Finds the changes of one place, each as (kind, start, end, new text, what it is in short)."""

    def __init__(self, text, toks, place, names):
        self.text, self.toks, self.place, self.names = text, toks, place, names
        self.constants = {t.text: names.consts[t.text] for t in toks if t.text in names.consts}
        self.locals, self.brackets, self.found = list(place.scope), [], set()

    def span(self, start, end):
        return self.text[self.toks[start].start:self.toks[end - 1].end]

    def add(self, kind, start, end, new, short=""):
        """The tokens from start up to end become new."""
        old = self.span(start, end)
        short = re.sub(r"\s+", " ", short or f"{old} -> {new or '(nothing)'}")
        if new != old:
            self.found.add((kind, self.toks[start].start, self.toks[end - 1].end, new, short))

    def operand_before(self, i):
        t = self.toks[i - 1]
        named = t.kind == "name" and (t.text not in KEYWORDS or t.text == "self")
        return i > self.place.start and (named or t.text in (")", "]") or t.kind in ("number", "byte"))

    def read(self):
        for i in range(self.place.start, self.place.end):
            t = self.toks[i]
            if t.text in OPEN:
                self.brackets.append(i)
                self.elements(i)
            elif t.text in CLOSE:
                self.brackets.pop()
            elif t.kind in ("number", "byte"):
                self.number(i)
            elif t.kind == "op":
                self.operator(i)
            elif t.kind == "name":
                self.word(i)
        self.statements()
        self.returns()
        return sorted(self.found)

    def operator(self, i):
        t = self.toks[i].text
        if not self.operand_before(i):
            if t in ("!", "-"):
                self.add("sign", i, i + 1, "")
            return
        for kind, pairs in SWAPS.items():
            for one, other in map(str.split, pairs):
                if t in (one, other):
                    self.add(kind, i, i + 1, other if t == one else one)

    def number(self, i):
        text = self.toks[i].text
        inside = self.brackets[-1] if self.brackets else i
        indexes = self.toks[inside].text == "[" and self.operand_before(inside)
        if indexes or ".." in (self.toks[i - 1].text, self.toks[i + 1].text):
            for m in (int(text, 0) + 1, int(text, 0) - 1):
                if m >= 0:
                    self.add("bound", i, i + 1, str(m))
        else:
            for new in other_numbers(text):
                self.add("constant", i, i + 1, new)

    def word(self, i):
        toks, t, before, behind = self.toks, self.toks[i].text, self.toks[i - 1].text, self.toks[i + 1].text
        if t in ("true", "false"):
            self.add("constant", i, i + 1, "false" if t == "true" else "true")
        elif t in ("if", "while"):
            self.condition(i)
        elif t == "match":
            self.arms(i)
        elif t == "let":
            self.local(i)
        elif t == "for":
            self.locals.append((toks[i + 1].text, "usize", i + 2))
        elif before == "::":
            self.variant(i)
        elif t in KEYWORDS or before in ("let", "mut", "for", "as") or behind in ("(", "{", "::"):
            pass
        elif before == ".":
            for fields in self.names.structs.values():
                self.others("field", i, fields)
        elif not (behind == ":" and self.in_literal()):
            known = {n: kind for n, kind, since in self.locals if since < i}
            self.others("operand", i, self.constants if t in self.constants else known)

    def others(self, kind, i, types):
        """Another name of the same type, or of one that is not known."""
        t = self.toks[i].text
        for other, holds in types.items():
            if t in types and other != t and (holds == types[t] or None in (holds, types[t])):
                self.add(kind, i, i + 1, f"{t}: {other}" if self.shorthand(i) else other)

    def variant(self, i):
        end = closing(self.toks, i + 1) + 1 if self.toks[i + 1].text == "(" else i + 1
        if self.toks[end].text != "=>":
            self.others("variant", i, self.names.enums.get(self.toks[i - 2].text, {}))

    def in_literal(self):
        """Whether the innermost bracket is a struct literal's."""
        inside = self.brackets[-1] if self.brackets else 0
        return self.toks[inside].text == "{" and self.toks[inside - 1].text in self.names.structs

    def shorthand(self, i):
        return self.in_literal() and self.toks[i - 1].text in ("{", ",") and self.toks[i + 1].text in (",", "}")

    def local(self, i):
        """A `let` brings a name into scope from its end on; its type is known where the text has it."""
        toks = self.toks
        k = i + 1 + (toks[i + 1].text == "mut")
        end = after(toks, k, ";")
        equals = after(toks, k, "=")
        known = None
        if toks[k + 1].text == ":":
            known = type_text(toks, k + 2, equals)
        elif toks[equals + 1].kind == "number" and re.search("[.e]", toks[equals + 1].text):
            known = "f64"
        elif end - equals >= 4 and toks[end - 2].text == ".":
            holds = {f.get(toks[end - 1].text) for f in self.names.structs.values()} - {None}
            known = holds.pop() if len(holds) == 1 else None
        self.locals.append((toks[k].text, known, end))

    def exchanged(self, kind, ranges):
        """Two of the ranges exchanged."""
        for k, one in enumerate(ranges):
            for other in ranges[k + 1:]:
                a, b = self.span(*one), self.span(*other)
                if a != b:
                    between = self.text[self.toks[one[1] - 1].end:self.toks[other[0]].start]
                    self.add(kind, one[0], other[1], b + between + a, f"{a} <-> {b}")

    def elements(self, i):
        toks = self.toks
        called = toks[i].text == "(" and toks[i - 1].kind == "name" and toks[i - 1].text not in KEYWORDS
        listed = toks[i].text == "[" and not self.operand_before(i)
        if called or listed:
            self.exchanged("exchange", parts(toks, i + 1, closing(toks, i)))

    def condition(self, i):
        end = self.body(i)
        for new in ("!(" + self.span(i + 1, end) + ")", "true", "false"):
            self.add("condition", i + 1, end, new)

    def body(self, i):
        """The brace that opens the body of the if, while or match at i."""
        while self.toks[i].text != "{":
            i = closing(self.toks, i) + 1 if self.toks[i].text in ("(", "[") else i + 1
        return i

    def arms(self, i):
        toks, results = self.toks, []
        k = self.body(i)
        end = closing(toks, k)
        while k + 1 < end:
            start = after(toks, k + 1, "=>") + 1
            stop = closing(toks, start) + 1 if toks[start].text == "{" else parts(toks, start, end)[0][1]
            results.append((start, stop))
            k = stop if toks[stop].text == "," else stop - 1
        self.exchanged("arms", results)

    def statements(self):
        """Assignments and calls that end in a semicolon, each left out."""
        begin = self.place.start
        for i in range(self.place.start, self.place.end):
            inside = self.toks[begin:i]
            if self.toks[i].text in ("{", "}"):
                begin = i + 1
            elif self.toks[i].text == ";" and not sum((t.text in OPEN) - (t.text in CLOSE) for t in inside):
                if inside and inside[0].text not in ("let", "return", "break"):
                    self.add("statement", begin, i + 1, "")
                begin = i + 1

    def returns(self):
        """Early returns, left out or with the value of another one or of the end."""
        toks, start, end = self.toks, self.place.start, self.place.end
        early = [(i, after(toks, i, ";")) for i in range(start, end) if toks[i].text == "return"]
        values = {self.span(i + 1, stop) for i, stop in early}
        last = parts(toks, start, end, ";")[-1:]
        if last and toks[last[0][0]].text not in ("if", "while", "for", "match"):
            values.add(self.span(*last[0]))
        for i, stop in early:
            self.add("return", i, stop + 1, "")
            for value in values:
                self.add("return", i + 1, stop, value)
