"""The rules that no form shows, by docs/FORMATS.md ("Grammar", "Names"): on names, arguments and room."""

from typing import Iterable, List, Set

from jimple.grammar import Form, compiled
from jimple.places import Fault
from jimple.tokens import KIND, Tokens, name_of

PARAMETERS = 255
LOCALS = 65_535

MODIFIERS = compiled("modifiers")
TYPE = compiled("type")
# A signature with what is passed, words that are neither locals nor labels, and then these.
NAMED = compiled("""
    "<" name ":" type anyname "(" (?P<parameters>types?) ")" ">" (?="(" (?P<arguments>operands?) ")")
    | field | "new" name | ("newarray" | "newmultiarray" | "=") "(" type ")" | "instanceof" type
    | "@" anyname (":" type)? | "goto" (?P<label>name) | (?P<local>name)
""")


def count(names: str) -> int:
    """How many types or operands a list has."""
    return names.count(KIND[","]) + 1 if names else 0


class Body:
    """The names of a body: of its locals, of its labels, of those behind its last statement so far, and what asks
    for a label, by its token: of a statement, or of a range's end."""

    def __init__(self) -> None:
        self.locals: Set[bytes] = set()
        self.labels: Set[bytes] = set()
        self.last_labels: Set[bytes] = set()
        self.starts: List[int] = []
        self.ends: List[int] = []


class Names:
    """What the names of a file stand for, form by form. There is a call for each form, named like it."""

    def __init__(self, tokens: Tokens) -> None:
        self.tokens = tokens
        self.members: Set[bytes] = set()
        self.body = Body()

    def require(self, holds: bool, index: int, reason: str) -> None:
        if not holds:
            raise Fault(self.tokens.place(index), reason)

    def add(self, known: Set[bytes], name: bytes, index: int) -> None:
        self.require(name not in known, index, "name given twice")
        known.add(name)

    def name(self, index: int) -> bytes:
        return name_of(self.tokens.words[index])

    def heading(self, form: Form) -> None:
        self.members = set()

    def variable(self, form: Form) -> None:
        self.member(form, form.end - 1, form.end - 2)

    def bodyless(self, form: Form) -> None:
        kinds = self.tokens.kinds
        first, last = (kinds.index(KIND[sign], form.start) for sign in "()")
        self.require(count(kinds[first + 1:last]) <= PARAMETERS, first - 1, "too many names")
        self.member(form, last, first - 1)

    def routine(self, form: Form) -> None:
        self.bodyless(form)
        self.body = Body()

    def member(self, form: Form, end: int, index: int) -> None:
        """Fields are told apart by name and type, methods by name, result and parameters."""
        start = MODIFIERS.match(self.tokens.kinds, form.start).end()
        self.add(self.members, name_of(b"\n".join(self.tokens.words[start:end])), index)

    def local(self, form: Form) -> None:
        first = TYPE.match(self.tokens.kinds, form.start).end()
        for index in range(first, form.end, 2):
            self.add(self.body.locals, self.name(index), index)
        self.require(len(self.body.locals) <= LOCALS, form.start, "too many names")

    def label(self, form: Form) -> None:
        self.require(self.name(form.start) not in self.body.labels, form.start, "name given twice")
        self.add(self.body.last_labels, self.name(form.start), form.start)

    def statement(self, form: Form) -> None:
        self.body.labels |= self.body.last_labels
        self.body.last_labels.clear()
        words, known = self.tokens.words, self.body.locals
        for found in NAMED.finditer(self.tokens.kinds, form.start, form.end):
            what = found.lastgroup
            if what == "local":
                index = found.start()
                if words[index] not in known:
                    self.require(self.name(index) in known, index, "unknown local")
            elif what == "label":
                self.body.starts.append(found.start(what))
            elif what:
                same = count(found["parameters"]) == count(found["arguments"])
                self.require(same, form.start, "syntax")

    def catch(self, form: Form) -> None:
        self.body.starts += [form.start + 3, form.start + 7]
        self.body.ends.append(form.start + 5)

    def close(self, form: Form) -> None:
        if form.state == "class":
            labels, ends = self.body.labels, self.body.labels | self.body.last_labels
            for asked, known in (self.body.starts, labels), (self.body.ends, ends):
                for index in asked:
                    self.require(self.name(index) in known, index, "unknown label")


def check(tokens: Tokens, forms: Iterable[Form]) -> None:
    """Refuses the first name that breaks a rule."""
    names = Names(tokens)
    for form in forms:
        getattr(names, form.what)(form)
