"""Texts of the profile out of Soot's texts. A text that is of the profile stays as it is, byte by byte.

A text is read form by form. Only a form that the grammar refuses is looked at again, by wider rules: for names with
signs that Soot writes without quotes, for constants of methods, and for `dynamicinvoke`.
"""

import re
from collections import Counter
from typing import Callable, List, Match, NamedTuple, Pattern, Tuple

from jimple.grammar import compiled, forms, read
from jimple.names import check
from jimple.places import Fault
from jimple.tokens import KIND, QUOTED, TOKEN, WORD, Tokens, lex, scanner, written

NAMES = "quoted names"
CALLS = "dynamic calls"
CONSTANTS = "constants of methods"

# The class that Soot itself gives to the callee of each dynamic call. No app has it.
STAND_IN = b"soot.dummy.InvokeDynamic"

# Words whose segments have `-` inside, or begin, behind a dot, with a digit.
WIDE = rb"(?:%s|-*[A-Za-z_$\\\x80-\xff][\w$#\\\x80-\xff-]*)(?:\.(?:%s|[\w$#\\\x80-\xff-]+))*" % (QUOTED, QUOTED)
WIDE_TOKEN = scanner(WIDE + rb"|" + WORD)
IS_WIDE = re.compile(WIDE)
IS_WORD = re.compile(WORD)
SEGMENTS = re.compile(rb"%s|[^.']+" % QUOTED)

# Where a form that is refused may end: a switch behind its cases, each other one behind its last sign.
PIECE = compiled('("lookupswitch" | "tableswitch") [^"{" "}"]* "{" [^"}"]* "}" ";"? | [^";" "{" "}"]* [";" "{" "}"]')
CONSTANT = compiled('constant ":" (text? (method | field) | type anyname? "(" types? ")" | "(" types? ")" type)')
DYNAMIC = compiled("""
    "dynamicinvoke" (?P<name>text) "<" (?P<result>type) "(" (?P<parameters>types?) ")" ">"
    "(" (?P<arguments>operands?) ")" method "(" operands? ")"
""")
UNSUPPORTED = compiled('(name "=")? (?P<word>"dynamicinvoke") | (?P<ending>"ret" | "breakpoint")')
UNSUPPORTED_CONSTANT = compiled('constant (?=":")')
OUTER_PARAMETER = compiled('(?<="@") outer')


class Piece(NamedTuple):
    """What stands in a text from one byte up to another, and what takes its place."""

    start: int
    end: int
    text: bytes


def replaced(text: bytes, pieces: List[Piece]) -> bytes:
    parts, done = [], 0
    for piece in pieces:
        parts += [text[done:piece.start], piece.text]
        done = piece.end
    return b"".join(parts + [text[done:]])


def origin(at: int, pieces: List[Piece]) -> int:
    """The byte of a text out of which, by its pieces, came that of the new text."""
    for piece in pieces:
        if at < piece.start:
            break
        if at < piece.start + len(piece.text):
            return piece.start
        at += piece.end - piece.start - len(piece.text)
    return at


def quoted(word: bytes) -> bytes:
    return b".".join(part if part[:1] == b"'" else written(part) for part in SEGMENTS.findall(word))


def quote_names(text: bytes, changes: Counter) -> bytes:
    pieces = []
    for found in WIDE_TOKEN.finditer(text):
        if IS_WIDE.fullmatch(found[1]) and not IS_WORD.fullmatch(found[1]):
            pieces.append(Piece(found.start(1), found.end(1), quoted(found[1])))
    changes[NAMES] += len(pieces)
    return replaced(text, pieces)


class Source:
    """A text, and where the tokens of its matches stand."""

    def __init__(self, text: bytes) -> None:
        self.tokens = lex(text)
        self.spans = [found.span(1) for found in TOKEN.finditer(text)]

    def text(self, found: Match[str], group: str) -> bytes:
        first, last = found.span(group)
        return self.tokens.text[self.spans[first][0]:self.spans[last - 1][1]] if first < last else b""

    def replace(self, pattern: Pattern[str], stand_in: Callable[[Match[str]], bytes]) -> Tuple[bytes, int]:
        """The text with something in place of each match, and how many there are."""
        pieces = [
            Piece(self.spans[found.start()][0], self.spans[found.end() - 1][1], stand_in(found))
            for found in pattern.finditer(self.tokens.kinds)
        ]
        return replaced(self.tokens.text, pieces), len(pieces)


def replace_constants(text: bytes, changes: Counter) -> bytes:
    text, number = Source(text).replace(CONSTANT, lambda found: b"null")
    changes[CONSTANTS] += number
    return text


def replace_calls(text: bytes, changes: Counter) -> bytes:
    """Each dynamic call as a static one of the same name, arguments and result. A quote in the name spoils the form."""
    source = Source(text)

    def stand_in(found: Match[str]) -> bytes:
        parts = {group: source.text(found, group) for group in ("result", "parameters", "arguments")}
        name = b".".join(map(written, source.text(found, "name")[1:-1].split(b".")))
        return b"staticinvoke <%s: %s %s(%s)>(%s)" % (
            STAND_IN, parts["result"], name, parts["parameters"], parts["arguments"])

    text, number = source.replace(DYNAMIC, stand_in)
    changes[CALLS] += number
    return text


def reason(tokens: Tokens, state: str, start: int, end: int) -> Tuple[int, str]:
    """Where a form between two tokens is refused, and why: its first token where that is a fault of syntax."""
    kinds = tokens.kinds
    found = UNSUPPORTED.match(kinds, start)
    if found and state in ("locals", "labels", "body"):
        index = found.start(found.lastgroup)
        return index, "%s not supported" % tokens.words[index].decode()
    constant = UNSUPPORTED_CONSTANT.search(kinds, start, end)
    if constant:
        return constant.start(), "methodhandle not supported"
    outer = OUTER_PARAMETER.search(kinds, start, end)
    if outer:
        return outer.start(), "too many names"
    return start, "syntax"


def mended(tokens: Tokens, changes: Counter) -> List[Piece]:
    """The pieces by which a text becomes one whose forms are of the grammar."""
    spans = [found.span(1) for found in TOKEN.finditer(tokens.text)]
    pieces, state, index = [], "file", 0
    while index < len(tokens.kinds):
        form = read(state, tokens.kinds, index)
        if form:
            state, index = form.state, form.end
            continue
        refused = PIECE.match(tokens.kinds, index)
        end = refused.end() if refused else len(tokens.kinds)
        start, stop = spans[index][0], spans[end - 1][1]
        text = tokens.text[start:stop]
        for step in (quote_names, replace_constants, replace_calls):
            text = step(text, changes)
        kinds = lex(text).kinds
        form = read(state, kinds, 0)
        if form is None or form.end < len(kinds):
            place, why = reason(tokens, state, index, end)
            raise Fault(spans[place][0], why)
        pieces.append(Piece(start, stop, text))
        state, index = form.state, end
    if state != "file":
        raise Fault(len(tokens.text), "syntax")
    return pieces


def prepared(text: bytes) -> Tuple[bytes, Counter]:
    """A text of the profile that stands for one of Soot's, and how often what was changed; or the fault of the text."""
    changes: Counter = Counter()
    tokens = lex(text)
    wrong = tokens.kinds.find(KIND["wrong"])
    if wrong >= 0:
        open_text = tokens.words[wrong] in (b'"', b"'", b"/*")
        raise Fault(tokens.place(wrong), "text not ended" if open_text else "byte not allowed")
    found = list(forms(tokens.kinds))
    end, state = (found[-1].end, found[-1].state) if found else (0, "file")
    if end == len(tokens.kinds) and state == "file":
        check(tokens, found)
        return text, changes
    pieces = mended(tokens, changes)
    text = replaced(text, pieces)
    tokens = lex(text)
    try:
        check(tokens, forms(tokens.kinds))
    except Fault as fault:
        raise Fault(origin(fault.at, pieces), fault.reason) from None
    return text, changes
