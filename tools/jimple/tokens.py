"""The tokens of class text, by docs/FORMATS.md ("Tokens"), and the kind of each as one character.

A text's kinds are a string with a character for each token, so the grammar is a matter of regular expressions over it.
"""

import re
from typing import Dict, List, NamedTuple, Pattern

KEYWORDS = """
abstract final native public protected private static synchronized transient volatile strictfp enum annotation
class interface void boolean byte short char int long float double null_type unknown extends implements breakpoint
case catch cmp cmpg cmpl default entermonitor exitmonitor from goto if instanceof interfaceinvoke lengthof
lookupswitch neg new newarray newmultiarray nop null ret return specialinvoke staticinvoke dynamicinvoke tableswitch
throw throws to virtualinvoke with
""".split()
MODIFIERS = KEYWORDS[:KEYWORDS.index("class")]
PRIMITIVES = KEYWORDS[KEYWORDS.index("void"):KEYWORDS.index("extends")]
SIGNS = "{ } ( ) [ ] , ; : := . @ = == != < <= > >= << >> >>> + - * / % & | ^".split()
FURTHER = ["synthetic", "constructor", "declared_synchronized", "bridge", "varargs"]
CONSTANTS = ["methodhandle", "methodtype"]

# Kinds of tokens that aren't one text each. An outer parameter has a number above 254; a wrong token is a fault.
CLASSES = "word further constant this caughtexception parameter outer number text wrong".split()

KIND: Dict[str, str] = {text: chr(0x100 + place) for place, text in enumerate(KEYWORDS + SIGNS + CLASSES)}

PLAIN = rb"[A-Za-z_$\\\x80-\xff][\w$#\\\x80-\xff]*"
QUOTED = rb"'[^'\n]*'"
SEGMENT = rb"(?:" + PLAIN + rb"|" + QUOTED + rb")"
WORD = SEGMENT + rb"(?:\." + SEGMENT + rb")*|<(?:cl)?init>"
NUMBER = rb"-?[0-9](?:[eE][+-]|[A-Za-z0-9.])*|#-?[A-Za-z]+"
TEXT = rb'"(?:[^"\\\n]|\\[^\n])*"'
# An open comment comes before the sign that it begins with. What stands last is a fault.
SIGN = rb">>>|:=|[=!<>]=|<<|>>|/\*|[{}()\[\],;:.@=<>+\-*/%&|^]"
BLANK = rb"[ \t\r\n]*(?:(?://[^\n]*|/\*[^*]*\*+(?:[^/*][^*]*\*+)*/)[ \t\r\n]*)*"


def scanner(word: bytes) -> Pattern[bytes]:
    """The tokens of a text, one a match, with the blanks before each; at the end an empty one."""
    return re.compile(BLANK + rb"(" + rb"|".join([word, NUMBER, TEXT, SIGN, rb"[^ \t\r\n]", rb"\Z"]) + rb")")


TOKEN = scanner(WORD)
IS_PLAIN = re.compile(PLAIN)
BEGINNING = re.compile(
    rb"(?P<word>%s|%s|<)|(?P<number>-?[0-9]|#-?[A-Za-z])|(?P<text>\"[^\n])" % (PLAIN, QUOTED))
PARAMETER = re.compile(rb"parameter([0-9]+)")
HIGHEST_PARAMETER = 254


def kind_of(token: bytes) -> str:
    """The kind of a token that isn't a keyword, a sign or a word with a meaning of its own."""
    begins = BEGINNING.match(token)
    numbered = PARAMETER.fullmatch(token)
    if not numbered:
        return begins.lastgroup or "wrong" if begins else "wrong"
    # Leading zeros count for nothing, and a number of many digits isn't computed.
    digits = numbered[1].lstrip(b"0") or b"0"
    return "parameter" if len(digits) < 4 and int(digits) <= HIGHEST_PARAMETER else "outer"


class Kinds(Dict[bytes, str]):
    """The kinds of tokens, which are looked at once each."""

    def __missing__(self, token: bytes) -> str:
        kind = self[token] = KIND[kind_of(token)]
        return kind


KNOWN: Dict[bytes, str] = {
    **{text.encode(): KIND[text] for text in KEYWORDS + SIGNS + ["this", "caughtexception"]},
    **{text.encode(): KIND["further"] for text in FURTHER},
    **{text.encode(): KIND["constant"] for text in CONSTANTS},
}


class Tokens(NamedTuple):
    """The tokens of a text, and the kind of each."""

    text: bytes
    words: List[bytes]
    kinds: str

    def place(self, index: int) -> int:
        """The first byte of a token, or the length of the text behind the last one."""
        for number, found in enumerate(TOKEN.finditer(self.text)):
            if number == index:
                return found.start(1)
        return len(self.text)


def lex(text: bytes) -> Tokens:
    """The tokens of a text; what is no token is a wrong one."""
    words = TOKEN.findall(text)
    while words and not words[-1]:
        words.pop()
    return Tokens(text, words, "".join(map(Kinds(KNOWN).__getitem__, words)))


def name_of(word: bytes) -> bytes:
    """The name of a word: its segments without quotes."""
    return word.replace(b"'", b"") if b"'" in word else word


def written(segment: bytes) -> bytes:
    """A segment of a name as canonical text has it."""
    reserved = segment.decode("latin-1") in KEYWORDS + FURTHER
    return segment if IS_PLAIN.fullmatch(segment) and not reserved else b"'" + segment + b"'"
