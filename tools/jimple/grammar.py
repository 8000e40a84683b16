"""The grammar of class files, by docs/FORMATS.md ("Grammar"), as regular expressions over the kinds of tokens.

No form is nested, so each is one expression. A file is read form by form, by a machine of a few states.
"""

import re
from typing import Dict, Iterable, Iterator, Match, NamedTuple, Optional, Pattern

from jimple.tokens import KEYWORDS, KIND, MODIFIERS, PRIMITIVES

# A line for each form, which names those above it. "x" is a keyword or sign, a plain word a kind or a form.
# A further modifier's word is a modifier of a member where a word follows it, and then it is no type.
PRODUCTIONS = """
name        word | further | constant | this | caughtexception | parameter | outer
anyname     name | keyword
type        (name | primitive) ("[" "]")*
types       type ("," type)*
names       name ("," name)*
operand     name | number | text | "null" | "class" text
operands    operand ("," operand)*
method      "<" name ":" type anyname "(" types? ")" ">"
field       "<" name ":" type anyname ">"
based       ("virtualinvoke" | "interfaceinvoke" | "specialinvoke") name "."
call        (based | "staticinvoke") method "(" operands? ")"
condition   "==" | "!=" | "<" | "<=" | ">" | ">="
arithmetic  "+" | "-" | "*" | "/" | "%" | "&" | "|" | "^" | "<<" | ">>" | ">>>"
operator    arithmetic | "cmp" | "cmpg" | "cmpl"
jump        "goto" name ";"
created     "new" name | "newarray" "(" type ")" "[" operand "]"
rows        "newmultiarray" "(" type ")" ("[" operand "]")+ ("[" "]")*
computed    operand (operator operand | "instanceof" type)?
read        (name ".")? field | name "[" operand "]" | ("lengthof" | "neg") operand | "(" type ")" operand
side        (call | created | rows | read | computed) ";"
identity    "@" ("this" ":" type | "parameter" ":" type | "caughtexception") ";"
place       (name ".")? field | name "[" operand "]"
branch      "if" operand condition operand jump
cases       "{" ("case" number ":" jump)* "default" ":" jump "}" ";"?
switch      ("lookupswitch" | "tableswitch") "(" operand ")" cases
monitor     ("entermonitor" | "exitmonitor") operand ";"
ending      "return" operand? ";" | "throw" operand ";"
assigned    name ("=" side | ":=" identity) | place "=" operand ";"
statement   assigned | call ";" | branch | jump | ending | switch | monitor | "nop" ";"
label       name ":"
local       type names ";"
catch       "catch" name "from" name "to" name "with" name ";"
modifiers   (modifier | further (?=anyname))*
member      modifiers (?!further anyname) type anyname
signature   member "(" types? ")" ("throws" names)?
supers      ("implements" names)? "{"
kind        "class" name ("extends" name)? | "interface" name ("extends" names)?
heading     (modifier | further)* (kind) supers
variable    member ";"
bodyless    signature ";"
routine     signature "{"
close       "}"
"""


def any_of(texts: Iterable[str]) -> str:
    return "[" + "".join(KIND[text] for text in texts) + "]"


def expression(rule: str, known: Dict[str, str]) -> str:
    """The expression of a rule whose plain words are known, but for the names of groups."""
    def meaning(found: Match[str]) -> str:
        return KIND[found[1]] if found[1] else known[found[2]]

    kinds = re.sub(r'"([^"]+)"|(?<!<)\b([a-z]+)', meaning, rule)
    return re.sub(r"\((?!\?)", "(?:", re.sub(r"\s", "", kinds))


def expressions() -> Dict[str, str]:
    """The expression of each form, and of each kind that forms name."""
    known = {**KIND, "keyword": any_of(KEYWORDS), "modifier": any_of(MODIFIERS), "primitive": any_of(PRIMITIVES)}
    for line in PRODUCTIONS.strip().splitlines():
        form, rule = line.split(None, 1)
        known[form] = "(?:" + expression(rule, known) + ")"
    return known


FORM = expressions()

# From each state the forms that may stand there, and the state behind each.
STATES = {
    "file": {"heading": "class"},
    "class": {"variable": "class", "bodyless": "class", "routine": "locals", "close": "file"},
    "locals": {"local": "locals", "label": "labels", "statement": "body"},
    "labels": {"label": "labels", "statement": "body"},
    "body": {"statement": "body", "label": "body", "catch": "catches", "close": "class"},
    "catches": {"catch": "catches", "close": "class"},
}

def compiled(rule: str) -> Pattern[str]:
    return re.compile(expression(rule, FORM))


def alternatives(forms: Iterable[str]) -> Pattern[str]:
    return re.compile("|".join("(?P<%s>%s)" % (form, FORM[form]) for form in forms))


READERS = {state: alternatives(forms) for state, forms in STATES.items()}


class Form(NamedTuple):
    """A form of a file, the tokens from its first up to, and without, `end`, and the state behind it."""

    what: str
    start: int
    end: int
    state: str


def read(state: str, kinds: str, start: int) -> Optional[Form]:
    """The form that begins at a token."""
    found = READERS[state].match(kinds, start)
    if found is None:
        return None
    what = found.lastgroup or ""
    return Form(what, start, found.end(), STATES[state][what])


def forms(kinds: str, state: str = "file", start: int = 0) -> Iterator[Form]:
    """The forms of a file from a token on, up to the first that is none."""
    while start < len(kinds):
        form = read(state, kinds, start)
        if form is None:
            return
        yield form
        state, start = form.state, form.end
