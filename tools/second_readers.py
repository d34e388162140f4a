"""Second readers of IR packages, Verilog modules, channel files and row files: where the first fault of a text is.

They are written from docs/IR.md, docs/VERILOG.md, docs/FORMATS.md and the grammars beside them, not from the definitions, and serve
`check_cuts.py`. A text is bytes. Rules and limits of packages and modules are none of their business, nor is how deep brackets nest.
"""

import re
from functools import lru_cache
from pathlib import Path

DOCS = Path(__file__).resolve().parent.parent / "docs"
BLANK = re.compile(rb"(?:[ \t\r\n]|//[^\n]*)*")


class Fault(Exception):
    """The first fault of a text: its cause and its place."""

    def __init__(self, cause, place):
        super().__init__(cause, place)
        self.cause, self.place = cause, place


# ---- Grammars

class Grammar:
    """A grammar of docs/, by which a text is followed token by token: without tables, by all that may still be due."""

    def __init__(self, name):
        text = re.sub("#.*", "", (DOCS / name).read_text(encoding="utf-8"))
        rules = re.findall(r"^(\w+) = (.*(?:\n .*)*)", text, re.M)
        self.bodies = {head: [tuple(body.split()) for body in bodies.split("|")] for head, bodies in rules}
        self.start = rules[0][0]

    @lru_cache(maxsize=None)
    def behind(self, due, kind):
        """What may be due behind a token of this kind, where these symbols are due."""
        if not due:
            return ((),) if kind == "END" else ()
        if due[0] in self.bodies:
            return tuple(found for body in self.bodies[due[0]] for found in self.behind(body + due[1:], kind))
        return (due[1:],) if due[0] == kind else ()

    def follow(self, tokens):
        """Raises the first of these tokens, each a kind and its place, with which no text goes on."""
        due = ((self.start,),)
        for kind, place in tokens:
            due = tuple(found for symbols in due for found in self.behind(symbols, kind))
            if not due:
                raise Fault("syntax", place)


def utf8(text):
    """Raises the first byte that isn't of a text in UTF-8."""
    try:
        text.decode()
    except UnicodeDecodeError as error:
        raise Fault("syntax", error.start) from None


def words_of(text, form):
    """The tokens of a text, each with its place, and the end of the text; the first character that begins none is raised."""
    found, at = [], BLANK.match(text).end()
    while at < len(text):
        match = form.match(text, at)
        if not match:
            raise Fault("syntax", at)
        found.append((match[0].decode(), at))
        at = BLANK.match(text, match.end()).end()
    return found + [("", len(text))]


# ---- IR packages

IR_WORD = re.compile(rb"[A-Za-z_](?:[A-Za-z0-9_.]|/(?!/))*|0x[0-9a-fA-F]+|[0-9]+|[()\[\]{}:=,]")
IR_OPERATIONS = {
    "PLAIN": "add sub umul udiv umod and or xor not neg reverse eq ne ult ule ugt uge slt sle sgt sge shll shrl shra concat tuple array "
             "and_reduce or_reduce xor_reduce after_all",
    "SLICE": "bit_slice", "DYNAMIC": "dynamic_bit_slice", "EXTEND": "zero_ext sign_ext", "SEL": "sel", "TUPLEINDEX": "tuple_index",
    "ARRAYAT": "array_index array_update", "LITERAL": "literal", "SITE": "receive send"}
CLASS_OF = {name: kind for kind, names in IR_OPERATIONS.items() for name in names.split()}
IR_MARKS = {"(": "LPAREN", ")": "RPAREN", "[": "LBRACKET", "]": "RBRACKET", "{": "LBRACE", "}": "RBRACE", ":": "COLON", "=": "ASSIGN",
            ",": "COMMA", "": "END"}
IR_KEYWORDS = {word: word.upper() for word in "package chan proc st init next id kind input output inner depth bits token predicate "
                                              "channel cases default indices index start width value".split()}
IR_KEYWORDS["new_bit_count"] = "COUNT"


def number_in_ir(word, place):
    number = int(word, 16 if word.startswith("0x") else 10)
    if number >= 1 << 128:
        raise Fault("syntax", place)
    return number


def operation_and_id(word):
    """The two halves of an `OP.ID`, or None where a word is none."""
    name, dot, digits = word.partition(".")
    is_id = re.fullmatch("0|[1-9][0-9]*", digits) and int(digits) < 1 << 32
    return (name, digits) if dot and name in CLASS_OF and is_id else None


def ir_kinds(words):
    """The kinds of tokens, by their own text, the two before them and their node."""
    node, before, earlier = None, "", ""
    for word, place in words:
        own = operation_and_id(word)
        if own and before in ("{", ")"):
            node = own
        if word in IR_MARKS:
            kind = IR_MARKS[word]
        elif word[0].isdigit():
            is_own = (earlier, before) == ("id", "=") and node and word == node[1]
            kind = "OWN" if is_own else "SMALL" if number_in_ir(word, place) < 1 << 32 else "LARGE"
        elif own:
            kind = "OPID"
        elif word in CLASS_OF and before == "=" and node and word == node[0]:
            kind = CLASS_OF[word]
        else:
            kind = IR_KEYWORDS.get(word, "NAME")
        yield kind, place
        before, earlier = word, before


IR = Grammar("ir.grammar")


def read_ir(text):
    """Raises what is wrong with the form of a package."""
    utf8(text)
    IR.follow(list(ir_kinds(words_of(text, IR_WORD))))


# ---- Verilog modules

VERILOG_WORD = re.compile(rb"[A-Za-z_][A-Za-z0-9_]*|[0-9]+'d[0-9]+|[0-9]+|\$signed"
                          rb"|>>>|<<|>>|<=|>=|==|!=|[()\[\]{}:;,?@=+\-*/%&|^~<>]")
VERILOG_MARKS = dict(zip("( ) [ ] { } : ; , ? @ = + - * / % & | ^ ~ < > <= >= == != << >> >>> $signed".split(),
                         "LPAREN RPAREN LBRACKET RBRACKET LBRACE RBRACE COLON SEMI COMMA QUESTION AT EQUALS PLUS MINUS STAR SLASH PERCENT "
                         "AMP PIPE CARET TILDE LT GT LE GE EQ NE SHL SHR ASHR SIGNED".split()), **{"": "END"})
VERILOG_KEYWORDS = {word: word.upper() for word in "module endmodule input output wire reg assign always posedge begin if else clk rst".split()}
VERILOG_KEYWORDS["end"] = "ENDBLOCK"


def verilog_kind(word, place):
    if word in VERILOG_MARKS:
        return VERILOG_MARKS[word]
    if "'" in word:
        width, value = map(int, word.split("'d"))
        if width < 1 or value.bit_length() > width:
            raise Fault("syntax", place)
        return "LITERAL"
    if word.isdigit():
        return "NUMBER" if int(word) else "ZERO"
    return VERILOG_KEYWORDS.get(word, "NAME")


VERILOG = Grammar("verilog.grammar")


def read_verilog(text):
    """Raises what is wrong with the form of a module."""
    utf8(text)
    VERILOG.follow([(verilog_kind(word, place), place) for word, place in words_of(text, VERILOG_WORD)])


# ---- Value texts: a number, or a bracket and its elements

VALUE_MARK = re.compile(r"0x[0-9a-fA-F]{1,32}|[()\[\], ]")


def marks_of_value(text):
    """The parts of a value text, or None where there is another character; a space, which inside brackets is free, is none outside."""
    found, at = [], 0
    while at < len(text):
        match = VALUE_MARK.match(text, at)
        if not match:
            return None
        found.append(match[0])
        at = match.end()
    is_spaced = found and " " in (found[0], found[-1])
    return None if is_spaced else [mark for mark in found if mark != " "]


def value_at(marks, at):
    """The value that begins at this part, and the part behind it; None where none does."""
    opening = marks[at] if at < len(marks) else ""
    if opening.startswith("0x"):
        return int(opening, 16), at + 1
    if opening not in ("(", "["):
        return None
    closing, elements, at = ")" if opening == "(" else "]", [], at + 1
    if at < len(marks) and marks[at] == closing:
        return (opening, elements), at + 1
    while found := value_at(marks, at):
        element, at = found
        elements.append(element)
        if at < len(marks) and marks[at] == closing:
            return (opening, elements), at + 1
        if at >= len(marks) or marks[at] != ",":
            return None
        at += 1
    return None


def value_of(text):
    """The value of a text, or None where it is no value text."""
    marks = marks_of_value(text)
    found = value_at(marks, 0) if marks else None
    return found[0] if found and found[1] == len(marks) else None


def fits(value, form):
    """Whether a value is of a type: a width; or a bracket and the types of the elements."""
    if isinstance(form, int) or isinstance(value, int):
        return isinstance(form, int) and isinstance(value, int) and value < 1 << form
    return value[0] == form[0] and len(value[1]) == len(form[1]) and all(map(fits, value[1], form[1]))


def value_text(value, form):
    """How a value of a type is written."""
    if isinstance(form, int):
        return f"0x{value:0{-(-form // 4)}x}"
    return value[0] + ", ".join(map(value_text, value[1], form[1])) + {"(": ")", "[": "]"}[value[0]]


# ---- Channel files and row files

def lines_of(text):
    """The lines of a file, each with its place; one that isn't UTF-8 is raised. Comments and empty lines say nothing."""
    place = 0
    for line in text.split(b"\n"):
        try:
            said = line.decode()
        except UnicodeDecodeError:
            raise Fault("input syntax", place) from None
        if said and not said.startswith("#"):
            yield said, place
        place += len(line) + 1


def read_channels(text, inputs):
    """The words of each input of a network, whose types are given."""
    words, at = {}, None
    for line, place in lines_of(text):
        if line.startswith("chan "):
            at = line[len("chan "):]
            if not re.fullmatch("[A-Za-z_][A-Za-z0-9_./]*", at):
                raise Fault("input syntax", place)
            if at not in inputs:
                raise Fault("input name", place)
            if at in words:
                raise Fault("input twice", place)
            words[at] = []
            continue
        value = value_of(line)
        if value is None or at is None:
            raise Fault("input syntax", place)
        if not fits(value, inputs[at]):
            raise Fault("input type", place)
        words[at].append(value)
    return {name: words.get(name, []) for name in inputs}


def items_of(line, place):
    """The items of a row, each a name and its word or None, and how often it is repeated."""
    first, *items = line.split(" ")
    if first not in ("R", "-"):
        raise Fault("input syntax", place)
    times = 1
    if items and re.fullmatch("x[1-9][0-9]*", items[-1]):
        times = int(items.pop()[1:])
    found = []
    for item in items:
        match = re.fullmatch("(?P<name>[A-Za-z_][A-Za-z0-9_]*)(?:=(?P<word>.+)|!)", item)
        word = match and match["word"]
        if not match or word is not None and value_of(word) is None:
            raise Fault("input syntax", place)
        found.append((match["name"], None if word is None else value_of(word)))
    return found, times


def read_rows(text, inputs, outputs):
    """The rows of a file, repeats written out: whether it is a reset, the words that are offered and the outputs that are ready."""
    rows = []
    for line, place in lines_of(text):
        items, times = items_of(line, place)
        names = [name for name, _ in items]
        if not all(name in (outputs if word is None else inputs) for name, word in items):
            raise Fault("input name", place)
        if len(set(names)) < len(names):
            raise Fault("input twice", place)
        if not all(word is None or fits(word, inputs[name]) for name, word in items):
            raise Fault("input type", place)
        offered = {name: word for name, word in items if word is not None}
        rows += [(line[0] == "R", offered, {name for name, word in items if word is None})] * times
    return rows
