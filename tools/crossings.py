#!/usr/bin/env python3
"""crossings.py [--most N]: counts how often one call crosses crates; with --most exit status 1 where it is more than N times.

Walks the source (crates/*/src) from `serve` of `attempts`, the plain way that `m68k_call` takes where the fast way does not, on the input of
a recorded example, TRAP #15 on a 68010, and counts the calls from a function of one crate to a function of another. A method is a function of
the crate that its `impl` stands in, a closure a part of the function that it is written in. Calls of the toolchain's wrapping functions are
counted apart. Prints both numbers, then a table by pair of crates. The answer, the log and the store must come out as the example says, else
it prints no number and the exit status is 1.

Each function that is reached is run as it is read, word by word. What is read is the part of Rattle that the port uses and what is near to it;
anything else is an error. That no number leaves its type is proved, so overflow needs nothing here.
"""
import argparse
import ast
import collections
import functools
import glob
import itertools
import operator
import os
import re
import sys

ROOT = os.path.dirname(os.path.dirname(os.path.abspath(__file__)))
EXAMPLE = "call=trap:f kind=2 a7=8000 pc=1000 ppc=ffe status=2700 patch=bc:00002000"
TRAP = 2  # its number in `decode` of crates/boundary
STORE, LOG, NO_RESPONSE = 65536, 192, 0xFFFFFFFF

# Spaces and comments; or a number and its type; or a text or a letter; or any other word. A shift to the right has spaces around it.
WORD = re.compile(r"""\s+|//[^\n]*|(0x[\da-fA-F_]+|0b[01_]+|\d[\d_]*)([iu](?:8|16|32|64|128|size))?|(b?"(?:[^"\\]|\\.)*"|b?'(?:\\.|[^'\\])')"""
                  r"|('[a-z_]\w*|[^\W\d]\w*|\.\.=|\.\.|::|->|=>|&&|\|\||<<=?|(?<=\s)>>=?(?=\s)|[-+*/%^&|=!<>]=|.)", re.S)
LEVELS = ("||",), ("&&",), ("==", "!=", "<", "<=", ">", ">="), ("|",), ("^",), ("&",), ("<<", ">>"), ("+", "-"), ("*", "/", "%")  # the loosest first
SIGNS = {"==": operator.eq, "!=": operator.ne, "<": operator.lt, "<=": operator.le, ">": operator.gt, ">=": operator.ge, "|": operator.or_,
         "^": operator.xor, "&": operator.and_, "<<": operator.lshift, ">>": operator.rshift, "+": operator.add, "-": operator.sub,
         "*": operator.mul, "/": lambda a, b: abs(a) // b * (-1 if a < 0 else 1), "%": lambda a, b: abs(a) % b * (-1 if a < 0 else 1)}
ASSIGNED = ("=", *(f"{sign}=" for sign in ("+", "-", "*", "/", "%", "^", "&", "|", "<<", ">>")))
BLOCKS = ("{", "if", "match", "while", "for")  # what begins a statement that needs no semicolon
OPENING, CLOSING, AFTER = ("(", "[", "{"), (")", "]", "}"), (")", "]", "}", ",", ";", "=>")
NUMBERS = {f"{sign}{bits or 'size'}": (sign == "i", bits or 64) for sign in "iu" for bits in (8, 16, 32, 64, 128, 0)}
VARIANTS = {"Some": "Option", "None": "Option", "Ok": "Result", "Err": "Result"}

Type = collections.namedtuple("Type", "form names parts")  # `lent`, `self`, `list`, `tuple` or `path`
Item = collections.namedtuple("Item", "path module type parameters result words at")  # a function, a constant, or what names are read in
Shape = collections.namedtuple("Shape", "where type name fields number")  # a struct, or a value of an enum: its number is so much more
Place = collections.namedtuple("Place", "container key")  # a variable, a field, an element or a value; what is lent is one too
Part = collections.namedtuple("Part", "items start stop")  # a slice
Pending = collections.namedtuple("Pending", "value")  # what `into` is called on, until the type that is wanted is known


class Bad(Exception):
    """The source is not what this reads, or the call does not end as the example says."""


class Leave(Exception):
    """`return`, `break` or `continue`, with a value."""


class Literal:
    """A word that is a value."""

    def __init__(self, value):
        self.value = value

    def __str__(self):
        return str(self.value)


class Number(int):
    """A number whose type is known."""

    def __new__(cls, value, kind):
        made = int.__new__(cls, value)
        made.kind = kind
        return made


class Data:
    """A struct, a tuple or a value of an enum: its type, its name in the enum, and its fields, numbered where they have no names."""

    def __init__(self, kind, name, fields):
        self.type, self.name, self.fields = kind, name, fields

    def __eq__(self, other):
        return (self.type, self.name, self.fields) == (other.type, other.name, other.fields)


def numbered(values):
    return {str(place): value for place, value in enumerate(values)}


def tupled(*values):
    return Data("()", None, numbered(values))


def variant(name, *values):
    return Data(VARIANTS[name], name, numbered(values))


def option(values):
    """The first value, where there is one."""
    return next((variant("Some", value) for value in values), variant("None"))


def copied(value):
    """A struct or an array of its own. What is lent is shared."""
    if isinstance(value, Data):
        return Data(value.type, value.name, {name: copied(part) for name, part in value.fields.items()})
    return [copied(part) for part in value] if isinstance(value, list) else value


def bare(value):
    """What a place holds, through all that is lent."""
    while isinstance(value, Place):
        value = value.container[value.key]
    return value


def held(value):
    """The place of a value that is no variable."""
    return Place([value], 0)


def walked(value):
    """The items that a loop or an iterator goes over."""
    inner = bare(value)
    if isinstance(inner, (Part, list)):
        items, start, stop = inner if isinstance(inner, Part) else (inner, 0, len(inner))
        return (Place(items, at) for at in range(start, stop))
    return inner if isinstance(inner, range) else iter(inner)


def values(value):
    """A copy of the values in an array or a slice."""
    return [copied(bare(item)) for item in walked(value)]


def crate_of(item):
    return item.module.partition("::")[0]


def kind_of(*numbers):
    return next((number.kind for number in numbers if isinstance(number, Number)), None)


def limits(kind):
    signed, bits = NUMBERS[kind or "u32"]
    return (-(1 << bits - 1), (1 << bits - 1) - 1) if signed else (0, (1 << bits) - 1)


def wrapped(value, kind):
    least, most = limits(kind)
    return Number((value - least) % (most - least + 1) + least, kind or "u32")


def signed(sign, *pair):
    """Two values with an operator between them."""
    pair = [values(one) if isinstance(one, (Part, list)) else one for one in map(bare, pair)]
    value, kind = SIGNS[sign](*pair), kind_of(*pair)
    return Number(value, kind) if kind and not isinstance(value, bool) else value


def split(text):
    """The words of a text, numbers and texts as their values, and None at the end."""
    for number, kind, quoted, word in WORD.findall(text):
        if number:
            value = int(number.replace("_", ""), 0)
            yield Literal(Number(value, kind) if kind else value)
        elif quoted:
            value = ast.literal_eval(quoted)
            yield Literal(value[0] if quoted.startswith("b'") else list(value) if isinstance(value, bytes) else value)
        elif word:
            yield word
    yield None


class Reader:
    """Reads words from a place on: brackets, names, types, headers."""

    def __init__(self, words, at, name):
        self.words, self.at, self.name = words, at, name

    @property
    def word(self):
        return self.words[self.at]

    def skip(self, *wanted):
        """Takes the next word if it is one of these; else None, and nothing is taken."""
        return self.take() if self.word in wanted else None

    def take(self, *wanted):
        """Takes the next word, which must be one of these where some are given."""
        word = self.word
        if word is None or wanted and word not in wanted:
            raise self.bad(f"cannot read {word} after: {self.before()}")
        self.at += 1
        return word

    def before(self):
        return " ".join(map(str, self.words[max(0, self.at - 12):self.at]))

    def bad(self, text):
        return Bad(f"{self.name}: {text}")

    def label(self):
        """The name or the number of a field."""
        return str(self.take())

    def listed(self, item, end):
        """Items with commas between them, up to a closing bracket."""
        found = []
        while not self.skip(end):
            found.append(item())
            if self.word != end:
                self.take(",")
        return found

    def group(self):
        """Passes by what stands in brackets."""
        self.take(*OPENING)
        self.until(*CLOSING)
        self.take()

    def until(self, *ends):
        """Passes by all before one of these words."""
        while self.word not in ends:
            self.group() if self.word in OPENING else self.take()

    def attributes(self):
        """Passes by attributes and `pub`."""
        while word := self.skip("#", "pub"):
            self.skip("!")
            if word == "#" or self.word == "(":
                self.group()

    def generics(self):
        """Passes by `<..>`, where there is one."""
        depth = 0
        while depth or self.word == "<":
            word = self.take()
            depth += (word == "<") - (word == ">")
            if not depth:
                return

    def uses(self, path=()):
        """The names that a `use` brings, each with its path."""
        while not self.skip("{"):
            path = (*path, self.take())
            if not self.skip("::"):
                path = path[:-1] if path[-1] == "self" else path
                return [(self.take() if self.skip("as") else path[-1], path)]
        return [found for part in self.listed(lambda: self.uses(path), "}") for found in part]

    def path(self):
        if not re.match(r"[^\W\d]", str(self.word)) or isinstance(self.word, Literal):
            raise self.bad(f"cannot read {self.word} after: {self.before()}")
        names = [self.take()]
        while self.skip("::"):
            self.generics() if self.word == "<" else names.append(self.take())
        return names

    def type(self):
        """A type; a lifetime and a number may stand where one does."""
        if self.skip("&", "&&"):
            if self.word[0] == "'":
                self.take()
            self.skip("mut")
            return Type("lent", (), [self.type()])
        if self.skip("["):
            item = self.type()
            self.until("]")
            self.take()
            return Type("list", (), [item])
        if self.skip("("):
            return Type("tuple", (), self.listed(self.type, ")"))
        self.skip("impl", "dyn")
        names, parts = [self.label()], []
        while sign := self.skip("::", "<", "("):
            if sign == "<":
                parts = [part for part in self.listed(self.type, ">") if part.names[:1] == () or part.names[0][0] != "'"]
            elif sign == "(":
                self.listed(self.type, ")")
                self.type() if self.skip("->") else None
            elif self.word != "<":
                names.append(self.take())
        return Type("path", names, parts)

    def fields(self):
        """The fields of a struct or of a value of an enum, with their types."""
        def field(name=None):
            self.attributes()
            if close == "}":
                name = self.take()
                self.take(":")
            return name, self.type()

        if not self.word in ("(", "{"):
            return {}
        close = CLOSING[OPENING.index(self.take())]
        found = self.listed(field, close)
        return dict(found) if close == "}" else numbered(kind for _, kind in found)

    def case(self):
        """A value of an enum: its name, its fields, and where its number stands."""
        self.attributes()
        name, fields, at = self.take(), self.fields(), self.skip("=") and self.at
        self.until(",", "}")
        return name, fields, at

    def header(self):
        """Where a function's parameters stand, with their types, and what it returns. Its body is next, or a semicolon."""
        def parameter():
            self.attributes()
            lent = self.word == "&" and "self" in self.words[self.at:self.at + 4]
            if lent:
                self.until("self")
            at = self.at
            self.until(":", ",", ")")
            return at, self.type() if self.skip(":") else Type("lent" if lent else "self", (), ())

        self.generics()
        self.take("(")
        given, result = self.listed(parameter, ")"), self.type() if self.skip("->") else None
        if self.skip("where"):
            self.until("requires", "ensures", "{", ";")
        while self.word not in ("{", ";"):
            self.until("{")
            self.group()
        return given, result


class Run(Reader):
    """A call of a function: runs what it reads. An expression gives a place."""

    def __init__(self, program, function, names=None):
        super().__init__(function.words, function.at, function.path)
        self.program, self.function, self.names = program, function, names or collections.ChainMap()
        self.braces = True  # whether a literal of a struct may stand here: not in the head of an `if`, a loop or a `match`

    def apart(self, read, *given, **changed):
        """What is read with other names, at another place, or where a literal of a struct may or may not stand."""
        before = {name: getattr(self, name) for name in changed}
        vars(self).update(changed)
        found = read(*given)
        vars(self).update(before)
        return found

    def scoped(self, read, *given, braces=True):
        return self.apart(read, *given, names=self.names.new_child(), braces=braces)

    def listed(self, item, end):
        return self.apart(super().listed, item, end, braces=True)

    def head(self):
        return self.apart(self.expression, braces=False)

    def ended(self, *steps):
        """What the last of these reads, or what is returned before."""
        try:
            for step in steps:
                place = step()
            return copied(place.container[place.key])
        except Leave as leave:
            return leave.args[1]
        except (AttributeError, IndexError, KeyError, StopIteration, TypeError, ValueError) as error:
            raise self.bad(f"{error!r} after: {self.before()}") from error

    # Patterns: whether one fits a place; and it binds names.

    def pattern(self, place):
        self.skip("|")
        fits = self.simple_pattern(place)
        while self.skip("|"):
            fits = self.simple_pattern(None if fits else place) or fits
        return fits

    def simple_pattern(self, place):
        """Where there is no place, the pattern is passed by."""
        value = bare(place)
        if self.skip("&", "&&"):
            return self.simple_pattern(place and held(copied(value)))
        if self.skip("mut", "ref"):
            return self.simple_pattern(place)
        if self.skip("_"):
            return place is not None
        if self.word == "(":
            if place is None or isinstance(value, Data) and value.type == "()":
                return self.parts(place)
            self.take()
            fits = self.pattern(place)
            self.take(")")
            return fits
        literal = isinstance(self.word, Literal) or self.word in ("-", "true", "false")
        names, low = (None, self.literal()) if literal else (self.path(), None)
        if sign := self.skip("..=", ".."):
            high = None if self.word in (*AFTER, "|", "if") else self.literal()
            low = bare(self.named(names)) if names else low
            return place is not None and low <= value and (high is None or SIGNS["<=" if sign == "..=" else "<"](value, high))
        if self.word in ("(", "{"):
            shape = self.shape(names)
            return self.parts(place if place and (value.type, value.name) == (shape.type, shape.name) else None)
        if literal or names[1:] or names[0][0].isupper():
            return place is not None and value == (low if literal else bare(self.named(names)))
        if place is not None:
            inner = place.container[place.key]
            self.names[names[0]] = inner if isinstance(inner, Place) else copied(inner)
        return self.simple_pattern(place) if self.skip("@") else place is not None

    def literal(self):
        """A literal or a constant."""
        sign = self.skip("-")
        if isinstance(self.word, Literal) or self.word in ("true", "false"):
            word = self.take()
            value = word == "true" if isinstance(word, str) else word.value
        else:
            value = bare(self.named(self.path()))
        return -value if sign else value

    def parts(self, place):
        """Patterns of fields, in brackets."""
        if place is None:
            self.group()
            return False
        close, fits, lent = CLOSING[OPENING.index(self.take())], True, isinstance(place.container[place.key], Place)
        for count in itertools.count():
            if self.skip(close):
                return fits
            if not self.skip(".."):
                at = self.at + (self.word in ("mut", "ref"))
                name = str(self.words[at]) if close == "}" else str(count)
                self.at += 2 if close == "}" and self.words[at + 1] == ":" else 0
                inner = Place(bare(place).fields, name)
                fits = self.pattern((held(inner) if lent else inner) if fits else None) and fits
            self.skip(",")

    # Statements and expressions.

    def value(self):
        """A value of its own."""
        place = self.expression()
        return copied(place.container[place.key])

    def block(self):
        """Statements in braces; the last is the value, or nothing is."""
        self.take("{")
        return self.scoped(self.statements)

    def statements(self):
        while not self.skip("}"):
            self.attributes()
            free = self.word in BLOCKS
            if self.skip("let", "const"):
                self.let()
            elif self.word != ";":
                place = self.simple() if free else self.expression()
                place = self.after(place) if free and self.word in (".", "?") else place
                if self.skip("}"):
                    return held(copied(place.container[place.key]))
            if not free or self.word == ";":
                self.take(";")
        return held(tupled())

    def let(self):
        at = self.at
        self.until(":", "=", ";")
        kind = self.type() if self.skip(":") else None
        place = held(self.fit(self.value(), kind) if self.skip("=") else None)
        fits = self.apart(self.pattern, place, at=at)
        if self.skip("else"):
            self.group() if fits else self.block()

    def expression(self):
        place = held(0) if self.word in ("..", "..=") else self.level(0)
        if sign := self.skip("..", "..="):
            first, last = bare(place), None if self.word in AFTER or self.word == "{" and not self.braces else bare(self.level(0))
            return held(slice(first, None) if last is None else range(first, last + (sign == "..=")))
        if sign := self.skip(*ASSIGNED):
            right = self.value()
            before = place.container[place.key]
            place.container[place.key] = self.like(right if sign == "=" else signed(sign[:-1], before, right), before)
            return held(tupled())
        return place

    def level(self, depth):
        """Operators of this level and those that bind tighter."""
        if depth == len(LEVELS):
            place = self.unary()
            while self.skip("as"):
                place = held(self.cast(bare(place), self.type()))
            return place
        place = self.level(depth + 1)
        while sign := self.skip(*LEVELS[depth]):
            left = bare(place)
            if sign in ("&&", "||") and left == (sign == "||"):
                self.until(*AFTER, *(("||",) if sign == "&&" else ()), *(() if self.braces else ("{",)))
                place = held(left)
            else:
                right = bare(self.level(depth + 1))
                place = held(right if sign in ("&&", "||") else signed(sign, left, right))
        return place

    def unary(self):
        sign = self.skip("-", "!", "*", "&", "&&")
        if not sign:
            return self.after(self.simple())
        self.skip("mut")
        place = self.unary()
        inner = place.container[place.key]
        if sign in ("&", "&&"):
            return held(inner if isinstance(inner, Part) else place)
        if sign == "*":
            return inner if isinstance(inner, Place) else place
        value = bare(inner)
        return held(signed("-", 0, value) if sign == "-" else not value if isinstance(value, bool) else wrapped(~value, kind_of(value)))

    def after(self, place):
        """Fields, elements, calls and `?` after a value."""
        while sign := self.skip(".", "[", "(", "?"):
            value = bare(place)
            if sign == "?":
                if value.name in ("None", "Err"):
                    raise Leave("return", variant("Err", Pending(value.fields["0"])) if value.fields else value)
                place = Place(value.fields, "0")
            elif sign == "(":
                place = held(value(*self.listed(self.value, ")")))
            elif sign == "[":
                place = self.element(value, bare(self.scoped(self.expression)))
                self.take("]")
            else:
                name = self.label()
                if self.skip("::"):
                    self.generics()
                place = held(self.method(place, name, self.listed(self.value, ")"))) if self.skip("(") else Place(value.fields, name)
        return place

    def element(self, value, index):
        items, start, stop = value if isinstance(value, Part) else Part(value, 0, len(value))
        many = isinstance(index, (range, slice))
        first, last = (index.start, index.stop) if many else (index, index + 1)
        last = stop - start if last is None else last
        if not 0 <= first <= last <= stop - start:
            raise self.bad("an index outside of its slice")
        return held(Part(items, start + first, start + last)) if many else Place(items, start + index)

    def simple(self):
        word = self.word
        if isinstance(word, Literal) or word in ("true", "false"):
            return held(copied(self.literal()))
        read = {"(": self.brackets, "[": self.array, "{": self.block, "|": self.closure, "||": self.closure}
        if read := read.get(word) or getattr(self, f"read_{word}", None):
            return read()
        names = self.path()
        if self.word == "!":
            return self.matches(names)
        if self.braces and names[-1][0].isupper() and self.skip("{"):
            given = dict(self.listed(self.field, "}"))
            return held(self.made(self.shape(names), {**(bare(given.pop("..")).fields if ".." in given else {}), **given}))
        return self.named(names)

    def field(self):
        """`name: value`, or `name` for the variable of that name, or `..base`."""
        if self.skip(".."):
            return "..", held(self.value())
        name = self.label() if self.words[self.at + 1] == ":" else self.word
        self.skip(":")
        return name, self.value()

    def brackets(self):
        self.take("(")
        found = self.listed(self.expression, ")")
        if len(found) == 1 and self.words[self.at - 2] != ",":
            return found[0]
        return held(tupled(*(copied(place.container[place.key]) for place in found)))

    def array(self):
        """Values, or `value; count`."""
        def item():
            value = self.value()
            return [copied(value) for _ in range(bare(self.expression()))] if self.skip(";") else [value]

        self.take("[")
        return held([value for part in self.listed(item, "]") for value in part])

    def closure(self):
        def called(*given):
            def parameter():
                inner.simple_pattern(held(next(rest)))
                return inner.skip(":") and inner.type()

            inner, rest = Run(self.program, self.function, names.new_child()), iter(given)
            inner.at = at
            return inner.ended(lambda: inner.take("|", "||") == "||" or inner.listed(parameter, "|"), lambda: inner.skip("->") and inner.type(),
                               inner.expression)

        self.skip("move")
        at, names = self.at, self.names
        if self.take("|", "||") == "|":
            self.until("|")
            self.take()
        self.until(*AFTER)
        return held(called)

    read_move = closure

    def matches(self, names):
        """`matches!`, after its name."""
        self.take("!")
        if names != ["matches"]:
            raise self.bad(f"cannot read {names[-1]}!")
        self.take("(")
        place = self.expression()
        self.take(",")
        found = self.scoped(self.fits, place)
        self.until(")")
        self.take()
        return held(found)

    def fits(self, place):
        """Whether a pattern fits, with the condition that may follow it."""
        found = self.pattern(place)
        if found and self.skip("if"):
            return bare(self.expression())
        self.until("=>", ")")
        return found

    def read_if(self):
        def chosen():
            if bare(self.head()):
                return self.block()
            self.group()
            return None

        self.take()
        place = self.scoped(chosen, braces=self.braces)
        while self.skip("else"):
            if place is None:
                return self.read_if() if self.word == "if" else self.block()
            self.until("{")
            self.group()
        return place or held(tupled())

    def read_let(self):
        """In a condition: whether a pattern fits."""
        self.take()
        at = self.at
        self.until("=")
        self.take()
        place = self.level(2)
        return held(self.apart(self.pattern, place, at=at))

    def read_match(self):
        def arm():
            fits = self.fits(place)
            self.take("=>")
            if fits:
                return self.block() if self.word == "{" else held(self.value())
            self.group() if self.word == "{" else self.until(",", "}")
            return None

        self.take()
        place, found = self.head(), None
        self.take("{")
        while self.word != "}" and not found:
            self.attributes()
            found = self.scoped(arm)
            self.skip(",")
        self.until("}")
        self.take()
        if not found:
            raise self.bad("no arm fits")
        return found

    def looped(self, turns, ready):
        """A loop over what `ready` says whether there is a turn for; then its block is next."""
        outer = self.names, self.braces, self.at
        for turn in turns:
            self.names, self.braces, self.at = outer[0].new_child(), *outer[1:]
            if not ready(turn):
                break
            try:
                self.block()
            except Leave as leave:
                if leave.args[0] == "break":
                    break
                if leave.args[0] == "return":
                    raise
        self.names, self.braces, self.at = outer
        self.until("{")
        self.group()
        return held(tupled())

    def read_while(self):
        self.take()
        return self.looped(itertools.count(), lambda turn: bare(self.head()))

    def read_for(self):
        self.take()
        at = self.at
        self.until("in")
        self.take()
        return self.looped(walked(self.head()), lambda turn: self.apart(self.pattern, held(turn), at=at))

    def read_return(self):
        how = self.take()
        raise Leave(how, tupled() if self.word in AFTER else self.value())

    read_break = read_continue = read_return

    # Types, names and calls.

    def fit(self, value, kind, caller=None):
        """A value where one of this type is wanted: numbers get their type, and `into` is done."""
        if isinstance(value, Pending):
            return self.program.converted(caller or self, value.value, self.program.named(self.function, kind))
        if kind and isinstance(value, int) and not isinstance(value, bool) and kind.names[-1:] and kind.names[-1] in NUMBERS:
            return Number(value, kind.names[-1])
        if kind and kind.parts and isinstance(value, Data) and value.type in ("Option", "Result"):
            return variant(value.name, *(self.fit(part, kind.parts[-1 if value.name == "Err" else 0], caller) for part in value.fields.values()))
        return [self.fit(item, kind.parts[0], caller) for item in value] if isinstance(value, list) and kind else value

    def cast(self, value, kind):
        if isinstance(value, Data):
            shape = self.program.shapes[f"{value.type}::{value.name}"]
            value = shape.number + (bare(Run(self.program, shape.where).expression()) if shape.where.at else 0)
        return wrapped(int(value), kind.names[0])

    def like(self, value, before):
        """What is assigned, of the type of what was there."""
        if isinstance(value, Pending):
            return self.program.converted(self, value.value, self.program.type_of(before))
        return Number(value, before.kind) if isinstance(before, Number) and isinstance(value, int) else value

    def made(self, shape, given):
        """A struct or a value of an enum."""
        there = Run(self.program, shape.where)
        return Data(shape.type, shape.name, {name: there.fit(value, shape.fields.get(name), self) for name, value in given.items()})

    def full(self, names):
        owner = self.function.type if names[0] == "Self" else None
        return "::".join([owner, *names[1:]]) if owner else self.program.full(self.function.module, names)

    def shape(self, names):
        if names[-1] in VARIANTS:
            return Shape(None, VARIANTS[names[-1]], names[-1], {}, None)
        path = self.full(names)
        if path not in self.program.shapes:
            raise self.missing(path)
        return self.program.shapes[path]

    def named(self, names):
        """The place of a variable, or of what a path names."""
        if len(names) == 1:
            for scope in self.names.maps:
                if names[0] in scope:
                    return Place(scope, names[0])
        if names[-1] in VARIANTS:
            return held(variant("None") if names[-1] == "None" else functools.partial(variant, names[-1]))
        if wrapping := re.fullmatch(r"std::num::(wrapping_\w+)_(\w+)", "::".join(names)):
            return held(lambda first, *given: self.method(held(Number(first, wrapping[2])), wrapping[1], given))
        if names[0] in NUMBERS:
            return held(self.of_type(*names))
        path, program = self.full(names), self.program
        if path in program.constants:
            constant = program.constants[path]
            there = Run(program, constant)
            return held(there.fit(there.value(), constant.result))
        if path in program.shapes:
            shape = program.shapes[path]
            return held((lambda *given: self.made(shape, numbered(given))) if shape.fields else self.made(shape, {}))
        kind, _, name = path.rpartition("::")
        if program.functions[path] or any(program.functions[f"{trait}::{name}"] for trait in program.traits[kind]):
            return held(lambda *given: program.call(self, program.chosen(kind, name, given), given))
        raise self.missing(path)

    def missing(self, path):
        """The error where a path names nothing, or nothing that was read."""
        return self.program.unread.get(path.partition("::")[0]) or self.bad(f"there is no {path}")

    def of_type(self, kind, name):
        """What the type of a number names."""
        least, most = limits(kind)
        if name in ("MAX", "MIN"):
            return Number(most if name == "MAX" else least, kind)
        return {
            "from": lambda value: Number(int(value), kind),
            "try_from": lambda value: variant("Ok", Number(value, kind)) if least <= value <= most else variant("Err", tupled()),
            "from_be_bytes": lambda value: Number(int.from_bytes(values(value), "big"), kind),
        }.get(name) or (lambda first, *given: self.method(held(Number(first, kind)), name, given))

    def method(self, place, name, given):
        value, inner = bare(place), place.container[place.key]
        function = self.program.chosen(self.program.type_of(value), name, [value, *given])
        if function:
            lent = inner if isinstance(inner, (Place, Part)) else place
            return self.program.call(self, function, [lent if function.parameters[0][1].form == "lent" else copied(value), *given])
        if name in ("into", "clone"):
            return Pending(copied(value)) if name == "into" else copied(value)
        kinds = {Data: self.of_option, Part: self.of_slice, list: self.of_slice, bool: self.of_number, int: self.of_number, Number: self.of_number}
        found = kinds.get(type(value), self.of_iterator)(value, name, given).get(name)
        if not found:
            raise self.bad(f"cannot call {name} of {type(value).__name__}")
        return found()

    # The toolchain's methods, by name.

    def of_number(self, value, name, given):
        how, _, sign = name.partition("_")
        other, kind = bare(given[0]) if given else 0, kind_of(value, *map(bare, given)) or "u32"
        (least, most), bits = limits(kind), NUMBERS[kind][1]
        exact = {"add": operator.add, "sub": operator.sub, "mul": operator.mul}[sign](value, other) if sign in ("add", "sub", "mul") else 0
        if how == "wrapping":
            self.program.crossings[crate_of(self.function), "std"] += 1
        return {
            f"wrapping_{sign}": lambda: wrapped(exact, kind), f"saturating_{sign}": lambda: Number(min(max(exact, least), most), kind),
            f"checked_{sign}": lambda: option([Number(exact, kind)] if least <= exact <= most else []), "abs_diff": lambda: abs(value - other),
            "min": lambda: min(value, other), "max": lambda: max(value, other), "pow": lambda: Number(value ** other, kind),
            "is_multiple_of": lambda: value % other == 0, "cast_signed": lambda: wrapped(value, f"i{kind[1:]}"),
            "cast_unsigned": lambda: wrapped(value, f"u{kind[1:]}"), "then": lambda: option([other()] if value else []),
            "then_some": lambda: option(given if value else []),
            "to_be_bytes": lambda: [Number(byte, "u8") for byte in (value % 2**bits).to_bytes(bits // 8, "big")]}

    def of_option(self, value, _, given):
        """Of Option and Result."""
        good, fields = value.name in ("Some", "Ok"), value.fields
        call, inner, failed = given[-1] if given else None, copied(fields.get("0")), [] if value.type == "Option" else [fields["0"]]
        return {} if value.type not in ("Option", "Result") else {
            "is_some": lambda: good, "is_ok": lambda: good, "is_none": lambda: not good, "is_err": lambda: not good, "unwrap": lambda: fields["0"],
            "is_some_and": lambda: good and call(inner), "is_ok_and": lambda: good and call(inner), "is_none_or": lambda: not good or call(inner),
            "unwrap_or": lambda: inner if good else call, "unwrap_or_else": lambda: inner if good else call(*failed),
            "map": lambda: variant(value.name, call(inner)) if good else value, "map_err": lambda: value if good else variant("Err", call(inner)),
            "map_or": lambda: call(inner) if good else given[0], "map_or_else": lambda: call(inner) if good else given[0](*failed),
            "and_then": lambda: call(inner) if good else value, "or": lambda: value if good else call,
            "or_else": lambda: value if good else call(*failed),
            "filter": lambda: value if good and call(inner) else variant("None"), "ok": lambda: option([inner] if good else []),
            "ok_or": lambda: variant("Ok", inner) if good else variant("Err", call), "err": lambda: option([] if good else [inner]),
            "ok_or_else": lambda: variant("Ok", inner) if good else variant("Err", call()),
            "copied": lambda: variant(value.name, copied(bare(inner))) if good else value, "unwrap_or_default": lambda: inner if good else 0}

    def of_slice(self, value, name, given):
        part = items, start, stop = value if isinstance(value, Part) else Part(value, 0, len(value))
        index = bare(given[0]) if given else 0

        def got(index):
            place = self.element(part, index) if (index.stop or 0 if isinstance(index, (range, slice)) else index + 1) <= stop - start else None
            return option([] if place is None else [bare(place) if isinstance(bare(place), Part) else place])

        def filled(found):
            items[start:stop] = found
            return tupled()

        return {**self.of_iterator(walked(part), name, given), "len": lambda: Number(stop - start, "usize"), "is_empty": lambda: start == stop,
                "as_slice": lambda: part, "get": lambda: got(index), "get_mut": lambda: got(index), "first": lambda: got(0),
                "last": lambda: got(stop - start - 1) if start < stop else variant("None"),
                "fill": lambda: filled([copied(index) for _ in range(start, stop)]), "copy_from_slice": lambda: filled(values(index)),
                "contains": lambda: index in items[start:stop]}

    @staticmethod
    def of_iterator(items, _, given):
        first, call = given[0] if given else None, lambda *arguments: bare(given[-1](*arguments))
        return {
            "iter": lambda: items, "iter_mut": lambda: items, "into_iter": lambda: items,
            "enumerate": lambda: (tupled(*pair) for pair in enumerate(items)),
            "rev": lambda: reversed(items if isinstance(items, range) else list(items)), "chain": lambda: itertools.chain(items, walked(first)),
            "zip": lambda: (tupled(*pair) for pair in zip(items, walked(first))), "take": lambda: itertools.islice(items, first),
            "skip": lambda: itertools.islice(items, first, None), "step_by": lambda: itertools.islice(items, 0, None, first),
            "copied": lambda: (copied(bare(one)) for one in items), "cloned": lambda: (copied(bare(one)) for one in items),
            "map": lambda: map(call, items), "filter": lambda: filter(call, items), "all": lambda: all(map(call, items)),
            "any": lambda: any(map(call, items)), "position": lambda: option(at for at, one in enumerate(items) if call(one)),
            "find": lambda: option(filter(call, items)), "count": lambda: len(list(items)), "sum": lambda: sum(map(bare, items)),
            "next": lambda: option(items), "fold": lambda: functools.reduce(call, items, first), "contains": lambda: bare(first) in items}


class Program:
    """Functions, constants and types by full path, as `cpu::fields::address`, and how often each pair of crates was crossed."""

    def __init__(self):
        self.functions, self.constants, self.shapes = collections.defaultdict(list), {}, {}
        self.uses, self.traits = collections.defaultdict(dict), collections.defaultdict(list)
        self.known, self.outer = set(), set()  # paths, and those that have others in them
        self.crossings, self.impls = collections.Counter(), []
        self.unread = {}  # by crate, why it is not read: an error where something of it is reached
        for file in sorted(glob.glob(os.path.join(ROOT, "crates", "*", "src", "**", "*.rt"), recursive=True)):
            crate, *names = os.path.relpath(file, os.path.join(ROOT, "crates"))[:-3].replace(os.sep + "src" + os.sep, os.sep).split(os.sep)
            module = "::".join([crate, *names] if names not in (["lib"], ["main"]) else [crate])
            self.known.add(module)
            self.outer.add(module)
            with open(file, encoding="utf-8") as opened:
                self.read(module, self.items, Reader(list(split(opened.read())), 0, module))
        for reader, module in self.impls:
            self.read(module, self.impl, reader)

    def read(self, module, items, reader):
        try:
            items(reader, module)
        except Bad as error:
            self.unread[module.partition("::")[0]] = error

    def items(self, reader, module, owner=None, end=None):
        """The items of a module, an `impl` or a trait. What is of no use here is passed by."""
        reader.attributes()
        while reader.word != end:
            word = reader.take()
            while isinstance(reader.word, Literal) or reader.word in ("fn", "impl", "extern", "trait"):
                word = reader.take()
            if word == "use":
                self.uses[module].update(reader.uses())
            elif word in ("fn", "const", "trait", "struct", "enum"):
                path = f"{owner or module}::{reader.take()}"
                self.known.add(path)
                if word not in ("fn", "const"):
                    self.outer.add(path)
                self.item(reader, word, path, module, owner)
            else:
                if word == "impl":
                    self.impls.append((Reader(reader.words, reader.at, module), module))
                reader.until(";", "{")
            if reader.word == "{":
                reader.group()
            reader.skip(";")
            reader.attributes()
        reader.at += 1

    def item(self, reader, word, path, module, owner):
        """An item, after its name."""
        if word == "fn":
            self.functions[path].append(Item(path, module, owner, *reader.header(), reader.words, reader.at))
            return
        if word == "const":
            reader.take(":")
            kind = reader.type()
            self.constants[path] = Item(path, module, owner, (), kind, reader.words, reader.at + 1)
            reader.until(";")
            return
        reader.generics()
        where = Item(path, module, path, (), None, reader.words, None)
        if word == "struct":
            self.shapes[path] = Shape(where, path, None, reader.fields(), None)
        elif word == "trait":
            reader.until("{")
            reader.take()
            self.items(reader, module, path, "}")
        else:
            more = 0
            reader.take("{")
            for name, fields, at in reader.listed(reader.case, "}"):
                where, more = (where._replace(at=at), 0) if at else (where, more)
                self.known.add(f"{path}::{name}")
                self.shapes[f"{path}::{name}"] = Shape(where, path, name, fields, more)
                more += 1

    def impl(self, reader, module):
        reader.generics()
        where, first = Item(module, module, None, (), None, (), None), reader.type()
        owner = self.named(where, reader.type() if reader.skip("for") else first)
        self.traits[owner].append(self.named(where, first))
        reader.until("{")
        reader.take()
        self.items(reader, module, owner, "}")

    def full(self, module, names):
        """The full path of what a module names so."""
        first, *rest = names
        if first in self.uses[module]:
            first, *rest = *self.uses[module][first], *rest
        path = first
        if first in ("crate", "self"):
            path = module.split("::")[0] if first == "crate" else module
        elif first == "super":
            path = module.rpartition("::")[0]
        elif f"{module}::{first}" in (self.outer if rest else self.known):
            path = f"{module}::{first}"
        for name in rest:
            brought = name in self.uses[path] and f"{path}::{name}" not in self.known
            path = self.full(path, [name]) if brought else path.rpartition("::")[0] if name == "super" else f"{path}::{name}"
        return path

    def named(self, where, kind):
        """The name of a type, by which methods are found."""
        if kind.form in ("list", "tuple"):
            return {"list": "[]", "tuple": "()"}[kind.form]
        if kind.form != "path":
            return self.named(where, kind.parts[0]) if kind.parts else where.type
        if kind.names[-1] in (*NUMBERS, "bool", "Option", "Result"):
            return kind.names[-1]
        return where.type if kind.names[0] == "Self" else self.full(where.module, kind.names)

    @staticmethod
    def type_of(value):
        value = bare(value)
        return value.type if isinstance(value, Data) else "bool" if isinstance(value, bool) else kind_of(value) if isinstance(value, int) else "[]"

    def chosen(self, kind, name, given):
        """The function that a type has under a name, its own or by a trait; by the type of what it is given where there are several; or None."""
        found = [one for owner in dict.fromkeys((kind, *self.traits[kind])) for one in self.functions[f"{owner}::{name}"]]
        found = [one for one in found if one.words[one.at] == "{"] or found
        if found and found[0].words[found[0].at] == ";":
            return self.chosen(self.type_of(given[0]), name, given)
        if len(found) > 1:
            kinds = [self.type_of(given[0])] if self.type_of(given[0]) else NUMBERS
            found = [one for one in found if self.named(one, one.parameters[0][1]) in kinds]
        return found[0] if found else None

    def converted(self, run, value, kind):
        """What `into` gives where this type is wanted."""
        if kind in NUMBERS or kind == self.type_of(value):
            return Number(int(value), kind) if kind in NUMBERS else value
        function = self.chosen(kind, "from", [value])
        if not function:
            raise run.bad(f"cannot convert {self.type_of(value)} into {kind}")
        return self.call(run, function, [value])

    def call(self, caller, function, given):
        """A call of a function; counted where it leaves the crate."""
        crates = crate_of(caller.function if caller else function), crate_of(function)
        if crates[0] != crates[1]:
            self.crossings[crates] += 1
        run = Run(self, function)
        for (at, kind), value in zip(function.parameters, given):
            run.apart(run.simple_pattern, held(run.fit(value, kind, caller)), at=at)
        value = run.ended(run.block)
        return run.fit(value, function.result)


def recorded():
    """The example: what it gives and what came of it, by name."""
    with open(os.path.join(ROOT, "oracle", "examples.txt"), encoding="utf-8") as lines:
        for line in lines:
            given, _, said = line.strip().partition(" => ")
            if given == EXAMPLE:
                return [dict(word.split("=") for word in side.split()) for side in (given, said)]
    raise Bad(f"oracle/examples.txt has no line {EXAMPLE}")


def patched(store, patches):
    """A store with the bytes that a text such as `bc:00002000,7fff:10` lays over it."""
    store = list(store)
    for address, laid in (patch.split(":") for patch in patches.split(",")):
        store[int(address, 16):int(address, 16) + len(laid) // 2] = bytes.fromhex(laid)
    return store


def crossings():
    """Makes the call of the example and checks how it ends; how often each pair of crates was crossed."""
    program, (given, said) = Program(), recorded()

    def call(path, *arguments):
        found = program.functions[path]
        if len(found) != 1:
            raise Bad(f"there is no {path}")
        return program.call(None, found[0], arguments)

    def struct(path, **fields):
        """What a parameter or a field of that name takes."""
        return Run(program, program.shapes[path].where).made(program.shapes[path], fields)

    cpu = call("lent::m68k_fresh", int(given["kind"]))  # its status is that of the example
    cpu.fields["flow"].fields.update(pc=int(given["pc"], 16), ppc=int(given["ppc"], 16))
    cpu.fields["regs"].fields["dar"][15] = int(given["a7"], 16)
    bus = struct("memory::Bus", base=0, windows=0, starts=[0] * 8, lengths=[0] * 8, responses=[NO_RESPONSE] * 8, events=0)
    asked = struct("numbers::RawCall", number=TRAP, a=int(given["call"].partition(":")[2], 16), b=0, c=0, d=0, e=0)
    before, log = patched([0] * STORE, given["patch"]), [0] * LOG
    store = list(before)
    program.crossings.clear()
    answer = call("attempts::serve", struct("records::LentCore", cpu=cpu, bus=bus), asked, Part(store, 0, STORE), Part(log, 0, LOG)).fields["said"]

    events = [int(word, 16) for word in re.split("[:,]", said["ev"])]
    ends = {"answer": [answer.fields[name] for name in ("refused", "answer", "events")], "log": log, "store": store}
    wanted = {"answer": [int(said[name]) for name in ("refused", "ans", "nev")], "log": events + [0] * (LOG - len(events)),
              "store": patched(before, said["chg"])}
    if wrong := [name for name in ends if ends[name] != wanted[name]]:
        raise Bad(f"not as the example says: {', '.join(wrong)}")
    return program.crossings


def main():
    parser = argparse.ArgumentParser(description="Counts how often one call crosses crates.")
    parser.add_argument("--most", type=int, metavar="N", help="exit status 1 where it is more than N times")
    most = parser.parse_args().most
    sys.setrecursionlimit(20000)
    try:
        counted = crossings()
    except Bad as error:
        sys.exit(f"crossings: {error}")
    total = sum(count for (_, called), count in counted.items() if called != "std")
    print(f"crossings {total}, and {sum(counted.values()) - total} calls of std\n\n| From | To | Crossings |\n|---|---|---|")
    for (caller, called), count in sorted(counted.items(), key=lambda row: (-row[1], row[0])):
        print(f"| {caller} | {called} | {count} |")
    if most is not None and total > most:
        sys.exit(f"crossings: more than {most}")


if __name__ == "__main__":
    main()
