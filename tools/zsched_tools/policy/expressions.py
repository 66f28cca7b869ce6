"""The expressions of a source in Scala or TypeScript, as trees: calls with their receivers, functions, blocks. What
isn't understood is a Broken node, with what is. Names have the scope in which they are looked up. The source is never
run."""
import dataclasses
import re
from fractions import Fraction
from typing import NamedTuple

DEEPEST = 150
KEYS = {
    "scala": "abstract case catch class def do else enum extends final finally for given if implicit import lazy match"
             " new object override package private protected return sealed then throw trait try type val var while with"
             " yield",
    "typescript": "abstract async await case catch class const declare default do else export extends finally for"
                  " function if implements import interface let new private protected public readonly return static"
                  " switch throw try type typeof var while yield"}
_TEXTS = {"scala": r'(?:[^\W\d]\w*)?(?:"""|")', "typescript": "[\"'`]"}
_TOKEN = r"""(?P<line>\n)|(?P<space>[^\S\n]+|//[^\n]*)|(?P<comment>/\*)|(?P<text>%s)
|(?P<char>'(?:\\u[0-9a-fA-F]{4}|\\.|[^'\\\n])')
|(?P<num>0[xX][0-9a-fA-F_]{1,40}[lL]?|[0-9][0-9_]*(?:\.[0-9][0-9_]*)?(?:[eE][+-]?[0-9]+)?[lLfFdD]?)
|(?P<id>[^\W\d][\w$]*|\$[\w$]*|`[^`\n]+`)
|(?P<op>(?:(?!//|/\*)[!\#%%&*+\-/:<=>?@\\^|~⇒←])+)|(?P<sign>[()\[\]{},;.])|(?P<odd>.)"""
_FORMS = {name: re.compile(_TOKEN.replace("\n|", "|") % text, re.S) for name, text in _TEXTS.items()}
_MODIFIERS = set("""private protected final lazy implicit override sealed abstract inline export default declare async
static readonly public""".split())
_STATEMENTS = {"val", "var", "def", "lazy", "given", "object", "class", "import"}
_CONTROL = {"if", "for", "while", "do", "try", "switch", "return", "throw", "await", "export", "default", "async",
            "typeof", "yield"}
_PARTS = ("else", "then", "yield", "do", "catch", "finally")
_PREFIXES = {"-", "+", "!", "~"}
_NO_OPERATORS = {"=", "=>", "<-", ":", "@", "_", "?", "#", "<:", ">:"}
_PAIRS = {"(": ")", "[": "]", "{": "}"}
_STARTS = {"id", "num", "text", "char", "(", "{"}


class Odd(Exception):
    """A source isn't understood. The arguments are a place and what is wrong."""


class Token(NamedTuple):
    """A token, or a pair of parentheses, brackets or braces with the tokens `inside`. `lines` is the number of the ends
    of lines before it."""
    kind: str
    text: str
    at: int
    end: int
    lines: int
    inside: list = ()


def _text_end(source, at, mark, is_filled):
    """Where a text ends that begins before `at`. In `${ .. }` of a text that is filled there is code, with texts."""
    inside = [mark]
    while inside:
        mark = inside[-1]
        fill = r"\$\{|" if is_filled else ""
        form = {"{": r'"""|["{}]', '"""': fill + '"{3,}', "`": rf"{fill}\\.|`"}.get(mark, rf"{fill}\\.|\n|{mark}")
        if not (found := re.compile(form, re.S).search(source, at)) or found[0] == "\n":
            raise Odd(at, "a text isn't closed")
        at, sign = found.end(), found[0]
        if sign == "${" or mark == "{" and sign != "}":
            inside.append(sign[-1] if sign == "${" else sign)
        elif sign[0] != "\\":
            inside.pop()
    return at


def _comment_end(source, at, is_nested):
    depth = 1
    for found in re.compile(r"/\*|\*/").finditer(source, at):
        depth += 1 if found[0] == "/*" and is_nested else -1 if found[0] == "*/" else 0
        if depth == 0:
            return found.end()
    raise Odd(at - 2, "a comment isn't closed")


def tokens(source, language):
    """The tokens of a source, in pairs of parentheses."""
    form, at, lines, levels, opened = _FORMS[language], 0, 0, [[]], []
    while at < len(source):
        found = form.match(source, at)
        kind, text, begin, at = found.lastgroup, found[0], at, found.end()
        if kind == "line":
            lines += 1
        if kind == "comment":
            at = _comment_end(source, at, language == "scala")
        if kind in ("line", "space", "comment"):
            continue
        if kind == "text":
            mark = '"""' if text.endswith('"""') else text[-1]
            is_filled = text != mark or mark == "`"
            at = _text_end(source, at, mark, is_filled)
            text = "" if is_filled else source[begin + len(mark):at - len(mark)]
        text = {"⇒": "=>", "←": "<-"}.get(text, text)
        if kind == "id":
            kind, text = "key" if text in KEYS[language].split() else "id", text.strip("`")
        if kind == "sign" and text in _PAIRS:
            opened.append(Token(text, text, begin, begin, lines))
            levels.append([])
        elif kind == "sign" and text in ")]}":
            if not opened or _PAIRS[opened[-1].text] != text:
                raise Odd(begin, f"{text} closes nothing")
            inside, pair = levels.pop(), opened.pop()
            levels[-1].append(pair._replace(end=at, inside=inside))
        else:
            levels[-1].append(Token(text if kind == "sign" else kind, text, begin, at, lines))
        lines = 0
    if opened:
        raise Odd(opened[-1].at, f"{opened[-1].text} isn't closed")
    return levels[0]


class Scope:
    """The names that a piece of the source defines, each with its definitions."""

    def __init__(self, outer=None):
        self.outer, self.names = outer, {}

    def find(self, name):
        """The definitions of a name, the innermost ones."""
        scope = self
        while scope is not None and name not in scope.names:
            scope = scope.outer
        return scope.names[name] if scope else []


@dataclasses.dataclass(eq=False)
class Node:
    """A piece of a source, at a place."""
    at: int

    def children(self):
        return ()


@dataclasses.dataclass(eq=False)
class Number(Node):
    value: Fraction | None = None


@dataclasses.dataclass(eq=False)
class Text(Node):
    value: str = ""


@dataclasses.dataclass(eq=False)
class Call(Node):
    """A name, a member of a receiver, or an operator, with lists of arguments: `of.name(..)(..)`. `end` is that of its
    source, which begins with the name."""
    of: Node | None = None
    name: str = ""
    lists: list = ()
    scope: Scope | None = None
    depth: int = 1
    end: int = 0

    def children(self):
        return [*([self.of] if self.of else []), *(it for items in self.lists for it in items)]


@dataclasses.dataclass(eq=False)
class Named(Node):
    """An argument with a name."""
    name: str = ""
    value: Node = None

    def children(self):
        return [self.value]


@dataclasses.dataclass(eq=False)
class Group(Node):
    """A tuple, or the unit."""
    items: list = ()

    def children(self):
        return self.items


@dataclasses.dataclass(eq=False)
class Function(Node):
    """A function with one expression. A parameter is a name, a list of parameters, or None if it is another pattern."""
    parameters: list = ()
    body: Node = None

    def children(self):
        return [self.body]


@dataclasses.dataclass(eq=False)
class Definition(Node):
    """What a name is: an expression, one that depends on arguments, or the scope of an object."""
    name: str = ""
    value: Node | None = None
    is_plain: bool = True
    inner: Scope | None = None

    def children(self):
        return [self.value] if self.value else []


@dataclasses.dataclass(eq=False)
class Block(Node):
    """Statements, the last of which is the value."""
    items: list = ()

    def children(self):
        return self.items


@dataclasses.dataclass(eq=False)
class Broken(Node):
    """What isn't understood, why, and what is understood of it. `names` are those beside it that have members."""
    why: str = ""
    items: list = ()
    names: list = ()

    def children(self):
        return self.items


def precedence(operator):
    """How tightly an operator of Scala binds, by its first character."""
    if operator[-1] == "=" and operator[0] != "=" and operator not in ("<=", ">=", "!="):
        return 0
    order = ["|", "^", "&", "=!", "<>", ":", "+-", "*/%"]
    is_word = operator[0].isalnum() or operator[0] == "_"
    return 1 if is_word else next((at for at, signs in enumerate(order, 2) if operator[0] in signs), 10)


def number_of(text):
    """The value of a number, or None if it is too long, as 1e9999 is, or has no digit."""
    text = text.replace("_", "").rstrip("lL")
    if text[:2] in ("0x", "0X"):
        return Fraction(int(text, 16)) if 2 < len(text) <= 40 else None
    return None if len(text) > 40 or re.search("[eE][+-]?[0-9]{4}", text) else Fraction(text.rstrip("fFdD"))


class Parser:
    """Reads statements. `found` is the list of tokens, `at` the place in it, `is_open` says that lines end statements.
    A definition is put into the scope as it is read. `read` has what was read of each pair of parentheses, so that none
    is read twice."""

    def __init__(self, language, found, scope, is_open=True, end=0, outer=None):
        self.language, self.found, self.scope, self.is_open, self.at, self.end = language, found, scope, is_open, 0, end
        self.depth, self.read, self.imports = (outer.depth + 1, outer.read, outer.imports) if outer else (0, {}, [])
        if self.depth > DEEPEST:
            raise Odd(found[0].at if found else end, f"this is nested deeper than {DEEPEST}")

    def peek(self, by=0):
        place = self.at + by
        return self.found[place] if place < len(self.found) else Token("end", "", self.end, self.end, 1)

    def next(self):
        self.at += 1
        return self.peek(-1)

    def is_next(self, *texts, by=0):
        token = self.peek(by)
        return token.kind in ("op", "key", "id", ",", ";", ".") and token.text in texts

    def inner(self, pair, scope=None, is_open=False):
        """The parser of what a pair of parentheses has."""
        return Parser(self.language, pair.inside, scope or Scope(self.scope), is_open, pair.end - 1, self)

    def once(self, pair, read):
        """What was read of a pair of parentheses, or is by a function."""
        if pair.at not in self.read:
            self.read[pair.at] = read()
        return self.read[pair.at]

    def inside(self, pair):
        """The statements in a pair of parentheses, in the scope around it."""
        return as_list(self.once(pair, lambda: self.inner(pair, self.scope, pair.kind == "{").statements()))

    def define(self, name, at, value=None, is_plain=True, inner=None):
        self.scope.names.setdefault(name, []).append(made := Definition(at, name, value, is_plain, inner))
        return made

    # Statements.

    def statements(self):
        """All statements. One that isn't understood is Broken, up to the next line that can begin another one."""
        found = []
        while self.peek().kind != "end":
            begin = self.at
            try:
                found += self.statement()
                if self.peek().kind not in ("end", ";", ",") and not (self.is_open and self.peek().lines):
                    raise Odd(self.peek().at, "this isn't understood")
            except Odd as odd:
                found.append(self.broken(begin, *odd.args))
            if self.peek().kind in (";", ","):
                self.at += 1
        return found

    def broken(self, begin, at, why):
        """A statement or an argument that isn't understood: what is in its parentheses is read."""
        self.at = max(self.at, begin + 1)
        while self.peek().kind not in ("end", ";", ",") and not (self.is_open and self.peek().lines):
            self.at += 1
        found = self.found[begin:self.at]
        items = [inner for it in found if it.kind in ("(", "{") for inner in self.inside(it)]
        names = [it for it, dot in zip(found, found[1:]) if it.kind == "id" and dot.kind == "."]
        return Broken(at, why, items, names)

    def whole(self):
        """The expression of a definition, which may be Broken. Statements without braces, as Scala 3 has them, are read
        after it."""
        begin = self.at
        if self.peek().lines and self.peek().kind == "key" and self.peek().text in _STATEMENTS:
            return None
        try:
            made = self.expression()
            if self.peek().kind not in ("end", ";", ",") and not (self.is_open and self.peek().lines):
                raise Odd(self.peek().at, "this isn't understood")
            return made
        except Odd as odd:
            return self.broken(begin, *odd.args)

    def skip_modifiers(self):
        while True:
            token, after = self.peek(), self.peek(1)
            if self.is_next("@"):
                self.at += 2
            elif token.text in _MODIFIERS and after.kind in ("id", "key", "[") or (
                    token.text == "case" and after.text in ("class", "object")):
                self.at += 1
            else:
                return
            while self.peek().kind in ("[", "(") and not self.peek().lines:
                self.at += 1

    def statement(self):
        self.skip_modifiers()
        word = self.peek().text if self.peek().kind == "key" else ""
        if word in ("val", "var", "const", "let"):
            return self.value()
        if word in ("def", "function"):
            return self.method()
        if word in ("object", "class", "trait", "enum", "interface"):
            return self.template()
        if word == "given":
            self.next()
            name = self.peek().text if self.is_next(":", by=1) else word
            self.skip_type("=", "with")
            self.at += self.is_next("=", "with")
            return [self.define(name, self.peek().at, self.whole())]
        if word in ("import", "package", "type"):
            begin = self.at
            while self.peek().kind not in ("end", ";") and (self.at == begin or not self.peek().lines):
                if word == "package" and self.peek().kind == "{":
                    return self.inside(self.next())
                self.at += 1
            self.imports.append(self.found[begin:self.at])
            return []
        if word == "case":
            self.pattern("=>")
            return []
        made = self.expression()
        if self.is_next("<-", "="):
            self.next()
            for name in names_of(made):
                self.define(name, made.at)
            return [self.expression()]
        return [made]

    def pattern(self, end):
        """Skips a pattern and defines its names as unknown."""
        self.next()
        while not self.is_next(end):
            if self.peek().kind == "end":
                raise Odd(self.peek().at, "this isn't understood")
            token = self.next()
            for it in [token, *token.inside]:
                if it.kind == "id" and it.text[0].islower():
                    self.define(it.text, it.at)
        self.next()

    def skip_type(self, *ends):
        """Skips a type, up to one of these texts or a line's end."""
        while not self.is_next(*ends) and self.peek().kind not in ("end", ",", ";") and not (
                self.is_open and self.peek().lines and self.peek(-1).kind != "op"):
            self.at += 1

    def value(self):
        first = self.next()
        name = self.peek()
        if name.kind != "id" or not self.is_next("=", ":", by=1):
            self.pattern("=")
            return [self.expression()]
        self.next()
        if self.is_next(":"):
            self.skip_type("=")
        if not self.is_next("="):
            return [self.define(name.text, name.at)]
        self.next()
        is_plain = first.text != "var"
        return [self.define(name.text, name.at, self.whole(), is_plain)]

    def method(self):
        self.next()
        name, outer = self.next(), self.scope
        self.scope, is_plain = Scope(outer), True
        try:
            while self.peek().kind in ("[", "(") and not self.peek().lines:
                pair = self.next()
                is_plain = is_plain and (pair.kind == "[" or not pair.inside)
                self.parameters(pair)
            if self.is_next(":"):
                self.skip_type("=", "{")
            if self.is_next("="):
                self.next()
            elif self.peek().kind != "{" or self.language == "scala":
                return []
            made = Definition(name.at, name.text, self.whole(), is_plain)
        finally:
            self.scope = outer
        outer.names.setdefault(name.text, []).append(made)
        return [made]

    def parameters(self, pair):
        """The names of parameters are unknown."""
        for token, after in zip(pair.inside, [*pair.inside[1:], None]):
            if token.kind == "id" and (after is None or after.text in (":", ",", "?", "=")):
                self.scope.names.setdefault(token.text, []).append(Definition(token.at, token.text))

    def template(self):
        """A class or an object: its body has a scope, which an object's name leads to."""
        self.next()
        name, inner, made = self.peek(), Scope(self.scope), []
        while self.peek().kind not in ("end", "{", ";", ",") and not (self.is_open and self.peek().lines):
            token = self.next()
            if token.kind == "(":
                self.scope, outer = inner, self.scope
                self.parameters(token)
                self.scope = outer
                made += self.once(token, self.inner(token, inner).statements)
        if self.peek().kind == "{":
            made += self.once(self.peek(), self.inner(self.peek(), inner, True).statements)
            self.next()
        self.define(name.text, name.at, None, False, inner)
        return [Block(name.at, made)]

    # Expressions.

    def expression(self):
        if self.is_function():
            return self.function()
        word = self.peek().text if self.peek().kind == "key" else ""
        if word == "function":
            self.at += 2 if self.is_next("*", by=1) else 1
            self.at += self.peek().kind == "(" and self.peek(1).kind == "{"
            return self.infix(0)
        made = self.control(word) if word in _CONTROL else self.infix(0)
        while self.is_next("match") or self.is_next(":") and not self.is_open:
            at = self.next().at
            if self.peek(-1).text == ":":
                self.skip_type("=")
                made = Call(at, made, ":", [], self.scope)
            else:
                made = Broken(at, "which case is taken can't be known", [made, *as_list(self.block(self.next()))])
        return made

    def is_function(self):
        """Whether a function begins here: `x =>`, `(x, y) =>`, `x: Int =>`."""
        return self.peek().kind in ("id", "(") and self.is_next("=>", by=1)

    def function(self):
        pair, outer = self.next(), self.scope
        self.next()
        self.scope = Scope(outer)
        try:
            if pair.kind == "(":
                parts = split(pair.inside)
                parameters = [pattern_of(it) if it and it[0].kind == "[" else it[0].text if it and it[0].kind == "id"
                              else None for it in parts]
                self.parameters(pair)
            else:
                parameters = [pair.text]
                self.define(pair.text, pair.at)
            if self.peek().kind == "{" and self.language == "typescript":
                return Function(pair.at, parameters, self.block(self.next()))
            rest = self.statements() if self.is_open else [self.expression()]
            return Function(pair.at, parameters, rest[0] if len(rest) == 1 else Block(pair.at, rest))
        finally:
            self.scope = outer

    def control(self, word):
        """An expression whose value only a run can know: what is in it is read."""
        at, items = self.next().at, []
        if word in ("return", "throw", "await", "export", "default", "async", "typeof", "yield"):
            self.at += self.is_next("*")
            made = self.expression() if self.peek().kind not in ("end", ";") else Block(at)
            return Broken(at, f"what {word} does can't be known", [made]) if word == "throw" else made
        if word in ("if", "while", "for", "switch", "catch") and self.peek().kind in ("(", "{"):
            items += self.inside(self.next())
        elif word in ("if", "while", "for"):
            items.append(self.expression())
        while True:
            self.at += self.is_next(*_PARTS)
            items.append(self.expression())
            if not self.is_next(*_PARTS):
                return Broken(at, "which branch is taken can't be known", items)

    def infix(self, least):
        made = self.prefix()
        while True:
            token = self.peek()
            is_operator = token.kind in ("op", "id") and token.text not in _NO_OPERATORS
            leads = token.kind == "op" and self.peek(1).at > token.end and not self.peek(1).lines
            if not is_operator or self.is_open and token.lines and not leads or (
                    level := precedence(token.text.replace("!==", "!="))) < max(least, 1):
                return made
            self.next()
            after = self.peek()
            lists = []
            if after.kind == "[":
                after = self.next() and self.peek()
            if after.kind in _STARTS or after.kind == "key" and after.text in ("new",) or after.text in _PREFIXES:
                right = self.function() if self.is_function() else self.infix(level + (token.text[-1] != ":"))
                lists = [right.items if isinstance(right, Group) and right.items else [right]]
            elif token.kind == "op":
                raise Odd(after.at, f"something has to follow {token.text}")
            made = self.call(token.at, made, token.text, lists)

    def call(self, at, of, name, lists):
        depth = 1 + max((getattr(it, "depth", 0) for it in [of, *(lists[0] if lists else [])]), default=0)
        if depth > DEEPEST:
            raise Odd(at, f"this is nested deeper than {DEEPEST}")
        return Call(at, of, name, list(lists), self.scope, depth, self.peek(-1).end)

    def prefix(self):
        token = self.peek()
        if token.kind == "op" and token.text in _PREFIXES:
            self.next()
            return self.call(token.at, self.prefix(), f"unary {token.text}", [])
        made = self.primary()
        while True:
            token = self.peek()
            if token.kind == "." and self.peek(1).kind in ("id", "op", "key"):
                self.next()
                name = self.next()
                made = self.call(name.at, made, name.text, [])
            elif self.language == "typescript" and token.kind == "[" and [it.kind for it in token.inside] == ["num"]:
                made = self.call(self.next().at, made, f"_{int(token.inside[0].text) + 1}", [])
            elif self.language == "typescript" and self.is_next("<") and self.skip_types():
                continue
            elif token.kind in ("(", "{", "[") and not (token.lines and (self.is_open or token.kind != "{")) and (
                    token.kind != "{" or isinstance(made, Call) and self.language == "scala"):
                self.next()
                if token.kind != "[":
                    made = self.applied(made, token)
            else:
                return made

    def skip_types(self):
        """Skips the types of a call in angles, as `<number>`; says whether they are there."""
        size = next((by for by in range(1, 9) if self.peek(by).text == ">"), 0)
        is_there = size and self.peek(size + 1).kind == "(" and all(
            self.peek(by).kind in ("id", ",", ".", "[") for by in range(1, size))
        self.at += size + 1 if is_there else 0
        return is_there

    def applied(self, made, pair):
        """A call with one more list of arguments."""
        items = [self.block(pair)] if pair.kind == "{" else self.arguments(pair)
        if isinstance(made, Call):
            return dataclasses.replace(made, lists=[*made.lists, items], end=pair.end)
        return self.call(pair.at, made, "apply", [items])

    def arguments(self, pair):
        """The arguments in parentheses. Each may have a name, and be Broken."""
        return as_list(self.once(pair, lambda: list(self.inner(pair, self.scope).items())))

    def items(self):
        while self.peek().kind != "end":
            begin = self.at
            name = self.peek() if self.peek().kind == "id" and self.is_next("=", by=1) else None
            self.at += 2 if name else 0
            try:
                value = lifted(self.expression())
                if self.peek().kind not in (",", "end"):
                    raise Odd(self.peek().at, "this isn't understood")
            except Odd as odd:
                value = self.broken(begin, *odd.args)
            yield Named(name.at, name.text, value) if name else value
            self.at += 1

    def primary(self):
        token = self.next()
        if token.kind == "num":
            return Number(token.at, number_of(token.text))
        if token.kind in ("text", "char"):
            return Text(token.at, token.text)
        if token.kind == "id":
            return Call(token.at, None, token.text, [], self.scope, end=token.end)
        if token.kind == "(":
            items = self.arguments(token)
            return items[0] if len(items) == 1 else Group(token.at, items)
        if token.kind == "{":
            return self.block(token)
        if token.text == "new":
            made = self.prefix()
            return Broken(token.at, "new can't be known", [made])
        raise Odd(token.at, "an expression has to be here")

    def block(self, pair):
        """What is in braces: a function, cases, or statements."""
        if pair.kind != "{":
            raise Odd(pair.at, "braces have to be here")
        return self.once(pair, lambda: self.inner(pair, is_open=True).body(pair))

    def body(self, pair):
        cases = [it for it in pair.inside if it.kind == "key" and it.text == "case"]
        if len(cases) > 1:
            return Broken(pair.at, "which case is taken can't be known", self.statements())
        is_typed = self.peek().kind == "id" and self.is_next(":", by=1) and any(it.text == "=>" for it in pair.inside)
        if cases and pair.inside[0] is cases[0] or is_typed:
            end = next((at for at, it in enumerate(pair.inside) if it.text == "=>" and it.kind == "op"), 0)
            parameter = self.peek().text if is_typed else pattern_of(pair.inside[1:end])
            self.pattern("=>")
            return Function(pair.at, [parameter], one(pair.at, self.statements()))
        if self.is_function():
            return self.function()
        return lifted(one(pair.at, self.statements()))


def one(at, items):
    """Statements as one node."""
    return items[0] if len(items) == 1 and not isinstance(items[0], Definition) else Block(at, items)


def as_list(made):
    return made if isinstance(made, list) else [made]


def holes(made):
    """The places of an expression that are `_`, outside of functions in it."""
    if isinstance(made, Call) and made.of is None and made.name == "_":
        yield made
    elif not isinstance(made, Function):
        for it in made.children():
            yield from holes(it)


def lifted(made):
    """An expression, which is a function of each `_` in it."""
    found = [] if isinstance(made, Call) and made.of is None and made.name == "_" and not made.lists else [*holes(made)]
    for number, it in enumerate(found):
        it.name = f"_ {number}"
    return Function(made.at, [it.name for it in found], made) if found else made


def split(inside):
    """The tokens between commas."""
    parts = [[]]
    for it in inside:
        parts[-1].append(it) if it.kind != "," else parts.append([])
    return parts


def pattern_of(inside):
    """The parameter that a pattern is: a name, a list of patterns, or None."""
    if inside and inside[0].kind in ("(", "["):
        return [pattern_of(it) for it in split(inside[0].inside)]
    return inside[0].text if inside and inside[0].kind == "id" and (len(inside) == 1 or inside[1].text == ":") and (
        inside[0].text[0].islower() or inside[0].text == "_" and len(inside) == 1) else None


def names_of(made):
    """The names that a pattern has."""
    if isinstance(made, Call) and made.of is None and not made.lists:
        yield made.name
    for it in made.children():
        yield from names_of(it)


def read(source, language):
    """The statements of a source, the tokens of each of its imports, and all its tokens. Odd has a place at which it
    can't be read."""
    parser = Parser(language, tokens(source, language), Scope(), True, len(source))
    return parser.statements(), parser.imports, parser.found
