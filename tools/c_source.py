"""Reads a C source as far as the tools beside the program need it, by its text alone: its functions, the calls in them, and which cell a global stands in.

It isn't the program's reading: it looks at accepted sources, knows no scopes of names, and says nothing where it doesn't know."""
import re
from dataclasses import dataclass, field

TOKEN = re.compile(r"[A-Za-z_]\w*|\d\w*|->|[-+*/%&|<>=!]=|&&|\|\||\+\+|--|<<|>>|\S")
ONE_CELL = {"int", "long", "pthread_t", "pthread_mutex_t", "pthread_cond_t", "pthread_barrier_t", "pthread_rwlock_t"}
TYPE_WORDS = ONE_CELL | {"void", "struct", "const", "volatile", "static"}


@dataclass
class Call:
    name: str
    line: int
    arguments: list  # the text of each


@dataclass
class Function:
    name: str
    line: int
    end: int  # the line of its last brace
    calls: list = field(default_factory=list)
    returns: list = field(default_factory=list)  # the lines of its returns


@dataclass
class Token:
    text: str
    line: int


def without_comments(text):
    """The text with blanks in place of comments, texts, letters and directives: each line keeps its number."""

    def blank(found):
        it = found[0]
        if it[0] in "\"'":
            return it[0] + " " * (len(it) - 2) + it[0]
        return re.sub(r"[^\n]", " ", it)

    pattern = r'//[^\n]*|/\*.*?\*/|"(?:\\.|[^"\\\n])*"|\'(?:\\.|[^\'\\\n])*\'|^[ \t]*#[^\n]*'
    return re.sub(pattern, blank, text, flags=re.S | re.M)


def tokens_of(text):
    return [Token(found[0], number) for number, line in enumerate(text.split("\n"), 1) for found in TOKEN.finditer(line)]


def closing(tokens, at):
    """The position behind what closes the bracket at `at`."""
    pairs = {"(": ")", "{": "}", "[": "]"}
    opened, closes = tokens[at].text, pairs[tokens[at].text]
    depth = 0
    for here in range(at, len(tokens)):
        depth += (tokens[here].text == opened) - (tokens[here].text == closes)
        if depth == 0:
            return here + 1
    return len(tokens)


def arguments_of(tokens, at):
    """The texts between the commas of the parentheses that open at `at`."""
    parts, depth = [[]], 0
    for it in tokens[at + 1 : closing(tokens, at) - 1]:
        depth += (it.text in "([{") - (it.text in ")]}")
        if it.text == "," and depth == 0:
            parts.append([])
        else:
            parts[-1].append(it.text)
    return ["".join(it) for it in parts if it]


def function_of(head, body):
    """The function with these tokens."""
    name = next(it for it, behind in zip(head, head[1:]) if behind.text == "(")
    function = Function(name.text, name.line, body[-1].line)
    for at, it in enumerate(body):
        behind = body[at + 1].text if at + 1 < len(body) else ""
        if it.text == "return":
            function.returns.append(it.line)
        elif behind == "(" and re.match(r"[A-Za-z_]", it.text) and it.text not in ("if", "while", "for", "sizeof", "switch", "return"):
            function.calls.append(Call(it.text, it.line, arguments_of(body, at + 1)))
    return function


def declarations(text):
    """The functions by name, and the tokens of each other declaration at file level."""
    tokens, functions, others, at, start = tokens_of(without_comments(text)), {}, [], 0, 0
    while at < len(tokens):
        word = tokens[at].text
        if word in "([":
            at = closing(tokens, at)
        elif word == "{":
            end, head = closing(tokens, at), tokens[start:at]
            if head and head[-1].text == ")":
                it = function_of(head, tokens[at:end])
                functions[it.name] = it
                start = end
            at = end
        elif word == ";":
            others.append([it.text for it in tokens[start:at]])
            at = start = at + 1
        else:
            at += 1
    return functions, others


def defined_numbers(text):
    return {name: number for name, number in re.findall(r"^[ \t]*#[ \t]*define[ \t]+(\w+)[ \t]+(-?\w+)", text, re.M)}


class Cells:
    """Which global stands in which cell, counted from the first global's. `size` is None where the text is beyond this reading."""

    def __init__(self, text):
        self.numbers, self.structs, self.globals = defined_numbers(text), {}, []
        _, others = declarations(text)
        at = 0
        for words in others:
            if words[:1] == ["struct"] and words[2:3] == ["{"]:
                self.structs[words[1]] = self.members(words[3:-1])
            elif "(" in words[: words.index("=") if "=" in words else None] and "=" not in words:
                continue  # a prototype
            else:
                for name, shape in self.declared(words):
                    size = self.size(shape)
                    if size is None:
                        return
                    self.globals.append((at, name, shape))
                    at += size

    def members(self, words):
        it, part = [], []
        for word in words:
            if word == ";":
                it += self.declared(part)
                part = []
            else:
                part.append(word)
        return it

    def declared(self, words):
        """Each name that a declaration has, with its shape: its type's word, and the lengths of its array."""
        at, base = 0, None
        while at < len(words) and words[at] in TYPE_WORDS:
            if words[at] == "struct":
                at += 1
                base = words[at]
            elif words[at] not in ("const", "volatile", "static"):
                base = words[at]
            at += 1
        parts, depth = [[]], 0
        for word in words[at:]:
            depth += (word in "([{") - (word in ")]}")
            if word == "," and depth == 0:
                parts.append([])
            else:
                parts[-1].append(word)
        return [self.declarator(it[: it.index("=") if "=" in it else None], base) for it in parts if it]

    def declarator(self, words, base):
        names = [it for it in words if re.match(r"[A-Za-z_]", it)]
        lengths = re.findall(r"\[([^\]]*)\]", " ".join(words))
        kind = "pointer" if "*" in words else base
        return (names[0] if names else "?"), (kind, [self.number(it) for it in lengths])

    def number(self, text):
        """The value of a constant of numbers, or None."""
        words = [self.numbers.get(it, it) for it in text.split()]
        if not words or not all(re.fullmatch(r"-?(0[xX][0-9a-fA-F]+|\d+)[lL]*|[-+*/()]", it) for it in words):
            return None
        words = [re.sub(r"[lL]+$", "", it) for it in words]
        words = ["0o" + it if re.fullmatch(r"0\d+", it) else it for it in words]
        try:
            return int(eval(" ".join("//" if it == "/" else it for it in words), {"__builtins__": {}}))
        except (SyntaxError, TypeError, ValueError, ZeroDivisionError):
            return None

    def size(self, shape):
        kind, lengths = shape
        if kind in self.structs:
            one = [self.size(it) for _, it in self.structs[kind]]
            size = None if None in one else sum(one)
        else:
            size = 1 if kind == "pointer" or kind in ONE_CELL else None
        for length in lengths:
            size = None if size is None or length is None else size * length
        return size

    def inside(self, shape, at):
        """What stands behind a name for the cell at `at` of this shape."""
        kind, lengths = shape
        if lengths:
            one = self.size((kind, lengths[1:]))
            return f"[{at // one}]{self.inside((kind, lengths[1:]), at % one)}"
        for name, member in self.structs.get(kind, []):
            if at < self.size(member):
                return f".{name}{self.inside(member, at)}"
            at -= self.size(member)
        return ""

    def name(self, cell):
        """The name of what stands in this cell, or None."""
        for start, name, shape in self.globals:
            if start <= cell < start + self.size(shape):
                return name + self.inside(shape, cell - start)
        return None


@dataclass
class Source:
    lines: list
    functions: dict
    cells: Cells

    def reached(self, root):
        """The functions that a function calls, itself and others between included."""
        seen, todo = set(), [root]
        while todo:
            name = todo.pop()
            if name in self.functions and name not in seen:
                seen.add(name)
                todo += [it.name for it in self.functions[name].calls]
        return [self.functions[it] for it in seen]

    def roots(self):
        """The functions that threads are started in, in the order of the text."""
        calls = [it for function in self.functions.values() for it in function.calls if it.name == "pthread_create" and len(it.arguments) == 4]
        return list(dict.fromkeys(it.arguments[2].lstrip("&") for it in calls))


def read(text):
    """The source that a text is."""
    functions, _ = declarations(text)
    return Source(text.split("\n"), functions, Cells(text))
