"""Reads definitions of specs/*.antt and makes functions in Python of them, to compute with what the contracts say.

A number is an int, a truth value a bool, a pair a tuple. Lists, records and values of `data` types are nodes, of which
equal ones are the same object, so that each function keeps what it gave for each argument. What is of the kit's
standard library stands in library.py. A relation is a function that says whether it holds."""
import re
from pathlib import Path

import library

TOP = Path(__file__).resolve().parents[2]
TOKEN = re.compile(r"\s+|--[^\n]*|(?P<token>\[\]|\|\||[↦λ(){}\[\];,|]|[^\s(){}\[\],.;λ|]+|\.)")
NAME = r"[^\s(){}\[\],.;λ|]+"
USE = re.compile(rf"^use Rattle\.([\w.\-]+)\.\{{(.*?)\}}", re.S)
# how closely an operator binds, and whether it binds to the right
BINDS = {"→": (0, True), "⊎": (1, True), "×": (2, True), "||": (3, True), "&&": (4, True), "==": (5, False),
         "≡": (5, False), "≤": (5, False), "<": (5, False), "∷": (6, True), "++": (6, True),
         "+": (7, False), "-": (7, False), "-ℤ": (7, False), "*": (8, False), "/": (8, False), "%": (8, False),
         "^": (9, True)}
CLOSERS = {")", "[", "]", "{", "}", ";", ",", "|", "↦", "then", "else", "in", "=", ".", ":"}
CONSTRUCTORS = {"[]": 0, "∷": 2, "zero": 0, "suc": 1, "true": 0, "false": 0, "None": 0, "Some": 1, "Ok": 1, "Err": 1,
                "pos": 1, "negsuc": 1}


class Unread(Exception):
    """What this reader does not read."""


def tokens_of(text):
    """The tokens, where a projection such as `.next` is one."""
    found, end = [], -1
    for match in TOKEN.finditer(text):
        token = match["token"]
        if token is None:
            continue
        touches = match.start() == end
        if found and found[-1] == ". " and touches:
            found[-1] = "." + token
        elif token == ".":
            found.append(". " if touches else ".")
        else:
            found.append(token)
        end = match.end()
    return ["." if token == ". " else token for token in found]


class Reader:
    """Expressions and patterns from tokens, as tuples whose first part says what they are."""

    def __init__(self, tokens):
        self.tokens, self.at = tokens, 0

    def next(self):
        return self.tokens[self.at] if self.at < len(self.tokens) else None

    def take(self, wanted=None):
        token = self.next()
        if token is None or wanted is not None and token != wanted:
            raise Unread(f"{wanted} is wanted, not {token}, in {' '.join(self.tokens)}")
        self.at += 1
        return token

    def skip_to(self, *ends):
        """Leaves out a type."""
        depth = 0
        while self.next() is not None and (depth or self.next() not in ends):
            depth += {"(": 1, "{": 1, "[": 1, ")": -1, "}": -1, "]": -1}.get(self.take(), 0)

    def is_binder(self):
        """Whether a name with its type in parentheses comes: of all such values, or of some."""
        at = self.at + 1
        while at < len(self.tokens) and re.fullmatch(r"\w+", self.tokens[at]):
            at += 1
        return self.next() == "(" and at > self.at + 1 and self.tokens[at:at + 1] == [":"]

    def quantified(self):
        self.take("(")
        names = []
        while self.next() != ":":
            names.append(self.take())
        start = self.at + 1
        self.skip_to(")")
        kind = " ".join(self.tokens[start:self.at])
        self.take(")")
        if self.next() != "(":
            self.take("→")  # what there is some value of is not read
        return ("every", names, kind, self.expression())

    def expression(self, least=0):
        token = self.next()
        if self.is_binder():
            return self.quantified()
        if token == "let":
            return self.binding()
        if token == "if":
            return ("if", *(self.after(word) for word in ("if", "then", "else")))
        if token == "λ":
            return self.function()
        if token == "elim":
            return self.cases()
        left = self.application()
        while self.next() in BINDS and BINDS[self.next()][0] >= least:
            operator = self.take()
            closeness, is_right = BINDS[operator]
            left = ("operator", operator, left, self.expression(closeness if is_right else closeness + 1))
        return left

    def after(self, word):
        self.take(word)
        return self.expression()

    def binding(self):
        self.take("let")
        name = self.take()
        if self.next() == ":":
            self.skip_to("=")
        value = self.after("=")
        return ("let", name, value, self.after("in"))

    def function(self):
        self.take("λ")
        names = []
        while self.next() != ".":
            if self.next() == "(":
                self.take("(")
                names.append(self.take())
                self.skip_to(")")
                self.take(")")
            else:
                names.append(self.take())
        body = self.after(".")
        for name in reversed(names):
            body = ("λ", name, body)
        return body

    def cases(self):
        self.take("elim")
        value = self.application()
        self.take("[")
        cases = []
        while self.next() != "]":
            if self.next() == "|":
                self.take("|")
            pattern = self.pattern()
            cases.append((pattern, self.after("↦")))
        self.take("]")
        return ("elim", value, cases)

    def application(self):
        parts = [self.atom()]
        while self.next() is not None and self.next() not in BINDS and self.next() not in CLOSERS:
            if self.next() in ("λ", "if", "let", "elim"):
                break
            parts.append(self.atom())
        return parts[0] if len(parts) == 1 else ("call", parts[0], parts[1:])

    def atom(self):
        token = self.take()
        if token == "(":
            parts = [self.expression()]
            while self.next() == ",":
                parts.append(self.after(","))
            self.take(")")
            part = parts[0] if len(parts) == 1 else ("pair", parts)
        elif token == "record":
            part = self.fields()
        elif token.isdigit():
            part = ("number", int(token))
        else:
            part = ("name", token)
        while self.next() is not None and len(self.next()) > 1 and self.next()[0] == ".":
            part = ("field", part, self.take()[1:])
        return part

    def fields(self):
        base = None if self.next() == "{" else self.atom()
        self.take("{")
        fields = []
        while self.next() != "}":
            name = self.take()
            fields.append((name, self.after("=")))
            if self.next() == ";":
                self.take(";")
        self.take("}")
        return ("record", base, fields)

    def pattern(self):
        parts = [self.part_of_pattern()]
        while self.next() is not None and self.next() not in ("∷", ",", ")", "↦", "="):
            parts.append(self.part_of_pattern())
        first = parts[0] if len(parts) == 1 else ("made", parts[0][1], parts[1:])
        if self.next() == "∷":
            self.take("∷")
            return ("made", "∷", [first, self.pattern()])
        return first

    def part_of_pattern(self):
        token = self.take()
        if token != "(":
            return ("number", int(token)) if token.isdigit() else ("named", token)
        parts = [self.pattern()]
        while self.next() == ",":
            self.take(",")
            parts.append(self.pattern())
        self.take(")")
        return parts[0] if len(parts) == 1 else ("pair", parts)


class Module:
    """A file of definitions: the clauses of each, constructors with their arities, and where other names are from."""

    def __init__(self, path):
        self.clauses, self.constructors, self.uses, self.relations = {}, {}, {}, {}
        for chunk in chunks_of(path.read_text()):
            self.read(chunk)

    def read(self, chunk):
        if match := USE.match(chunk):
            for word in match[2].split(","):
                name, _, other = word.strip().partition(" as ")
                self.uses[(other or name).strip("◌")] = match[1], name.strip("◌")
        elif re.match(r"(?:pub )?(?:record|data) ", chunk):
            self.read_type(chunk)
        elif re.match(rf"(?:(?:abbrev|pub) )*{NAME} :", chunk):
            name = re.match(rf"(?:(?:abbrev|pub) )*({NAME}) :", chunk)[1]
            self.clauses.setdefault(name, [])
        elif chunk.split()[0] in self.clauses:
            self.clauses[chunk.split()[0]].append(chunk)

    def read_type(self, chunk):
        kind, name = re.match(rf"(?:pub )?(record|data) ({NAME})", chunk).groups()
        if kind == "record":
            head, _, fields = chunk.partition(" where\n")
            names = [one for group in re.findall(r"\(([^():]*) : ", head) for one in group.split()]
            found = [field for field in re.split(r"(?:^|\n)  (?=pub )", fields) if field.strip()]
            self.relations[name] = names, [tuple(field[4:].split(" : ", 1)) for field in found]
        else:
            for part in re.split(r"\n(?=  \S)", re.sub(r"--[^\n]*", "", chunk))[1:]:
                if " : " in part:
                    self.constructors[part.split()[0]] = arity_of(part.split(" : ", 1)[1])


def chunks_of(text):
    """The parts of a file that begin at the margin."""
    chunk = []
    for line in text.splitlines():
        if chunk and line[:1].strip(" )}]"):
            yield "\n".join(chunk)
            chunk = []
        if line.strip() and not line.lstrip().startswith("--"):
            chunk.append(line)
    if chunk:
        yield "\n".join(chunk)


def arity_of(kind):
    """How many arguments a type takes: those named in parentheses, and those before an arrow."""
    count, depth, start = 0, 0, 0
    for place, letter in enumerate(kind):
        depth += {"(": 1, ")": -1}.get(letter, 0)
        if letter == "→" and not depth:
            groups = re.findall(r"\(([^():]*) :", kind[start:place])
            count += sum(len(group.split()) for group in groups) or 1
            start = place + 1
    return count


class Definitions:
    """The definitions of the repository's crates. `call(MODULE, NAME)` gives one as a function."""

    def __init__(self, top=TOP, changed=None):
        self.top, self.changed = top, changed or {}
        self.modules, self.places, self.space, self.memory = {}, {}, dict(library.SPACE), []

    def module(self, name):
        if name not in self.modules:
            crate, _, rest = name.partition(".")
            path = self.changed.get(name) or self.top / "crates" / crate / (rest.replace(".", "/") + ".antt")
            self.modules[name] = Module(path)
        return self.modules[name]

    def clear(self):
        """Forgets what was computed."""
        for kept in self.memory:
            kept.clear()
        library.clear()

    def call(self, module, name):
        found = self.meaning(module, name)
        return self.space[found[1]]

    def meaning(self, module, name):
        """What a name means in a module: a constructor, or a function, each with its arity."""
        if name in CONSTRUCTORS:
            return "constructor", name, CONSTRUCTORS[name]
        here = self.module(module)
        if name in here.constructors:
            return "constructor", name, here.constructors[name]
        if here.clauses.get(name) or name in here.relations:
            return self.function(module, name)
        if name not in here.uses:
            return self.of_library(name)
        other, its_name = here.uses[name]
        if ".TheVariants" in other:
            return "constructor", its_name, self.arity_in_code(other, its_name)
        if not other.startswith(("rtcp_", "jalwedd_")):
            return self.of_library(its_name)
        return self.meaning(other, its_name)

    def arity_in_code(self, module, name):
        """How many fields a variant of an enum has, which is declared in src/."""
        crate, _, _, *folders, kind, _ = module.split(".")
        text = (self.top / "crates" / crate / "src" / ("/".join(folders) + ".rt")).read_text()
        text = text[text.index(f"pub enum {kind} "):]
        fields = re.search(rf"^    {name}(?:\((.*)\))?,", text, re.M)[1]
        return len(fields.split(",")) if fields else 0

    def of_library(self, name):
        if name not in library.FUNCTIONS:
            raise Unread(f"{name} is not in library.py")
        return "function", library.PLACES[name], library.FUNCTIONS[name][0]

    def function(self, module, name):
        key = module, name
        if key not in self.places:
            clauses = self.relation(module, name) or [self.clause(text) for text in self.module(module).clauses[name]]
            self.places[key] = f"f{len(self.places)}", len(clauses[0][0])
            self.make(module, name, clauses)
        return "function", *self.places[key]

    def relation(self, module, name):
        """A record whose fields are what holds, and its parts, as one clause."""
        if name not in self.module(module).relations:
            return None
        names, fields = self.module(module).relations[name]
        held = ("name", "Unit")
        for _, text in reversed(fields):
            held = ("operator", "×", Reader(tokens_of(text)).expression(), held)
        return [([("named", one) for one in names], held)]

    @staticmethod
    def clause(text):
        reader = Reader(tokens_of(text))
        reader.take()
        patterns = []
        while reader.next() != "=":
            patterns.append(reader.part_of_pattern())
        return patterns, reader.after("=")

    def make(self, module, name, clauses):
        place, arity = self.places[module, name]
        kept = {}
        self.memory.append(kept)
        given = [f"a{number}" for number in range(arity)]
        writer = Writer(self, module)
        lines = [f"def {place}_(" + ", ".join(given) + "):"]
        for patterns, body in clauses:
            tests, scope = [], {}
            for path, pattern in zip(given, patterns):
                writer.match(pattern, path, tests, scope)
            lines.append(f"    if {' and '.join(tests) or 'True'}:")
            lines.append(f"        return {writer.expression(body, scope)}")
        lines.append(f"    raise ValueError('no clause of {name} fits')")
        exec("\n".join(lines), self.space)
        self.space[place] = remembered(self.space[place + "_"], kept)
        self.space[place + "v"] = library.curried(self.space[place], arity)


def remembered(function, kept):
    def call(*given):
        found = kept.get(given, kept)
        if found is kept:
            found = kept[given] = function(*given)
        return found
    return call


class Writer:
    """Python of expressions of one module. A scope has the Python of each local name."""

    def __init__(self, definitions, module):
        self.definitions, self.module, self.count = definitions, module, 0

    def fresh(self):
        self.count += 1
        return f"v{self.count}"

    def is_constructor(self, name):
        here = self.definitions.module(self.module)
        if name in CONSTRUCTORS or name in here.constructors:
            return True
        if name not in here.uses:
            return False
        other, its_name = here.uses[name]
        return ".TheVariants" in other or other.startswith(("rtcp_", "jalwedd_")) \
            and its_name in self.definitions.module(other).constructors

    def match(self, pattern, path, tests, scope):
        kind = pattern[0]
        if kind == "number":
            tests.append(f"{path} == {pattern[1]}")
        elif kind == "pair":
            for number, part in enumerate(pattern[1]):
                self.match(part, f"{path}[{number}]", tests, scope)
        elif kind == "named" and not self.is_constructor(pattern[1]):
            scope[pattern[1]] = path
        else:
            self.match_made(pattern[1], pattern[2] if kind == "made" else [], path, tests, scope)

    def match_made(self, name, parts, path, tests, scope):
        if name in library.SHAPES:
            test, paths = library.SHAPES[name]
            tests.append(test.format(path))
            paths = [one.format(path) for one in paths]
        else:
            made = self.definitions.meaning(self.module, name)[1]
            tests.append(f"{path}.tag == {made!r}")
            paths = [f"{path}.parts[{number}]" for number in range(len(parts))]
        for part, one in zip(parts, paths):
            self.match(part, one, tests, scope)

    def expression(self, tree, scope):
        return getattr(self, "of_" + tree[0].replace("λ", "function"))(tree, scope)

    def of_number(self, tree, scope):
        return str(tree[1])

    def of_name(self, tree, scope):
        return self.called(tree, [], scope)

    def of_call(self, tree, scope):
        return self.called(tree[1], tree[2], scope)

    def called(self, head, given, scope):
        values = [self.expression(one, scope) for one in given]
        if head[0] != "name" or head[1] in scope:
            head = scope[head[1]] if head[0] == "name" else self.expression(head, scope)
            return head + "".join(f"({value})" for value in values)
        kind, name, arity = self.definitions.meaning(self.module, head[1])
        if kind == "constructor":
            return self.made(name, arity, values)
        if len(values) < arity:
            return f"{name}v" + "".join(f"({value})" for value in values)
        return f"{name}({', '.join(values[:arity])})" + "".join(f"({value})" for value in values[arity:])

    @staticmethod
    def made(name, arity, values):
        if len(values) < arity:
            return f"maker({name!r}, {arity})" + "".join(f"({value})" for value in values)
        if name in library.MAKERS:
            return library.MAKERS[name].format(*values)
        return f"node({', '.join([repr(name), *values])})"

    def of_pair(self, tree, scope):
        return "(" + ", ".join(self.expression(part, scope) for part in tree[1]) + ")"

    def of_field(self, tree, scope):
        value = self.expression(tree[1], scope)
        return f"{value}[{tree[2]}]" if tree[2].isdigit() else f"{value}.fields[{tree[2]!r}]"

    def of_record(self, tree, scope):
        fields = ", ".join(f"{name!r}: {self.expression(value, scope)}" for name, value in tree[2])
        if tree[1] is None:
            return f"record({{{fields}}})"
        return f"record({{**{self.expression(tree[1], scope)}.fields, {fields}}})"

    def of_if(self, tree, scope):
        test, yes, other = (self.expression(part, scope) for part in tree[1:])
        return f"({yes} if {test} else {other})"

    def of_let(self, tree, scope):
        name = self.fresh()
        body = self.expression(tree[3], {**scope, tree[1]: name})
        return f"(lambda {name}: {body})({self.expression(tree[2], scope)})"

    def of_function(self, tree, scope):
        name = self.fresh()
        return f"Lam(lambda {name}: {self.expression(tree[2], {**scope, tree[1]: name})})"

    def of_every(self, tree, scope):
        """What holds of all numbers is tried with those of library.NUMBERS."""
        if tree[2] != "ℕ":
            raise Unread(f"what holds of all {tree[2]} is not computed")
        names = {name: self.fresh() for name in tree[1]}
        body = self.expression(tree[3], {**scope, **names})
        return f"every(NUMBERS, {len(names)}, lambda {', '.join(names.values())}: {body})"

    def of_elim(self, tree, scope):
        name, text = self.fresh(), "no_case()"
        for pattern, body in reversed(tree[2]):
            tests, inner = [], dict(scope)
            self.match(pattern, name, tests, inner)
            text = f"({self.expression(body, inner)} if {' and '.join(tests) or 'True'} else {text})"
        return f"(lambda {name}: {text})({self.expression(tree[1], scope)})"

    def of_operator(self, tree, scope):
        left, right = (self.expression(part, scope) for part in tree[2:])
        if tree[1] not in library.OPERATORS:
            raise Unread(f"{tree[1]} is a relation")
        return library.OPERATORS[tree[1]].format(left, right)
