"""What the definitions of specs/ use of the kit's standard library, in Python: lists, numbers, truth values, options.

Lists are nodes with a head and a tail. Equal nodes are the same object."""
import functools
import itertools


class Node:
    """A value of a `data` type: the name of its constructor, and its parts. A list has `∷`, but for the empty one, and
    a length."""
    __slots__ = "tag", "parts", "length"

    def __init__(self, tag, parts):
        self.tag, self.parts, self.length = tag, parts, 1 + parts[1].length if tag == "∷" else 0

    def __repr__(self):
        return f"({' '.join([self.tag, *map(repr, self.parts)])})" if self.parts else self.tag


class Record:
    __slots__ = "fields",

    def __init__(self, fields):
        self.fields = fields

    def __repr__(self):
        return "{" + ", ".join(f"{name} = {value!r}" for name, value in self.fields.items()) + "}"


class Lam:
    """A function of one argument that keeps what it gave."""
    __slots__ = "function", "kept"

    def __init__(self, function):
        self.function, self.kept = function, {}

    def __call__(self, given):
        found = self.kept.get(given, self)
        if found is self:
            found = self.kept[given] = self.function(given)
        return found


NIL, NONE = Node("[]", ()), Node("None", ())
NODES, RECORDS = {}, {}


def clear():
    NODES.clear()
    RECORDS.clear()


def node(tag, *parts):
    if tag == "None":
        return NONE
    key = tag, parts
    found = NODES.get(key)
    if found is None:
        found = NODES[key] = Node(tag, parts)
    return found


def record(fields):
    key = tuple((name, fields[name]) for name in sorted(fields))
    found = RECORDS.get(key)
    if found is None:
        found = RECORDS[key] = Record(fields)
    return found


def cons(head, tail):
    return node("∷", head, tail)


def items(given):
    """The members of a list, the first one first."""
    while given is not NIL:
        head, given = given.parts
        yield head


def listed(values):
    found = NIL
    for value in reversed(list(values)):
        found = cons(value, found)
    return found


def curried(function, arity, *given):
    if arity == len(given):
        return function(*given)
    return lambda one: curried(function, arity, *given, one)


@functools.cache
def maker(tag, arity):
    """A constructor as a function."""
    return curried(lambda *parts: node(tag, *parts), arity)


def no_case():
    raise ValueError("no case fits")


def some(value):
    return node("Some", value)


def appended(one, other):
    for value in reversed(list(items(one))):
        other = cons(value, other)
    return other


def taken(count, given):
    return listed(value for _, value in zip(range(count), items(given)))


def dropped(count, given):
    while count and given is not NIL:
        given, count = given.parts[1], count - 1
    return given


def at(given, place):
    rest = dropped(place, given)
    return NONE if rest is NIL else some(rest.parts[0])


def option(given, none, one):
    return none if given is NONE else one(given.parts[0])


def kept(values):
    return listed(value.parts[0] for value in values if value is not NONE)


def big_number(size, octets):
    return int.from_bytes(bytes(items(taken(size, octets))).ljust(size, b"\0"), "big")


def twos_complement(size, number):
    return number - 2 ** (8 * size) if number >= 2 ** (8 * size - 1) else number


# how many arguments each takes, and what it gives
FUNCTIONS = {
    "length": (1, lambda given: given.length),
    "map": (2, lambda f, given: listed(f(value) for value in items(given))),
    "filter": (2, lambda f, given: listed(value for value in items(given) if f(value))),
    "filter_map": (2, lambda f, given: kept(f(value) for value in items(given))),
    "flat_map": (2, lambda f, given: listed(one for value in items(given) for one in items(f(value)))),
    "list_any": (2, lambda f, given: any(f(value) for value in items(given))),
    "list_all": (2, lambda f, given: all(f(value) for value in items(given))),
    "sum": (1, lambda given: sum(items(given))),
    "sum_by": (2, lambda f, given: sum(f(value) for value in items(given))),
    "take": (2, taken),
    "drop": (2, dropped),
    "replicate": (2, lambda count, value: listed([value] * count)),
    "slice_get": (2, at),
    "slice_index": (2, lambda given, place: option(at(given, place), 0, lambda value: value)),
    "option_and_then": (2, lambda f, given: option(given, NONE, f)),
    "option_map": (2, lambda f, given: option(given, NONE, lambda value: some(f(value)))),
    "option_or": (2, lambda given, other: other if given is NONE else given),
    "option_to_list": (1, lambda given: option(given, NIL, lambda value: listed([value]))),
    "is_some": (1, lambda given: given is not NONE),
    "is_none": (1, lambda given: given is NONE),
    "not": (1, lambda given: not given),
    "nat_lt": (2, lambda one, other: one < other),
    "nat_le": (2, lambda one, other: one <= other),
    "max": (2, max),
    "min": (2, min),
    "int_max": (2, max),
    "int_min": (2, min),
    "div_ceil": (2, lambda one, other: -(-one // other) if other else 0),
    "big_number": (2, big_number),
    "big_bytes": (2, lambda size, number: listed((number % 2 ** (8 * size)).to_bytes(size, "big"))),
    "twos_complement": (2, twos_complement),
    "low_bytes": (3, lambda width, size, number: number % 2 ** (8 * size)),
    "w64": (0, lambda: 64),
    # relations
    "Unit": (0, lambda: True),
    "⊥": (0, lambda: False),
    "IsTrue": (1, lambda given: given),
    "All": (2, lambda f, given: all(f(value) for value in items(given))),
}

# the numbers that what holds of all numbers is tried with
NUMBERS = set()

def every(values, count, holds):
    return all(holds(*given) for given in itertools.product(values, repeat=count))


OPERATORS = {
    "+": "({} + {})", "*": "({} * {})", "^": "({} ** {})", "-": "max({} - {}, 0)", "/": "quotient({}, {})",
    "%": "remainder({}, {})", "-ℤ": "({} - {})", "==": "({} == {})", "&&": "({} and {})", "||": "({} or {})",
    "∷": "cons({}, {})", "++": "appended({}, {})", "≡": "({} == {})", "≤": "({} <= {})",
    "<": "({} < {})", "×": "({} and {})", "⊎": "({} or {})", "→": "(not {} or {})",
}

# constructors that are no nodes: how a pattern tests for one, and where the parts are; and what makes one
SHAPES = {
    "[]": ("{} is NIL", []), "∷": ("{} is not NIL", ["{}.parts[0]", "{}.parts[1]"]),
    "None": ("{} is NONE", []), "Some": ("{} is not NONE", ["{}.parts[0]"]),
    "true": ("{}", []), "false": ("not {}", []), "zero": ("{} == 0", []), "suc": ("{} > 0", ["({} - 1)"]),
}
MAKERS = {
    "[]": "NIL", "∷": "cons({}, {})", "None": "NONE", "Some": "some({})", "true": "True", "false": "False",
    "zero": "0", "suc": "({} + 1)", "pos": "({})", "negsuc": "(-1 - {})",
}

# what each function is called in the Python that antt.py makes
PLACES = {name: f"std{number}" for number, name in enumerate(FUNCTIONS)}
SPACE = {
    "NIL": NIL, "NONE": NONE, "node": node, "record": record, "cons": cons, "some": some, "appended": appended,
    "Lam": Lam, "maker": maker, "no_case": no_case, "every": every,
    "NUMBERS": NUMBERS,
    "quotient": lambda one, other: one // other if other else 0,
    "remainder": lambda one, other: one % other if other else one,
    **{PLACES[name]: function for name, (_, function) in FUNCTIONS.items()},
    **{PLACES[name] + "v": curried(function, arity) for name, (arity, function) in FUNCTIONS.items() if arity},
}
