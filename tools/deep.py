"""Documents whose last type lies deep in others or doubles at each step, what each command is asked of them, and whether
that is beyond its limits: how many names may stand one for the other, how many types may lie one in the other, and how
much there may be to the types, as crates/witx_extent counts it (docs/HOSTILE.md)."""
import functools
import subprocess
import typing

# As many bytes as a bundle may have.
MOST = 4 << 20
# Names, types, and what there may be to all types that are asked of. Below this many levels a value is read.
LIMITS = {"invoke": (40_000, 13_333, 2 ** 20), "verify": (30_100, 30_100, 2 ** 22),
          "polyfill": (30_100, 30_100, 2 ** 25), "shim": (30_100, 30_100, 2 ** 25)}
# How many bytes `docs` shows of types, and how many lines of a listing, times the types of the function that has most,
# `verify` reads; what the events of a listing go through; how many bytes names and documentation of mapped types have.
PAGE, READ, EVENT_TYPES, TEXTS = 2 ** 26, 2 ** 25, 2 ** 25, 2 ** 34
# Commands that take two documents, and those that refuse sizes from 2^64 on.
PAIRS, SIZED = ("polyfill", "shim"), ("adapt", "layouts", "docs", "shim", "verify", "invoke", "imports")
COMMANDS = ["adapt", "layouts", "print", "docs", "polyfill", "shim", "verify", "invoke", "imports"]


class Measure(typing.NamedTuple):
    """Names one for the other, types one in the other, how much there is to it, and the types whose bytes lie together."""
    names: int
    types: int
    extent: int
    levels: int


NUMBER, ENDLESS = Measure(0, 0, 1, 1), 2 ** 60


def named(it):
    return Measure(it.names + 1, it.types, it.extent + 1, it.levels)


def around(*parts, cases=0):
    """A record or a variant of these."""
    return Measure(max(it.names for it in parts), 1 + max(it.types for it in parts), min(1 + cases + sum(it.extent for it in parts), ENDLESS),
                   1 + max(it.levels for it in parts))


def behind(it):
    """A list of it, or a pointer to it."""
    return Measure(it.names, it.types + 1, it.extent + 1, 1)


def nested(count):
    """So many tuples that are written out in one another: the type, the value, and what measures it."""
    return ("(tuple " * count + "${0}" + ")" * count, "(" * count + "{0}" + ")" * count,
            lambda it: Measure(it.names, it.types + count, min(it.extent + count, ENDLESS), it.levels + count))


ERROR = named(Measure(0, 0, 3, 1))
# A type by the name of the one before it, the text of its value by that of the one before, and its measure by that of the
# name before. Where a type has the one before twice, there is twice as much to it.
KINDS = {
    "names": ("${0}", "{0}", lambda it: it),
    "tuples": ("(tuple ${0})", "({0})", around),
    "tuples of two": ("(tuple $t0 ${0})", "(7 {0})", lambda it: around(named(NUMBER), it)),
    "tuples, 40 a name": nested(40),
    "tuples, 99 a name": nested(99),
    "records": ("(record (field $a ${0}))", "({0})", around),
    "variants": ("(variant (@witx tag u8) (case $a ${0}))", "(#0 {0})", lambda it: around(it, cases=1)),
    "unions": ("(union (@witx tag u8) ${0})", "(#0 {0})", lambda it: around(it, cases=1)),
    "results": ("(expected ${0} (error))", "(#0 {0})", lambda it: around(it, cases=2)),
    "lists": ("(list ${0})", "@16+0", behind),
    "pointers": ("(@witx pointer ${0})", "16", behind),
    "const pointers": ("(@witx const_pointer ${0})", "16", behind),
    "doubled tuples": ("(tuple ${0} ${0})", "({0} {0})", lambda it: around(it, it)),
    "doubled records": ("(record (field $a ${0}) (field $b ${0}))", "({0} {0})", lambda it: around(it, it)),
    "doubled variants": ("(variant (case $a ${0}) (case $b ${0}))", "(#1 {0})", lambda it: around(it, it, cases=2)),
    "doubled results": ("(expected ${0} (error ${0}))", "(#1 {0})", lambda it: around(it, it, cases=2)),
    "doubled lists": ("(tuple (list ${0}) (list ${0}))", "(@16+0 @16+0)", lambda it: around(behind(it), behind(it))),
    "lists of doubled": ("(list (tuple ${0} ${0}))", "@16+0", lambda it: behind(around(it, it))),
}
# Where the function has the type, the line of a value there by that of a value, and what is measured.
PLACES = {
    "parameter": ("(param $x {0})", "{0}", lambda it: it),
    "behind a list": ("(param $x (list {0}))", "@16+0", behind),
    "behind a pointer": ("(param $x (@witx pointer {0}))", "16", behind),
    "result": ("(result $r (expected {0} (error $e)))", "(#0 {0})", lambda it: around(it, ERROR, cases=2)),
    "stored": ("(result $r {0}) (@witx stored)", "{0}", lambda it: it),
}
# Sizes that double at each step end at 2^64, which the first type begins at these powers of two; so many steps are timed, and
# values are written out to so many.
GROWING, BEGINS, LARGEST, SPELLED = ("doubled tuples", "doubled records"), {"u8": 0, "u16": 1}, 60, 18
# What these have isn't the name of a type, so that none of them is given back in an `expected`.
NAMELESS = ("tuples, 40 a name", "tuples, 99 a name", "doubled lists")
# Lines of events in front and behind, that are repeated in a function's listing; the number in them is how often.
EVENTS = {
    "blocks": (["push_block"], ["finish_block none"]),
    "blocks with values": (["push_block", "get_arg 0"], ["finish_block value"]),
    "blocks left open": (["push_block"], []),
    "tuples lifted": (["tuple_lift 1"], []),
    "tuples lifted and lowered": (["tuple_lift 1"], ["tuple_lower 1"]),
    "tuples of two lifted": (["get_arg 0", "tuple_lift 2"], []),
    "tuples of all lifted and lowered": (["get_arg 0"], ["tuple_lift {0}", "tuple_lower {0}"]),
    "words of numbers of words": (["i32_from_u8", "u8_from_i32"], []),
    "results lifted": (["result_lift"], []),
    "returns": (["return 0"], []),
    "arguments": (["get_arg 0"], []),
    "calls": (['call_wasm "m" "f" (i32) -> ()'], []),
    "calls of the interface": (['call_interface "m" "f"'], []),
}
# A run is slow that takes so long, and longer than what it writes takes at so many seconds a byte.
SLOW, A_BYTE = 2.0, 40e-9


@functools.cache
def measures(kind):
    """The measures of the first types of a kind, as many as were asked for."""
    return [NUMBER]


def measure(kind, count):
    found = measures(kind)
    while len(found) <= count:
        found.append(KINDS[kind][2](named(found[-1])))
    return found[count]


def shown(name, depth, inner):
    """How many bytes a typename of so many tuples that are written out in one another shows on a page, as crates/witx_extent
    counts it: a line for each with its path, in which all that it lies in stand too. What lies in all of them has so many."""
    lines = sum(64 + 2 * (len(name) + 2 * it) for it in range(depth + 1))
    return lines + sum(4 * (it + 1) for it in range(depth)) + inner * (depth + 1)


@functools.cache
def pages(kind):
    """What the first typenames of a kind that is written out show, as many as were asked for: none, one, and so on."""
    return [0]


def page(kind, count):
    """How many bytes so many typenames of a kind show; of most kinds it's never too much, and isn't counted."""
    depth, found = levels(kind), pages(kind)
    while len(found) <= count and depth > 1:
        number = len(found)
        found.append(found[-1] + shown(f"t{number}", depth, 2 * len(f"t{number - 1}")))
    return found[count] + 210 + 2 * len(f"t{count}") if depth > 1 else 0


def exceeds(command, found):
    """Whether types of these measures are more than the command goes through."""
    names, types, extent = LIMITS.get(command, [float("inf")] * 3)
    levels = types if command == "invoke" else float("inf")
    return any(it.names > names or it.types > types or it.levels > levels for it in found) or sum(it.extent for it in found) > extent


class Document:
    """A document of one function, and the type of this kind and number of steps at this place of it."""

    def __init__(self, kind, count, place="parameter", first="u8"):
        self.kind, self.count, self.place, self.first = kind, count, place, first

    def text(self):
        form = KINDS[self.kind][0]
        lines = ["(typename $e (enum $a $b))", f"(typename $t0 {self.first})"]
        lines += [f"(typename $t{it + 1} {form.format(f't{it}')})" for it in range(self.count)]
        shown = PLACES[self.place][0].format(f"$t{self.count}")
        return "\n".join([*lines, f'(module $m (@interface func (export "f") {shown}))', ""])

    def measure(self):
        return PLACES[self.place][2](named(measure(self.kind, self.count)))

    def is_valid(self):
        """Whether the function can give the type back where it has it."""
        return not (self.count and self.place == "result" and self.kind in NAMELESS)

    def is_adapted(self):
        """Whether the document can be adapted: it is valid, and its sizes end below 2^64."""
        return self.is_valid() and not (self.kind in GROWING and self.count + BEGINS[self.first] >= 64)

    def is_spelled(self):
        """Whether the line of a value has that of the type, whose text isn't too long."""
        return self.count <= SPELLED or KINDS[self.kind][1].count("{0}") < 2 or self.place.startswith("behind")

    def value(self):
        """The line of a value of the type, or of a number where its text is too long."""
        front, *middle, end = KINDS[self.kind][1].split("{0}") if "{0}" in KINDS[self.kind][1] else ["", ""]
        it = "7"
        if middle:
            for _ in range(self.count if self.count <= SPELLED else 0):
                it = KINDS[self.kind][1].format(it)
        elif front or end:
            it = front * self.count + it + end * self.count
        elif self.count and self.kind != "names":
            it = KINDS[self.kind][1]
        return PLACES[self.place][1].format(it)

    def is_beyond(self, command, other=None):
        """Whether the command answers want of memory, of this document or of it and another."""
        return self.status(command, other) == 5

    def status(self, command, other=None):
        """The status with which the command ends, asked of this document or of it and another."""
        asked = (self, other or self) if command in PAIRS else (self,)
        if not all(it.is_adapted() if command in SIZED else it.is_valid() for it in asked):
            return 1
        if exceeds(command, [it.measure() for it in asked]) or command == "docs" and page(self.kind, self.count) > PAGE:
            return 5
        return 1 if command == "invoke" and not self.is_spelled() else 0


def levels(kind):
    """How many types a step of a kind puts one in the other."""
    return max(KINDS[kind][0].count("(tuple "), 1)


def is_slow(seconds, written):
    """Whether a run that wrote so many bytes was slow."""
    return seconds >= max(SLOW, A_BYTE * written)


def bundle(files):
    """Files by the names of their paths, each behind its header line."""
    return "".join(f";;;; file /{path}\n{text}\n" for path, text in files.items()).encode()


def listing(program, document):
    """The listing that the program writes of a document, but for its last line feed, or an empty text where it has none."""
    ran = subprocess.run([program, "adapt", "/a"], input=bundle({"a": document}), stdout=subprocess.PIPE, stderr=subprocess.DEVNULL)
    return ran.stdout.decode().removesuffix("\n")


def asked(program, command, it, other=None):
    """The words of a command and the files for them; `other` is the older document, where the command takes two."""
    document = it.text()
    if command in PAIRS:
        return [command, "/a", "/b", "m", "m"], {"a": document, "b": (other or it).text()}
    if command == "verify":
        return [command, "/l", "/a"], {"l": listing(program, document), "a": document}
    if command == "invoke":
        return [command, "m", "f", "/v", "/a"], {"v": it.value(), "a": document}
    if command == "imports":
        return [command, "/l", "/a"], {"l": '(import "m" "f" (func (param i32)))', "a": document}
    return [command, "/a"], {"a": document}


def fitting(program, command, it):
    """The document, or one with fewer steps that fits into a bundle with what the command is asked of it."""
    while len(bundle(asked(program, command, it)[1])) > MOST:
        it = Document(it.kind, it.count * 3 // 4, it.place, it.first)
    return it


def most_steps(command, kind, place="parameter"):
    """How many steps of a kind the command goes, of those that a bundle holds; and whether one more is held, and beyond its
    limits."""
    form, value, _ = KINDS[kind]
    count, left = 0, MOST - 2_000
    while True:
        left -= (1 + (command in PAIRS)) * len(f"(typename $t{count + 1} {form.format(f't{count}')})\n")
        left -= len(value.format("")) * (command == "invoke" and kind not in GROWING) + len(f"typename t{count + 1} size 99999 align 4\n") * (command == "verify")
        if left < 0 or count == LARGEST and kind in GROWING:
            return count, False
        if command in LIMITS and exceeds(command, [Document(kind, count + 1, place).measure()] * (1 + (command in PAIRS))):
            return count, True
        if command == "docs" and page(kind, count + 1) > PAGE:
            return count, True
        count += 1


def most_events(name):
    """How often these events can be repeated in a bundle."""
    front, end = EVENTS[name]
    return (MOST - 1_000) // sum(len(it.format(MOST)) + 3 for it in front + end)


def traced(name, count):
    """The words for `verify` of a number that is passed, and files with a listing in which events are repeated."""
    front, end = EVENTS[name]
    lines = ["module m", 'func "f" (i32) -> ()', "caller", "  get_arg 0", *(f"  {it.format(count)}" for it in front * count + end * count), "  i32_from_u8",
             '  call_wasm "m" "f" (i32) -> ()', "  return 0", "callee", "  get_arg 0", "  u8_from_i32", '  call_interface "m" "f"', "  return 0"]
    return ["verify", "/l", "/a"], {"l": "\n".join(lines), "a": '(module $m (@interface func (export "f") (param $x u8)))'}
