"""What costs the product of two numbers (docs/HOSTILE.md, "Growth"): documents in which they stand, and what each command is
asked of them. Each is valid, so that the command ends with status 0, or 5 beyond its limits."""
import typing

import deep

ERROR = "(typename $e (enum $a $b))"
# How many steps behind names the checks of a document take.
STEPS = 2 ** 23


def chain(count):
    """So many names, each of the one before."""
    return "(typename $t0 u8)\n" + "".join(f"(typename $t{it + 1} $t{it})\n" for it in range(count))


def constants(names, count):
    """So many constants of the last name of a chain."""
    return chain(names) + "".join(f"(@witx const $t{names} $c{it} {it % 256})\n" for it in range(count))


def module(functions, name="m"):
    return f"(module ${name}\n" + "\n".join(functions) + ")\n"


def function(number, words):
    return f'(@interface func (export "f{number}") {words})'


def passed(form, count):
    """So many parameters of a type."""
    return " ".join(f"(param $p{it} {form})" for it in range(count))


def named_parameters(names, count):
    return chain(names) + module([function(0, passed(f"$t{names}", count))])


def listed_parameters(names, count):
    return chain(names) + module([function(0, passed(f"(list $t{names})", count))])


def long_module(length, count):
    return module([function(it, "") for it in range(count)], "m" * length)


def long_element(length, count):
    """Parameters that are lists of a type with a long name."""
    return f"(typename ${'t' * length} (record (field $a u8)))\n(typename $l (list ${'t' * length}))\n" + module([function(0, passed("$l", count))])


def long_record(length, count):
    return f"(typename ${'t' * length} (record{''.join(f' (field $a{it} u8)' for it in range(count))}))\n"


def shared_record(members, count):
    fields = "".join(f" (field $a{it} u8)" for it in range(members))
    return f"(typename $r (record{fields}))\n" + module([function(it, "(param $p $r)") for it in range(count)])


def shared_tuple(members, count):
    """Functions that give back a tuple."""
    return f"{ERROR}(typename $n u8)(typename $t (tuple{' $n' * members}))\n" + module([function(it, "(result $r (expected $t (error $e)))") for it in range(count)])


def held_lists(count):
    """A function that holds lists of lists, the last of another kind."""
    return module([function(0, f"{passed('(list (list u8))', count - 1)} (param $q (list (list u16)))")])


def nested(depth, count):
    """Typenames of tuples that are written out in one another."""
    return "".join(f"(typename $t{it} {'(tuple ' * depth}u8{')' * depth})\n" for it in range(count))


def record_of_variants(fields, cases):
    shown = "".join(f" (case $c{it} u8)" for it in range(cases))
    return f"(typename $v (variant{shown}))(typename $r (record{''.join(f' (field $a{it} $v)' for it in range(fields))}))\n" + module([function(0, "(param $p $r)")])


def long_documentation(length, count):
    """Parameters of a type with so many bytes of documentation."""
    return f";;; {'x' * length}\n(typename $t u8)\n" + module([function(it, "(param $p $t)") for it in range(count)])


def listed(program, document):
    """A document and its listing."""
    return {"l": deep.listing(program, document), "a": document}


def repeated(files, line, count):
    """The same with a line of the listing so many times."""
    front, _, end = files["l"].partition(f"\n{line}\n")
    return {**files, "l": "\n".join([front, *[line] * count, end])}


def of_one(make):
    return lambda _, one, other: {"a": make(one, other)}


def of_two(make):
    return lambda _, one, other: dict.fromkeys("no", make(one, other))


def of_listing(make):
    return lambda program, one, other: listed(program, make(one, other))


def lines_by_types(program, lines, count):
    return repeated(listed(program, held_lists(count)), "  list_from_pointer_length List<u16>", lines)


def calls_by_parameters(program, lines, count):
    return repeated(listed(program, module([function(0, passed("u8", count))])), '  call_interface "m" "f0"', lines)


def items_by_tuples(program, items, count):
    """A listing in which so many arguments are put into a tuple and out of it again, so many times."""
    events = ["  get_arg 0"] * items + [f"  tuple_lift {items}", f"  tuple_lower {items}"] * count
    files = listed(program, module([function(0, "(param $p u8)")]))
    front, line, end = files["l"].partition("\n  i32_from_u8\n")
    return {**files, "l": "\n".join([front, *events]) + line + end}


def fields_by_cases(_, fields, cases):
    return {"v": f"({' '.join([f'(#{cases - 1} 7)'] * fields)})", "a": record_of_variants(fields, cases)}


def imports_by_words(_, imports, words):
    return {"l": '(import "m" "f0" (func))\n' * imports, "a": module([function(0, passed("u8", words))])}


def files_by_folders(_, files, folders):
    """Files that a file uses, all in one folder below others."""
    folder = "x/" * folders
    uses = "\n".join(f'(use "b{it}")' for it in range(files))
    return {"a": f'(use "{folder}a")', f"{folder}a": uses, **{f"{folder}b{it}": f"(typename $t{it} u8)" for it in range(files)}}


def nested_beyond(_, depth, count):
    return sum(deep.shown(f"t{it}", depth, 4) for it in range(count)) > deep.PAGE


def items_beyond(_, items, count):
    return 2 * count * (1 + items) + 1 > deep.EVENT_TYPES


def bytes_beyond(_, length, count):
    return 2 * count * (length + 4) > deep.TEXTS


def listing_beyond(files, _, types):
    return files["l"].count("\n") * types > deep.READ


class Product(typing.NamedTuple):
    """What is multiplied, the words, what makes the files where it is so much, by the program; how much `tools/bench` shows at
    most, how much the first may be, and whether files of so much are beyond the limits of the command."""
    one: str
    other: str
    words: list
    files: typing.Callable
    shown: tuple = (4_000, 4_000)
    most: int = 1 << 15
    is_beyond: typing.Callable = lambda _, one, other: False

    def status(self, files, one, other):
        return 5 if self.is_beyond(files, one, other) else 0


ADAPT, DOCS, INVOKE, VERIFY, IMPORTS = ["adapt", "/a"], ["docs", "/a"], ["invoke", "m", "f0", "/v", "/a"], ["verify", "/l", "/a"], ["imports", "/l", "/a"]
POLYFILL, SHIM = ["polyfill", "/n", "/o", "m", "m"], ["shim", "/n", "/o", "m", "m"]
PRODUCTS = [
    Product("names in a chain", "constants", ADAPT, of_one(constants), (2_800, 2_800), is_beyond=lambda files, one, other: one * other > STEPS),
    Product("names in a chain", "parameters", ADAPT, of_one(named_parameters), (1_400, 1_400)),
    Product("names in a chain", "lists", ADAPT, of_one(listed_parameters), (1_400, 1_400)),
    Product("bytes of a module's name", "functions", ADAPT, of_one(long_module)),
    Product("bytes of a list's type", "lists", ADAPT, of_one(long_element)),
    Product("members of a tuple", "functions", ADAPT, of_one(shared_tuple), (680, 680)),
    Product("files", "folders", ADAPT, files_by_folders, (1_000, 1_000), 1_022),
    Product("names in a chain", "lists", DOCS, of_one(listed_parameters), (1_400, 1_400)),
    Product("bytes of a record's name", "fields", DOCS, of_one(long_record)),
    Product("tuples in one another", "typenames", DOCS, of_one(nested), (98, 1_400), 98, nested_beyond),
    *(Product("names in a chain", "lists", words, of_two(listed_parameters), (2_000, 2_000), deep.LIMITS[words[0]][0] - 1_000) for words in (POLYFILL, SHIM)),
    *(Product("members of a record", "functions", words, of_two(shared_record), (3_000, 3_000)) for words in (POLYFILL, SHIM)),
    *(Product("bytes of documentation", "functions", words, of_two(long_documentation), (1_000_000, 4_000), 1 << 15, bytes_beyond) for words in (POLYFILL, SHIM)),
    Product("members of a record", "functions", VERIFY, of_listing(shared_record), (2_000, 2_000)),
    Product("members of a tuple", "functions", VERIFY, of_listing(shared_tuple), (180, 180)),
    Product("lines", "types that are held", VERIFY, lines_by_types, (2_000, 2_000), is_beyond=listing_beyond),
    Product("items of a tuple", "tuples", VERIFY, items_by_tuples, (4_000, 4_000), is_beyond=items_beyond),
    Product("lines of calls", "parameters", VERIFY, calls_by_parameters, (2_000, 2_000), is_beyond=listing_beyond),
    Product("fields", "cases", INVOKE, fields_by_cases, (700, 700)),
    Product("imports", "words", IMPORTS, imports_by_words),
]
