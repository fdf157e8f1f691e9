"""The forms of words: those of the program, as the definition of its usage text has them, and those of the script ./witx."""
import re

from repository import fail, read

# Where the usage text is defined.
TEXTS = "crates/witx_commands/specs/Texts.antt"

# How ./witx is called for a module.
CHECK = "./witx check MODULE.wasm FILE.. -- PATH.."


def forms():
    """The lines of the program's usage text."""
    found = re.findall(r'(?m)^ +(?:∷ )?codes "((?:usage:|      ) witx [^"]*)"$', read(TEXTS))
    return found or fail(f"{TEXTS} has no lines of the usage text")


def usage():
    return "".join(f"{form}\n" for form in forms())


def is_of(words, form):
    """Whether words are of a form, in which a name stands for a word, N for the number of a sample, and `..` for any
    number of what is before it."""
    command, *names = re.findall(r"\[[^]]*\]\.\.|\S+", form.split("witx ")[1])
    if words[:1] != [command]:
        return False
    left = words[1:]
    for name in names:
        if name.endswith(".."):
            return len(left) % len(name.split()) == 0
        if not left or name == "N" and not is_size(left[0]):
            return False
        left = left[1:]
    return not left


def is_size(word):
    largest = re.search(r"LARGEST_SAMPLE: usize = (\d+)", read("crates/witx_sample/src/sample.rt"))[1]
    return bool(re.fullmatch("[1-9][0-9]{0,8}", word)) and int(word) <= int(largest)


def has_form(words):
    """Whether the program has a form for these words. One that isn't UTF-8 counts as none."""
    is_text = not any(re.search("[\ud800-\udfff]", it) for it in words)
    return is_text and any(is_of(words, it) for it in forms())


def split_check(words):
    """The module, files and paths of the words behind `./witx check`, or none where they have no such form."""
    at = words.index("--") if "--" in words else len(words)
    parts = words[:1], words[1:at], words[at + 1:]
    return parts if all(parts) else None


def is_of_script(words):
    """Whether ./witx has a form for these words, of the program or of its own."""
    if words[:1] == ["check"]:
        return split_check(words[1:]) is not None
    return words in (["-h"], ["--help"], ["--version"], ["--prove"]) or has_form(words)
