"""The forms of ./witx that are its own; for the words of any other it prints the path of the program that they are for."""
import re
import subprocess
import sys

sys.dont_write_bytecode = True
import programs
import proving
from forms import CHECK, has_form, split_check, usage
from repository import TOP, fail, read

HELP = f"""\
       {CHECK}
       ./witx --prove
       ./witx --version | --help | -h

A form that begins with `witx` is for a bundle on standard input: ./bundle FILE.. | ./witx adapt PATH..
README.md says what each writes. Those of this script:

check      what is wrong with the imports of a WebAssembly module against the document of the files; status 1 where
           something is
--prove    proves every crate that the program stands on, and builds it, in about an hour on four processors. As many are
           proved at a time as processors and memory allow, or as RT_JOBS says. It can be stopped and begun again: a
           crate that is proved stays so
"""


def find(words):
    """Prints which program the words are for. Where it isn't built, words without a form need none."""
    program = programs.proved("witx_cli")
    if not program and not has_form(words):
        sys.stderr.write(usage())
        return 2
    print(program or programs.program("witx_cli"))
    return 0


def check(words):
    """What is wrong with the imports of a module, held against the document that the files mean under the paths."""
    parts = split_check(words)
    if not parts:
        print(f"usage: {CHECK}", file=sys.stderr)
        return 2
    module, files, paths = parts
    listed = subprocess.run([f"{TOP}/tools/imports-of", *module], stdout=subprocess.PIPE)
    if listed.returncode:
        return listed.returncode
    bundle = subprocess.run([f"{TOP}/bundle", *files], stdout=subprocess.PIPE)
    if bundle.returncode:
        return bundle.returncode
    text = b";;;; file /.imports-of-the-module\n" + listed.stdout + bundle.stdout
    words = [programs.program("witx_cli"), "imports", "/.imports-of-the-module", *paths]
    found = subprocess.run(words, input=text, stdout=subprocess.PIPE)
    sys.stdout.buffer.write(found.stdout)
    return found.returncode or int(bool(found.stdout))


def version():
    kit = re.search(r"Proved with the kits (.*), of which `rt version` says `(logic \w+)`", read("README.md"))
    if not kit:
        fail("README.md doesn't name the kits that the program is proved with")
    state = "proved" if programs.proved("witx_cli") else "unproved"
    print(f"witx, a port of the Rust crate witx 0.9.1, for {kit[1].replace('`', '')}, {kit[2]}; this checkout: {state}")
    return 0


def main(words):
    if words[:1] in (["-h"], ["--help"]):
        print(usage() + HELP, end="")
        return 0
    if words == ["--version"]:
        return version()
    if words == ["--prove"]:
        return proving.prove()
    if words[:1] == ["check"]:
        return check(words[1:])
    return find(words)


if __name__ == "__main__":
    try:
        sys.exit(main(sys.argv[1:]))
    except KeyboardInterrupt:
        sys.exit(130)
