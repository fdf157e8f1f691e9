"""What the scripts share: where things lie, the crates by crates.txt, the words of a command line, numbers that are kept."""
import argparse
import datetime
import os
import platform
import re
import sys

TOP = os.path.dirname(os.path.dirname(os.path.abspath(__file__)))


def reader_of(text):
    """A reader of the words of a command line, whose --help prints this text and does nothing else."""
    return argparse.ArgumentParser(description=text, formatter_class=argparse.RawDescriptionHelpFormatter)


def fail(why):
    """Ends the script that runs, with status 1 and a line that says why."""
    sys.exit(f"{os.path.basename(sys.argv[0]).removesuffix('.py')}: {why}")


def read(path):
    with open(f"{TOP}/{path}", encoding="utf-8") as file:
        return file.read()


def libraries():
    """The crates by their names, in the order of crates.txt, with the crates of the repository that each stands on."""
    rows = re.findall(r"(?m)^(\w+)(?: \w+)?:(.*)$", read("crates.txt"))
    names = [name for name, _ in rows]
    return {name: [it for it in below.split() if it in names] for name, below in rows}


def with_libraries(*names):
    """These crates and all that they stand on, in the order of crates.txt."""
    below, found, left = libraries(), set(), [*names]
    while left:
        name = left.pop()
        if name not in found:
            found.add(name)
            left += below[name]
    return [it for it in below if it in found]


def machine():
    """The processor and how many there are, and the day."""
    with open("/proc/cpuinfo", encoding="utf-8") as file:
        models = [it.split(":")[1].strip() for it in file if it.startswith("model name")]
    return f"{models[0] if models else platform.machine()}, {os.cpu_count()} processors, {datetime.date.today()}"


def keep(name, lines, words="--keep"):
    """Writes a file of measured/, headed by the command that makes it, which is the script with these words."""
    script = os.path.basename(sys.argv[0])
    os.makedirs(f"{TOP}/measured", exist_ok=True)
    with open(f"{TOP}/measured/{name}", "w", encoding="utf-8") as file:
        file.write("\n".join([f"Made by tools/{script} {words}.", "", *lines, ""]))
