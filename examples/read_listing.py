"""Reads a listing, and writes each side of each function as statements over numbered results."""
import re
import sys

TAKES = {"get_arg": 0, "return_pointer_get": 0, "variant_payload": 0, "reuse_return": 0, "space": 0, "push_block": 0,
         "finish_block none": 0, "list_from_pointer_length": 2, "store": 2}
LEAVES = {"space": 0, "push_block": 0, "finish_block": 0, "list_pointer_length": 2, "store": 0, "return": 0}


def counts(event, fields, stack, following):
    """How many operands an event takes off the stack, and how many results it leaves."""
    if event == "call_wasm":
        return [len(it.split()) for it in re.search(r"\(([^()]*)\) -> \(([^()]*)\)$", fields).groups()]
    if event == "call_interface":
        return len(stack), int(not following.startswith("  return "))
    takes = int(fields) if event in ("tuple_lift", "return") else TAKES.get(f"{event} {fields}", TAKES.get(event, 1))
    return takes, int(fields) if event == "tuple_lower" else LEAVES.get(event, 1)


stack, count, lines = [], 0, sys.stdin.read().split("\n")
for line, following in zip(lines, lines[1:]):
    event, _, fields = line.strip().partition(" ")
    if line.startswith("  "):
        takes, leaves = counts(event, fields, stack, following)
        operands, results = stack[len(stack) - takes:], [f"%{count + it}" for it in range(leaves)]
        stack, count = stack[:len(stack) - takes] + results, count + leaves
        print("  " + ", ".join(results) + " = " * bool(results) + line.strip() + " <- " * bool(operands) + ", ".join(operands))
    elif event in ("func", "caller", "callee"):
        stack, count = [], 0
        print(line)
