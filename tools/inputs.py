"""Large inputs that scripts time and count."""


def bundle(**files):
    """Files by the names of their paths, each behind its header line."""
    return "".join(f";;;; file /{path}\n{text}\n" for path, text in files.items())


def sample(count):
    """The text of the program's own sample, of so many functions."""
    lines = ["(typename $e (enum (@witx tag u16) $ok $bad))"]
    for it in range(count):
        lines.append(f"(typename $r{it} (record (field $a u32) (field $b $e) (field $c u64)))")
        lines.append(f"(typename $v{it} (variant (@witx tag u8) (case $x $r{it}) (case $y (list $r{it})) (case $z)))")
    lines.append("(module $m")
    for it in range(count):
        lines.append(f"(@interface func (export \"f{it}\") (param $p $v{it}) (param $q string) "
                     f"(result $s (expected (tuple $r{it} $e) (error $e))))")
    return "\n".join(lines + [")"])


def typenames(size):
    lines, length, number = [], 0, 0
    while length < size:
        lines.append(f"(typename $t{number} u32)")
        length += len(lines[-1]) + 1
        number += 1
    return "\n".join(lines)


def chain(count, first, step):
    lines = [f"(typename $t0 {first})"] + [f"(typename $t{it} {step.format(it - 1)})" for it in range(1, count)]
    return "\n".join(lines)
