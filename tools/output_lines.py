"""The lines that ipxr writes, by their forms, and what reads such lines as its input."""
import re
import sys

# Each line that ipxr writes: its words, with the names of its values in braces. Of several that fit, the first one counts.
FORMS = [
    "out {port:n} {node:a} {packet:h}",
    "drop {reason}",
    "route {network} {hops:n} {ticks:n} {port:n} {node} {age:n}",
    "service bad",
    "service {type} {name} {network} {node} {socket} {hops:n} {port:n} {age:n}",
    "service {type} {name} {network} {node} {socket} {hops:n}",
    "quiet",
    "left {deliveries:n}",
    "limit",
    "copy {number:n} {parent} {router:n} {port:n} {outcome} {packet:h}",
    "line {number:n}: {fault}",
    "record {record:n}: {fault}",
    "record {record:n} {kind} bad {fault}",
    "record {record:n} {kind} {source} {destination} tc {control:n} type {type:n} length {length:n}",
    "record {record:n} {kind}",
    "crossed bad {fault}",
    "crossed{networks:l}",
    "rip bad {fault}",
    "rip {operation}",
    "net {network} hops {hops:n} ticks {ticks:n}",
    "sap bad {fault}",
    "sap {operation} {type}",
    "sap {operation}",
]
VALUES = {":n": r"\\d+", ":l": r"(?: [0-9A-F]+)*", ":h": r"(?:(?:[0-9A-F]{2})+|-)", ":a": "[0-9A-F]{12}", "": r"[^ :]\\S*"}
NAME = re.compile(r"\{(\w+)(:\w)?\}")
SHOWN = 24


def pattern(form):
    """The expression that a line of a form fits."""
    return re.compile(NAME.sub(lambda it: f"(?P<{it[1]}>{VALUES[it[2] or '']})", form.replace(".", r"\.")).replace("\\\\", "\\"))


PATTERNS = [(form, pattern(form)) for form in FORMS]


def fitting(line):
    """The form of a line and what it found there, or nothing where ipxr writes no such line."""
    return next(((form, found) for form, fits in PATTERNS if (found := fits.fullmatch(line))), None)


def first(form):
    """The first word of a form."""
    return form.split()[0].partition("{")[0]


def shown(line):
    """How a line begins, with escapes for what isn't visible."""
    return ascii(line if len(line) <= SHOWN else f"{line[:SHOWN]}...")


def numbered():
    """The lines of standard input, with their numbers; each byte is a letter."""
    sys.stdin.reconfigure(encoding="latin-1")
    return enumerate(map(str.rstrip, sys.stdin), 1)


def run(name, main):
    """Runs a tool to its end: a fault is one line, and who reads may have had enough."""
    if not sys.stdin or not sys.stdout:
        sys.exit(f"{name}: standard input or output is closed")
    try:
        main()
        sys.stdout.flush()
    except BrokenPipeError:
        sys.stdout = None
    except OSError as why:
        sys.exit(f"{name}: {why}")
    except KeyboardInterrupt:
        sys.exit(130)
