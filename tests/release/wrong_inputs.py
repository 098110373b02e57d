"""What isn't meant for the tools, given to them all the same: each ends with one line that says why, and not with 0; and what is meant for
them but looks otherwise is taken."""
import gzip
import os
import subprocess
import tempfile

from trying import PROGRAM, TOP, has, run, tell, text_of

BOM = b"\xef\xbb\xbf"
USERS = b"root:x:0:0:root:/root:/bin/bash\nnobody:x:65534:65534::/:/bin/false\n"
RECORD = '{"line": "quiet"}\n'
LONG = b"# what stands behind\n" * 20_000
SECONDS = 20


def put_all(folder):
    """Puts the inputs there."""
    script, internet = text_of("examples/two-segments.script"), text_of("examples/ring.internet")
    written = text_of("examples/two-segments.out").encode()
    with open(f"{TOP}/examples/nearest-server.pcap", "rb") as it:
        capture = it.read()
    inputs = {
        "empty": b"", "users": USERS, "noise": bytes(range(250, 0, -1)), "packed": gzip.compress(script.encode()),
        "packed.pcap": gzip.compress(capture),
        "marked.script": BOM + script.encode(), "wide.script": script.encode("utf-16"), "unmarked.script": script.encode("utf-16-le"),
        "returns.script": script.replace("\n", "\r\n").encode(), "returns.out": written.replace(b"\n", b"\r\n"), "written.out": written,
        "written": written, "internet.script": internet.encode(), "script.internet": script.encode(), "script.pcap": script.encode(),
        "capture.script": capture, "capture": capture, "cut.out": written[:-3], "records": RECORD.encode(),
        "nested": b"[" * 100_000 + b"\n", "list": b"[1]\n", "numbers": b'{"line": "out", "port": [1], "node": 2, "packet": {}}\n',
        # (more than the program reads at once stands behind what is wrong)
        "long.script": script.encode() + b"what\n" + LONG, "long.pcap": capture + bytes(8) + b"\xff" * 8 + LONG,
        "no-packet.out": b"quiet\n", "address.out": b"out 0 nobody FFFF\n", "begun.script": script.encode() + b"what\n",
    }
    for name, content in inputs.items():
        with open(f"{folder}/{name}", "wb") as it:
            it.write(content)
    os.mkdir(f"{folder}/folder")


# What each tool is given as a file, and a part of the line that it ends with.
AS_FILES = {
    "tools/picture": {
        "missing": "missing: there is no such file", "folder": "folder: this is a folder", "empty": "empty is empty",
        "users": "users:1: 'root:x", "noise": "noise:1: the byte FA at column 1", "packed": "packed:1: this is a gzip file: unpack it",
        "packed.pcap": "packed.pcap: this is", "marked.script": "marked.script:1: this is UTF-8 with a byte order mark",
        "wide.script": "this is UTF-16", "unmarked.script": "this is UTF-16", "written": "written:1: 'out': expected a command",
        "internet.script": "'router': expected a command: port, start", "script.internet": "'port': expected a router line before it",
        "script.pcap": "script.pcap: this is text, and its name", "-h": "usage", "--after": "usage", "list": "list:1: '[1]'",
    },
    "tools/explain": {
        "missing": "missing: there is no such file", "folder": "folder: this is a folder", "-h": "usage",
        "packed": "packed:1: this is a gzip file: unpack it first (line 1: text)", "capture": "capture:1: this is a capture",
        "marked.script": "marked.script:1: this is UTF-8 with a byte order mark: save it without one (line 1: text)",
        "wide.script": "this is UTF-16: save it as UTF-8 (line 1: text)", "unmarked.script": "this is UTF-16: save it as UTF-8",
        "noise": "the byte FA at column 1",
    },
    "tools/json": {"written.out": "usage", "-h": "usage", "--what": "usage"},
    "tools/to-pcap": {"written.out": "usage", "-h": "usage", "--what": "usage"},
}
# The same of standard input.
AS_INPUT = {
    "tools/json": {
        "users": "line 1: expected a line that ipxr writes", "noise": "line 1: expected", "packed": "line 1: expected",
        "capture": "line 1: expected", "marked.script": "line 1: expected", "returns.script": "line 1: expected",
        "address.out": "line 1: expected",
    },
    "tools/json --back": {
        "users": "line 1: expected a line of JSON", "noise": "line 1: expected", "written.out": "line 1: expected",
        "nested": "line 1: expected", "list": "line 1: expected", "numbers": "line 1: expected",
    },
    "tools/to-pcap": {
        "empty": "there is no packet", "no-packet.out": "there is no packet", "users": "line 1: expected", "noise": "line 1: expected",
        "packed": "line 1: expected", "capture": "line 1: expected", "marked.script": "line 1: expected", "records": "line 1: expected",
        "cut.out": "expected", "address.out": "line 1: expected",
    },
}
# What is taken: as a file, and as standard input.
TAKEN = {
    "tools/picture": ["returns.script", "capture.script", "capture", "begun.script", "long.script", "long.pcap"],
    "tools/explain": ["returns.script", "empty"],
}
TAKEN_AS_INPUT = {"tools/json": ["returns.out", "empty"], "tools/json --back": ["records", "empty"], "tools/to-pcap": ["returns.out"]}


# What IPXR may name that isn't the program.
PROGRAMS = {"missing": "missing isn't there", "users": "isn't a program", "folder": "isn't a program", "false": "ended with 1"}


def ended(folder, tool, words=(), file=os.devnull, program=PROGRAM):
    """How a tool ends on words and a standard input: its status, and what it writes."""
    place, *first = tool.split()
    with open(f"{folder}/{file}" if file != os.devnull else file, "rb") as given:
        return subprocess.run([f"{TOP}/{place}", *first, *words], stdin=given, capture_output=True, cwd=folder, timeout=SECONDS,
            env={**os.environ, "IPXR": program})


def unhelped(done, wanted):
    """What is wrong with an end that should be one line with some words, and nothing else."""
    said = (done.stdout + done.stderr).decode(errors="replace")
    is_right = done.returncode and said.count("\n") == 1 and wanted in said
    return "" if is_right else f"status {done.returncode}, {said[:300]}"


def untaken(done):
    """What is wrong with an end that should be a good one."""
    return f"status {done.returncode}, {done.stderr.decode(errors='replace')[:300]}" if done.returncode or done.stderr else ""


def try_tools(tools, what, ends):
    for tool, names in tools.items():
        wrong = [f"    {name}: {why}\n" for name, why in ends(tool, names) if why]
        tell(f"{tool}: {len(names)} {what}", "".join(wrong))


def try_tools_in(folder):
    put_all(folder)
    is_there = has("what isn't meant for tools/picture and tools/explain", "node")
    as_files = {tool: names for tool, names in AS_FILES.items() if is_there or tool in AS_INPUT}
    taken = TAKEN if is_there else {}
    try_tools(as_files, "files and words that it can't take", lambda tool, names: (
        (name, unhelped(ended(folder, tool, [name]), wanted)) for name, wanted in names.items()))
    try_tools(AS_INPUT, "inputs that it can't take", lambda tool, names: (
        (name, unhelped(ended(folder, tool, file=name), wanted)) for name, wanted in names.items()))
    try_tools(taken, "files that it takes", lambda tool, names: (
        (name, untaken(ended(folder, tool, [name]))) for name in names))
    try_tools(TAKEN_AS_INPUT, "inputs that it takes", lambda tool, names: (
        (name, untaken(ended(folder, tool, file=name))) for name in names))
    if is_there:
        try_programs(folder)
    try_readers(folder)


def try_programs(folder):
    """What is no program is named, whatever is drawn by it."""
    wrong = []
    for name, wanted in PROGRAMS.items():
        program = "/bin/false" if name == "false" else f"{folder}/{name}"
        ends = (ended(folder, "tools/picture", [file], program=program) for file in ("begun.script", "capture"))
        wrong += [f"    {name}: {why}\n" for why in (unhelped(it, wanted) for it in ends) if why]
    tell("tools/picture names a program that is none", "".join(wrong))


def try_readers(folder):
    """Who reads may have had enough, and what is written may not fit."""
    wrong = []
    for tool, file in (("tools/json", "written.out"), ("tools/to-pcap", "written.out")):
        for end, wanted in (("| true", (0, 0)), (">/dev/full", (1, 1)), (">&-", (1, 1)), ("<&- | cat", (0, 1))):
            status, said = run("bash", "-c", f"set +o pipefail; {TOP}/{tool} {'' if '<' in end else f'<{file}'} {end}", cwd=folder)
            if (bool(status), said.count("\n")) != wanted:
                wrong.append(f"    {tool} {end}: status {status}, {said}\n")
    tell("what writes JSON and captures ends with a line where that can't be written, and with none where nobody reads on", "".join(wrong))


def try_all():
    with tempfile.TemporaryDirectory() as folder:
        try_tools_in(folder)
