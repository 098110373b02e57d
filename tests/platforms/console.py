"""What Windows' users know of a console, of the program for Windows under Wine: console.py COMPILER PROGRAM.

Keys are pressed by a program of Windows (console.c), at the console that Wine makes of a terminal. The last line is 'N passed, M failed'.
"""
import os
import pty
import re
import subprocess
import sys
import tempfile

HERE = os.path.dirname(os.path.realpath(__file__))
PORT = "port 00000010 000000000001 1 576"
RESPONSE = "out 0 FFFFFFFFFFFF "
# Each with its name, the keys, what is answered as a pattern, and the status; none where the system ends the program: Windows has
# C000013Ah, Wine 0.
TRIED = [
    ("lines are answered, and Ctrl-Z ends the input", f"{PORT}|start|^Z|", rf"(?:{RESPONSE}\w+\n)+", 0),
    ("Ctrl-Z within a line is a letter like any other", f"{PORT}|start^Z|", r"line 2: \w+\n", 2),
    ("a wrong line ends the input", f"{PORT}|nonsense|", r"line 2: \w+\n", 2),
    ("Ctrl-C ends the program, which says nothing more", f"{PORT}|start|^C", rf"(?:{RESPONSE}\w+\n)+", None),
]


def terminal(words):
    """What a command shows on a terminal of its own."""
    shown = b""
    process, end = pty.fork()
    if process == 0:
        os.execvp(words[0], words)
    while True:
        try:
            piece = os.read(end, 65536)
        except OSError:  # (the terminal is closed)
            piece = b""
        if not piece:
            break
        shown += piece
    os.close(end)
    os.waitpid(process, 0)
    return shown.decode(errors="replace")


def text_of(file):
    with open(file, encoding="ascii") as it:
        return it.read()


def complaint(presser, program, keys, wanted, status):
    with tempfile.TemporaryDirectory() as folder:
        output = f"{folder}/output"
        shown = terminal(["wine", presser, keys, output, program, "replay"])
        if not os.path.exists(f"{output}.status"):
            return f"    nothing ended: {shown!r}"
        answered, ended = text_of(output), text_of(f"{output}.status")
    if not re.fullmatch(wanted, answered):
        return f"    it answered {answered!r}"
    return "" if status is None or int(ended) == status else f"    it ended with status {ended}"


def main(compiler, program):
    failed = 0
    with tempfile.TemporaryDirectory() as folder:
        presser = f"{folder}/console.exe"
        flags = ["-std=c99", "-O2", "-Wall", "-Wextra", "-municode"]
        subprocess.run([compiler, *flags, f"{HERE}/console.c", "-o", presser], check=True)
        for name, *tried in TRIED:
            why = complaint(presser, program, *tried)
            failed += bool(why)
            print(f"FAILED  {name}\n{why}" if why else f"ok      {name}", flush=True)
    print(f"{len(TRIED) - failed} passed, {failed} failed")
    return 1 if failed else 0


if __name__ == "__main__":
    sys.exit(main(*sys.argv[1:]))
