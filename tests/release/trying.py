"""What the tests of a release have in common: lines for what went well or badly, commands that are run, and the stories played."""
import difflib
import glob
import itertools
import os
import shutil
import subprocess

import layout

TOP = layout.TOP
PROGRAM = f"{TOP}/{layout.PROGRAM}"
SECONDS = 60
# Of how many lines a text is shown whole where it differs, and how many lines of a longer one.
SHORT, SHOWN = 5, 12
# By which word of the program a story is played, by the end of its name.
VERBS = {".script": "replay", ".internet": "internet", ".pcap": "decode"}
counts = {"passed": 0, "failed": 0}


def tell(name, why=""):
    """A line for what went well, or badly and why."""
    counts["failed" if why else "passed"] += 1
    print(f"FAILED  {name}\n{why}" if why else f"ok      {name}", flush=True)


def left_out(what, why):
    print(f"left out: {what} ({why})", flush=True)


def has(what, *tools):
    """Whether the tools are there; else it says what is left out."""
    missing = [it for it in tools if not shutil.which(it)]
    if missing:
        left_out(what, f"no {', '.join(missing)}")
    return not missing


def run(*words, **more):
    """The status of a command and all that it prints."""
    more = {"stdin": subprocess.DEVNULL, "cwd": TOP, "timeout": SECONDS, **more}
    done = subprocess.run(words, stdout=subprocess.PIPE, stderr=subprocess.STDOUT, **more)
    return done.returncode, done.stdout.decode(errors="replace")


def complaint(*words, **more):
    """What a command prints, if it fails."""
    status, text = run(*words, **more)
    return text or f"status {status}" if status else ""


def lines_of(value):
    return ("\n".join(map(str, value)) if isinstance(value, (tuple, list)) else str(value)).splitlines()


def differs(found, wanted):
    """What differs, if anything does: both, or where they are long the first lines that differ."""
    if found == wanted:
        return ""
    if max(len(lines_of(found)), len(lines_of(wanted))) <= SHORT:
        return f"    found {found}\n    wanted {wanted}"
    told = difflib.unified_diff(lines_of(found), lines_of(wanted), "found", "wanted", lineterm="", n=0)
    return "\n".join(f"    {it}" for it in itertools.islice(told, SHOWN))


def text_of(name):
    return layout.content(name).decode()


def stories(folder=TOP):
    return sorted(it for end in VERBS for it in glob.glob(f"{folder}/examples/*{end}"))


def plays(program, folder, **more):
    """What is wrong with the stories of a folder, played there by a program and the words before it."""
    wrong = []
    for file in stories(folder):
        name, end = os.path.splitext(file)
        wanted = 0
        if os.path.exists(f"{name}.status"):
            with open(f"{name}.status", encoding="ascii") as it:
                wanted = int(it.read())
        with open(f"{name}.out", encoding="ascii") as it:
            if run(*program, VERBS[end], os.path.relpath(file, folder), **{"cwd": folder, **more}) != (wanted, it.read()):
                wrong.append(f"    {file}\n")
    return "".join(wrong) if stories(folder) else "    there are none"
