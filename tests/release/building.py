"""What the commands that build say of a tree: that it is built wherever it was copied to, and what is missing."""
import ast
import os
import re
import shutil
import tempfile

import library_proofs
from takes import TAKES
from trying import TOP, differs, run, tell, text_of

# In the toolchain's place: it says what it was asked for, and ends as the file beside it says.
TOOLCHAIN = """#!/bin/sh
[ "$1" = version ] && echo "a toolchain" && exit
echo "asked to $1"
exit "$(cat "$0.status")"
"""
SOURCE, PROGRAM = "crates/one/src/lib.rt", "crates/ipxr/out/ipxr"


def put(place, text):
    os.makedirs(os.path.dirname(place), exist_ok=True)
    with open(place, "w", encoding="utf-8") as it:
        it.write(text)


def try_copied(folder):
    """A program that was built is built in a copy of the tree; beside another source, or as another program, it isn't."""
    asked = {**os.environ, "PATH": f"{folder}/bin:{os.environ['PATH']}"}

    def built(name, status):
        put(f"{folder}/bin/rt.status", status)
        return run("tools/build", cwd=f"{folder}/{name}", env=asked)

    put(f"{folder}/bin/rt", TOOLCHAIN)
    os.chmod(f"{folder}/bin/rt", 0o755)
    for place in (SOURCE, PROGRAM, "crates/ipxr/stdin", "crates.txt"):
        put(f"{folder}/first/{place}", place)
    shutil.copytree(f"{TOP}/tools", f"{folder}/first/tools")
    begun = built("first", "0")[0]
    shutil.copytree(f"{folder}/first", f"{folder}/second")
    tell("a tree that was copied is still built", differs((begun, built("second", "1")), (0, (0, ""))))
    for place in (SOURCE, PROGRAM):
        put(f"{folder}/second/{place}", "another")
        status, said = built("second", "1")
        begun, *rest = said.splitlines()
        is_told = begun.startswith("  0 min  proving ") and (status, rest) == (1, ["asked to run"])
        tell(f"with another {os.path.basename(place)} it isn't", "" if is_told else f"    status {status}\n{said}")
        put(f"{folder}/second/{place}", place)


def without_toolchain(folder):
    """The words for an environment that has all commands of this one but the toolchain's, and of no make that runs this."""
    os.mkdir(folder)
    for room in os.environ["PATH"].split(":"):
        for name in os.listdir(room) if os.path.isdir(room) else []:
            if name != "rt" and not os.path.lexists(f"{folder}/{name}"):
                os.symlink(f"{room}/{name}", f"{folder}/{name}")
    return {**{it: words for it, words in os.environ.items() if not it.startswith(("MAKE", "MFLAGS"))}, "PATH": folder}


def try_missing(folder):
    """Without the toolchain the gate stops before it begins, and so does what builds."""
    asked = without_toolchain(f"{folder}/commands")
    for room in ("dev", "tools"):
        shutil.copytree(f"{TOP}/{room}", f"{folder}/bare/{room}")
    shutil.copy(f"{TOP}/Makefile", f"{folder}/bare")
    for words in (["make", "test"], ["dev/test"], ["make", "edits"], ["make", "release-test"], ["make", "build"]):
        status, text = run(*words, cwd=f"{folder}/bare", env=asked)
        own = [it for it in text.splitlines() if not it.startswith("make: ")]
        is_said = status and len(own) == 1 and "the toolchain's command rt is missing" in own[0]
        tell(f"without the toolchain a line of {' '.join(words)} says so, and it stops", "" if is_said else f"    status {status}\n{text}")


# What builds or installs, with words that it doesn't take, and a part of the line that it ends with.
WORDS = {
    "install": "usage", "install --help": "usage", "install below": "absolute PREFIX", "install / / /": "usage", "api": "usage",
    "api --help": "usage", "pages --help": "usage", "sized": "a folder that is there", "sized --help": "a folder that is there",
    "sized nowhere": "a folder that is there",
    "build --help": "usage", "show --help": "usage", "portable --help": "usage", "portable test nobody": "usage", "wasm --help": "usage",
    "web --help": "usage", "page --help": "usage", "gateway test nobody": "there is no test nobody",
}
# What has more words says them all, and ends with 2.
MANY_WORDS = ["embed --help", "embed tests", "gateway --help", "gateway build", "platforms", "platforms --help"]
# The same of what needs the toolchain.
BUILDERS = ["build", "sized .", "show", "wasm", "web", "portable", "lib/modules.py ipxr", "lib/modules.py ipx_c"]


def try_words(folder):
    """What builds refuses words in a line, and leaves nothing there; without the toolchain, too, it says what is missing in a line."""
    asked = without_toolchain(f"{folder}/commands")
    os.mkdir(f"{folder}/here")
    wanted = {**WORDS, **{it: "the toolchain's command rt is missing" for it in BUILDERS}}
    wrong = []
    for line, words in wanted.items():
        name, *more = line.split()
        status, text = run(f"{TOP}/tools/{name}", *more, cwd=f"{folder}/here", env=asked)
        if not status or words not in text or text.count("\n") != 1 or os.listdir(f"{folder}/here"):
            wrong.append(f"    tools/{line}: status {status}, {text[:300]} {os.listdir(f'{folder}/here')}\n")
    tell("what builds ends with a line where its words are wrong, and without the toolchain", "".join(wrong))
    ends = {it: run(f"{TOP}/tools/{it.split()[0]}", *it.split()[1:], cwd=f"{folder}/here", env=asked) for it in MANY_WORDS}
    wrong = [f"    tools/{it}: status {status}, {text}\n" for it, (status, text) in ends.items() if status != 2 or "Builds" not in text]
    tell("what has more words says them where they are wrong", "".join(wrong))


# In the place of what make and dev/test run: it notes that it begins, what it is told of this and that it ends, and counts.
NOTING = """#!/bin/sh
for word in MAKEFLAGS MFLAGS PORTS CPU IPXR; do
    env | grep -q "^$word=" && told="$told $word"
done
echo "$(basename "$0")$told begins" >>"$NOTED"
sleep 0.1
echo "$(basename "$0") ends" >>"$NOTED"
echo "1 passed, 0 failed"
"""
TOOLS = re.compile(r"(?ms)^TOOLS = (\(.*?\))$")


def put_command(place, text):
    put(place, text)
    os.chmod(place, 0o755)


def noted(folder, *words):
    """What is noted where make runs with words, as of whoever begins it on several processors."""
    asked = {**os.environ, "PATH": f"{folder}/bin:{os.environ['PATH']}", "NOTED": f"{folder}/noted"}
    put(f"{folder}/noted", "")
    status, text = run("make", "-j4", *words, cwd=f"{folder}/tree", env=asked)
    with open(f"{folder}/noted", encoding="utf-8") as it:
        return (status, it.read().splitlines()) if not status else (status, text)


def try_under_make(folder):
    """What make runs is told sizes and no word of make's own, and runs one after the other; what make test runs is told no sizes."""
    put_command(f"{folder}/bin/rt", NOTING)
    for file in ("Makefile", "dev/test", "dev/edit_rounds.py"):
        put_command(f"{folder}/tree/{file}", text_of(file))
    shutil.copytree(f"{TOP}/tools/lib", f"{folder}/tree/tools/lib")
    put(f"{folder}/tree/crates.txt", "")
    played = {"dev/planted", *(it.split()[0] for it in ast.literal_eval(TOOLS.search(text_of("dev/test"))[1]))}
    for tool in {*played, "tools/build", "tools/install"}:
        put_command(f"{folder}/tree/{tool}", NOTING)
    wanted = [line for tool in ("build", "gateway", "install") for line in (f"{tool} PORTS begins", f"{tool} ends")]
    tell("make -j4 install PORTS=8: one after the other", differs(noted(folder, "install", "PORTS=8"), (0, wanted)))
    status, lines = noted(folder, "test", "PORTS=8", "CPU=x86-64-v3", "IPXR=another")
    begun = [it for it in lines if it.endswith("begins")]
    names = {it.split()[0] for it in begun}
    is_right = not status and names >= {os.path.basename(it) for it in played} and all(it.count(" ") == 1 for it in begun)
    tell("make -j4 test PORTS=8 tries what is delivered", "" if is_right else f"    status {status}, {lines}")


class MadeUp:
    """In the place of a command that proves: it notes that it begins, and by how many jobs; it ends after as many looks, well or not."""

    def __init__(self, words, _folder, jobs):
        self.crate, self.jobs, self.looks, self.run = words[-2], jobs, jobs + 1, self
        self.begun.append((self.crate, jobs))

    def has_ended(self):
        self.looks -= 1
        return not self.looks

    def is_well(self):
        return self.crate != self.bad

    def terminate(self):
        self.begun.append((self.crate, "stopped"))


def begun(places, bad=""):
    """What begins, in its order, where there is room for so many jobs, and whether all is proved."""
    MadeUp.begun, MadeUp.bad = [], bad
    library_proofs.places, library_proofs.unbuilt = lambda: places, library_proofs.below
    library_proofs.Part, library_proofs.SECONDS_BETWEEN_LOOKS = MadeUp, 0
    is_proved = library_proofs.proves_below("ipxr")
    return [*MadeUp.begun, is_proved]


def try_libraries(_):
    """What the program stands on is proved in an order that can be, by as many jobs as there is room for; what fails stops the rest."""
    beside = {2: [("ipx_router", 1), ("ipx_recording", 1)], 4: [("ipx_recording", 1), ("ipx_router", 4)]}
    for places, both in beside.items():
        alone = [(it, places) for it in ("ipx_internet", "ipx_cmd")]
        wanted = [("ipx_wire", places), ("ipx_table", places - 1), ("ipx_capture", 1), *both, *alone, True]
        tell(f"libraries by {places} jobs", differs(begun(places), wanted))
    in_turn = ["ipx_wire", "ipx_table", "ipx_router", "ipx_internet", "ipx_capture", "ipx_recording", "ipx_cmd"]
    tell("libraries by one job", differs(begun(1), [*((it, 1) for it in in_turn), True]))
    stops = [("ipx_wire", 4), ("ipx_table", 3), ("ipx_capture", 1), ("ipx_table", "stopped"), False]
    tell("a library that isn't proved stops the others", differs(begun(4, "ipx_capture"), stops))


# A row of the page: the targets, and behind what they make and need the minutes, and the targets before.
ROW = re.compile(r"(?m)^\| ((?:`\w+`(?:, )?)+) \|.*\| ([0-9.]+) \| ([0-9.]+) \| ((?:`\w+`(?:, )?)*) ?\|$")


def try_minutes(_):
    """The page's table tells of each target the minutes that it says at its start."""
    told = {it: row.groups()[1:] for row in ROW.finditer(text_of("docs/LIBRARY.md")) for it in re.findall(r"\w+", row[1]) if it != "build"}
    names = {name: re.findall(r"make (\w+)", it.after) for name, it in TAKES.items()}
    wanted = {name: (it.processor, it.clock, ", ".join(f"`{before}`" for before in names[name])) for name, it in TAKES.items()}
    tell("the page tells of each target the minutes that it says", differs(told, wanted))


def try_all():
    for attempt in (try_copied, try_missing, try_words, try_under_make, try_libraries, try_minutes):
        with tempfile.TemporaryDirectory() as folder:
            attempt(folder)
