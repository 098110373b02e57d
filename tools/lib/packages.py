"""What all packages for other languages have (package_KIND.py): where their parts lie, and how an archive is tried away from here."""
import contextlib
import os
import shutil
import signal
import subprocess
import tempfile

from c_library import put, text_of
from libraries import TOP
from systems import HEADERS
from telling import say, tell

SOURCES = f"{TOP}/packages"
# What the program of each package prints, in whichever language.
STORY = f"{SOURCES}/story.out"
# What comes of made-up events.
MADE_UP = f"{TOP}/tests/packages/made_up.out"
# The library as one file of C, with the headers that it was built with.
LIBRARY = f"{TOP}/build/library"
NO_LICENCE = "No licence has been named yet. Until the owner names one, nobody has given you permission to copy, change or pass on this.\n"
# That a program may take: a compiler takes half a minute for the library, and many times that beside others.
SECONDS = 1200
IGNORED = shutil.ignore_patterns("__pycache__", "node_modules", "target", "*.pyc", "build", "dist", "*.egg-info")


def library():
    """The folder of the library as one file, which is made where it is missing."""
    if not os.path.isfile(f"{LIBRARY}/libipxr.c"):
        subprocess.run([f"{TOP}/tools/library"], check=True)
    return LIBRARY


def release():
    return text_of(f"{TOP}/VERSION").strip()


def copy_sources(kind, folder):
    """The sources of a kind, with the release in the place of @RELEASE@, and the word about the licence."""
    shutil.copytree(f"{SOURCES}/{kind}", folder, dirs_exist_ok=True, ignore=IGNORED)
    for at, _, names in os.walk(folder):
        for name in names:
            text = text_of(f"{at}/{name}")
            if "@RELEASE@" in text:
                put(f"{at}/{name}", text.replace("@RELEASE@", release()))
    put(f"{folder}/LICENCE", NO_LICENCE)


def copy_library(folder):
    """The library as one file of C, and its headers."""
    os.makedirs(folder, exist_ok=True)
    for name in ("libipxr.c", *HEADERS):
        shutil.copy(f"{library()}/{name}", folder)


@contextlib.contextmanager
def elsewhere():
    """An empty folder outside of the repository."""
    with tempfile.TemporaryDirectory() as folder:
        yield folder


def ended(words, how, complaints):
    """How a command ended, what it printed, and what it complained of. One that takes too long is ended, with all that it started."""
    words_of = {"stdin": subprocess.DEVNULL, "stdout": subprocess.PIPE, "stderr": complaints, "text": True, "start_new_session": True}
    with subprocess.Popen(words, **words_of, **how) as run:
        try:
            printed, complained = run.communicate(timeout=SECONDS)
        except subprocess.TimeoutExpired:
            os.killpg(run.pid, signal.SIGKILL)
            printed, complained = run.communicate()
            say(f"{words[0]}: not within {SECONDS} seconds")
    return run.returncode, printed, complained or ""


def runs(*words, **how):
    """Whether a command ends well; what it said is shown where it doesn't."""
    try:
        status, said, _ = ended(words, how, subprocess.STDOUT)
    except OSError as why:
        status, said = 1, f"{words[0]}: {why}"
    if status:
        say(said)
    return status == 0


def says_kept(kept, *words, **how):
    """Whether a program prints what a file has, and complains of nothing."""
    status, printed, complained = ended(words, how, subprocess.PIPE)
    is_alike = (status, printed, complained) == (0, text_of(kept), "")
    if not is_alike:
        say(f"{printed}{complained}it ended with {status}")
    return is_alike


def tells_story(kind, *words, **how):
    """Tells whether a package's program prints what each of them does."""
    tell(f"{kind}: the program over the installed package prints what is kept", says_kept(STORY, *words, **how))


def plays_made_up(kind, *words, **how):
    """Tells whether made-up events come out as they do in other languages."""
    tell(f"{kind}: made-up events come out as they do in other languages", says_kept(MADE_UP, *words, **how))
