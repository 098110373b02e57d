"""What a tool says of what it tries: a line for what went well or badly, one for what is left out, a count; and the commands that it runs
on the way, at the top of the repository."""
import os
import shutil
import subprocess
import sys

SECONDS = 120  # that a program may take
COMPLAINT = "build/complaint"
SHOWN = 5  # lines of a complaint
MISSING = 127
counts = {"passed": 0, "failed": 0}


def usage(text):
    """What a tool says of wrong words, and its status."""
    print(text.strip("\n"))
    return 2


def say(text):
    """Says something beside what is counted."""
    print(text, file=sys.stderr, flush=True)


def has(tool):
    return shutil.which(tool) is not None


def left_out(what, lacks):
    print(f"left out: {what} (no {lacks})", flush=True)


def tell(name, is_well):
    """A line for what went well or badly."""
    counts["passed" if is_well else "failed"] += 1
    print(f"{'ok      ' if is_well else 'FAILED  '}{name}", flush=True)


def count():
    """The last line of a test. Returns its status."""
    print(f"{counts['passed']} passed, {counts['failed']} failed")
    return 1 if counts["failed"] else 0


def status_of(*words, **how):
    """How a command ends, or as a shell tells it where there is none."""
    try:
        return subprocess.run(words, check=False, **how).returncode
    except OSError as why:
        say(f"{words[0]}: {why.strerror}")
        return MISSING


def succeeds(*words, **how):
    """Whether a command ends well. What it says is shown."""
    return status_of(*words, **how) == 0


def quietly(*words, log="build/log", **how):
    """The same, and what it says is kept in a file."""
    with open(log, "wb") as it:
        return succeeds(*words, stdout=it, stderr=subprocess.STDOUT, **how)


def prints(kept, *words):
    """Whether a command prints what a file has, in time, and complains of nothing; what differs is shown, and the complaint."""
    with open(COMPLAINT, "wb") as it:
        ended = subprocess.run(["timeout", str(SECONDS), *words], stdin=subprocess.DEVNULL, stdout=subprocess.PIPE, stderr=it, check=False)
    is_alike = succeeds("diff", kept, "-", input=ended.stdout.replace(b"\r", b""))
    if is_alike and ended.returncode == 0 and os.path.getsize(COMPLAINT) == 0:
        return True
    succeeds("head", f"-{SHOWN}", COMPLAINT)
    return False


def ends(*words):
    """Whether a command ends well, prints nothing and complains of nothing."""
    return prints(os.devnull, *words)
