"""Wine, for the tools that try programs for Windows, at the top of the repository."""
import contextlib
import os
import shutil
import signal
import subprocess
import sys

SECONDS = 300  # that it may take to begin
LOG = "build/log"
ENDED = 128 + signal.SIGTERM  # a tool's status where somebody ends it
ENVIRONMENT = {"WINEDEBUG": "-all", "LC_ALL": "C.UTF-8"}


def ends():
    """Ends whatever still runs there. Its folder takes 700 MB, so it doesn't stay."""
    with open(LOG, "wb") as log:
        subprocess.run(["wineserver", "-k"], stderr=log, check=False)
    shutil.rmtree(os.environ["WINEPREFIX"], ignore_errors=True)


def runs(*words):
    """Whether a program of Wine's own runs. What it says is kept, in place of what one before it said."""
    with open(LOG, "wb") as log:
        how = {"stdin": subprocess.DEVNULL, "stdout": log, "stderr": subprocess.STDOUT, "check": False}
        return subprocess.run(["timeout", str(SECONDS), "wine", *words], **how).returncode == 0


def begins():
    """Makes its folder anew, and returns whether a program runs there.

    Its server stays until the end: one that ends between two programs may refuse the second. The first program starts services, which
    keep that program's output open as long as they run."""
    ends()
    os.makedirs(os.environ["WINEPREFIX"])
    subprocess.run(["wineserver", "-p"], check=False)
    runs("wineboot")
    return runs("cmd", "/c", "exit")


@contextlib.contextmanager
def begun():
    """Wine for a while: yields whether it starts."""
    os.environ.update(ENVIRONMENT, WINEPREFIX=os.path.abspath("build/wine"))
    signal.signal(signal.SIGTERM, lambda *_: sys.exit(ENDED))
    try:
        yield begins()
    finally:
        ends()


def lacks():
    """What a test lacks where it doesn't start."""
    with open(LOG, encoding="utf-8", errors="replace") as it:
        said = it.read().rstrip("\n").rpartition("\n")[2]
    return f"Wine that starts: {said}"
