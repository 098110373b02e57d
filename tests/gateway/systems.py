"""The systems for which the gateway is built: how it runs here, how it is asked for a report, and how it is told to end.

The environment's GATEWAY_SYSTEM names the one that is tried. Without it, it is this machine's own, and the gateway is the one with the
sanitizers, where that is built. For ARM it runs by qemu-aarch64 or qemu-arm; for Windows by Wine, behind console.exe, which gives it the
orders of a console. What is for any POSIX system runs on this machine's Linux. The programs lie where tools/gateway puts them.
"""
import contextlib
import errno
import os
import signal
import subprocess

TOP = os.path.dirname(os.path.dirname(os.path.dirname(os.path.realpath(__file__))))
BUILD = os.path.join(TOP, "build")


class Run(subprocess.Popen):
    """A gateway that runs."""

    def order(self, order):
        """Gives it one of its system's orders."""
        self.send_signal(order)

    def process(self):
        """The number of its process."""
        return self.pid

    @contextlib.contextmanager
    def halted(self):
        """Lets it stand still for a while."""
        number = self.process()
        os.kill(number, signal.SIGSTOP)
        try:
            yield
        finally:
            os.kill(number, signal.SIGCONT)


def words_of(process):
    """The command line of a process of this machine, or nothing where it has gone."""
    try:
        with open(f"/proc/{process}/cmdline", "rb") as it:
            return it.read().rstrip(b"\0").split(b"\0")
    except OSError:
        return []


class ConsoleRun(Run):
    """The same at a console of Windows. Each letter that console.exe hears is an order, and that none comes any more kills the gateway."""

    def __init__(self, words, **how):
        heard, self.orders = os.pipe()
        try:
            super().__init__(words, **{**how, "stdin": heard})
        finally:
            os.close(heard)

    def order(self, order):
        os.write(self.orders, order)

    def process(self):
        """(the gateway's own, not console.exe's: by its configuration, which no other has)"""
        console, configuration = os.fsencode(Windows.runner[-1]), os.fsencode(self.args[-1])
        lines = ((int(it), words_of(it)) for it in os.listdir("/proc") if it.isdigit())
        return next(number for number, words in lines if configuration in words and console not in words)

    def kill(self):
        if self.orders is not None:
            os.close(self.orders)
            self.orders = None

    def communicate(self, *words, **how):
        try:
            return super().communicate(*words, **how)
        finally:
            self.kill()


def built(*names):
    """The first of some programs in build/ that is there, or the last."""
    paths = [os.path.join(BUILD, *it.split("/")) for it in names]
    return next((it for it in paths if os.path.exists(it)), paths[-1])


class Linux:
    """This machine's own. What stands before the program lets it run and take orders, and `quick` lets it run without."""

    name = "Linux"
    has_cards = True  # TAPs and interfaces
    is_wide = True  # 64 bits, with which the library as one file takes a struct as it is
    is_emulated = False  # by an emulator that doesn't hand on all that Linux has
    calls = {}  # those by which it does what Linux does by others
    words = {}  # what it says of faults, where this machine's C library says something else
    program = built("ipxr-gateway-sanitized", "ipxr-gateway")
    delivered = built("ipxr-gateway")
    troubled, fast = built("ipxr-gateway-troubled"), built("ipxr-gateway-fast")
    siphash, queues, minutes = built("siphash"), built("queues"), built("minutes")
    made_up = built("made-up")
    runner = quick = []
    run = Run
    report, end = signal.SIGUSR1, signal.SIGTERM
    ends = (signal.SIGTERM, signal.SIGINT)


class Aarch64(Linux):
    """Linux on 64-bit ARM."""

    name = "aarch64"
    is_emulated = True
    program = delivered = built("aarch64/ipxr-gateway")
    troubled, fast = built("aarch64/ipxr-gateway-troubled"), built("aarch64/ipxr-gateway-fast")
    siphash, queues, minutes = built("aarch64/siphash"), built("aarch64/queues"), built("aarch64/minutes")
    runner = quick = ["qemu-aarch64"]


class Arm(Linux):
    """Linux on 32-bit ARM."""

    name = "ARM"
    is_wide = False
    is_emulated = True
    program = delivered = built("arm/ipxr-gateway")
    troubled, fast = built("arm/ipxr-gateway-troubled"), built("arm/ipxr-gateway-fast")
    siphash, queues, minutes = built("arm/siphash"), built("arm/queues"), built("arm/minutes")
    runner = quick = ["qemu-arm"]


class I686(Linux):
    """Linux on 32-bit x86."""

    name = "i686"
    is_wide = False
    program = delivered = built("i686/ipxr-gateway")
    troubled, fast = built("i686/ipxr-gateway-troubled"), built("i686/ipxr-gateway-fast")
    siphash, queues, minutes = built("i686/siphash"), built("i686/queues"), built("i686/minutes")


class Posix(Linux):
    """Any POSIX system, of which this machine's Linux plays one."""

    name = "POSIX"
    has_cards = False
    calls = {"recvmmsg": "recvmsg", "sendmmsg": "sendto", "getrandom": "read"}
    program = built("posix/ipxr-gateway-sanitized", "posix/ipxr-gateway")
    delivered = built("posix/ipxr-gateway")
    troubled, fast = built("posix/ipxr-gateway-troubled"), built("posix/ipxr-gateway-fast")
    siphash, queues, minutes = built("posix/siphash"), built("posix/queues"), built("posix/minutes")


class Musl(Posix):
    """The same by another C library."""

    name = "POSIX by musl"
    words = {
        errno.EADDRINUSE: "Address in use",
        errno.EADDRNOTAVAIL: "Address not available",
        errno.EMFILE: "No file descriptors available",
        errno.ETIMEDOUT: "Operation timed out",
    }
    program = delivered = built("musl/ipxr-gateway")
    troubled, fast = built("musl/ipxr-gateway-troubled"), built("musl/ipxr-gateway-fast")
    siphash, queues, minutes = built("musl/siphash"), built("musl/queues"), built("musl/minutes")


class Windows:
    """Windows on x86-64."""

    name = "Windows"
    has_cards = False  # (TAPs; its interfaces are tried by npcap.py)
    is_wide = True
    is_emulated = False
    calls = words = {}
    program = delivered = built("windows/ipxr-gateway.exe")
    siphash, queues, minutes = built("windows/siphash.exe"), built("windows/queues.exe"), built("windows/minutes.exe")
    quick = ["wine"]
    runner = ["wine", built("windows/console.exe")]
    run = ConsoleRun
    report, end = b"b", b"c"
    ends = (b"c", b"x")


SYSTEMS = {"": Linux, "aarch64": Aarch64, "arm": Arm, "i686": I686, "posix": Posix, "musl": Musl, "windows": Windows}
SYSTEM = SYSTEMS[os.environ.get("GATEWAY_SYSTEM", "")]


def fault_words(fault):
    """What the gateway says of a fault of the system."""
    return SYSTEM.words.get(fault, os.strerror(fault))
