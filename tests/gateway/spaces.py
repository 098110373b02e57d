"""Networks of the test's own, with cards between them: nothing of this machine's network is touched, and all is gone with the test.

    players and attackers  t0 10.77.1.1/16 ---- 10.77.0.1/16 g0  [ gateway ]  g1 10.78.0.1/24 ---- 10.78.0.9/24 v0  all others

The first is the network in which the test itself runs. Whatever address isn't of these networks lies behind the victim, as the internet
does behind a router.
"""
import contextlib
import ctypes
import os
import re
import subprocess

from systems import BUILD, TOP

GATEWAY = ("10.77.0.1", 2130)
VICTIM = "10.78.0.9"
# The first of many addresses: of the attacker, of nobody on the same Ethernet, and of strangers behind the victim.
CROWD, NEIGHBOURS, STRANGERS = "10.79.0.1", "10.77.200.1", "198.18.0.1"
NAMESPACE_OF_NETWORK = 0x40000000  # CLONE_NEWNET
HEADERS = 28  # bytes of IP and UDP before each datagram


def run(*words):
    """Runs a command of the system."""
    done = subprocess.run(words, stdout=subprocess.PIPE, stderr=subprocess.PIPE, check=False)
    assert done.returncode == 0, f"{' '.join(words)}: {done.stderr.decode()}"
    return done.stdout.decode()


def ip(*words):
    return run("ip", *words)


def host(number):
    """The address of a player, or of an attacker."""
    return f"10.77.{1 + number // 250}.{1 + number % 250}"


def own_addresses(first, count):
    """Takes some of the addresses of players for the test's own network."""
    hosts = [host(first + k) for k in range(count)]
    for it in hosts:
        ip("addr", "add", f"{it}/16", "dev", "t0")
    return hosts


def leave(hosts):
    """Computers that are switched off: nobody answers at their addresses any more."""
    for it in hosts:
        ip("addr", "del", f"{it}/16", "dev", "t0")


class Space:
    """One more network: it lasts as long as a process that waits in it."""

    waits = ["unshare", "-n", "sh", "-c", "echo && exec cat"]

    def __init__(self):
        self.holder = subprocess.Popen(self.waits, stdin=subprocess.PIPE, stdout=subprocess.PIPE)
        assert self.holder.stdout.readline(), "no network of its own"
        self.within = ["nsenter", "-t", str(self.holder.pid), "-n"]
        self.ip("link", "set", "lo", "up")

    def run(self, *words):
        return run(*self.within, *words)

    def ip(self, *words):
        return self.run("ip", *words)

    @contextlib.contextmanager
    def entered(self):
        """What is opened meanwhile is in this network."""
        libc = ctypes.CDLL(None, use_errno=True)
        with open("/proc/thread-self/ns/net", "rb") as own, open(f"/proc/{self.holder.pid}/ns/net", "rb") as there:
            assert libc.setns(there.fileno(), NAMESPACE_OF_NETWORK) == 0, os.strerror(ctypes.get_errno())
            try:
                yield
            finally:
                assert libc.setns(own.fileno(), NAMESPACE_OF_NETWORK) == 0

    def set(self, name, value):
        """A setting of the kernel in this network."""
        self.run("sh", "-c", f"echo {value} >/proc/sys/net/{name}")

    def received(self):
        """Datagrams that have come, and the bytes in them; what ARP says isn't among them."""
        text = self.run("cat", "/proc/net/snmp", "/proc/net/netstat")
        rows = dict(zip(("names", "numbers"), re.findall(r"(?m)^Ip: (.*)$", text)))
        datagrams = int(dict(zip(rows["names"].split(), rows["numbers"].split()))["InReceives"])
        names, numbers = re.findall(r"(?m)^IpExt: (.*)$", text)
        octets = int(dict(zip(names.split(), numbers.split()))["InOctets"])
        return datagrams, octets - HEADERS * datagrams

    def close(self):
        self.holder.stdin.close()
        self.holder.wait()
        self.holder.stdout.close()


class Field:
    """The three networks of an attack."""

    def __init__(self):
        self.gate, self.victim = Space(), Space()
        self.cable("t0", None, "g0", f"{GATEWAY[0]}/16")
        self.cable("v0", self.victim, "g1", "10.78.0.1/24")
        ip("link", "set", "t0", "up")
        ip("route", "add", "10.78.0.0/24", "via", GATEWAY[0], "src", host(0))
        ip("route", "add", "local", "10.79.0.0/16", "dev", "lo")
        self.gate.ip("route", "add", "10.79.0.0/16", "via", host(0))
        self.victim.ip("addr", "add", f"{VICTIM}/24", "dev", "v0")
        self.gate.ip("route", "add", "default", "via", VICTIM)
        # (no router looks where forged datagrams come from)
        for name in ("all", "g0", "g1"):
            self.gate.set(f"ipv4/conf/{name}/rp_filter", 0)

    def cable(self, name, space, far, address):
        """A pair of cards: one of a space or of the test's own network, and one of the gateway's."""
        ip("link", "add", name, "type", "veth", "peer", "name", far)
        ip("link", "set", far, "netns", str(self.gate.holder.pid))
        self.gate.ip("addr", "add", address, "dev", far)
        self.gate.ip("link", "set", far, "up")
        if space is not None:
            ip("link", "set", name, "netns", str(space.holder.pid))
            space.ip("link", "set", name, "up")
        else:
            ip("link", "set", name, "up")
            ip("addr", "add", f"{host(0)}/16", "dev", name)

    def close(self):
        for it in (self.gate, self.victim):
            it.close()
        for words in (["link", "del", "t0"], ["route", "flush", "table", "local", "10.79.0.0/16"]):
            subprocess.run(["ip", *words], stderr=subprocess.DEVNULL, check=False)

    def __enter__(self):
        return self

    def __exit__(self, *_):
        self.close()


class Flood:
    """A flood that runs, and what it says in the end."""

    program = os.path.join(BUILD, "flood")

    def __init__(self, way, kind, **values):
        words = [f"{name}={value}" for name, value in values.items()]
        self.run = subprocess.Popen([self.program, way, kind, *words], stdout=subprocess.PIPE, stderr=subprocess.PIPE)

    def lasts(self):
        return self.run.poll() is None

    def end(self):
        """Waits for its end. Returns what it said: datagrams, seconds, and how many a second."""
        out, complaint = self.run.communicate()
        assert self.run.returncode == 0, complaint.decode()
        return out.decode().strip()


def build_flood():
    files = [os.path.join(TOP, *it) for it in (("tests", "gateway", "flood.c"), ("gateway", "siphash.c"))]
    words = ["cc", "-std=c99", "-O2", "-Wall", "-Wextra", "-pedantic", f"-I{os.path.join(TOP, 'gateway')}", *files, "-o", Flood.program]
    subprocess.run(words, check=True)
